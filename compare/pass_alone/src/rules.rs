//! The rules: of just so many gates and conditions, in five sorts, of which two have more conditions than there were before
//! C-17. Every gate is needed under some setting.

use compare::law::*;
use compare::rule::{Block, Expression, Rule, Statement};

/// How many gates; those of eight conditions have at least 64.
pub const GATES: [usize; 4] = [32, 64, 128, 256];

/// A sort of rule, as the page names it.
pub struct Sort {
    pub name: &'static str,
    pub conditions: usize,
    pub rule: fn(usize) -> Rule,
}

impl Sort {
    /// Whether the pass of before C-17 takes its rules.
    pub fn was_there(&self) -> bool {
        self.conditions <= BEFORE
    }

    /// The gates of its rules.
    pub fn gates(&self) -> &'static [usize] {
        match self.was_there() {
            true => &GATES,
            false => &GATES[1..],
        }
    }
}

/// Conditions of before C-17, and since.
const BEFORE: usize = LIMITS_BEFORE.conditions;
const SINCE: usize = LIMITS.conditions;

pub const SORTS: [Sort; 5] = [
    Sort {
        name: "no condition",
        conditions: 0,
        rule: unconditional,
    },
    Sort {
        name: "six conditions",
        conditions: BEFORE,
        rule: nested::<BEFORE>,
    },
    Sort {
        name: "choices",
        conditions: BEFORE,
        rule: choices::<BEFORE>,
    },
    Sort {
        name: "eight conditions",
        conditions: SINCE,
        rule: nested::<SINCE>,
    },
    Sort {
        name: "choices of eight",
        conditions: SINCE,
        rule: choices::<SINCE>,
    },
];

const WORDS: usize = 2;

/// So many bits, then the words.
fn rule_of<const BITS: usize>(block: Block) -> Rule {
    let mut kinds = [Kind::Bit; BITS].to_vec();
    kinds.extend([Kind::Word; WORDS]);
    Rule::of_results(&kinds, block)
}

fn word<const BITS: usize>(turn: usize) -> usize {
    BITS + turn % WORDS
}

fn two(code: u8, first: Expression, second: Expression) -> Expression {
    Expression::Operation(code, vec![first, second])
}

/// A word and the other one to the first of them.
fn step<const BITS: usize>(turn: usize, code: u8) -> Statement {
    let [one, other] = [word::<BITS>(turn), word::<BITS>(turn + 1)];
    let value = two(code, Expression::Variable(one), Expression::Variable(other));
    Statement::Assign(one, value)
}

/// The word gets a product, a difference, or a sum with a constant, which is two gates.
fn word_step<const BITS: usize>(turn: usize) -> Statement {
    let constant = || Expression::Word(turn as u32);
    match turn % 3 {
        0 => step::<BITS>(turn, PRODUCT),
        1 => step::<BITS>(turn, DIFFERENCE),
        _ => {
            let to = word::<BITS>(turn);
            let value = two(SUM, Expression::Variable(to), constant());
            Statement::Assign(to, value)
        }
    }
}

/// The bit is turned, or gets a comparison of the words put to it, which is two gates.
fn bit_step<const BITS: usize>(turn: usize) -> Statement {
    let bit = turn % BITS;
    let old = Expression::Variable(bit);
    let [one, other] = [turn, turn + 1].map(|turn| Expression::Variable(word::<BITS>(turn)));
    let value = match turn % 3 {
        0 => Expression::Operation(NOT, vec![old]),
        1 => two(OR, old, two(LESS, one, other)),
        _ => two(AND, old, two(EQUAL, one, other)),
    };
    Statement::Assign(bit, value)
}

/// Filled up with sums to just so many gates.
fn filled<const BITS: usize>(gates: usize, mut block: Block) -> Rule {
    let made = gates_of(&rule_of::<BITS>(block.clone()));
    block.extend((made..gates).map(|turn| step::<BITS>(turn, SUM)));
    rule_of::<BITS>(block)
}

fn gates_of(rule: &Rule) -> usize {
    compare::circuit::make(rule).gates.len()
}

/// The greatest of the rules, by a count from 1 on, that has no more gates.
fn greatest<const BITS: usize>(gates: usize, block: impl Fn(usize) -> Block) -> Rule {
    let fits = |count: &usize| gates_of(&rule_of::<BITS>(block(*count))) <= gates;
    let count = (1..).take_while(fits).last().expect("one fits");
    filled::<BITS>(gates, block(count))
}

/// Two steps on words and one on a bit, again and again.
fn unconditional(gates: usize) -> Rule {
    let steps = |count: usize| {
        let step = |turn: usize| match turn % 3 {
            2 => bit_step::<BEFORE>(turn / 3),
            _ => word_step::<BEFORE>(turn - turn / 3),
        };
        (0..count).map(step).collect()
    };
    greatest::<BEFORE>(gates, steps)
}

/// Ifs within each other, each on a bit of its own, with as many steps on words in both blocks as fit.
fn nested<const BITS: usize>(gates: usize) -> Rule {
    greatest::<BITS>(gates, |steps| vec![nest::<BITS>(0, steps)])
}

fn nest<const BITS: usize>(level: usize, steps: usize) -> Statement {
    let block = |from: usize| (from..from + steps).map(word_step::<BITS>).collect();
    let (first, mut second): (Block, Block) = (block(0), block(1));
    if level + 1 < BITS {
        second.push(nest::<BITS>(level + 1, steps));
    }
    Statement::If(Expression::Variable(level), first, second)
}

/// If v0 then the first word becomes the second, else the second the first; then the same on v1 and so on: two choices an
/// if and no other gate.
fn choices<const BITS: usize>(gates: usize) -> Rule {
    let ifs = (gates - BITS - WORDS) / 2;
    let [one, other] = [BITS, BITS + 1];
    let put = |to, from| vec![Statement::Assign(to, Expression::Variable(from))];
    let choice = |turn| {
        let condition = Expression::Variable(turn % BITS);
        Statement::If(condition, put(one, other), put(other, one))
    };
    rule_of::<BITS>((0..ifs).map(choice).collect())
}
