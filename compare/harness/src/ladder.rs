//! Rules and plans of just so many gates: ladders of nested ifs with costly operations in exclusive branches,
//! a fifth of the gates joined, three sorts of plan that are hard to order, and one whose groups have no guards.

use crate::subject::{Goal, Row, Subject};
use compare::circuit::{accept, make, preconditions};
use compare::generate::plans::{bytes_of as plan_bytes, Ground, Groups};
use compare::law::*;
use compare::rule::{bytes_of, Block, Expression, Rule, Statement};

/// Gates and the ifs nested in each other, which are as many conditions.
const LADDERS: [(usize, usize); 5] = [(32, 2), (64, 4), (128, 6), (256, 6), (256, 8)];
/// Variables of a ladder: v0 a bit, v1 to v4 words, v5 a bit.
const WORDS: usize = 4;

pub fn ladders() -> Vec<Row> {
    let row = |(gates, ifs)| {
        let rule = rule_of(gates, ifs);
        let subject = subject(&rule, &pairs(gates, &rule), vec![0, 5, 6, 7, 8, 1]);
        let name = match ifs {
            ..=6 => format!("{gates} gates"),
            // C-17's; the others were measured before it.
            _ => format!("{gates} gates, {ifs} conditions"),
        };
        Row::one(name, subject, Goal::Ladder)
    };
    LADDERS.into_iter().map(row).collect()
}

fn subject(rule: &Rule, groups: &Groups, inputs: Vec<u32>) -> Subject {
    let plan = plan_bytes(make(rule).gates.len(), groups);
    Subject::of_rule(bytes_of(rule), plan, inputs)
}

fn word(turn: usize) -> Expression {
    Expression::Variable(1 + turn % WORDS)
}

fn two(code: u8, first: Expression, second: Expression) -> Expression {
    Expression::Operation(code, vec![first, second])
}

/// So many products of words, every third with a constant added, and a comparison put to v5.
/// Each goes into what its variable holds later, so every gate is needed under some setting.
fn operations(products: usize, from: usize) -> Block {
    let mut block: Block = (0..products)
        .map(|turn| {
            let mut value = two(PRODUCT, word(from + turn), word(from + turn + 1));
            if turn % 3 == 2 {
                value = two(SUM, value, Expression::Word(turn as u32));
            }
            Statement::Assign(1 + (from + turn) % WORDS, value)
        })
        .collect();
    let less = two(LESS, word(from), word(from + 2));
    let value = two(OR, Expression::Variable(5), less);
    block.push(Statement::Assign(5, value));
    block
}

/// An if with operations in both blocks and, in its second block, the ifs that are left.
fn ladder(ifs: usize, level: usize, products: usize) -> Statement {
    let condition = match level {
        0 => Expression::Variable(0),
        _ => two(LESS, word(level), word(level + 1)),
    };
    let first = operations(products, level);
    let mut second = operations(products, level + 1);
    if level + 1 < ifs {
        second.push(ladder(ifs, level + 1, products));
    }
    Statement::If(condition, first, second)
}

/// The ladder with as many products a block as fit, filled up with sums to just so many gates.
fn rule_of(gates: usize, ifs: usize) -> Rule {
    let of = |products| {
        let mut kinds = vec![Kind::Word; WORDS + 2];
        kinds[0] = Kind::Bit;
        kinds[5] = Kind::Bit;
        Rule::of_results(&kinds, vec![ladder(ifs, 0, products)])
    };
    let fits = |products: &usize| make(&of(*products)).gates.len() <= gates;
    let products = (1..).take_while(fits).last().expect("one product fits");
    let mut rule = of(products);
    for turn in make(&rule).gates.len()..gates {
        let value = two(SUM, word(turn), word(turn + 1));
        rule.block.push(Statement::Assign(1 + turn % WORDS, value));
    }
    rule
}

/// Pairs of costly gates, the first that the check accepts, to a fifth of all.
fn pairs(gates: usize, rule: &Rule) -> Groups {
    let accepted = accept(&bytes_of(rule)).expect("a rule within the limits");
    let circuit = accepted.circuit;
    let needs = preconditions(&circuit);
    let ground = Ground::new(&circuit, &needs);
    let pairs = (gates + 5) / 10;
    let mut groups: Groups = Vec::new();
    let alone = |groups: &Groups, gate: usize| !groups.iter().any(|group| group.contains(&gate));
    'one: for one in 0..gates {
        for other in one + 1..gates {
            if groups.len() == pairs {
                break 'one;
            }
            let same = circuit.gates[one].costly()
                && circuit.gates[one].code() == circuit.gates[other].code()
                && !needs[one].meets(&needs[other]);
            if !same || !alone(&groups, one) || !alone(&groups, other) {
                continue;
            }
            groups.push(vec![one, other]);
            if ground.number(&plan_bytes(gates, &groups)) != 0 {
                groups.pop();
            }
        }
    }
    assert_eq!((circuit.gates.len(), groups.len()), (gates, pairs));
    groups
}

fn if_v0(first: Block, second: Block, words: usize) -> Rule {
    let mut kinds = vec![Kind::Word; 1 + words];
    kinds[0] = Kind::Bit;
    let choice = Statement::If(Expression::Variable(0), first, second);
    Rule::of_results(&kinds, vec![choice])
}

fn assign(variable: usize, code: u8, first: usize, second: usize) -> Statement {
    let [first, second] = [first, second].map(Expression::Variable);
    Statement::Assign(variable, two(code, first, second))
}

/// If v0 then so many times v1 := v2 × v2 else as often v1 := v1 × v1, the first product of the one block
/// joined with the last of the other and so on: each group waits for the one after it.
pub fn reversed(gates: usize) -> Row {
    let products = (gates - 4) / 2;
    let block = |argument| vec![assign(1, PRODUCT, argument, argument); products];
    let groups = (0..products)
        .map(|turn| vec![3 + turn, 3 + 2 * products - 1 - turn])
        .collect();
    let subject = subject(&if_v0(block(2), block(1), 2), &groups, vec![0, 3, 5]);
    Row::one(format!("{gates} reversed"), subject, Goal::None)
}

/// If v0 then so many times v1 := v1 × v1 else the same, the first product of the one block joined with the first of the other
/// and so on: since the one before is joined, each group has equal wires and is its operation alone (C-18).
pub fn in_step(gates: usize) -> Row {
    let products = (gates - 4) / 2;
    let block = || vec![assign(1, PRODUCT, 1, 1); products];
    let groups = (0..products)
        .map(|turn| vec![3 + turn, 3 + products + turn])
        .collect();
    let subject = subject(&if_v0(block(), block(), 2), &groups, vec![0, 3, 5]);
    Row::one(format!("{gates} in step"), subject, Goal::None)
}

/// If v0 then v1 := v2 × v2 and so many times v3 := v1 + v2, else as often v1 := v1 + v2 and at last
/// v1 := v1 × v1, the two products joined: the first block's sums wait for all of the second's.
pub fn held_up(gates: usize) -> Row {
    let sums = (gates - 8) / 2;
    let mut first = vec![assign(1, PRODUCT, 2, 2)];
    first.extend(vec![assign(3, SUM, 1, 2); sums]);
    let mut second = vec![assign(1, SUM, 1, 2); sums];
    second.push(assign(1, PRODUCT, 1, 1));
    let groups = vec![vec![4, 5 + 2 * sums]];
    let subject = subject(&if_v0(first, second, 3), &groups, vec![0, 3, 5, 7]);
    Row::one(format!("{gates} held up"), subject, Goal::None)
}

/// v1 := v0 × v0, which many sums v2 := v1 + v0 read; then products v1 := v0 × v0, a chain of as many v1 := v1 × v1 from
/// v0 on, and after each of these v2 := v1 × v0; at last both are put back, so that nothing is needed and any products may
/// be joined. The first of them is joined with those that read the chain, and the chain with the products before it,
/// reversed: the first group waits for each of the pairs, which come in falling order, and the sums wait for it. So a
/// search that goes back to the lowest group held up by the pair written passes all of the sums again, once a pair.
pub fn passed_again(gates: usize) -> Row {
    let pairs = gates / 5;
    let sums = gates - 4 - 3 * pairs;
    let mut block = vec![assign(1, PRODUCT, 0, 0)];
    block.extend(vec![assign(2, SUM, 1, 0); sums]);
    block.extend(vec![assign(1, PRODUCT, 0, 0); pairs]);
    let back = |variable| Statement::Assign(variable, Expression::Variable(0));
    block.push(back(1));
    for _ in 0..pairs {
        block.extend([assign(1, PRODUCT, 1, 1), assign(2, PRODUCT, 1, 0)]);
    }
    block.extend([1, 2].map(back));
    let rule = Rule::of_results(&[Kind::Word; 3], block);
    let first = 4 + sums;
    let chain = |turn| first + pairs + 2 * turn;
    let mut waiting = vec![3];
    waiting.extend((0..pairs).map(|turn| chain(turn) + 1));
    let mut groups = vec![waiting];
    groups.extend((0..pairs).map(|turn| vec![first + turn, chain(pairs - 1 - turn)]));
    Row::one(
        format!("{gates} passed again"),
        subject(&rule, &groups, vec![3, 5, 7]),
        Goal::None,
    )
}
