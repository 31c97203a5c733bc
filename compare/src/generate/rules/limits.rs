//! Rules of just so many gates, conditions, levels or bytes, and rules of many like gates.

use super::{maker, tree, Maker};
use crate::circuit::make;
use crate::generate::Random;
use crate::law::*;
use crate::rule::{bytes_of, Block, Expression, Rule, Statement};

/// A rule of just so many gates: a random one filled up with constants.
pub(super) fn at_gates(random: &mut Random, gates: usize, limits: Limits) -> Rule {
    loop {
        let mut rule = match random.below(4) {
            0 => wide(random),
            _ => tree(random, limits),
        };
        while make(&rule).gates.len() < gates {
            let variable = random.below(rule.variables.len());
            let value = match rule.variables[variable].kind {
                Kind::Word => Expression::Word(random.word()),
                Kind::Bit => Expression::Bit(random.chance(50)),
            };
            // At the front or the end: either adds the constant's gate alone.
            let place = random.pick(&[0, rule.block.len()]);
            rule.block.insert(place, Statement::Assign(variable, value));
        }
        if make(&rule).gates.len() == gates {
            return rule;
        }
    }
}

/// A rule of just so many conditions, its ifs one after the other or nested.
pub(super) fn at_conditions(random: &mut Random, conditions: usize, limits: Limits) -> Rule {
    loop {
        let mut maker = maker(random, limits);
        maker.ifs_left = 0;
        let mut block = Vec::new();
        for _ in 0..conditions {
            let code = maker.random.pick(&[LESS, EQUAL, AND, OR, NOT]);
            let condition = maker.operation(code, 2);
            let mut first = vec![maker.assign(2)];
            let second = maker.mirror(&first);
            // Nest what there is so far, or go on after it.
            if maker.random.chance(40) && depth_of(&block) < limits.ifs {
                first.append(&mut block);
            }
            block.push(Statement::If(condition, first, second));
        }
        let rule = Rule::of_results(&maker.kinds, block);
        if make(&rule).conditions.len() == conditions {
            return rule;
        }
    }
}

fn depth_of(block: &Block) -> usize {
    block
        .iter()
        .map(|statement| match statement {
            Statement::If(_, first, second) => 1 + depth_of(first).max(depth_of(second)),
            _ => 0,
        })
        .max()
        .unwrap_or(0)
}

/// A rule with an expression of just this depth, leaning anywhere.
pub(super) fn at_depth(random: &mut Random, depth: usize, limits: Limits) -> Rule {
    let mut maker = maker(random, limits);
    let before = maker.random.below(3);
    let mut block = maker.block(before, 0);
    let variable = maker.random.below(maker.kinds.len());
    let value = maker.just_deep(maker.kinds[variable], depth);
    block.push(Statement::Assign(variable, value));
    let after = maker.random.below(2);
    block.extend(maker.block(after, 0));
    Rule::of_results(&maker.kinds, block)
}

impl Maker<'_> {
    fn just_deep(&mut self, kind: Kind, depth: usize) -> Expression {
        if depth == 1 {
            return self.leaf(kind);
        }
        let rows: Vec<Operation> = OPERATIONS
            .iter()
            .copied()
            .filter(|row| row.gives == kind)
            .collect();
        let row = self.random.pick(&rows);
        let deep = self.random.below(row.arguments);
        let arguments = (0..row.arguments)
            .map(|place| {
                if place == deep {
                    self.just_deep(row.takes, depth - 1)
                } else {
                    self.expression(row.takes, (depth - 1).min(2))
                }
            })
            .collect();
        Expression::Operation(row.code, arguments)
    }
}

/// A rule with ifs nested just so deep, each in either block of the one before.
pub(super) fn at_nesting(random: &mut Random, nesting: usize, limits: Limits) -> Rule {
    let mut maker = maker(random, limits);
    maker.ifs_left = 0;
    let mut block = maker.block(1, 0);
    for _ in 0..nesting {
        let condition = maker.condition();
        let statements = maker.random.below(3);
        let other = maker.block(statements, 0);
        let statement = if maker.random.chance(50) {
            Statement::If(condition, block, other)
        } else {
            Statement::If(condition, other, block)
        };
        block = vec![statement];
        if maker.random.chance(30) {
            let more = maker.block(1, 0);
            block.extend(more);
        }
    }
    Rule::of_results(&maker.kinds, block)
}

/// Ifs on so many bits, nested in any shape, each bit once or more, and at many ends a costly operation on two words or two
/// bits: gates that exclude each other and rest on any of the conditions (C-17).
pub(super) fn branches(random: &mut Random, bits: usize) -> Rule {
    let code = random.pick(&[PRODUCT, PRODUCT, LESS, AND]);
    let row = operation(code).expect("an operation");
    let mut kinds = vec![Kind::Bit; bits];
    kinds.extend([row.takes, row.takes, row.gives]);
    let mut maker = Branches {
        random,
        row,
        bits,
        ifs_left: 40,
    };
    let mut block = Vec::new();
    // At first every bit, in any order, one inside the other: so many conditions, if nothing is stored over.
    let mut order: Vec<usize> = (0..bits).collect();
    for last in (1..bits).rev() {
        order.swap(last, maker.random.below(last + 1));
    }
    for (depth, bit) in order.into_iter().enumerate() {
        let end = maker.end();
        let other = match maker.random.below(3) {
            0 => maker.block(LIMITS.ifs - bits + depth),
            _ => vec![maker.end()],
        };
        let inner = if depth == 0 { vec![end] } else { block };
        let (first, second) = match maker.random.chance(50) {
            true => (inner, other),
            false => (other, inner),
        };
        block = vec![Statement::If(Expression::Variable(bit), first, second)];
    }
    if maker.random.chance(30) {
        block.insert(0, maker.end());
    }
    Rule::of_results(&kinds, block)
}

struct Branches<'a> {
    random: &'a mut Random,
    row: Operation,
    bits: usize,
    ifs_left: usize,
}

impl Branches<'_> {
    /// Ifs on any bits, so deep at most.
    fn block(&mut self, deep: usize) -> Block {
        if deep == 0 || self.ifs_left == 0 || self.random.chance(30) {
            return vec![self.end()];
        }
        self.ifs_left -= 1;
        let bit = Expression::Variable(self.random.below(self.bits));
        let first = self.block(deep - 1);
        vec![Statement::If(bit, first, self.block(deep - 1))]
    }

    /// The operation, mostly, on the two arguments in either order, or on its own result, or none.
    fn end(&mut self) -> Statement {
        let [one, other, to] = [0, 1, 2].map(|place| self.bits + place);
        if self.random.chance(10) {
            return Statement::Skip;
        }
        let own = if self.row.gives == self.row.takes {
            to
        } else {
            one
        };
        let [first, second] = self
            .random
            .pick(&[[one, other], [other, one], [own, other]]);
        let arguments = vec![Expression::Variable(first), Expression::Variable(second)];
        Statement::Assign(to, Expression::Operation(self.row.code, arguments))
    }
}

/// One if with many operations in both blocks: many pairs to join, up to the greatest wire count.
pub(super) fn wide(random: &mut Random) -> Rule {
    let most = random.pick(&[4, 20, 60, 126, 126]);
    let pairs = random.among(most / 2, most);
    let code = random.pick(&[PRODUCT, LESS, AND]);
    let row = operation(code).expect("an operation");
    // The last is assigned, where kinds allow it from what it holds, in either order.
    let kinds = [Kind::Bit, row.takes, row.gives];
    let orders: &[[usize; 2]] = if row.gives == row.takes {
        &[[1, 2], [2, 1], [2, 2]]
    } else {
        &[[1, 1]]
    };
    let mut one = |_| {
        let arguments = random.pick(orders).map(Expression::Variable);
        Statement::Assign(2, Expression::Operation(code, arguments.to_vec()))
    };
    let mut block = || (0..pairs).map(&mut one).collect();
    let (first, second) = (block(), block());
    let choice = Statement::If(Expression::Variable(0), first, second);
    Rule::of_results(&kinds, vec![choice])
}

/// Operations that nothing needs, since they are stored over: they exclude every gate.
pub(super) fn dead(random: &mut Random) -> Rule {
    let code = random.pick(&[PRODUCT, SUM, DIFFERENCE, PRODUCT]);
    let count = random.pick(&[2, 3, 10, 100, 254]);
    let own = random.chance(30);
    let statements = (0..count).map(|_| {
        // From v0 each alone, or in a chain through v1, which makes circles of any two.
        let first = Expression::Variable(usize::from(own));
        let code = if random.chance(90) { PRODUCT } else { code };
        Statement::Assign(
            1,
            Expression::Operation(code, vec![first, Expression::Variable(0)]),
        )
    });
    let mut block: Block = statements.collect();
    if random.chance(50) {
        block.pop();
        block.push(Statement::Assign(1, Expression::Word(random.word())));
    }
    Rule::of_results(&[Kind::Word; 2], block)
}

/// A rule filled up with skips to just this size, at the front, at the end or in a block.
pub(super) fn at_size(random: &mut Random, mut rule: Rule, size: usize) -> Vec<u8> {
    let now = bytes_of(&rule).len();
    let skips = vec![Statement::Skip; size.saturating_sub(now)];
    match rule.block.last_mut() {
        Some(Statement::If(_, first, _)) if random.chance(50) => first.extend(skips),
        _ if random.chance(50) => {
            rule.block.splice(0..0, skips);
        }
        _ => rule.block.extend(skips),
    }
    bytes_of(&rule)
}
