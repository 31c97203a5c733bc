//! Short names for putting rules together.

use crate::law::*;
use crate::rule::{bytes_of, Block, Expression, Rule, Statement};

pub fn var(number: usize) -> Expression {
    Expression::Variable(number)
}

pub fn word(figure: u32) -> Expression {
    Expression::Word(figure)
}

pub fn two(code: u8, first: Expression, second: Expression) -> Expression {
    Expression::Operation(code, vec![first, second])
}

pub fn not(bit: Expression) -> Expression {
    Expression::Operation(NOT, vec![bit])
}

pub fn set(number: usize, value: Expression) -> Statement {
    Statement::Assign(number, value)
}

pub fn when(condition: Expression, first: Block, second: Block) -> Statement {
    Statement::If(condition, first, second)
}

pub fn rule(kinds: &[Kind], block: Block) -> Vec<u8> {
    bytes_of(&Rule::of_results(kinds, block))
}

/// A rule of these kind bytes, whatever they are.
pub fn bytes_with_kinds(kind_bytes: &[u8], block: Block) -> Vec<u8> {
    let mut bytes = rule(&vec![Kind::Word; kind_bytes.len()], block);
    bytes[RULE_BYTES_MIN..][..kind_bytes.len()].copy_from_slice(kind_bytes);
    bytes
}

/// The costly operations of the table.
pub fn costly() -> impl Iterator<Item = Operation> {
    OPERATIONS.into_iter().filter(|row| row.cost > 0)
}
