//! One larger good rule, for the reading cases: every statement, every code, the greatest depths.

use crate::law::*;
use crate::rule::{bytes_of, Expression, Rule, Statement};

fn variable(number: usize) -> Expression {
    Expression::Variable(number)
}

fn word(figure: u32) -> Expression {
    Expression::Word(figure)
}

fn two(code: u8, first: Expression, second: Expression) -> Expression {
    Expression::Operation(code, vec![first, second])
}

fn not(bit: Expression) -> Expression {
    Expression::Operation(NOT, vec![bit])
}

fn assign(number: usize, value: Expression) -> Statement {
    Statement::Assign(number, value)
}

/// Variables: v0 bit, v1 word, v2 word, v3 bit, v4 word.
pub fn good() -> Rule {
    // 8 deep: seven operations, each the left or right argument of the one before.
    let mut eight = word(0x0102_0304);
    for turn in 0..7 {
        let code = [SUM, PRODUCT, DIFFERENCE][turn % 3];
        let other = variable([1, 2, 4][turn % 3]);
        eight = if turn % 2 == 0 {
            two(code, eight, other)
        } else {
            two(code, other, eight)
        };
    }

    // Six ifs, each in the first or second block of the one before, with six conditions.
    let conditions = [
        variable(0),
        two(LESS, variable(1), variable(2)),
        two(EQUAL, variable(4), word(0xFFFF_FFFF)),
        two(AND, variable(0), not(variable(3))),
        two(OR, Expression::Bit(false), variable(3)),
        variable(3),
    ];
    let mut nest = assign(1, two(PRODUCT, variable(1), variable(2)));
    for (turn, condition) in conditions.into_iter().rev().enumerate() {
        let other = match turn {
            0 => vec![assign(1, two(PRODUCT, variable(2), variable(4)))],
            1 => vec![Statement::Skip],
            2 => vec![assign(2, two(SUM, variable(2), word(1)))],
            3 => vec![],
            4 => vec![assign(3, two(LESS, variable(4), variable(1)))],
            _ => vec![assign(4, two(DIFFERENCE, variable(4), word(0)))],
        };
        nest = if turn % 2 == 0 {
            Statement::If(condition, vec![nest], other)
        } else {
            Statement::If(condition, other, vec![nest])
        };
    }

    Rule::of_results(
        &[Kind::Bit, Kind::Word, Kind::Word, Kind::Bit, Kind::Word],
        vec![
            assign(2, eight),
            assign(
                3,
                not(two(
                    OR,
                    two(AND, variable(0), Expression::Bit(true)),
                    two(LESS, variable(1), word(0x8000_0000)),
                )),
            ),
            Statement::Skip,
            nest,
            // An if whose second block holds an if on the same gate, so no seventh condition, and an
            // assign of a variable to itself.
            Statement::If(
                variable(0),
                vec![assign(4, variable(4)), Statement::Skip],
                vec![Statement::If(
                    variable(0),
                    vec![assign(1, two(PRODUCT, variable(1), variable(1)))],
                    vec![assign(3, two(EQUAL, variable(1), variable(4)))],
                )],
            ),
        ],
    )
}

pub fn good_bytes() -> Vec<u8> {
    bytes_of(&good())
}
