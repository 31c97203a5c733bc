//! Entries of batches that are put together from their parts.

use crate::circuit::read_rule;
use crate::examples::{P1, R1};
use crate::generate::batches::Entry;
use crate::law::*;
use crate::limits::eight;
use crate::limits::parts::{rule, set, two, var, when};
use crate::limits::plan;
use crate::rule::Block;

/// R1 with P1: saves 9 (5 before C-18).
pub fn r1() -> Entry {
    (R1.to_vec(), P1.to_vec())
}

/// An accepted rule with a plan of no groups: saves 0.
pub fn unjoined(rule: &[u8]) -> Entry {
    (rule.to_vec(), plan(read_rule(rule).gates, &[]))
}

/// A bit, two arguments of an operation and so many results; an if that has the operation in both blocks for each of
/// them, and each one's two gates joined. The arguments are written in two orders: but for less the wires are equal.
pub fn pairs(code: u8, results: usize) -> Entry {
    pairs_of(code, results, [1, 2], [2, 1])
}

/// One result, from these arguments in the first block and these in the second.
pub fn pair(code: u8, first: [usize; 2], second: [usize; 2]) -> Entry {
    pairs_of(code, 1, first, second)
}

/// A pair whose first wires are equal and whose second are not.
pub fn one_pick(code: u8) -> Entry {
    pair(code, [1, 1], [1, 2])
}

/// A pair without equal wires.
pub fn two_picks(code: u8) -> Entry {
    pair(code, [1, 1], [2, 2])
}

fn pairs_of(code: u8, results: usize, one: [usize; 2], other: [usize; 2]) -> Entry {
    let row = operation(code).expect("an operation");
    let mut kinds = vec![Kind::Bit, row.takes, row.takes];
    kinds.resize(3 + results, row.gives);
    let block = |[first, second]: [usize; 2]| -> Block {
        let value = || two(code, var(first), var(second));
        (0..results).map(|one| set(3 + one, value())).collect()
    };
    let rule = rule(&kinds, vec![when(var(0), block(one), block(other))]);
    let first = kinds.len();
    let groups: Vec<[usize; 2]> = (first..first + results)
        .map(|gate| [gate, gate + results])
        .collect();
    let groups: Vec<&[usize]> = groups.iter().map(|group| &group[..]).collect();
    let gates = first + 3 * results;
    (rule, plan(gates, &groups))
}

/// So many pairs of ands, each of which saves 1. Before C-18 each was dearer joined than apart by 9: two guards and two picks
/// of two for one cost of 1.
pub fn ands(pairs_count: usize) -> Entry {
    pairs(AND, pairs_count)
}

/// Two pairs of equals.
pub fn joined() -> Entry {
    pairs(EQUAL, 2)
}

/// A ladder of eight ifs (C-17) whose nine products are joined.
pub fn eight_joined() -> Entry {
    eight::ladder()
}

/// As many entries of 254 comparisons each, none joined: 10,160 a rule.
pub fn costly(count: usize) -> Vec<Entry> {
    let block = vec![set(1, two(LESS, var(0), var(0))); GATES_MAX - 2];
    let entry = unjoined(&rule(&[Kind::Word, Kind::Bit], block));
    vec![entry; count]
}

/// A rule of just so many bytes, up to 4,096 accepted: one word and skips.
pub fn padded_rule(length: usize) -> Vec<u8> {
    let mut bytes = rule(&[Kind::Word], Block::new());
    let last = bytes.pop().expect("the block's end");
    bytes.resize(length - 1, SKIP);
    bytes.push(last);
    bytes
}

/// P1 and zeros, so many bytes: up to 1,024 it is 23, as bytes are left.
pub fn padded_plan(length: usize) -> Vec<u8> {
    let mut bytes = P1.to_vec();
    bytes.resize(length, 0x00);
    bytes
}
