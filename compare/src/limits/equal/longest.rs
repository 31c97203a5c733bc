//! The longest files that are left: chains in step lose their picks, so the blocks' chains go by different steps.

use super::super::parts::{rule, set, two, var, when};
use super::super::{plan, List};
use crate::circuit::read_rule;
use crate::law::*;
use crate::rule::Block;

/// How many ands each block of the innermost if has.
const CHAIN: usize = 115;

/// A bit and another, eight ifs one inside the other; in the innermost if's first block each and is of the one before, in the
/// second of the last but one. Joined in step, the wires differ at both places.
fn longest() -> (Vec<u8>, Vec<u8>) {
    let first: Block = vec![set(0, two(AND, var(0), var(0))); CHAIN];
    let by_turns = |k: usize| set(k % 2, two(AND, var(k % 2), var(k % 2)));
    let second: Block = (0..CHAIN).map(by_turns).collect();
    let mut block = vec![when(two(AND, var(0), var(1)), first, second)];
    for t in (0..7).rev() {
        let condition = if t == 0 {
            var(0)
        } else {
            two(AND, var(0), var(1))
        };
        block = vec![when(condition, block, vec![])];
    }
    let made = rule(&[Kind::Bit; 2], block);
    let gates = read_rule(&made).gates;
    let pairs: Vec<[usize; 2]> = (0..CHAIN).map(|k| [9 + k, 9 + CHAIN + k]).collect();
    let groups: Vec<&[usize]> = pairs.iter().map(|pair| &pair[..]).collect();
    (made, plan(gates, &groups))
}

pub fn add(list: &mut List) {
    let (made, joined) = longest();
    list.rule(&made, &[0, 1, 2, 3]);
    list.accepted(&made, &joined, &[0, 1, 2, 3]);
    list.write(&made, &joined, CIRCUIT_BYTES_MAX, 0);
    let file = list.file(&made, &joined);
    // All but the first pair have two guards of eight wires and two picks: 125 bytes with their and. Besides them seven ands,
    // sixteen choices, two inputs, two outputs and the head.
    assert_eq!(file.len(), 125 * (CHAIN - 1) + 5 + 7 * 5 + 16 * 7 + 16);
    assert_eq!((read_rule(&made).gates, file.len()), (255, 14_418));
    list.accepted_circuit(&file, &[0, 1, 2, 3]);
}
