//! The longest file that we knew a rule and a plan to make before C-18: 15,387 bytes. C-18 leaves 859 bytes of it; the longest
//! that we know now has 14,418 (`equal/longest.rs`). Every gate but one starting value and eight choices is joined, nearly all by
//! twos, and nearly all rest on eight conditions.
//!
//! None is above 15,501 bytes: with one variable and eight choices, which eight conditions need, there are at most 247
//! joined gates; each has 58 bytes at most in its guard and the picks, each of at most 123 groups 9 more, and 68 are left.

use super::super::parts::{rule, set, two, var, when};
use super::super::{plan, List};
use crate::circuit::read_rule;
use crate::law::*;
use crate::rule::{Block, Expression};

/// How many ands each block of the innermost if has.
const CHAIN: usize = 116;

pub fn add(list: &mut List) {
    let (made, joined) = longest();
    assert_eq!(list.length(&made, &joined), 15_387);
    list.rule(&made, &[0, 1]);
    list.accepted(&made, &joined, &[0, 1]);
    list.write(&made, &joined, CIRCUIT_BYTES_MAX, 0);
    list.write(&made, &joined, 0, 50);
    let file = list.file(&made, &joined);
    list.accepted_circuit(&file, &[0, 1]);
    pairs_alone(list);
}

fn and() -> Expression {
    two(AND, var(0), var(0))
}

/// One bit. Eight ifs, each but the first on an and and inside the first block of the one before; their second blocks hold
/// an and, the innermost's two blocks a chain of them, and the second block of the last but one an and more.
fn longest() -> (Vec<u8>, Vec<u8>) {
    let ands = |count: usize| -> Block { vec![set(0, and()); count] };
    let mut block = vec![when(and(), ands(CHAIN), ands(CHAIN))];
    for t in (0..7).rev() {
        let condition = if t == 0 { var(0) } else { and() };
        let other = if t == 6 { 2 } else { 1 };
        block = vec![when(condition, block, ands(other))];
    }
    let made = rule(&[Kind::Bit], block);
    assert_eq!(read_rule(&made).gates, GATES_MAX);
    // Gate 0 the bit and first condition, 1 to 7 the others, then the two chains, a choice, and from the inside out what
    // the second blocks hold, each with a choice behind it.
    let (first, second) = (8, 8 + CHAIN);
    let mut next = second + CHAIN + 1;
    let mut groups: Vec<Vec<usize>> = Vec::new();
    let mut more = 0;
    for condition in (1..8).rev() {
        // The and of the second block beside the if that goes by this condition: both rest on the same conditions.
        groups.push(vec![condition, next]);
        if condition == 7 {
            more = next + 1;
            next += 1;
        }
        next += 2;
    }
    groups.reverse();
    for k in 0..CHAIN {
        groups.push(vec![first + k, second + k]);
    }
    groups[7].push(more);
    groups[7].sort();
    let groups: Vec<&[usize]> = groups.iter().map(|group| &group[..]).collect();
    (made, plan(GATES_MAX, &groups))
}

/// Eight bits, a word and no other gate than pairs of products that rest on all of them, choices, and one gate alone.
fn pairs_alone(list: &mut List) {
    let chain = || vec![set(8, two(PRODUCT, var(8), var(8))); 119];
    let mut block = vec![when(var(7), chain(), chain())];
    for t in (0..7).rev() {
        block = vec![when(var(t), block, vec![])];
    }
    block.insert(0, set(8, two(PRODUCT, var(8), var(8))));
    let made = rule(&super::kinds(1), block);
    assert_eq!(read_rule(&made).gates, GATES_MAX);
    list.rule(&made, &[255, 127]);
    let pairs: Vec<[usize; 2]> = (0..119).map(|k| [10 + k, 129 + k]).collect();
    let groups: Vec<&[usize]> = pairs.iter().map(|pair| &pair[..]).collect();
    let joined = plan(GATES_MAX, &groups);
    assert_eq!(list.length(&made, &joined), 14_980);
    list.accepted(&made, &joined, &[255, 127, 126]);
    let across: Vec<[usize; 2]> = (0..119).map(|k| [10 + k, 247 - k]).collect();
    let groups: Vec<&[usize]> = across.iter().map(|pair| &pair[..]).collect();
    list.with_plan(&made, &plan(GATES_MAX, &groups), 30);
}
