//! The largest plans: 127 groups of two, groups of up to 255 members, 64 exclusive gates.

use super::guards::{products, tree, KINDS};
use super::parts::{rule, set, two, var, when, word};
use super::{plan, List};
use crate::circuit::read_rule;
use crate::law::*;
use crate::rule::Block;

/// As many groups of two as 256 gates hold: one gate at least is a starting value.
pub const GROUPS_MAX: usize = 127;

pub fn add(list: &mut List) {
    unneeded_pairs(list);
    waiting_pairs(list);
    needed_pairs(list);
    many_members(list);
    exclusive(list);
    longest(list);
}

/// Two words and so many gates: v1 := v0 x v0 again and again. Nothing needs any but the last.
pub fn dead(gates: usize) -> Vec<u8> {
    rule(
        &[Kind::Word; 2],
        vec![set(1, two(PRODUCT, var(0), var(0))); gates - 2],
    )
}

fn groups<const N: usize>(list: &[[usize; N]]) -> Vec<&[usize]> {
    list.iter().map(|group| &group[..]).collect()
}

/// 127 groups: next to each other, in file order and against it, and the first with the last.
fn unneeded_pairs(list: &mut List) {
    let rule = dead(GATES_MAX);
    list.rule(&rule, &[0]);
    let mut next: Vec<[usize; 2]> = (0..GROUPS_MAX).map(|k| [2 + 2 * k, 3 + 2 * k]).collect();
    list.accepted(&rule, &plan(256, &groups(&next)), &[0, 1]);
    list.write(&rule, &plan(256, &groups(&next)), CIRCUIT_BYTES_MAX, 0);
    list.write(&rule, &plan(256, &groups(&next)), 0, 50);
    next.reverse();
    list.turned(|list| list.accepted(&rule, &plan(256, &groups(&next)), &[0]));
    let far: Vec<[usize; 2]> = (0..GROUPS_MAX).map(|k| [2 + k, 255 - k]).collect();
    list.accepted(&rule, &plan(256, &groups(&far)), &[0]);
    // A group more is a gate too many, or one gate twice.
    let mut over = far.clone();
    over.push([255, 256]);
    list.with_plan(&rule, &plan(256, &groups(&over)), 25);
    over[GROUPS_MAX] = [254, 255];
    list.with_plan(&rule, &plan(256, &groups(&over)), 26);
    over[GROUPS_MAX] = [0, 1];
    list.turned(|list| list.with_plan(&rule, &plan(256, &groups(&over)), 27));
}

/// 256 gates: 127 products that nothing needs, then 127 of which each is the next one's argument.
/// Joined one to one, each group waits for one other: a chain of 127, or a circle of 127.
fn waiting_pairs(list: &mut List) {
    let from_v0 = || set(1, two(PRODUCT, var(0), var(0)));
    let from_v1 = || set(1, two(PRODUCT, var(1), var(0)));
    let mut block: Block = (0..GROUPS_MAX + 1).map(|_| from_v0()).collect();
    block.extend((1..GROUPS_MAX).map(|_| from_v1()));
    let open = rule(&[Kind::Word; 2], block.clone());
    list.rule(&open, &[0]);
    let straight: Vec<[usize; 2]> = (0..GROUPS_MAX).map(|k| [2 + k, 129 + k]).collect();
    list.accepted(&open, &plan(256, &groups(&straight)), &[0, 1]);
    let across: Vec<[usize; 2]> = (0..GROUPS_MAX).map(|k| [2 + k, 255 - k]).collect();
    list.accepted(&open, &plan(256, &groups(&across)), &[0, 1]);
    // The first of the chain made from the product before it, which the last group holds; at last
    // v1 := v0, so that nothing needs any.
    block[GROUPS_MAX] = from_v1();
    block.push(set(1, var(0)));
    let closed = rule(&[Kind::Word; 2], block);
    list.rule(&closed, &[0]);
    list.with_plan(&closed, &plan(256, &groups(&straight)), 30);
    list.accepted(&closed, &plan(256, &groups(&straight[..126])), &[0]);
    list.with_plan(&closed, &plan(256, &groups(&across)), 30);
}

/// 126 groups that are all needed: a bit, 252 products of two words in the blocks of an if, a choice.
fn needed_pairs(list: &mut List) {
    // A bit and a word; each product but the first from the one before.
    let block = |_| vec![set(1, two(PRODUCT, var(1), var(1))); 126];
    let rule = rule(
        &[Kind::Bit, Kind::Word],
        vec![when(var(0), block(0), block(1))],
    );
    let gates = read_rule(&rule).gates;
    assert_eq!(gates, 255);
    list.rule(&rule, &[0, 1]);
    let pairs: Vec<[usize; 2]> = (0..126).map(|k| [2 + k, 128 + k]).collect();
    list.accepted(&rule, &plan(gates, &groups(&pairs)), &[0, 1]);
    let across: Vec<[usize; 2]> = (0..126).map(|k| [2 + k, 253 - k]).collect();
    list.with_plan(&rule, &plan(gates, &groups(&across)), 30);
}

/// One word and so many gates; `if v0 < v0` with nothing in it makes a comparison and no choice, so all but one
/// are costly, and nothing needs them.
pub fn comparisons(gates: usize) -> Vec<u8> {
    let empty = when(two(LESS, var(0), var(0)), vec![], vec![]);
    rule(&[Kind::Word], vec![empty; gates - 1])
}

/// The largest group there is has 255 members.
fn many_members(list: &mut List) {
    let only = comparisons(GATES_MAX);
    assert_eq!(read_rule(&only).gates, GATES_MAX);
    list.rule(&only, &[0]);
    let every: Vec<usize> = (1..256).collect();
    list.accepted(&only, &plan(256, &[&every]), &[0, 1]);
    list.write(&only, &plan(256, &[&every]), 65_535, 0);
    let pairs: Vec<&[usize]> = every[..254].chunks(2).collect();
    list.accepted(&only, &plan(256, &pairs), &[0]);
    let threes: Vec<&[usize]> = every.chunks(3).collect();
    list.accepted(&only, &plan(256, &threes), &[0]);
    let halves = plan(256, &[&every[128..], &every[..128]]);
    list.turned(|list| list.accepted(&only, &halves, &[0]));
    let all: Vec<usize> = (0..255).collect();
    list.with_plan(&only, &plan(256, &[&all]), 27);

    // The one product that is needed among 254 that are joined.
    let some = dead(GATES_MAX);
    let all: Vec<usize> = (2..256).collect();
    list.accepted(&some, &plan(256, &[&all]), &[0, 1]);
    list.accepted(&some, &plan(256, &[&all[..200]]), &[0]);
}

/// Six conditions, every setting another end: twice 64 products, the second from the first, and
/// before them unneeded ones up to 256 gates.
fn exclusive(list: &mut List) {
    let mut ends = tree(&[0, 1, 2, 3, 4, 5], 2);
    let unneeded = GATES_MAX - read_rule(&rule(&KINDS, ends.clone())).gates;
    let mut block = vec![set(6, two(PRODUCT, var(7), var(7))); unneeded];
    block.push(set(6, var(7)));
    block.append(&mut ends);
    let rule = rule(&KINDS, block);
    let gates = read_rule(&rule).gates;
    assert_eq!(gates, GATES_MAX);
    list.rule(&rule, &[0, 63]);
    let all = products(&rule);
    let (unneeded, ends) = all.split_at(unneeded);
    assert_eq!(ends.len(), 128);
    let first: Vec<usize> = ends.iter().copied().step_by(2).collect();
    let second: Vec<usize> = ends.iter().copied().skip(1).step_by(2).collect();
    list.accepted(&rule, &plan(gates, &[&first]), &[0, 63]);
    list.accepted(&rule, &plan(gates, &[&first, &second]), &[0, 5, 42, 63]);
    let three = plan(gates, &[&second, unneeded, &first]);
    list.turned(|list| list.accepted(&rule, &three, &[1, 62]));
    // 64 groups of two that rest on six conditions, and the unneeded ones by twos.
    let pairs = first.chunks(2).chain(second.chunks(2));
    let pairs: Vec<&[usize]> = pairs.chain(unneeded.chunks_exact(2)).collect();
    list.turned(|list| list.accepted(&rule, &plan(gates, &pairs), &[0, 5, 42, 63]));
    // An unneeded product goes with any other.
    let mut more = unneeded.to_vec();
    more.extend(&first);
    list.accepted(&rule, &plan(gates, &[&more]), &[0, 63]);
    // All the ends in one group: those of one end do not exclude each other.
    list.with_plan(&rule, &plan(gates, &[ends]), 29);
    // First and second of neighbouring ends across: a circle.
    let across: [[usize; 2]; 2] = [[first[0], second[1]], [second[0], first[1]]];
    list.with_plan(&rule, &plan(gates, &groups(&across)), 30);
}

/// The longest file: pairs of products that all rest on six conditions. The blocks of the innermost of
/// six ifs hold a chain of 121 each; 7 starting values and 6 choices besides, and one constant.
fn longest(list: &mut List) {
    let (rule, pairs) = longest_pairs();
    list.rule(&rule, &[63, 31]);
    list.accepted(&rule, &pairs, &[63, 31, 30]);
    let across: Vec<[usize; 2]> = (0..121).map(|k| [8 + k, 249 - k]).collect();
    list.with_plan(&rule, &plan(256, &groups(&across)), 30);
}

/// Its rule and its plan.
pub fn longest_pairs() -> (Vec<u8>, Vec<u8>) {
    let chain = || vec![set(6, two(PRODUCT, var(6), var(6))); 121];
    let mut block = vec![when(var(5), chain(), chain())];
    for t in (0..5).rev() {
        block = vec![when(var(t), block, vec![])];
    }
    block.insert(0, set(6, word(3)));
    let rule = rule(&KINDS[..7], block);
    assert_eq!(read_rule(&rule).gates, GATES_MAX);
    let pairs: Vec<[usize; 2]> = (0..121).map(|k| [8 + k, 129 + k]).collect();
    let plan = plan(256, &groups(&pairs));
    (rule, plan)
}
