//! The bytes of a plan: rows 20 to 25, each on R1 and on a rule of many gates.

use super::large::dead;
use super::{plan, List};
use crate::examples::{P1, R1};
use crate::law::*;

pub fn add(list: &mut List) {
    sizes(list);
    marks(list);
    counts(list);
    groups(list);
    members(list);
}

fn changed(place: usize, byte: u8) -> Vec<u8> {
    let mut bytes = P1.to_vec();
    bytes[place] = byte;
    bytes
}

/// So many pairs, going round the costly gates of `dead`.
fn pairs(count: usize) -> Vec<Vec<usize>> {
    let from = |turn: usize| 2 + 2 * (turn % 127);
    (0..count).map(|t| vec![from(t), from(t) + 1]).collect()
}

fn plan_of(gates: usize, groups: &[Vec<usize>]) -> Vec<u8> {
    let groups: Vec<&[usize]> = groups.iter().map(|group| group.as_slice()).collect();
    plan(gates, &groups)
}

fn sizes(list: &mut List) {
    for size in 0..=8 {
        list.with_plan(&R1, &P1[..size], 20);
    }
    // Nine bytes that count one group, and the plan that has none.
    list.with_plan(&R1, &P1[..9], 23);
    list.accepted(&R1, &plan(6, &[]), &[0, 1]);

    // 1,024 bytes that are laid out: 203 pairs, more than there are gates for.
    let large = dead(256);
    let most = plan_of(256, &pairs(203));
    assert_eq!(most.len(), PLAN_BYTES_MAX);
    list.with_plan(&large, &most, 26);
    list.with_plan(&R1, &most, 22);
    // One byte more, of any kind, is too long; so is the plan one group longer.
    for byte in [0x00, 0x02] {
        let mut over = most.clone();
        over.push(byte);
        list.with_plan(&large, &over, 20);
    }
    list.with_plan(&large, &plan_of(256, &pairs(204)), 20);
    let mut over = P1.to_vec();
    over.resize(1025, 0x00);
    list.with_plan(&R1, &over, 20);
    over.truncate(1024);
    list.with_plan(&R1, &over, 23);
    // 1,024 and 1,025 bytes of few large groups: 3 and 2 groups, 506 and 507 numbers.
    let run = |from: usize, count: usize| (from..from + count).collect::<Vec<usize>>();
    let three = plan_of(256, &[run(1, 255), run(0, 249), run(3, 2)]);
    assert_eq!(three.len(), 1024);
    list.with_plan(&large, &three, 26);
    let two = plan_of(256, &[run(1, 255), run(0, 252)]);
    assert_eq!(two.len(), 1025);
    list.with_plan(&large, &two, 20);
    // As many groups of none as there are bytes.
    let mut none = plan(256, &[]);
    none[7..9].copy_from_slice(&1015u16.to_be_bytes());
    none.resize(1024, 0x00);
    list.with_plan(&large, &none, 24);
    none.resize(65_535, 0x00);
    list.check(&large, &none, 20);
}

fn marks(list: &mut List) {
    for (place, byte) in PLAN_MARK.into_iter().enumerate() {
        for bit in [0x01, 0x20, 0x80] {
            list.with_plan(&R1, &changed(place, byte ^ bit), 21);
        }
    }
    // The rule's mark, and the rule itself, in the plan's place.
    let mut other = P1.to_vec();
    other[..5].copy_from_slice(&RULE_MARK);
    list.with_plan(&R1, &other, 21);
    list.with_plan(&R1, &R1, 21);
}

fn counts(list: &mut List) {
    for gates in [5, 7, 0, 6 << 8, 65_535, 262] {
        list.with_plan(&R1, &plan(gates, &[&[3, 4]]), 22);
        list.with_plan(&R1, &plan(gates, &[]), 22);
    }
    let large = dead(256);
    for gates in [255, 257, 0, 1] {
        list.with_plan(&large, &plan(gates, &[&[2, 3]]), 22);
    }
    for groups in [0, 2, 255] {
        list.with_plan(&R1, &changed(8, groups), 23);
    }
    for groups in [1, 255] {
        list.with_plan(&R1, &changed(7, groups), 23);
    }
}

fn groups(list: &mut List) {
    // Past the end by one byte, by two, by a whole number and its size.
    for size in 10..14 {
        list.with_plan(&R1, &P1[..size], 23);
    }
    // Bytes left: one, a whole group that is not counted.
    for more in [&[0x00][..], &[0x02], &P1[9..]] {
        let mut left = P1.to_vec();
        left.extend(more);
        list.with_plan(&R1, &left, 23);
    }
    // Other sizes on the same bytes, then sizes with as many numbers as they say.
    for size in [0, 1, 3, 4, 128, 255] {
        list.with_plan(&R1, &changed(9, size), 23);
    }
    list.with_plan(&R1, &plan(6, &[&[]]), 24);
    list.with_plan(&R1, &plan(6, &[&[3]]), 24);
    list.with_plan(&R1, &plan(6, &[&[3, 4], &[]]), 24);
    list.with_plan(&R1, &plan(6, &[&[5], &[3, 4]]), 24);
    list.with_plan(&R1, &plan(6, &[&[65_535], &[3, 4]]), 24);
    let every: Vec<usize> = (0..255).collect();
    list.with_plan(&R1, &plan(6, &[&every]), 25);
    let mut cut = plan(6, &[&every]);
    cut.pop();
    list.with_plan(&R1, &cut, 23);
}

fn members(list: &mut List) {
    for group in [
        &[3, 3][..],
        &[4, 3],
        &[3, 4, 4],
        &[3, 5, 4],
        &[4, 6],
        &[6, 7],
        &[3, 65_535],
        &[65_535, 65_535],
        &[3, 256 + 4],
        &[3, 4, 65_535],
        &[0, 6],
    ] {
        list.with_plan(&R1, &plan(6, &[group]), 25);
        // Behind a good group, where there is one, and before it.
        list.with_plan(&R1, &plan(6, &[&[3, 4], group]), 25);
        list.with_plan(&R1, &plan(6, &[group, &[3, 4]]), 25);
    }
    // The last number that is a gate's: not costly here.
    list.with_plan(&R1, &plan(6, &[&[4, 5]]), 27);
    let large = dead(256);
    list.with_plan(&large, &plan(256, &[&[254, 256]]), 25);
    list.accepted(&large, &plan(256, &[&[254, 255]]), &[0]);
}
