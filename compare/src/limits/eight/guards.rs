//! Guards that rest on none to all of eight conditions, with tables whose bytes differ.

use super::super::guards::products;
use super::super::parts::{rule, set, two, var, when, word};
use super::super::{plan, List};
use super::{bits, kinds};
use crate::circuit::read_rule;
use crate::law::*;
use crate::limits::parts::bytes_with_kinds;
use crate::rule::{Block, Statement};

pub fn add(list: &mut List) {
    for count in 0..=LIMITS.conditions {
        ladder_of(list, count);
    }
    for set in 0..SETTINGS {
        on_some(list, set);
    }
    one_by_one(list);
    many_ends(list);
    for table in [TABLE, TABLE.map(|byte| !byte)] {
        every_byte(list, table);
    }
}

/// v8 := v9 × v10, or of other words: the factor tells the end.
fn end(factor: usize) -> Statement {
    set(8, two(PRODUCT, var(9), word(factor as u32)))
}

/// One if inside the second block of the other, on these bits; each first block and the last second one is an end. So
/// the ends rest on one condition, two, and so on, and the last two on all.
fn ladder(conditions: &[usize], from: usize) -> Block {
    match conditions {
        [] => vec![end(from)],
        [t, more @ ..] => vec![when(var(*t), vec![end(from)], ladder(more, from + 1))],
    }
}

/// Eight ifs, and a plan that joins all nine ends.
pub fn eight() -> (Vec<u8>, Vec<u8>) {
    let made = rule(&kinds(2), ladder(&[0, 1, 2, 3, 4, 5, 6, 7], 3));
    let joined = plan(read_rule(&made).gates, &[&products(&made)]);
    (made, joined)
}

/// The end that a setting comes to.
fn reached(conditions: &[usize], setting: usize) -> usize {
    let first = conditions.iter().position(|t| setting >> t & 1 == 1);
    first.unwrap_or(conditions.len())
}

/// The first so many bits, rising and falling: all ends in one group, the first two, the last two, and by twos.
fn ladder_of(list: &mut List, count: usize) {
    let mut conditions: Vec<usize> = (0..count).collect();
    for _ in 0..2 {
        let made = rule(&kinds(2), ladder(&conditions, 3));
        let gates = read_rule(&made).gates;
        let ends = products(&made);
        assert_eq!(ends.len(), count + 1);
        list.rule(&made, &[]);
        if count == 0 {
            list.accepted(&made, &plan(gates, &[]), &[0]);
            return;
        }
        let all = plan(gates, &[&ends]);
        let pairs: Vec<&[usize]> = ends.chunks_exact(2).collect();
        let settings = [0, SETTINGS - 1, 0b0101_0101, 1 << (count - 1)];
        for joined in [
            all.clone(),
            plan(gates, &[&ends[..2]]),
            plan(gates, &[&ends[count - 1..]]),
            plan(gates, &pairs),
        ] {
            list.accepted(&made, &joined, &settings);
        }
        // Every setting that these bits tell apart.
        for setting in 0..1 << count {
            let inputs = [bits(setting, 8), vec![5, 11]].concat();
            let mut figures = inputs.clone();
            figures[8] = 11 * (3 + reached(&conditions, setting) as u32);
            list.both_give(&made, &all, &inputs, &figures);
        }
        conditions.reverse();
    }
}

/// Eight conditions, all bits; the ends rest on those in the set alone.
fn on_some(list: &mut List, chosen: usize) {
    let mut conditions: Vec<usize> = (0..8).filter(|t| chosen >> t & 1 == 1).collect();
    // From the lowest in or, where condition 1 is among them, from the highest.
    if chosen & 2 != 0 {
        conditions.reverse();
    }
    let mut block: Block = (0..8)
        .map(|t| when(var(t), vec![set(9, var(9))], vec![Statement::Skip]))
        .collect();
    if chosen == 0 {
        block.push(end(2));
    }
    block.extend(ladder(&conditions, 3));
    let made = rule(&kinds(2), block);
    let gates = read_rule(&made).gates;
    let joined = plan(gates, &[&products(&made)]);
    let length = list.length(&made, &joined);
    list.shown(&made, 0);
    list.check(&made, &joined, 0);
    list.write(&made, &joined, length, 0);
    list.write(&made, &joined, length - 1, 50);
    for setting in [chosen, !chosen & 255] {
        let inputs = [bits(setting, 8), vec![5, 11]].concat();
        let mut figures = inputs.clone();
        figures[8] = 11 * (3 + reached(&conditions, setting) as u32);
        list.both_give(&made, &joined, &inputs, &figures);
    }
}

/// Eight ifs one after the other, each with a product in both blocks. The first block goes on from v8, the
/// second leaves it, so the products of an if rest on its condition and on all after it.
fn one_by_one(list: &mut List) {
    let product = |second| vec![set(8, two(PRODUCT, var(9), var(second)))];
    let block: Block = (0..8)
        .map(|t| when(var(t), product(8), product(9)))
        .collect();
    let made = rule(&kinds(2), block);
    let gates = read_rule(&made).gates;
    let joined = products(&made);
    let turns = [0, 255, 0b0101_0101, 0b1010_1010];
    list.rule(&made, &turns);
    let pairs: Vec<&[usize]> = joined.chunks(2).collect();
    list.accepted(&made, &plan(gates, &pairs), &turns);
    list.accepted(&made, &plan(gates, &pairs[..1]), &turns);
    list.accepted(&made, &plan(gates, &pairs[3..5]), &turns);
    list.accepted(&made, &plan(gates, &pairs[7..]), &turns);
    // The first block of an if reads what the one before gave, the second does not.
    for later in 1..8 {
        for other in [2 * later - 2, 2 * later - 1] {
            let group = [joined[other], joined[2 * later + 1]];
            list.accepted(&made, &plan(gates, &[&group]), &turns[..2]);
            let group = [joined[other], joined[2 * later]];
            list.with_plan(&made, &plan(gates, &[&group]), 29);
        }
    }
}

/// 120 ends over eight conditions: a whole tree over six, most of whose ends have an if on one of the two others; all
/// ends in one group, by twos, and in three groups.
fn many_ends(list: &mut List) {
    fn tree(conditions: &[usize], ends: &mut usize) -> Block {
        *ends += 1;
        match conditions {
            [] if *ends % 8 == 7 => vec![set(8, two(PRODUCT, var(8), var(9)))],
            [] => {
                let block = |second| vec![set(8, two(PRODUCT, var(9), var(second)))];
                vec![when(var(6 + *ends % 2), block(8), block(9))]
            }
            [t, more @ ..] => {
                let first = tree(more, ends);
                vec![when(var(*t), first, tree(more, ends))]
            }
        }
    }
    let made = rule(&kinds(2), tree(&[0, 1, 2, 3, 4, 5], &mut 0));
    let gates = read_rule(&made).gates;
    let ends = products(&made);
    assert!((115..=128).contains(&ends.len()) && gates <= GATES_MAX);
    let turns = [0, 255, 0b0101_0101, 0b1010_1010, 77, 200];
    list.rule(&made, &turns);
    let pairs: Vec<&[usize]> = ends.chunks_exact(2).collect();
    let thirds: Vec<&[usize]> = ends.chunks(ends.len().div_ceil(3)).collect();
    for groups in [&[&ends[..]][..], &pairs, &thirds] {
        list.accepted(&made, &plan(gates, groups), &turns);
    }
}

/// The tables of 32 bytes that are no two alike, each a table of three conditions that few ifs make. The first is the one
/// of the settings where the five others are 0.
const TABLE: [u8; 32] = [
    0xAA, 0x55, 0xCC, 0x33, 0xF0, 0x0F, 0x88, 0x11, 0xA0, 0x05, 0xC0, 0x03, 0xEE, 0x77, 0xFA, 0x5F,
    0xFC, 0x3F, 0x00, 0xFF, 0x80, 0xFE, 0xA8, 0x54, 0xF8, 0x07, 0xE0, 0x1F, 0xEA, 0x15, 0xAC, 0xCA,
];

fn in_table(table: &[u8; 32], setting: usize) -> bool {
    table[setting / 8] >> (setting % 8) & 1 == 1
}

/// Ifs on conditions from `t` down that tell whether a setting is in the table: v8 becomes v9 or v10. Those bits of
/// `setting` that are still to come are 0.
fn decide(table: &[u8; 32], left: usize, setting: usize) -> Block {
    let inside: Vec<bool> = (0..1 << left)
        .map(|low| in_table(table, setting + low))
        .collect();
    if inside.iter().all(|&one| one == inside[0]) {
        return vec![set(8, var(if inside[0] { 9 } else { 10 }))];
    }
    let t = left - 1;
    let [one, zero] = [1, 0].map(|bit| decide(table, t, setting + (bit << t)));
    if one == zero {
        return zero;
    }
    vec![when(var(t), one, zero)]
}

/// Two products, of which one is needed under the settings of the table and the other under the rest; both guards read
/// eight wires, and no two bytes of a table are alike.
fn every_byte(list: &mut List, table: [u8; 32]) {
    let mut kind_bytes = vec![0x01; 8];
    // v8 is what is wanted, v9 and v10 hold the products.
    kind_bytes.extend([0x00, 0x02, 0x02]);
    let mut block = vec![
        set(9, two(PRODUCT, var(9), var(9))),
        set(10, two(PRODUCT, var(10), var(10))),
    ];
    block.extend(decide(&table, 8, 0));
    let made = bytes_with_kinds(&kind_bytes, block);
    let gates = read_rule(&made).gates;
    let joined = plan(gates, &[&[11, 12]]);
    list.rule(&made, &[]);
    list.accepted(&made, &joined, &[]);
    let file = list.file(&made, &joined);
    let highest_first: Vec<u8> = table.into_iter().rev().collect();
    assert!(
        file.windows(32).any(|bytes| bytes == highest_first),
        "the table as it is"
    );
    for setting in 0..SETTINGS {
        let inputs = [bits(setting, 8), vec![0, 3, 5]].concat();
        let figure = if in_table(&table, setting) { 9 } else { 25 };
        let figures = [bits(setting, 8), vec![figure, 0, 0]].concat();
        list.both_give(&made, &joined, &inputs, &figures);
        list.run_circuit(&file, &inputs, 11, 0);
    }
}
