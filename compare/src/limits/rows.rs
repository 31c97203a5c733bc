//! Rows 26 to 29 over every kind of gate, and plans that break two rows or more at once: the first failing
//! row is answered, wherever in the file its fault stands.

use super::parts::{costly, not, rule, set, two, var, when, word};
use super::{plan, List};
use crate::law::*;
use crate::rule::{Block, Expression};

pub fn add(list: &mut List) {
    kinds_of_gates(list);
    each_costly(list);
    two_at_once(list);
    all_at_once(list);
}

/// What the blocks of `every` assign, in order: two products, one of every other operation, constants.
const MADE: [u8; 11] = [
    PRODUCT, PRODUCT, LESS, EQUAL, AND, OR, SUM, DIFFERENCE, NOT, WORD, BIT,
];

// Gates of `every`: starting values, two products that nothing needs, the first block, the second
// block, choices.
const UNNEEDED: usize = 3 + MADE.len();
const FIRST: usize = UNNEEDED + 2;
const SECOND: usize = FIRST + MADE.len();
const CHOICES: usize = SECOND + MADE.len();
const EVERY: usize = CHOICES + MADE.len();

/// A bit v0, a word v1, a bit v2, and one variable for each of `MADE`: a rule with every kind of gate.
/// The variable of the sum is first (v1 x v1) x v1, which both blocks store over.
pub fn every() -> Vec<u8> {
    let mut kinds = vec![Kind::Bit, Kind::Word, Kind::Bit];
    for code in MADE {
        kinds.push(match operation(code) {
            Some(row) => row.gives,
            None if code == WORD => Kind::Word,
            None => Kind::Bit,
        });
    }
    let block = |figure: u32| -> Block {
        let value = |code: u8| match code {
            WORD => word(figure),
            BIT => Expression::Bit(figure == 1),
            NOT => not(var(2)),
            LESS | EQUAL | PRODUCT | SUM | DIFFERENCE => two(code, var(1), var(1)),
            _ => two(code, var(2), var(0)),
        };
        let place = |(place, code): (usize, u8)| set(3 + place, value(code));
        MADE.into_iter().enumerate().map(place).collect()
    };
    let product = two(PRODUCT, two(PRODUCT, var(1), var(1)), var(1));
    let sum = 3 + MADE.iter().position(|&code| code == SUM).expect("there");
    rule(
        &kinds,
        vec![set(sum, product), when(var(0), block(1), block(2))],
    )
}

/// The place of a code in `MADE`.
fn made(code: u8) -> usize {
    MADE.iter().position(|&c| c == code).expect("made")
}

fn kinds_of_gates(list: &mut List) {
    let rule = every();
    list.rule(&rule, &[0, 1, 2, 3]);
    let mut all = Vec::new();
    for (place, code) in MADE.into_iter().enumerate() {
        let pair = [FIRST + place, SECOND + place];
        if operation(code).is_some_and(|row| row.cost > 0) {
            list.accepted(&rule, &plan(EVERY, &[&pair]), &[2, 3]);
            all.push(pair);
        } else {
            list.with_plan(&rule, &plan(EVERY, &[&pair]), 27);
            // One costly member does not help, nor does a good group before it.
            list.with_plan(&rule, &plan(EVERY, &[&[FIRST, SECOND + place]]), 27);
            let other = [FIRST + made(LESS), SECOND + made(LESS)];
            list.with_plan(&rule, &plan(EVERY, &[&other, &pair]), 27);
        }
    }
    // Starting values of words, of bits, of both; choices.
    let others = [
        [0, 1],
        [0, 2],
        [1, 3],
        [CHOICES, CHOICES + 1],
        [0, EVERY - 1],
    ];
    for pair in others {
        list.with_plan(&rule, &plan(EVERY, &[&pair]), 27);
    }
    // Every pair of different costly operations, exclusive otherwise.
    for one in costly() {
        for other in costly().filter(|other| other.code != one.code) {
            let pair = [FIRST + made(one.code), SECOND + made(other.code)];
            list.with_plan(&rule, &plan(EVERY, &[&pair]), 28);
        }
    }
    // All that can be joined, in file order and against it.
    let groups: Vec<&[usize]> = all.iter().map(|pair| &pair[..]).collect();
    list.accepted(&rule, &plan(EVERY, &groups), &[0, 1, 2, 3, 4, 5]);
    let turned: Vec<&[usize]> = all.iter().rev().map(|pair| &pair[..]).collect();
    list.turned(|list| list.accepted(&rule, &plan(EVERY, &turned), &[4, 5]));
}

/// A bit, an argument, two results; an if with the same two operations in both blocks.
pub fn twice(row: Operation) -> Vec<u8> {
    let block = || -> Block {
        let value = || two(row.code, var(1), var(1));
        vec![set(2, value()), set(3, value())]
    };
    rule(
        &[Kind::Bit, row.takes, row.gives, row.gives],
        vec![when(var(0), block(), block())],
    )
}

/// Every costly operation by itself: gates 4 and 5 of the first block, 6 and 7 of the second, 10 in all.
fn each_costly(list: &mut List) {
    for row in costly() {
        let rule = twice(row);
        list.rule(&rule, &[0, 1, 2, 3]);
        for groups in [
            &[&[4, 6][..]][..],
            &[&[5, 6]],
            &[&[4, 6], &[5, 7]],
            &[&[4, 7], &[5, 6]],
        ] {
            list.accepted(&rule, &plan(10, groups), &[0, 1, 2, 3]);
        }
        let turned = plan(10, &[&[5, 6], &[4, 7]]);
        list.turned(|list| list.accepted(&rule, &turned, &[0, 1, 2, 3]));
        for group in [&[4, 5][..], &[6, 7], &[4, 5, 6], &[4, 6, 7], &[4, 5, 6, 7]] {
            list.with_plan(&rule, &plan(10, &[group]), 29);
        }
        list.with_plan(&rule, &plan(10, &[&[4, 6], &[5, 6]]), 26);
        list.with_plan(&rule, &plan(10, &[&[4, 6], &[4, 6]]), 26);
        list.with_plan(&rule, &plan(10, &[&[4, 6], &[5, 7], &[6, 7]]), 26);
    }
}

/// The gates of `every` that one operation makes, the first of them in each block.
pub fn pair(code: u8) -> Vec<usize> {
    vec![FIRST + made(code), SECOND + made(code)]
}

/// The groups of `every` that break one row from 24 on; no gate comes in two of them.
pub fn broken(row: u8) -> Vec<Vec<usize>> {
    match row {
        24 => vec![vec![FIRST + made(EQUAL)]],
        25 => vec![vec![SECOND + made(OR), FIRST + made(OR)]],
        26 => vec![pair(AND), pair(AND)],
        27 => vec![pair(SUM)],
        28 => vec![vec![FIRST + made(LESS), SECOND + made(EQUAL)]],
        29 => vec![vec![FIRST, FIRST + 1]],
        30 => vec![vec![UNNEEDED, UNNEEDED + 1]],
        _ => Vec::new(),
    }
}

/// A plan for `every` that breaks these rows, with the groups in the order of the rows.
fn breaking(rows: &[u8]) -> Vec<u8> {
    let groups: Vec<Vec<usize>> = rows.iter().flat_map(|&row| broken(row)).collect();
    spoiled(rows, &groups)
}

/// A plan for `every` with these groups, and in its other bytes what breaks those of these rows that lie there.
pub fn spoiled(rows: &[u8], groups: &[Vec<usize>]) -> Vec<u8> {
    let groups: Vec<&[usize]> = groups.iter().map(|group| &group[..]).collect();
    let mut bytes = plan(EVERY, &groups);
    for row in rows {
        match row {
            23 => bytes.push(0x02),
            22 => bytes[6] += 1,
            21 => bytes[0] ^= 0x01,
            20 => bytes.resize(PLAN_BYTES_MAX + 1, 0x00),
            _ => {}
        }
    }
    bytes
}

/// These rows broken, in rising order: from 27 on the smallest members of their groups fall, so that two of them
/// are turned.
fn rising(list: &mut List, rule: &[u8], rows: &[u8]) {
    let add = |list: &mut List| list.with_plan(rule, &breaking(rows), rows[0]);
    match rows {
        [27..=30, _, ..] => list.turned(add),
        _ => add(list),
    }
}

fn two_at_once(list: &mut List) {
    let rule = every();
    for one in 20..=30 {
        rising(list, &rule, &[one]);
        for other in one + 1..=30 {
            rising(list, &rule, &[one, other]);
            list.with_plan(&rule, &breaking(&[other, one]), one);
        }
    }
    // Too short, and what is there has another mark.
    let short = &breaking(&[21])[..8];
    list.with_plan(&rule, short, 20);
}

/// Every row from one on broken at once.
fn all_at_once(list: &mut List) {
    let rule = every();
    for one in 20..=30 {
        let mut rows: Vec<u8> = (one..=30).collect();
        rising(list, &rule, &rows);
        rows.reverse();
        list.with_plan(&rule, &breaking(&rows), one);
    }
}
