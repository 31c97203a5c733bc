//! Our own files: those of the examples and of the largest plans; example 3's file in every byte and cut.

use super::super::large::{dead, longest_pairs, GROUPS_MAX};
use super::super::parts::{rule, two, var, when};
use super::super::reading::{conditions, gates};
use super::super::{plan, List};
use super::run_case;
use crate::examples::{P1, R1, R2, R7, R8};
use crate::good::good_bytes;
use crate::law::*;

pub fn add(list: &mut List) {
    examples(list);
    large(list);
    records(list);
    cuts(list);
    every_byte(list);
}

fn examples(list: &mut List) {
    let good = good_bytes();
    let gates_of_good = crate::circuit::read_rule(&good).gates;
    for (rule, plan) in [
        (&R1[..], P1.to_vec()),
        (&R1, plan(6, &[])),
        (&R2, plan(11, &[])),
        (&R2, plan(11, &[&[4, 7]])),
        (&R2, plan(11, &[&[5, 6]])),
        (&R7, plan(4, &[])),
        (&R8, plan(11, &[])),
        (&good, plan(gates_of_good, &[])),
    ] {
        let file = list.file(rule, &plan);
        list.accepted_circuit(&file, &[0, 1, 2, 3]);
    }
    let file = list.file(&R1, &P1);
    list.run_gives(&file, &[1, 6, 7], &[1, 42, 7]);
    list.run_gives(&file, &[0, 6, 7], &[0, 49, 7]);
    for (inputs, room, wanted) in [
        (&[2, 6, 7][..], 3, 41),
        (&[1, 6], 3, 40),
        (&[1, 6, 7, 8], 3, 40),
        (&[], 3, 40),
        (&[1, 6, 7], 2, 42),
        (&[1, 6, 7], 0, 42),
        (&[1, 6, 7], 4, 0),
        // The lower number decides.
        (&[2, 6], 2, 40),
        (&[2, 6, 7], 2, 41),
    ] {
        list.run_circuit(&file, inputs, room, wanted);
    }
}

/// 637 wires; the longest that a plan makes; a group of 255; six conditions; V of 1 and of 32; 256 gates.
fn large(list: &mut List) {
    let pairs: Vec<[usize; 2]> = (0..GROUPS_MAX).map(|k| [2 + 2 * k, 3 + 2 * k]).collect();
    let pairs: Vec<&[usize]> = pairs.iter().map(|pair| &pair[..]).collect();
    let (longest, longest_plan) = longest_pairs();
    let less = when(two(LESS, var(0), var(0)), vec![], vec![]);
    let every: Vec<usize> = (1..GATES_MAX).collect();
    for (rule, plan) in [
        (dead(GATES_MAX), plan(GATES_MAX, &pairs)),
        (longest, longest_plan),
        (
            rule(&[Kind::Word], vec![less; 255]),
            plan(GATES_MAX, &[&every]),
        ),
        (conditions(6), plan(13, &[])),
        (rule(&[Kind::Bit], vec![]), plan(1, &[])),
        (rule(&[Kind::Word; 32], vec![]), plan(32, &[])),
        (gates(GATES_MAX), plan(GATES_MAX, &[])),
    ] {
        let file = list.file(&rule, &plan);
        list.accepted_circuit(&file, &[0, 1, 63]);
    }
}

/// Every record of example 3's file, and numbers that are no wire.
fn records(list: &mut List) {
    let file = list.file(&R1, &P1);
    for wire in (0..=9).chain([10, 255, 256, 639, 640, 65_535]) {
        list.record(&file, wire, 0);
    }
}

/// Every cut of example 3's file, and some bytes more.
fn cuts(list: &mut List) {
    let mut file = list.file(&R1, &P1);
    for length in 0..file.len() {
        let wanted = if length < CIRCUIT_BYTES_MIN { 60 } else { 61 };
        list.read_circuit(&file[..length], wanted);
    }
    for more in [0x00, 0x01, 0x32, 0xFF] {
        file.push(more);
        list.refused_circuit(&file, 61);
    }
}

/// Every byte of example 3's file made every other byte.
fn every_byte(list: &mut List) {
    let file = list.file(&R1, &P1);
    for place in 0..file.len() {
        list.byte = Some(place);
        for byte in 0..=u8::MAX {
            let mut changed = file.clone();
            changed[place] = byte;
            if changed != file {
                let case = run_case(&changed, &[1, 6, 7], 3);
                match wanted_of_example_3(place, byte) {
                    Some(wanted) => list.add(case, wanted),
                    None => list.put(case),
                }
            }
        }
    }
    list.byte = None;
}

// Example 3's wires by kind: 0 a bit, 1 and 2 words, 3 and 4 guards, 5 and 6 picks of words, 7 their product, 8 a
// choice.
const BITS: [u8; 3] = [0, 3, 4];
const WORDS: [u8; 6] = [1, 2, 5, 6, 7, 8];

/// What another byte at a place of example 3's file comes to. None for the codes and counts of records, which may
/// move all that stands behind them.
pub fn wanted_of_example_3(place: usize, byte: u8) -> Option<u8> {
    let among = |kind: &[u8]| if kind.contains(&byte) { 0 } else { 62 };
    Some(match place {
        // In version 2 (C-17) the guards' tables would be longer, and the records run past the end.
        4 if byte == 2 => 61,
        0..=4 => 60,
        5 if (1..=32).contains(&byte) => 61,
        6 if (1..=2).contains(&byte) => 61,
        5 | 6 => 60,
        7 => 61,
        // Variables' numbers.
        9 | 11 | 13 => 62,
        // Tables of one wire: the two lowest bits may be set.
        25 | 37 if byte <= 3 => 0,
        18..=25 | 30..=37 => 62,
        // The lower bytes of wires: guards' wires, then bits and words of the picks, the product, the choice.
        17 => among(&BITS[..1]),
        29 => among(&BITS[..2]),
        41 | 45 | 51 | 55 | 65 => among(&BITS),
        43 | 47 => among(&WORDS[..2]),
        53 | 57 => among(&WORDS[..3]),
        60 | 62 => among(&WORDS[..4]),
        67 | 69 => among(&WORDS[..5]),
        // The lower bytes of the outputs.
        71 => among(&BITS),
        73 | 75 => among(&WORDS),
        8 | 10 | 12 | 14 | 15 | 26 | 27 | 38 | 39 | 48 | 49 | 58 | 63 => return None,
        // The higher bytes of wires and outputs.
        _ => 62,
    })
}
