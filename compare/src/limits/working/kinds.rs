//! Kind bytes: which there are, and where the first that is none is refused; every kind beside every other.

use super::super::parts::{bytes_with_kinds, set, two, var, when, word};
use super::super::{plan, List};
use super::Subject;
use crate::law::*;
use crate::rule::Block;

pub fn add(list: &mut List) {
    places(list);
    several(list);
    wrong_kinds(list);
    assigned(list);
    orders(list);
}

/// Each kind byte, and some that are none, as the first, a middle and the last of five variables.
fn places(list: &mut List) {
    for place in [0, 2, 4] {
        for byte in [0x00, 0x01, 0x02, 0x03, 0x04, 0x05, 0xFF] {
            let mut kind_bytes = [0x00; 5];
            kind_bytes[place] = byte;
            let rule = bytes_with_kinds(&kind_bytes, vec![]);
            if byte > 0x03 {
                list.refused_at(&rule, 3, 6 + place);
                continue;
            }
            let mut inputs = [2; 5];
            inputs[place] = if byte & 1 == 1 { 1 } else { u32::MAX };
            let mut figures = inputs;
            figures[place] = if byte < 0x02 { inputs[place] } else { 0 };
            let subject = Subject::new(rule, &[(&inputs, &figures)]);
            list.taken(&subject);
            list.taken_with(&subject, &plan(5, &[]));
            // A bit's input is 0 or 1, whether the variable works or not.
            if byte & 1 == 1 {
                list.runs(&subject.rule, &plan(5, &[]), &[2; 5], 5, 41);
            }
        }
    }
}

/// The first byte that is none decides; a file that ends in its kind bytes is 4 before it.
fn several(list: &mut List) {
    for (kind_bytes, place) in [
        ([0x04, 0x02, 0xFF, 0x03, 0x05], 6),
        ([0x02, 0x03, 0x04, 0xFF, 0x04], 8),
        ([0x03, 0x02, 0x03, 0x02, 0x80], 10),
        ([0x02, 0x06, 0x07, 0x08, 0x09], 7),
    ] {
        let rule = bytes_with_kinds(&kind_bytes, vec![]);
        list.refused_at(&rule, 3, place);
        // Cut before it, with it, and behind it.
        list.refused_at(&rule[..place], 4, place);
        list.refused_at(&rule[..place + 1], 3, place);
        list.refused_at(&rule[..rule.len() - 1], 3, place);
    }
    for (last, number, place) in [(0x02, 9, 39), (0x03, 9, 39), (0x04, 3, 37)] {
        let mut kind_bytes = [0x03; 32];
        kind_bytes[31] = last;
        let mut rule = bytes_with_kinds(&kind_bytes, vec![]);
        rule.push(0x00);
        list.refused_at(&rule, number, place);
    }
    list.refused_at(&bytes_with_kinds(&[0x02; 33], vec![]), 3, 5);
}

/// Row 7 goes by word and bit alone: a working word is no bit, a working bit no word.
fn wrong_kinds(list: &mut List) {
    let rule = |block: Block| bytes_with_kinds(&[0x02, 0x03, 0x00, 0x01], block);
    for (block, place) in [
        (vec![set(1, word(7))], 12),
        (vec![set(0, two(AND, var(1), var(3)))], 12),
        (vec![set(2, two(SUM, var(0), var(1)))], 16),
        (vec![set(3, two(OR, var(0), var(1)))], 14),
        (vec![when(var(0), vec![], vec![])], 12),
        (vec![when(two(LESS, var(2), var(1)), vec![], vec![])], 15),
    ] {
        list.refused_at(&rule(block), 7, place);
    }
}

/// v0 := v1 of every two kinds: 7 on the number byte where one is a word and the other a bit.
fn assigned(list: &mut List) {
    for to in 0x00..=0x03 {
        for from in 0x00..=0x03 {
            let rule = bytes_with_kinds(&[to, from], vec![set(0, var(1))]);
            if to & 1 != from & 1 {
                list.refused_at(&rule, 7, 11);
                continue;
            }
            let written = |byte: u8| if byte < 0x02 { 1 } else { 0 };
            let figures = [written(to), written(from)];
            let subject = Subject::new(rule, &[(&[0, 1], &figures)]);
            list.taken(&subject);
            list.taken_with(&subject, &plan(2, &[]));
        }
    }
}

/// Every order of the four kinds.
fn orders(list: &mut List) {
    let all = 0..4;
    for w in all.clone() {
        for x in all.clone().filter(|&x| x != w) {
            for b in all.clone().filter(|&b| b != w && b != x) {
                mixed(list, [w, x, b, 6 - w - x - b]);
            }
        }
    }
}

/// A word w, a working word x, a bit b and a working bit y, numbered as they are given:
/// if y then (x := w × w; b := w < x) else (x := x × x; w := x). Products 4 and 6, 10 gates.
fn mixed(list: &mut List, [w, x, b, y]: [usize; 4]) {
    let mut kind_bytes = [0x00; 4];
    kind_bytes[x] = 0x02;
    kind_bytes[b] = 0x01;
    kind_bytes[y] = 0x03;
    let first = vec![
        set(x, two(PRODUCT, var(w), var(w))),
        set(b, two(LESS, var(w), var(x))),
    ];
    let second = vec![set(x, two(PRODUCT, var(x), var(x))), set(w, var(x))];
    let rule = bytes_with_kinds(&kind_bytes, vec![when(var(y), first, second)]);
    let placed = |figures: [u32; 4]| {
        let mut all = [0; 4];
        for (place, figure) in [w, x, b, y].into_iter().zip(figures) {
            all[place] = figure;
        }
        all
    };
    let runs = [
        ([6, 7, 0, 1], [6, 0, 1, 0]),
        ([6, 7, 1, 0], [49, 0, 1, 0]),
        ([0, 65_536, 1, 1], [0, 0, 0, 0]),
        ([5, 65_536, 0, 0], [0, 0, 0, 0]),
    ];
    let runs = runs.map(|(inputs, figures)| (placed(inputs).to_vec(), placed(figures).to_vec()));
    let subject = Subject {
        rule,
        runs: runs.to_vec(),
    };
    list.taken(&subject);
    list.taken_with(&subject, &plan(10, &[]));
    list.taken_with(&subject, &plan(10, &[&[4, 6]]));
    list.runs(&subject.rule, &plan(10, &[]), &placed([6, 7, 0, 2]), 4, 41);
}
