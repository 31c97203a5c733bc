//! Batches (C-16): entries of every sort, batches whole and damaged, and the sizes of the pieces that they come in.

use super::words::Words;
use super::{cases, plans, rules, Random};
use crate::batch::bytes_of;
use crate::circuit::{accept, preconditions};
use crate::law::*;
use crate::stream::{CHECK, FUSED, WRITE};

/// A rule and a plan.
pub type Entry = (Vec<u8>, Vec<u8>);

/// Every number that an entry can be refused by.
pub const NUMBERS: [u8; 23] = [
    1, 2, 3, 4, 5, 6, 7, 8, 9, 10, 11, 20, 21, 22, 23, 24, 25, 26, 32, 27, 28, 29, 30,
];

/// The longest entry of any: both parts as long as their lengths can say.
pub const ANY_SIZE: usize = 2 * MOST;
const MOST: usize = 65_535;

/// An entry of any sort, whose parts have at most so many bytes together.
pub fn entry(random: &mut Random, words: Words, most: usize) -> Entry {
    loop {
        let entry = match random.below(60) {
            0 => over(random, words),
            1..=4 => odd(random, words),
            _ => pair(random, words),
        };
        if size(&entry) <= most {
            return entry;
        }
    }
}

/// How many bytes the parts of an entry have.
pub fn size((rule, plan): &Entry) -> usize {
    rule.len() + plan.len()
}

/// A rule and a plan as the cases of checking, writing and running have them.
fn pair(random: &mut Random, words: Words) -> Entry {
    loop {
        let case = cases::rule_case(random, words);
        if matches!(case.operation, CHECK | WRITE | FUSED) {
            return (case.first, case.second);
        }
    }
}

/// A part empty, the parts of two entries, or of one turned.
fn odd(random: &mut Random, words: Words) -> Entry {
    let (rule, plan) = pair(random, words);
    match random.below(6) {
        0 => (Vec::new(), Vec::new()),
        1 => (Vec::new(), plan),
        2 => (rule, Vec::new()),
        3 => (plan, rule),
        4 => (rules::damaged(random, words), plan),
        _ => (rule, pair(random, words).1),
    }
}

/// A part as long as is allowed, or longer by one, or by some, or as long as its length can say; the other too at times.
fn over(random: &mut Random, words: Words) -> Entry {
    let (mut rule, mut plan) = pair(random, words);
    let which = random.below(3);
    if which != 1 {
        let length = random.pick(&[4096, 4097, 4097, 4352, 8192, MOST]);
        rule.resize(length, SKIP);
    }
    if which != 0 {
        let length = random.pick(&[1024, 1025, 1025, 1280, 4097, MOST]);
        plan.resize(length, 0x00);
    }
    (rule, plan)
}

/// An accepted entry of at most so many bytes.
pub fn accepted(random: &mut Random, words: Words, most: usize) -> Entry {
    of_number(random, words, 0, most, |random| pair(random, words))
}

/// An entry refused by the wanted number, of at most so many bytes.
pub fn refused(random: &mut Random, words: Words, wanted: u8, most: usize) -> Entry {
    of_number(random, words, wanted, most, |random| match wanted {
        1..=11 => {
            let rule = rules::refused(random, words, wanted);
            (rule, pair(random, words).1)
        }
        _ => with_refused_plan(random, words, wanted),
    })
}

fn of_number(
    random: &mut Random,
    words: Words,
    wanted: u8,
    most: usize,
    mut make: impl FnMut(&mut Random) -> Entry,
) -> Entry {
    loop {
        let entry = make(random);
        if size(&entry) <= most && words.number(&entry.0, &entry.1) == wanted {
            return entry;
        }
    }
}

fn with_refused_plan(random: &mut Random, words: Words, wanted: u8) -> Entry {
    loop {
        let rule = rules::accepted(random, words);
        let circuit = accept(&rule).expect("made so").circuit;
        let needs = preconditions(&circuit);
        let ground = plans::Ground::new(&circuit, &needs).with(words.picks);
        if let Some(plan) = plans::refused(random, &ground, words.order, wanted) {
            return (rule, plan);
        }
    }
}

/// A batch of so many entries, each of at most so many bytes; as it should be, or damaged.
pub fn batch(random: &mut Random, words: Words, count: usize, most: usize) -> Vec<u8> {
    let entries: Vec<Entry> = (0..count).map(|_| entry(random, words, most)).collect();
    let mut batch = bytes_of(&entries);
    if random.chance(55) {
        damage(random, &mut batch);
    }
    batch
}

/// What makes a batch 75, mostly, or its entries others: cut, bytes left, another count, head, length or byte.
pub fn damage(random: &mut Random, batch: &mut Vec<u8>) {
    const COUNT: usize = BATCH_MARK.len();
    let lengths = lengths(batch);
    match random.below(12) {
        0..=2 => batch.truncate(random.below(batch.len())),
        3 => batch.push(random.any() as u8),
        4 => batch.extend_from_within(random.below(batch.len())..),
        5 | 6 => change(random, &mut batch[COUNT + 1]),
        7 => change(random, &mut batch[COUNT]),
        8 => {
            let place = random.below(COUNT);
            change(random, &mut batch[place]);
        }
        9 | 10 if !lengths.is_empty() => {
            let place = random.pick(&lengths) + random.pick(&[0, 1, 1, 1]);
            change(random, &mut batch[place]);
        }
        _ => {
            let place = random.below(batch.len());
            change(random, &mut batch[place]);
        }
    }
}

/// By one, mostly, or one bit, or to any.
fn change(random: &mut Random, byte: &mut u8) {
    *byte = match random.below(5) {
        0 | 1 => byte.wrapping_add(1),
        2 => byte.wrapping_sub(1),
        3 => *byte ^ 1 << random.below(8),
        _ => random.any() as u8,
    };
}

/// Where the lengths of a batch begin, as far as it goes, whatever its mark is.
fn lengths(batch: &[u8]) -> Vec<usize> {
    let mut places = Vec::new();
    let mut place = BATCH_MARK.len() + 2;
    while let Some(&[high, low]) = batch.get(place..place + 2) {
        places.push(place);
        place += 2 + usize::from(u16::from_be_bytes([high, low]));
    }
    places
}

/// Where the mark, the header, each length, rule and plan of a batch end, as far as it goes.
pub fn boundaries(batch: &[u8]) -> Vec<usize> {
    let head = BATCH_MARK.len() + 2;
    let mut places = vec![BATCH_MARK.len(), head];
    for place in lengths(batch) {
        places.extend([place, place + 2]);
    }
    places.push(batch.len());
    places.sort();
    places.dedup();
    places
}

/// A piece size for a batch: 0 for all at once, small, any, or so that a piece ends at a boundary or beside it.
pub fn piece_size(random: &mut Random, batch: &[u8]) -> usize {
    match random.below(6) {
        0 => 0,
        1 => random.among(1, 9),
        2 => random.among(1, batch.len().clamp(1, MOST)),
        3 => random.pick(&[64, 255, 256, 1024, 4096, MOST]),
        _ => {
            let boundary = random.pick(&boundaries(batch));
            (boundary + random.below(3)).clamp(2, MOST) - 1
        }
    }
}
