//! Batches of C-16: document 02's, cut at every byte and changed at every byte of the head, bytes left, entries of every
//! refusal, parts at their limits, savings of every sign; random ones; then those of C-17 and of C-18. Beside most stands how their report must end,
//! from the document, and it is looked at when the case is added.

mod entries;

use super::parts::costly;
use super::reading::{conditions, nested};
use crate::batch::{bytes_of, report};
use crate::batch_cases::Case;
use crate::examples::{P1, R1};
use crate::generate::batches::{self, boundaries, piece_size, Entry, NUMBERS};
use crate::generate::words::Words;
use crate::generate::Random;
use crate::law::{AND, LESS, PLAN_BYTES_MAX, RULE_BYTES_MAX};
use entries::{
    ands, eight_joined, joined, one_pick, padded_plan, padded_rule, pairs, r1, two_picks, unjoined,
};

/// Sizes of the pieces in which short batches come; 0 is all at once.
const SIZES: [usize; 5] = [1, 2, 3, 7, 0];
/// What the two entries of document 02's batch print, and the entries of one that was cut or spoiled.
const BOTH: &str = "accepted 6 8 33 24\naccepted 6 6 33 33\n";
const FIRST: &str = "accepted 6 8 33 24\n";
/// What random entries were made by before C-17: they keep their bytes.
const BEFORE: Words = Words::BEFORE_EIGHT;
/// The longest that a length can say.
const MOST: usize = 65_535;

pub fn cases() -> Vec<Case> {
    let mut list = List { cases: Vec::new() };
    document(&mut list);
    cuts(&mut list);
    head(&mut list);
    left(&mut list);
    empty(&mut list);
    refusals(&mut list);
    rule_sizes(&mut list);
    plan_sizes(&mut list);
    skipped(&mut list);
    rule_first(&mut list);
    savings(&mut list);
    many(&mut list);
    let mut random = Random::new(5);
    at_boundaries(&mut list, &mut random);
    any(&mut list, &mut random, BEFORE, 300);
    eight(&mut list);
    equal(&mut list);
    list.cases
}

struct List {
    cases: Vec<Case>,
}

impl List {
    /// A batch whose report is just this.
    #[track_caller]
    fn exact(&mut self, size: usize, batch: &[u8], wanted: &str) {
        let report = String::from_utf8(report(batch)).expect("a report");
        assert_eq!(report, wanted);
        self.cases.push(Case::new(size, batch));
    }

    /// A batch whose report ends with this line.
    #[track_caller]
    fn ends(&mut self, size: usize, batch: &[u8], last: &str) {
        let report = String::from_utf8(report(batch)).expect("a report");
        assert_eq!(report.lines().last(), Some(last));
        self.cases.push(Case::new(size, batch));
    }

    /// A batch of one entry, which is refused.
    #[track_caller]
    fn refused(&mut self, entry: &Entry) {
        self.entries(std::slice::from_ref(entry), "total 0 1 0 0 0");
    }

    /// A whole batch of these entries, all at once and in pieces of 1 and of 7, and its last byte gone.
    #[track_caller]
    fn entries(&mut self, entries: &[Entry], last: &str) {
        let batch = bytes_of(entries);
        self.ends(0, &batch, last);
        if batch.len() < RULE_BYTES_MAX {
            self.ends(1, &batch, last);
            self.ends(7, &batch, last);
        }
        self.ends(0, &batch[..batch.len() - 1], "refused 75");
    }
}

/// Document 02's batch: R1 with P1, then R1 with a plan of no groups.
fn document_batch() -> Vec<u8> {
    bytes_of(&[r1(), unjoined(&R1)])
}

fn document(list: &mut List) {
    let batch = document_batch();
    let wanted = format!("{BOTH}total 2 0 66 57 9\n");
    for size in SIZES {
        list.exact(size, &batch, &wanted);
    }
    for boundary in boundaries(&batch) {
        for size in boundary - 1..=boundary + 1 {
            list.exact(size, &batch, &wanted);
        }
    }
    for size in SIZES {
        list.exact(size, &bytes_of::<Vec<u8>>(&[]), "total 0 0 0 0 0\n");
    }
}

/// Document 02's batch cut at every byte.
fn cuts(list: &mut List) {
    let batch = document_batch();
    let first = bytes_of(&[r1()]).len();
    for end in 0..batch.len() {
        let lines = if end < first { "" } else { FIRST };
        for size in SIZES {
            list.exact(size, &batch[..end], &format!("{lines}refused 75\n"));
        }
    }
}

/// Every byte of the head changed, and the count in the other order of its bytes.
fn head(list: &mut List) {
    let batch = document_batch();
    for place in 0..5 {
        let was = batch[place];
        for byte in [0x00, 0x01, 0x02, 0xFF, was ^ 0x20, was + 1, was ^ 0x80] {
            let mut changed = batch.clone();
            changed[place] = byte;
            if byte != was {
                list.exact(0, &changed, "refused 75\n");
                list.exact(1, &changed[..7], "refused 75\n");
            }
        }
    }
    for version in [[0, 0], [0, 2], [1, 0], [1, 1]] {
        let mut changed = batch.clone();
        changed[3..5].copy_from_slice(&version);
        list.exact(3, &changed, "refused 75\n");
    }
    for count in [0, 1, 3, 4, 255, 256, 258, 512, 513, 65_535_u16] {
        let mut changed = batch.clone();
        changed[5..7].copy_from_slice(&count.to_be_bytes());
        let lines = match count {
            0 => "",
            1 => FIRST,
            _ => BOTH,
        };
        for size in [0, 1, 5, 6, 7, 8] {
            list.exact(size, &changed, &format!("{lines}refused 75\n"));
        }
    }
}

/// Bytes left after the last entry: one, many, a whole further entry, a whole further batch.
fn left(list: &mut List) {
    let batch = document_batch();
    let none = bytes_of::<Vec<u8>>(&[]);
    let entry = &bytes_of(&[r1()])[7..];
    for (batch, lines) in [(&batch, BOTH), (&none, "")] {
        let wanted = format!("{lines}refused 75\n");
        for more in [
            &[0x00][..],
            &[0x0A],
            &[0xFF],
            &[0x00; 4],
            entry,
            &none,
            &batch[..],
        ] {
            let longer = [&batch[..], more].concat();
            list.exact(0, &longer, &wanted);
            list.exact(1, &longer, &wanted);
            list.exact(batch.len(), &longer, &wanted);
        }
        list.exact(0, &[&batch[..], &[0x00; 5000]].concat(), &wanted);
    }
}

/// Rules and plans of no bytes.
fn empty(list: &mut List) {
    let (rule, plan) = r1();
    let no_rule: Entry = (Vec::new(), plan);
    let no_plan: Entry = (rule, Vec::new());
    let neither: Entry = (Vec::new(), Vec::new());
    list.refused(&neither);
    list.refused(&no_rule);
    list.refused(&no_plan);
    let mixed = [
        no_plan.clone(),
        r1(),
        no_rule.clone(),
        neither.clone(),
        r1(),
    ];
    list.entries(&mixed, "total 2 3 66 48 18");
    let batch = bytes_of(&[no_plan, neither, no_rule]);
    for end in 0..batch.len() {
        list.ends(1, &batch[..end], "refused 75");
    }
    list.exact(
        0,
        &batch,
        "refused 20\nrefused 1 0\nrefused 1 0\ntotal 0 3 0 0 0\n",
    );
}

/// Every number that an entry can be refused by, between accepted ones and all in one.
fn refusals(list: &mut List) {
    let mut random = Random::new(16);
    let (mut all, mut turned) = (Vec::new(), Vec::new());
    for number in NUMBERS {
        let most = if number == 10 { 1500 } else { 200 };
        let [one, other] = [(); 2].map(|()| batches::refused(&mut random, BEFORE, number, most));
        list.refused(&one);
        let mixed = [r1(), one.clone(), r1(), other.clone()];
        list.entries(&mixed, "total 2 2 66 48 18");
        all.extend([one, r1()]);
        turned.insert(0, other);
    }
    list.entries(&all, "total 23 23 759 552 207");
    list.entries(&turned, "total 0 23 0 0 0");
}

/// Rules at their limit, over it, and as long as their length can say.
fn rule_sizes(list: &mut List) {
    let small = unjoined(&padded_rule(8));
    for length in [255, 256, 257, 511, 512, RULE_BYTES_MAX - 1, RULE_BYTES_MAX] {
        let entry = unjoined(&padded_rule(length));
        list.entries(&[small.clone(), entry, small.clone()], "total 3 0 0 0 0");
    }
    // The first 4,096 bytes alone would be accepted.
    for length in [RULE_BYTES_MAX + 1, RULE_BYTES_MAX + 2, 8192, MOST] {
        let mut entry = unjoined(&padded_rule(RULE_BYTES_MAX));
        entry.0.resize(length, 0x00);
        list.entries(&[r1(), entry, r1()], "total 2 1 66 48 18");
    }
}

/// Plans at their limit, where none is accepted any more, over it, and as long as their length can say; then both parts
/// over their limits.
fn plan_sizes(list: &mut List) {
    for (length, line) in [
        (255, "refused 23\n"),
        (256, "refused 23\n"),
        (257, "refused 23\n"),
        (PLAN_BYTES_MAX - 1, "refused 23\n"),
        (PLAN_BYTES_MAX, "refused 23\n"),
        (PLAN_BYTES_MAX + 1, "refused 20\n"),
        (PLAN_BYTES_MAX + 2, "refused 20\n"),
        (4096, "refused 20\n"),
        (4097, "refused 20\n"),
        (MOST, "refused 20\n"),
    ] {
        let entry = (R1.to_vec(), padded_plan(length));
        let alone = bytes_of(std::slice::from_ref(&entry));
        list.exact(0, &alone, &format!("{line}total 0 1 0 0 0\n"));
        if length < MOST {
            list.entries(&[r1(), entry, r1()], "total 2 1 66 48 18");
        }
    }
    let rule = padded_rule(RULE_BYTES_MAX + 1);
    let plan = padded_plan(PLAN_BYTES_MAX + 1);
    list.entries(&[(rule, plan), r1()], "total 1 1 33 24 9");
}

/// Parts that are skipped between entries that are not, in pieces of several sizes, and cut at every boundary, beside it and
/// in the midst of them; both as long as their lengths can say.
fn skipped(list: &mut List) {
    let rule = (padded_rule(5000), P1.to_vec());
    let plan = (R1.to_vec(), padded_plan(1500));
    let batch = bytes_of(&[r1(), rule, r1(), plan, r1()]);
    let lines = format!("{FIRST}refused 1 0\n{FIRST}refused 20\n{FIRST}");
    for size in [0, 1, 64, 1000, 1024, 4096] {
        list.exact(size, &batch, &format!("{lines}total 3 2 99 72 27\n"));
    }
    let mut ends = vec![56 + 4096, 56 + 4097, batch.len() - 1000];
    for boundary in boundaries(&batch) {
        ends.extend(boundary - 1..=boundary + 1);
    }
    for end in ends.into_iter().filter(|&end| end < batch.len()) {
        list.ends(0, &batch[..end], "refused 75");
    }
    let longest = (padded_rule(MOST), padded_plan(MOST));
    let batch = bytes_of(&[longest, r1()]);
    list.exact(
        0,
        &batch,
        &format!("refused 1 0\n{FIRST}total 1 1 33 24 9\n"),
    );
}

/// A refused rule goes before its plan, whatever that is.
fn rule_first(list: &mut List) {
    let cut = &R1[..R1.len() - 1];
    let long = padded_rule(RULE_BYTES_MAX + 1);
    let plans = [
        Vec::new(),
        P1.to_vec(),
        P1[..8].to_vec(),
        padded_plan(PLAN_BYTES_MAX),
        padded_plan(PLAN_BYTES_MAX + 1),
        vec![0x00; 2000],
        R1.to_vec(),
    ];
    for (rule, line) in [
        (&[][..], "refused 1 0\n"),
        (&R1[..5], "refused 1 0\n"),
        (&long, "refused 1 0\n"),
        (cut, "refused 4 28\n"),
        (&P1, "refused 2 0\n"),
    ] {
        for plan in &plans {
            let batch = bytes_of(&[(rule.to_vec(), plan.clone()), r1()]);
            list.exact(0, &batch, &format!("{line}{FIRST}total 1 1 33 24 9\n"));
        }
    }
}

/// What is saved, of an entry and of the total; costs beyond two bytes. Before C-18 pairs of ands cost more joined than apart,
/// so that what was saved was also 0 and below it: see `equal`.
fn savings(list: &mut List) {
    let times = |entry: Entry, count: usize| vec![entry; count];
    list.entries(&[ands(1)], "total 1 0 5 4 1");
    list.entries(&[ands(2)], "total 1 0 10 8 2");
    list.entries(&[r1(), ands(1)], "total 2 0 38 28 10");
    list.entries(&[ands(1), r1(), r1()], "total 3 0 71 52 19");
    list.entries(&[r1(), r1(), ands(1), unjoined(&R1)], "total 4 0 104 85 19");
    list.entries(&[unjoined(&R1)], "total 1 0 33 33 0");
    let zero = [times(r1(), 9), times(ands(1), 5)].concat();
    list.entries(&zero, "total 14 0 322 236 86");
    let refused: Entry = (R1[..28].to_vec(), P1.to_vec());
    let mixed = [vec![refused.clone()], times(ands(1), 3), vec![refused]].concat();
    list.entries(&mixed, "total 3 2 15 12 3");
    list.entries(&[joined()], "total 1 0 86 46 40");
    list.ends(0, &bytes_of(&entries::costly(7)), "total 7 0 71120 71120 0");
    list.ends(
        0,
        &bytes_of(&entries::costly(13)),
        "total 13 0 132080 132080 0",
    );
}

/// As many entries as need both bytes of the count.
fn many(list: &mut List) {
    for count in [254, 255, 256, 257, 512] {
        let batch = bytes_of(&vec![(Vec::<u8>::new(), Vec::<u8>::new()); count]);
        list.ends(0, &batch, &format!("total 0 {count} 0 0 0"));
        list.ends(3, &batch[..batch.len() - 4], "refused 75");
    }
    let batch = bytes_of(&vec![r1(); 260]);
    list.ends(100, &batch, "total 260 0 8580 6240 2340");
}

/// Pieces that end at every boundary of some batches, one byte before it and one after it.
fn at_boundaries(list: &mut List, random: &mut Random) {
    for count in [1, 1, 2, 2, 3, 3] {
        let entries: Vec<Entry> = (0..count)
            .map(|_| batches::entry(random, BEFORE, 150))
            .collect();
        let batch = bytes_of(&entries);
        for boundary in boundaries(&batch) {
            for size in boundary - 1..=boundary + 1 {
                list.cases.push(Case::new(size, &batch));
                // The batch ends where a piece does, or just after it.
                list.cases
                    .push(Case::new(boundary, &batch[..size.min(batch.len())]));
            }
        }
    }
}

/// Random batches, whole and damaged, in pieces of any size.
fn any(list: &mut List, random: &mut Random, words: Words, batches: usize) {
    for _ in 0..batches {
        let count = random.below(13);
        let most = random.pick(&[60, 150, 150, 400, 1000]);
        let batch = batches::batch(random, words, count, most);
        let size = piece_size(random, &batch);
        list.cases.push(Case::new(size, &batch));
    }
}

/// C-17: entries at the limits of conditions and ifs, and just over them, then refused and accepted ones of random rules.
fn eight(list: &mut List) {
    for (entry, line) in at_limits() {
        let alone = bytes_of(std::slice::from_ref(&entry));
        for size in SIZES {
            let report = String::from_utf8(report(&alone)).expect("a report");
            assert_eq!(report.lines().next(), Some(line));
            list.cases.push(Case::new(size, &alone));
        }
        let mixed = bytes_of(&[r1(), entry, r1()]);
        for boundary in boundaries(&mixed) {
            list.cases.push(Case::new(boundary, &mixed));
            list.cases.push(Case::new(3, &mixed[..boundary]));
        }
    }
    let all: Vec<Entry> = at_limits().into_iter().map(|(entry, _)| entry).collect();
    list.entries(&all, "total 7 4 426 240 186");
    let mut random = Random::new(17);
    for number in [8, 11] {
        for _ in 0..6 {
            let entry = batches::refused(&mut random, Words::BEFORE_EQUAL, number, 400);
            list.refused(&entry);
            list.entries(&[r1(), entry, r1()], "total 2 1 66 48 18");
        }
    }
    any(list, &mut random, Words::BEFORE_EQUAL, 60);
}

/// Entries at the limits that C-17 moved, and the lines that they print.
fn at_limits() -> Vec<(Entry, &'static str)> {
    vec![
        (unjoined(&conditions(6)), "accepted 13 13 18 18"),
        (unjoined(&conditions(7)), "accepted 15 15 21 21"),
        (unjoined(&conditions(8)), "accepted 17 17 24 24"),
        (unjoined(&conditions(9)), "refused 11 98"),
        (unjoined(&conditions(10)), "refused 11 108"),
        (unjoined(&nested(7)), "accepted 9 9 21 21"),
        (unjoined(&nested(8)), "accepted 10 10 24 24"),
        (unjoined(&nested(9)), "refused 8 39"),
        (unjoined(&nested(10)), "refused 8 39"),
        (eight_joined(), "accepted 36 38 159 66"),
        (eight_joined(), "accepted 36 38 159 66"),
    ]
}

/// C-18: for every costly operation a pair with no pick, one at either place, and both; what is saved above 0, 0 and below it,
/// of an entry and of the total; then random ones.
fn equal(list: &mut List) {
    for (entry, line) in by_picks() {
        let alone = bytes_of(std::slice::from_ref(&entry));
        for size in SIZES {
            let report = String::from_utf8(report(&alone)).expect("a report");
            assert_eq!(report.lines().next(), Some(&line[..]));
            list.cases.push(Case::new(size, &alone));
        }
        let mixed = bytes_of(&[r1(), entry, unjoined(&R1)]);
        list.cases.push(Case::new(0, &mixed));
        list.cases.push(Case::new(5, &mixed[..mixed.len() - 1]));
    }
    let all: Vec<Entry> = by_picks().into_iter().map(|(entry, _)| entry).collect();
    // The five operations cost 77. Four times each twice and a choice; then four times once and a choice, and guards of 2
    // with picks of 4, 4 and 8, and for less of 8 once more.
    list.entries(&all, "total 20 0 676 488 188");
    let times = |entry: Entry, count: usize| vec![entry; count];
    let lost = || two_picks(AND);
    list.entries(&[lost()], "total 1 0 5 14 -9");
    list.entries(&[one_pick(AND)], "total 1 0 5 10 -5");
    list.entries(&[r1(), lost()], "total 2 0 38 38 0");
    list.entries(&[lost(), ands(1)], "total 2 0 10 18 -8");
    list.entries(&[lost(), r1(), ands(1)], "total 3 0 43 42 1");
    list.entries(&[one_pick(AND), r1(), lost()], "total 3 0 43 48 -5");
    list.entries(
        &[times(ands(1), 9), times(lost(), 1)].concat(),
        "total 10 0 50 50 0",
    );
    list.entries(
        &[times(ands(1), 9), times(lost(), 2)].concat(),
        "total 11 0 55 64 -9",
    );
    let refused: Entry = (R1[..28].to_vec(), P1.to_vec());
    let mixed = [vec![refused.clone()], times(lost(), 3), vec![refused]].concat();
    list.entries(&mixed, "total 3 2 15 42 -27");
    any(list, &mut Random::new(18), Words::ALL, 80);
}

/// A pair of every costly operation with no pick, one at the first place, one at the second, and both; and their lines.
fn by_picks() -> Vec<(Entry, String)> {
    let mut all = Vec::new();
    for row in costly() {
        // Two gates joined, and a choice.
        let (before, least) = (2 * row.cost + 3, row.cost + 3);
        let code = row.code;
        for (entry, picks) in [
            (pairs(code, 1), 0),
            (entries::pair(code, [1, 2], [2, 2]), 1),
            (one_pick(code), 1),
            (two_picks(code), 2),
        ] {
            let guards = if picks == 0 { 0 } else { 2 };
            let (wires, after) = (6 + guards + picks, least + guards + 4 * picks);
            // Of less the pair of no pick is written in two orders, and both places differ.
            let line = match (code, picks) {
                (LESS, 0) => "accepted 7 10 83 53".to_string(),
                _ => format!("accepted 7 {wires} {before} {after}"),
            };
            all.push((entry, line));
        }
    }
    all
}

/// A whole batch of some 300 entries of every sort, in no order; behind them those of C-17, then those of C-18.
pub fn month() -> Vec<u8> {
    let mut random = Random::new(1016);
    let mut all: Vec<Entry> = Vec::new();
    for number in NUMBERS {
        let most = if number == 10 { 1500 } else { 300 };
        all.extend((0..4).map(|_| batches::refused(&mut random, BEFORE, number, most)));
    }
    for most in [100, 300, 1000, 5000] {
        all.extend((0..35).map(|_| batches::accepted(&mut random, BEFORE, most)));
    }
    let [at, over] =
        [RULE_BYTES_MAX, RULE_BYTES_MAX + 1].map(|length| unjoined(&padded_rule(length)));
    all.extend([at, over, unjoined(&padded_rule(MOST))]);
    for length in [PLAN_BYTES_MAX, PLAN_BYTES_MAX + 1, MOST] {
        all.push((R1.to_vec(), padded_plan(length)));
        all.push((R1[..28].to_vec(), padded_plan(length)));
    }
    for _ in 0..6 {
        all.extend([r1(), unjoined(&R1), ands(1), ands(2), joined()]);
        all.extend([(Vec::new(), Vec::new()), (R1.to_vec(), Vec::new())]);
    }
    all.extend(entries::costly(4));
    for last in (1..all.len()).rev() {
        all.swap(last, random.below(last + 1));
    }
    all.extend(at_limits().into_iter().map(|(entry, _)| entry));
    for number in [8, 8, 11, 11] {
        all.push(batches::refused(
            &mut random,
            Words::BEFORE_EQUAL,
            number,
            300,
        ));
    }
    all.extend(by_picks().into_iter().map(|(entry, _)| entry));
    for most in [200, 400, 1000, 5000] {
        all.extend((0..6).map(|_| batches::accepted(&mut random, Words::ALL, most)));
    }
    bytes_of(&all)
}
