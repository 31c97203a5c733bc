//! Plans whose answer moves with the kinds: the same block and the same plan, refused where variables are results and
//! accepted where they work, or the other way round.

use super::super::parts::{costly, not, rule, set, two, var, when, word};
use super::super::rows::twice;
use super::super::{plan, List};
use super::Subject;
use crate::examples::{R2, R7, R8};
use crate::law::*;
use crate::rule::{Block, Expression};

pub fn add(list: &mut List) {
    example_7(list);
    example_8(list);
    example_6(list);
    each_costly(list);
    needed_less(list);
    rests_on_more(list);
    many_groups(list);
}

impl List {
    /// The subject with working variables, and what its plan comes to.
    #[track_caller]
    fn planned(&mut self, subject: &Subject, plan: &[u8], wanted: u8) {
        self.taken(subject);
        match wanted {
            0 => self.taken_with(subject, plan),
            _ => self.with_plan(&subject.rule, plan, wanted),
        }
    }
}

/// A wait inside one group stays a circle: nothing needed its products before either.
fn example_7(list: &mut List) {
    let subject = Subject::new(R7.to_vec(), &[(&[3], &[7])]);
    for subject in [subject.all_working(), subject] {
        list.planned(&subject, &plan(4, &[&[1, 2]]), 30);
        list.planned(&subject, &plan(4, &[]), 0);
    }
}

/// Products 5 and 9 exclude each other as soon as v1 or v2, which they are for, works.
fn example_8(list: &mut List) {
    let runs: [(&[u32], &[u32]); 3] = [
        (&[4, 10, 20], &[4, 16, 20]),
        (&[6, 10, 20], &[6, 10, 36]),
        (&[5, 10, 20], &[5, 10, 20]),
    ];
    let subject = Subject::new(R8.to_vec(), &runs);
    for mask in 0..8 {
        let wanted = if mask & 0b110 == 0 { 29 } else { 0 };
        list.planned(&subject.working(mask), &plan(11, &[&[5, 9]]), wanted);
    }
}

/// Both groups wait in a circle by gate 7's condition; where v1 works, nothing needs gate 7 and it rests on none.
fn example_6(list: &mut List) {
    let runs: [(&[u32], &[u32]); 4] = [
        (&[1, 3, 10, 0], &[1, 3, 10, 1]),
        (&[1, 4, 10, 1], &[1, 4, 10, 0]),
        (&[0, 3, 10, 1], &[0, 30, 10, 1]),
        (&[0, 10, 3, 0], &[0, 10, 3, 0]),
    ];
    let subject = Subject::new(R2.to_vec(), &runs);
    for mask in 0..16 {
        let subject = subject.working(mask);
        let wanted = if mask & 0b0010 == 0 { 30 } else { 0 };
        list.planned(&subject, &plan(11, &[&[4, 7], &[5, 6]]), wanted);
        list.turned(|list| list.planned(&subject, &plan(11, &[&[5, 6], &[4, 7]]), wanted));
        list.planned(&subject, &plan(11, &[&[4, 7]]), 0);
        list.planned(&subject, &plan(11, &[&[5, 6]]), 0);
    }
}

/// Every costly operation, in both blocks for v2 and for v3: gates of one block exclude each other where one of the
/// two works.
fn each_costly(list: &mut List) {
    for row in costly() {
        let (argument, figure) = match row.code {
            PRODUCT => (9, 81),
            LESS => (9, 0),
            EQUAL => (9, 1),
            _ => (1, 1),
        };
        let runs: [(&[u32], &[u32]); 2] = [
            (&[1, argument, 0, 1], &[1, argument, figure, figure]),
            (&[0, argument, 1, 0], &[0, argument, figure, figure]),
        ];
        let subject = Subject::new(twice(row), &runs);
        for mask in 0..16 {
            let subject = subject.working(mask);
            let wanted = if mask & 0b1100 == 0 { 29 } else { 0 };
            for group in [&[4, 5][..], &[6, 7], &[4, 5, 6, 7]] {
                list.planned(&subject, &plan(10, &[group]), wanted);
            }
            list.with_plan(&subject.rule, &plan(10, &[&[4, 8]]), 27);
        }
    }
}

/// v1 := v1 × v1; if v0 then v2 := v1 else v2 := v2 × v2. Its product 3 is needed always where v1 is a result, else
/// where v0 is 1, and excludes product 4.
fn needed_less(list: &mut List) {
    let square = |variable| set(variable, two(PRODUCT, var(variable), var(variable)));
    for condition in [var(0), not(var(0))] {
        let turned = condition != var(0);
        let gates = 6 + usize::from(turned);
        let pair = [3, gates - 2];
        let choice = when(condition, vec![set(2, var(1))], vec![square(2)]);
        let block = vec![square(1), choice];
        let [first, second] = if turned { [0, 1] } else { [1, 0] };
        let runs: [(&[u32], &[u32]); 2] = [
            (&[first, 3, 5], &[first, 9, 9]),
            (&[second, 3, 5], &[second, 9, 25]),
        ];
        let kinds = [Kind::Bit, Kind::Word, Kind::Word];
        let subject = Subject::new(rule(&kinds, block), &runs);
        for mask in 0..8 {
            // Where v2 works nothing needs product 4.
            let wanted = if mask & 0b110 == 0 { 29 } else { 0 };
            list.planned(&subject.working(mask), &plan(gates, &[&pair]), wanted);
        }
    }
}

/// The other way round. v1 := v1 × v1 (gate 4); v3 := v1 < v0 (5) and v2 := v0 × v0 (6), both stored over; if v0 < 5
/// (8) then v2 := v1. Where v1 works, gate 4 rests on the condition, which gate 6's group then waits for.
fn rests_on_more(list: &mut List) {
    let block: Block = vec![
        set(1, two(PRODUCT, var(1), var(1))),
        set(3, two(LESS, var(1), var(0))),
        set(2, two(PRODUCT, var(0), var(0))),
        set(2, var(0)),
        when(two(LESS, var(0), word(5)), vec![set(2, var(1))], vec![]),
        set(3, Expression::Bit(true)),
    ];
    let runs: [(&[u32], &[u32]); 2] = [
        (&[3, 4, 9, 0], &[3, 16, 16, 1]),
        (&[7, 4, 9, 0], &[7, 16, 7, 1]),
    ];
    let kinds = [Kind::Word, Kind::Word, Kind::Word, Kind::Bit];
    let subject = Subject::new(rule(&kinds, block), &runs);
    for mask in 0..16 {
        let subject = subject.working(mask);
        // It takes v2 to need gate 4 through the choice.
        let wanted = if mask & 0b0110 == 0b0010 { 30 } else { 0 };
        list.planned(&subject, &plan(11, &[&[4, 6], &[5, 8]]), wanted);
        list.planned(&subject, &plan(11, &[&[4, 6]]), 0);
        list.planned(&subject, &plan(11, &[&[5, 8]]), 0);
    }
}

/// 256 gates: 32 words, each squared seven times. If all work, the products of a turn can be joined, all of them
/// or by twos; turn by turn the groups wait for each other.
fn many_groups(list: &mut List) {
    let square = |turn: usize| set(turn % 32, two(PRODUCT, var(turn % 32), var(turn % 32)));
    let rule = rule(&[Kind::Word; 32], (0..224).map(square).collect());
    let subject = Subject::new(rule, &[(&[1; 32], &[1; 32]), (&[65_536; 32], &[0; 32])]);
    let gates: Vec<usize> = (32..GATES_MAX).collect();
    for size in [2, 16, 32] {
        let groups: Vec<&[usize]> = gates.chunks(size).collect();
        let joined = plan(GATES_MAX, &groups);
        list.planned(&subject, &joined, 29);
        list.planned(&subject.all_working(), &joined, 0);
        // All but the last, and all but the last two, which no longer exclude each other.
        list.planned(&subject.working(0x7FFF_FFFF), &joined, 0);
        list.planned(&subject.working(0x3FFF_FFFF), &joined, 29);
    }
    let across: Vec<&[usize]> = gates.chunks(48).collect();
    list.planned(&subject.all_working(), &plan(GATES_MAX, &across), 30);
}
