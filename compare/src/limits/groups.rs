//! C-15: groups stand in rising order of their smallest member; 32 comes after 26 and before 27. The number beside
//! each case is that of documents 01 and 02.

mod beside;

use super::large::{comparisons, GROUPS_MAX};
use super::parts::costly;
use super::rows::twice;
use super::{plan, List};
use crate::circuit::read_rule;
use crate::law::*;

pub fn add(list: &mut List) {
    list.family = "groups";
    few(list);
    shapes(list);
    one_exchange(list);
    each_costly(list);
    largest(list);
    list.family = "beside";
    beside::add(list);
}

/// All orders of so many, the first of them rising.
fn orders(count: usize) -> Vec<Vec<usize>> {
    let Some(last) = count.checked_sub(1) else {
        return vec![Vec::new()];
    };
    let mut all = Vec::new();
    for place in (0..count).rev() {
        for mut order in orders(last) {
            order.insert(place, last);
            all.push(order);
        }
    }
    all
}

/// The groups in another order.
fn taken<'a>(groups: &[&'a [usize]], order: &[usize]) -> Vec<&'a [usize]> {
    order.iter().map(|&place| groups[place]).collect()
}

impl List {
    /// Groups that are given in order and accepted so: 32 in every other order.
    #[track_caller]
    fn every_order(&mut self, rule: &[u8], groups: &[&[usize]], turns: &[usize]) {
        let gates = read_rule(rule).gates;
        self.accepted(rule, &plan(gates, groups), turns);
        for order in orders(groups.len()).split_off(1) {
            self.with_plan(rule, &plan(gates, &taken(groups, &order)), 32);
        }
    }
}

/// No group and one group are in order; two, three and four in one order alone.
fn few(list: &mut List) {
    let rule = comparisons(10);
    list.rule(&rule, &[0]);
    list.every_order(&rule, &[], &[0, 1]);
    for group in [&[1, 2][..], &[8, 9], &[1, 9], &[2, 4, 6], &[5, 6, 7, 8, 9]] {
        list.every_order(&rule, &[group], &[0]);
    }
    let pairs: [&[usize]; 4] = [&[1, 2], &[3, 4], &[5, 6], &[7, 8]];
    for count in 2..=4 {
        list.every_order(&rule, &pairs[..count], &[0, 1]);
    }
}

/// Only the smallest members count: not the largest, not how many, not whether groups lie apart.
fn shapes(list: &mut List) {
    let rule = comparisons(10);
    for groups in [
        // One reaches past the other, or around it.
        &[&[1, 9][..], &[3, 5]][..],
        &[&[1, 5], &[3, 9]],
        &[&[1, 3], &[2, 4]],
        &[&[1, 4], &[2, 3]],
        // Nested; in turns; the others fall where the smallest rise.
        &[&[1, 9], &[2, 8], &[3, 7]],
        &[&[1, 4, 7], &[2, 5, 8], &[3, 6, 9]],
        &[&[1, 8, 9], &[2, 6, 7], &[3, 4, 5]],
        // Large and small ones.
        &[&[1, 2, 3, 4, 5, 6, 7], &[8, 9]],
        &[&[1, 2], &[3, 4, 5, 6, 7, 8, 9]],
        &[&[1, 7], &[2, 3, 4, 5, 6], &[8, 9]],
        // Gates alone before, between and after.
        &[&[3, 4], &[7, 8]],
        &[&[2, 9], &[4, 5], &[6, 7]],
    ] {
        list.every_order(&rule, groups, &[0]);
    }
}

/// Five pairs of which just two, next to each other or apart, have changed places; and one put elsewhere.
fn one_exchange(list: &mut List) {
    let rule = comparisons(11);
    let pairs: [&[usize]; 5] = [&[1, 2], &[3, 4], &[5, 6], &[7, 8], &[9, 10]];
    list.accepted(&rule, &plan(11, &pairs), &[0]);
    for one in 0..pairs.len() {
        for other in one + 1..pairs.len() {
            let mut groups = pairs;
            groups.swap(one, other);
            list.with_plan(&rule, &plan(11, &groups), 32);
            groups = pairs;
            groups[one..=other].rotate_left(1);
            list.with_plan(&rule, &plan(11, &groups), 32);
            groups = pairs;
            groups[one..=other].rotate_right(1);
            list.with_plan(&rule, &plan(11, &groups), 32);
        }
    }
}

/// Needed groups of every costly operation, with results and, where then more can be joined, with working variables.
fn each_costly(list: &mut List) {
    for row in costly() {
        let rule = twice(row);
        list.every_order(&rule, &[&[4, 6], &[5, 7]], &[0, 1, 2, 3]);
        list.every_order(&rule, &[&[4, 7], &[5, 6]], &[0, 1, 2, 3]);
        let mut working = rule.clone();
        for kind_byte in &mut working[RULE_BYTES_MIN..][..4] {
            *kind_byte += 2;
        }
        list.every_order(&working, &[&[4, 5], &[6, 7]], &[0, 1, 2, 3]);
        list.with_plan(&rule, &plan(10, &[&[4, 5], &[6, 7]]), 29);
        list.with_plan(&rule, &plan(10, &[&[6, 7], &[4, 5]]), 32);
        // 32 before 40, 41, 42 and 50, and after all of the rule.
        let turned = plan(10, &[&[5, 7], &[4, 6]]);
        list.before_others(&rule, &turned, 32);
        list.with_plan(&rule[..rule.len() - 1], &turned, 4);
    }
}

/// The largest plan that is accepted: 127 groups, 255 members, 646 bytes. In order, against it, and with one exchange at
/// each place.
fn largest(list: &mut List) {
    let rule = comparisons(GATES_MAX);
    let every: Vec<usize> = (1..GATES_MAX).collect();
    let (pairs, three) = every.split_at(2 * (GROUPS_MAX - 1));
    let mut groups: Vec<&[usize]> = pairs.chunks(2).collect();
    groups.push(three);
    let in_order = plan(GATES_MAX, &groups);
    assert_eq!((groups.len(), in_order.len()), (GROUPS_MAX, 646));
    list.accepted(&rule, &in_order, &[0, 1]);
    for place in 1..GROUPS_MAX {
        let mut other = groups.clone();
        other.swap(place - 1, place);
        let other = plan(GATES_MAX, &other);
        match place {
            1 | 64 | 126 => list.with_plan(&rule, &other, 32),
            _ => list.check(&rule, &other, 32),
        }
    }
    let mut other = groups.clone();
    other.swap(0, GROUPS_MAX - 1);
    list.with_plan(&rule, &plan(GATES_MAX, &other), 32);
    for by in [1, 64, 126] {
        let mut other = groups.clone();
        other.rotate_left(by);
        list.with_plan(&rule, &plan(GATES_MAX, &other), 32);
    }
    groups.reverse();
    list.with_plan(&rule, &plan(GATES_MAX, &groups), 32);
    // The first group once more, at the end.
    groups.reverse();
    groups.push(&every[..2]);
    list.with_plan(&rule, &plan(GATES_MAX, &groups), 26);
    groups.reverse();
    list.with_plan(&rule, &plan(GATES_MAX, &groups), 26);
}
