//! 32 beside the other rows of a plan: after 20 to 26 and before 27 to 30, wherever in the file each fault stands.

use super::super::large::comparisons;
use super::super::rows::{broken, every, pair, spoiled};
use super::super::{plan, List};
use super::orders;
use crate::generate::group_order::sort;
use crate::law::*;

pub fn add(list: &mut List) {
    each_row(list);
    all_rows(list);
    gate_twice(list);
    smallest_twice(list);
}

/// The groups of `every` that break a row, and two good pairs, in order.
fn with_good(row: u8) -> Vec<Vec<usize>> {
    let mut groups = broken(row);
    let good = [AND, OR, LESS].map(pair);
    let apart = |group: &&Vec<usize>| !broken(row).concat().contains(&group[0]);
    groups.extend(good.iter().filter(apart).take(2).cloned());
    sort(&mut groups);
    groups
}

/// Each row by itself, with two good pairs, in every order.
fn each_row(list: &mut List) {
    let rule = every();
    for row in 20..=30 {
        let groups = with_good(row);
        for order in orders(groups.len()) {
            let wanted = match row {
                27.. if !order.is_sorted() => 32,
                _ => row,
            };
            let groups: Vec<Vec<usize>> = order.iter().map(|&g| groups[g].clone()).collect();
            list.with_plan(&rule, &spoiled(&[row], &groups), wanted);
        }
    }
}

/// All rows from one on, in order, then with two neighbours exchanged.
fn all_rows(list: &mut List) {
    let rule = every();
    for row in 27..=30 {
        let mut groups = vec![pair(AND), pair(OR)];
        groups.extend((row..=30).flat_map(broken));
        sort(&mut groups);
        list.with_plan(&rule, &spoiled(&[], &groups), row);
        for place in 1..groups.len() {
            groups.swap(place - 1, place);
            list.with_plan(&rule, &spoiled(&[], &groups), 32);
            groups.swap(place - 1, place);
        }
    }
}

/// A gate in two groups before the fall, at it and after it: 26. Without the gate 32, without the fall 26.
fn gate_twice(list: &mut List) {
    let rule = comparisons(10);
    for (groups, wanted) in [
        (&[&[1, 2][..], &[2, 3], &[7, 8], &[5, 6]][..], 26),
        (&[&[1, 2], &[3, 4], &[7, 8], &[5, 6]], 32),
        (&[&[1, 2], &[2, 3], &[5, 6], &[7, 8]], 26),
        (&[&[1, 2], &[7, 8], &[5, 7]], 26),
        (&[&[1, 2], &[7, 8], &[5, 8]], 26),
        (&[&[1, 2], &[7, 8], &[5, 6]], 32),
        (&[&[1, 2], &[5, 7], &[7, 8]], 26),
        (&[&[3, 4], &[1, 2], &[5, 6], &[6, 7]], 26),
        (&[&[3, 4], &[1, 2], &[5, 6], &[7, 8]], 32),
        (&[&[1, 2], &[3, 4], &[5, 6], &[6, 7]], 26),
        // Far from each other, the fall between them.
        (&[&[1, 2], &[7, 8], &[5, 6], &[2, 9]], 26),
        (&[&[7, 8], &[5, 6], &[3, 4], &[1, 8]], 26),
        (&[&[7, 8], &[5, 6], &[3, 4], &[1, 9]], 32),
    ] {
        list.with_plan(&rule, &plan(10, groups), wanted);
    }
}

/// Two equal smallest members are a gate in two groups: 26, in order otherwise or not.
fn smallest_twice(list: &mut List) {
    let rule = comparisons(10);
    for groups in [
        &[&[1, 2][..], &[1, 3]][..],
        &[&[1, 3], &[1, 2]],
        &[&[1, 2], &[1, 2]],
        &[&[8, 9], &[8, 9]],
        &[&[1, 9], &[1, 5], &[1, 3]],
        &[&[1, 2], &[3, 4], &[3, 5]],
        &[&[1, 2], &[1, 5], &[3, 4]],
        &[&[1, 2], &[3, 4], &[1, 5]],
        &[&[3, 4], &[1, 2], &[3, 5]],
        &[&[3, 4], &[1, 2], &[1, 5]],
    ] {
        list.with_plan(&rule, &plan(10, groups), 26);
    }
}
