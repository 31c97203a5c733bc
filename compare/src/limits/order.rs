//! Inputs, result places and the lent buffer, and that rule comes before plan, plan before these.

use super::reading::{conditions, deep, gates, nested};
use super::{inputs, plan, List};
use crate::circuit::read_rule;
use crate::examples::{P1, R1, R2, R7, R8};
use crate::good::good_bytes;
use crate::law::*;

pub fn add(list: &mut List) {
    inputs_and_places(list);
    rooms(list);
    plan_first(list);
    rule_first(list);
}

fn inputs_and_places(list: &mut List) {
    let plans = [
        (R1.to_vec(), P1.to_vec()),
        (R2.to_vec(), plan(11, &[&[5, 6]])),
        (R7.to_vec(), plan(4, &[])),
        (good_bytes(), plan(read_rule(&good_bytes()).gates, &[])),
    ];
    for (rule, plan) in plans {
        let good = inputs(&rule, 3);
        let count = good.len();
        let bits: Vec<usize> = crate::rule::read(&rule)
            .expect("a good rule")
            .kinds()
            .iter()
            .enumerate()
            .filter_map(|(place, &kind)| (kind == Kind::Bit).then_some(place))
            .collect();
        let mut run = |inputs: &[u32], room: usize, wanted: u8| {
            list.direct(&rule, inputs, room, wanted);
            list.fused(&rule, &plan, inputs, room, wanted);
        };
        for room in [count, count + 1, count + 3, 255] {
            run(&good, room, 0);
        }
        for room in [0, count - 1] {
            run(&good, room, 42);
        }
        let fewer = &good[..count - 1];
        let mut more = good.clone();
        more.push(0);
        let mut most = good.clone();
        most.resize(255, 0);
        for other in [&[][..], fewer, &more, &most] {
            // 40 before 42, whatever the places.
            for room in [0, count - 1, count, other.len()] {
                run(other, room, 40);
            }
        }
        for place in bits {
            for figure in [2, 3, 256, 1 << 31, u32::MAX] {
                let mut bad = good.clone();
                bad[place] = figure;
                run(&bad, count, 41);
                // 41 before 42, 40 before 41.
                run(&bad, count - 1, 41);
                bad.push(2);
                run(&bad, count, 40);
            }
        }
    }
}

fn rooms(list: &mut List) {
    for (rule, plan) in [
        (R1.to_vec(), P1.to_vec()),
        (R1.to_vec(), plan(6, &[])),
        (R2.to_vec(), plan(11, &[&[4, 7]])),
        (R8.to_vec(), plan(11, &[])),
        (deep(8), plan(8, &[])),
        (gates(256), plan(256, &[])),
        (good_bytes(), plan(read_rule(&good_bytes()).gates, &[])),
    ] {
        let length = list.length(&rule, &plan);
        for room in [length, length + 1, length + 3, CIRCUIT_BYTES_MAX, 65_535] {
            list.write(&rule, &plan, room, 0);
        }
        for room in [0, 1, 7, 8, length / 2, length - 2, length - 1] {
            list.write(&rule, &plan, room, 50);
        }
    }
}

/// Plans of every row from 20 on that R1 or R2 refuses, with refused inputs, places and rooms.
fn plan_first(list: &mut List) {
    let r1 = R1.to_vec();
    let r2 = R2.to_vec();
    for (rule, plan, wanted) in [
        (&r1, P1[..8].to_vec(), 20),
        (&r1, Vec::new(), 20),
        (&r1, R1.to_vec(), 21),
        (&r1, plan(7, &[&[3, 4]]), 22),
        (&r1, P1[..13].to_vec(), 23),
        (&r1, plan(6, &[&[3]]), 24),
        (&r1, plan(6, &[&[4, 3]]), 25),
        (&r1, plan(6, &[&[3, 4], &[3, 4]]), 26),
        (&r1, plan(6, &[&[3, 5]]), 27),
        (&r2, plan(11, &[&[4, 6]]), 28),
        // Groups in another order.
        (&r2, plan(11, &[&[5, 6], &[4, 7]]), 30),
        (&R8.to_vec(), plan(11, &[&[5, 9]]), 29),
    ] {
        match wanted {
            30 => list.turned(|list| list.before_others(rule, &plan, wanted)),
            _ => list.before_others(rule, &plan, wanted),
        }
    }
}

impl List {
    /// A refused plan with refused inputs, places and rooms.
    #[track_caller]
    pub(super) fn before_others(&mut self, rule: &[u8], plan: &[u8], wanted: u8) {
        let good = inputs(rule, 1);
        let mut over = good.clone();
        over[0] = u32::MAX;
        self.fused(rule, plan, &good, good.len() - 1, wanted);
        self.fused(rule, plan, &good[1..], good.len(), wanted);
        self.fused(rule, plan, &over, good.len(), wanted);
        self.fused(rule, plan, &[], 0, wanted);
        for room in [0, 1, 40, 65_535] {
            self.write(rule, plan, room, wanted);
        }
    }
}

fn rule_first(list: &mut List) {
    let changed = |place: usize, byte: u8| {
        let mut bytes = R1.to_vec();
        bytes[place] = byte;
        bytes
    };
    let mut more = R1.to_vec();
    more.push(0x00);
    for (rule, wanted) in [
        (Vec::new(), 1),
        (R1[..5].to_vec(), 1),
        (changed(2, 0x4D), 2),
        (P1.to_vec(), 2),
        (changed(5, 0x00), 3),
        // v2 a working word (C-13): the one rule here that is accepted.
        (changed(8, 0x02), 0),
        (R1[..28].to_vec(), 4),
        (changed(14, 0x28), 5),
        (changed(9, 0x04), 5),
        (changed(11, 0x03), 6),
        (changed(13, 0x20), 6),
        (changed(11, 0x01), 7),
        (changed(14, 0x23), 7),
        (deep(9), 8),
        // Before C-17 they were 8 and 11.
        (nested(7), 22),
        (more, 9),
        (gates(257), 10),
        (conditions(7), 22),
    ] {
        any_plans(list, &rule, wanted);
    }
}

/// A rule that is refused by this number whatever comes after it, or an accepted one like R1, or, for 22, of another gate
/// count, with several plans.
fn any_plans(list: &mut List, rule: &[u8], wanted: u8) {
    let numbers = match wanted {
        0 => [[20; 5], [23; 5], [0, 50, 0, 40, 41], [21; 5]],
        22 => [[20; 5], [22; 5], [22; 5], [21; 5]],
        _ => [[wanted; 5]; 4],
    };
    let plans = [&[][..], &P1[..9], &P1, &R1];
    for (plan, [checked, no_room, room, no_inputs, over]) in plans.into_iter().zip(numbers) {
        list.check(rule, plan, checked);
        list.write(rule, plan, 0, no_room);
        list.write(rule, plan, 80, room);
        list.fused(rule, plan, &[], 0, no_inputs);
        list.fused(rule, plan, &[2, 6, 7], 3, over);
    }
}
