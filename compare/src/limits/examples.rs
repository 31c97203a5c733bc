//! Examples 1 to 10 of document 01.

use super::parts::{rule, set, two, var, when, word};
use super::reading::{conditions, deep, gates, nested, skips};
use super::{inputs, plan, List};
use crate::examples::{P1, R1, R2, R7, R8};
use crate::law::*;

pub fn add(list: &mut List) {
    one_to_three(list);
    four(list);
    five_to_eight(list);
    nine(list);
    ten(list);
}

fn one_to_three(list: &mut List) {
    list.read(&R1, 0);
    list.shown(&R1, 0);
    for (bit, wanted) in [(1, 0), (0, 0), (2, 41)] {
        let inputs = [bit, 6, 7];
        list.direct(&R1, &inputs, 3, wanted);
        list.fused(&R1, &P1, &inputs, 3, wanted);
        list.fused(&R1, &plan(6, &[]), &inputs, 3, wanted);
    }
    list.check(&R1, &P1, 0);
    // The rooms of before C-17: 76 bytes in version 1, and 124 in version 2.
    let rooms = [
        (76, 0),
        (75, 50),
        (77, 0),
        (CIRCUIT_BYTES_MAX, 0),
        (0, 50),
        (1, 50),
        (65_535, 0),
    ];
    for (room, wanted) in rooms {
        list.write(&R1, &P1, room, wanted);
    }
}

fn four(list: &mut List) {
    let mut more = R1.to_vec();
    more.push(0x00);
    list.refused_rule(&R1[..28], &P1, 4);
    list.refused_rule(&more, &P1, 9);
    for (place, byte, wanted) in [
        (11, 0x03, 6),
        (11, 0x01, 7),
        (14, 0x28, 5),
        (14, 0x23, 7),
        // The other rows of bytes, one byte of R1 each.
        (0, 0x50, 2),
        (4, 0x02, 2),
        (5, 0x00, 3),
        (5, 0x21, 3),
        // A working word (C-13) where the if wants a bit.
        (6, 0x02, 7),
    ] {
        let mut damaged = R1.to_vec();
        damaged[place] = byte;
        list.refused_rule(&damaged, &P1, wanted);
    }
    for size in 0..6 {
        list.refused_rule(&R1[..size], &P1, 1);
    }
    for size in 6..28 {
        list.refused_rule(&R1[..size], &P1, 4);
    }
}

fn five_to_eight(list: &mut List) {
    list.with_plan(&R1, &plan(6, &[&[3, 5]]), 27);

    let turns = [0, 1, 2, 3];
    list.rule(&R2, &turns);
    list.accepted(&R2, &plan(11, &[&[4, 7]]), &turns);
    list.accepted(&R2, &plan(11, &[&[5, 6]]), &turns);
    list.with_plan(&R2, &plan(11, &[&[4, 7], &[5, 6]]), 30);
    list.turned(|list| list.with_plan(&R2, &plan(11, &[&[5, 6], &[4, 7]]), 30));
    // Inputs on both sides of the inner comparison.
    for bit in [0, 1] {
        for (low, high) in [(2, 9), (9, 2), (9, 9), (65_536, u32::MAX)] {
            let inputs = [bit, low, high, 0];
            list.direct(&R2, &inputs, 4, 0);
            list.fused(&R2, &plan(11, &[&[4, 7]]), &inputs, 4, 0);
            list.fused(&R2, &plan(11, &[&[5, 6]]), &inputs, 4, 0);
        }
    }

    list.rule(&R7, &[0]);
    list.with_plan(&R7, &plan(4, &[&[1, 2]]), 30);

    list.rule(&R8, &[0]);
    list.with_plan(&R8, &plan(11, &[&[5, 9]]), 29);
    // Either comparison comes out so and so, whatever arithmetic ties.
    for figure in [0, 4, 5, 6, u32::MAX] {
        let inputs = [figure, 1, 2];
        list.direct(&R8, &inputs, 3, 0);
        list.fused(&R8, &plan(11, &[]), &inputs, 3, 0);
    }
}

fn nine(list: &mut List) {
    let figures = [
        (SUM, 4_294_967_295, 1),
        (DIFFERENCE, 0, 1),
        (PRODUCT, 65_536, 65_536),
    ];
    for (code, first, second) in figures {
        // From constants and from inputs.
        let constants = rule(
            &[Kind::Word],
            vec![set(0, two(code, word(first), word(second)))],
        );
        list.rule(&constants, &[0]);
        list.accepted(&constants, &plan(4, &[]), &[0]);
        let from = rule(&[Kind::Word; 2], vec![set(0, two(code, var(0), var(1)))]);
        list.rule(&from, &[0]);
        list.accepted(&from, &plan(3, &[]), &[0]);
        for inputs in [[first, second], [second, first], [first, first]] {
            list.direct(&from, &inputs, 2, 0);
            list.fused(&from, &plan(3, &[]), &inputs, 2, 0);
        }
    }
    // The product joined with another: gates 0 to 2, products 3 and 4, a choice.
    let joined = rule(
        &[Kind::Bit, Kind::Word, Kind::Word],
        vec![when(
            var(0),
            vec![set(1, two(PRODUCT, var(1), var(1)))],
            vec![set(1, two(PRODUCT, var(1), var(2)))],
        )],
    );
    for inputs in [[1, 65_536, 3], [0, 65_536, 65_536], [0, u32::MAX, u32::MAX]] {
        list.direct(&joined, &inputs, 3, 0);
        list.fused(&joined, &plan(6, &[&[3, 4]]), &inputs, 3, 0);
    }
}

fn ten(list: &mut List) {
    for accepted in [conditions(6), deep(8), nested(6), gates(256), skips(4096)] {
        list.rule(&accepted, &[0, 1]);
        let count = crate::circuit::read_rule(&accepted).gates;
        list.accepted(&accepted, &plan(count, &[]), &[0, 1]);
        let given = inputs(&accepted, 0);
        list.fused(&accepted, &plan(count, &[]), &given, 0, 42);
    }
    // Seven conditions were 11, ifs nested seven deep 8, before C-17.
    list.no_longer_refused(&conditions(7), &P1);
    list.refused_rule(&deep(9), &P1, 8);
    list.no_longer_refused(&nested(7), &P1);
    list.refused_rule(&gates(257), &P1, 10);
    list.refused_rule(&skips(4097), &P1, 1);
}
