//! R1 with P1, which document 02 says the bytes of; its files cut, shown and run.

use super::super::circuits::run_case;
use super::super::{plan, List};
use crate::examples::{P1, R1};
use crate::law::*;
use crate::stream::{Case, FUSED, WRITE};

/// Example 3 as C-18 leaves it: the two products have gate 2 at their second place.
fn example_3() -> Vec<u8> {
    let guard = |last: u8| [vec![0x32, 1, 0, 0], vec![0; 31], vec![last]].concat();
    [
        vec![0x43, 0x49, 0x52, 0, 2, 3, 0, 8, 1, 0, 0, 1, 0, 2],
        guard(2),
        guard(1),
        vec![0x31, 2, 0, 3, 0, 1, 0, 4, 0, 2],
        vec![0x22, 0, 5, 0, 2, 0x30, 0, 0, 0, 6, 0, 6],
        vec![0, 0, 0, 7, 0, 2],
    ]
    .concat()
}

pub fn add(list: &mut List) {
    let file = example_3();
    assert_eq!((file.len(), list.file(&R1, &P1)), (114, file.clone()));
    list.check(&R1, &P1, 0);
    list.shown(&R1, 0);
    for (room, wanted) in [
        (114, 0),
        (113, 50),
        (115, 0),
        (112, 50),
        (76, 50),
        (123, 0),
        (124, 0),
        (0, 50),
        (CIRCUIT_BYTES_MAX, 0),
        (65_535, 0),
    ] {
        list.write(&R1, &P1, room, wanted);
    }
    counts(list);
    for (bit, figure) in [(1, 42), (0, 49)] {
        let fused = Case {
            operation: FUSED,
            second: P1.to_vec(),
            ..run_case(&R1, &[bit, 6, 7], 4)
        };
        list.gives(fused, &[bit, figure, 7]);
        list.gives(run_case(&file, &[bit, 6, 7], 4), &[bit, figure, 7]);
    }
    for (inputs, room, wanted) in [
        (&[2, 6, 7][..], 3, 41),
        (&[1, 6], 3, 40),
        (&[1, 6, 7], 2, 42),
    ] {
        list.fused(&R1, &P1, inputs, room, wanted);
        list.run_circuit(&file, inputs, room, wanted);
    }
    list.read_circuit(&file, 0);
    for wire in (0..=8).chain([9, 255, 639, 640, 65_535]) {
        list.record(&file, wire, 0);
    }
    for cut in 0..file.len() {
        list.read_circuit(&file[..cut], if cut < CIRCUIT_BYTES_MIN { 60 } else { 61 });
    }
    for more in [0x00, 0x32, 0xFF] {
        list.refused_circuit(&[&file[..], &[more]].concat(), 61);
    }
    // A choice is no member, as before.
    list.with_plan(&R1, &plan(6, &[&[3, 5]]), 27);
}

/// The seven numbers of R1 with P1.
fn counts(list: &mut List) {
    let case = |operation: u8, room: u16| Case {
        operation,
        room,
        first: R1.to_vec(),
        second: P1.to_vec(),
        inputs: vec![1, 6, 7],
        ..Case::default()
    };
    for case in [case(WRITE, 200), case(FUSED, 3)] {
        let (answer, _) = case.work().expect("an operation that is built");
        assert_eq!(answer.line(), "0 0 6 8 114 33 24");
        list.add(case, 0);
    }
}
