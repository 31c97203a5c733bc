//! The two bytes of the version: 00 01 and 00 02 are read, each with its own size of guards; every other is 60.

use super::super::circuits::{circuit, guard, operation_on, run_case};
use super::super::List;
use crate::examples::{P1, R1};
use crate::law::*;

pub fn add(list: &mut List) {
    every_version(list);
    some_versions(list);
    without_guards(list);
    exchanged(list);
}

fn with_version(file: &[u8], version: [u8; 2]) -> Vec<u8> {
    let mut bytes = file.to_vec();
    bytes[3..5].copy_from_slice(&version);
    bytes
}

/// A file of 12 bytes, which has no guard, in each version near those that there are.
fn every_version(list: &mut List) {
    let file = circuit(&[Kind::Bit], vec![], &[0]).file();
    assert_eq!(file.len(), 12);
    let lower = (0..=u8::MAX).map(|low| [0, low]);
    let higher = (1..=u8::MAX).flat_map(|high| [[high, 0], [high, 1], [high, 2]]);
    for version in lower.chain(higher) {
        let wanted = match version {
            [0, 1] | [0, 2] => 0,
            _ => 60,
        };
        list.read_circuit(&with_version(&file, version), wanted);
    }
}

/// Example 3's file as it is and as it was: in other versions by every operation, whatever the guards' size.
fn some_versions(list: &mut List) {
    let now = list.file(&R1, &P1);
    let was = example_3_of_version_1();
    assert_eq!((now.len(), was.len()), (124, 76));
    for file in [&now, &was] {
        for version in [
            [0, 0],
            [0, 3],
            [0, 4],
            [0, 0x10],
            [0, 0x81],
            [0, 0x82],
            [0, 0xFF],
            [1, 0],
            [1, 1],
            [1, 2],
            [2, 0],
            [2, 1],
            [2, 2],
            [0x80, 1],
            [0x80, 2],
            [0xFF, 1],
            [0xFF, 2],
            [0xFF, 0xFF],
        ] {
            list.refused_circuit(&with_version(file, version), 60);
        }
    }
}

/// The bytes that document 01 has for example 3.
fn example_3_of_version_1() -> Vec<u8> {
    let guard = |last: u8| vec![0x32, 1, 0, 0, 0, 0, 0, 0, 0, 0, 0, last];
    let pick = |first: u8, second: u8| vec![0x31, 2, 0, 3, 0, first, 0, 4, 0, second];
    [
        vec![0x43, 0x49, 0x52, 0, 1, 3, 0, 9, 1, 0, 0, 1, 0, 2],
        guard(2),
        guard(1),
        pick(1, 2),
        pick(2, 2),
        vec![0x22, 0, 5, 0, 6, 0x30, 0, 0, 0, 7, 0, 7],
        vec![0, 0, 0, 8, 0, 2],
    ]
    .concat()
}

/// A file without a guard has the same bytes in both versions, but for the version, and gives the same figures.
fn without_guards(list: &mut List) {
    let kinds = [Kind::Bit, Kind::Word, Kind::Word];
    let records = vec![operation_on(SUM, &[1, 2]), operation_on(LESS, &[1, 2])];
    let made = circuit(&kinds, records, &[4, 3, NO_WIRE]);
    let [first, second] = VERSIONS.map(|version| made.file_of(version));
    assert_eq!(with_version(&first, [0, 2]), second);
    for file in [&first, &second] {
        list.accepted_circuit(file, &[0, 1]);
        list.gives(run_case(file, &[0, 6, 7], 3), &[1, 13, 0]);
        list.gives(run_case(file, &[1, 7, 7], 4), &[0, 14, 0]);
        list.run_circuit(file, &[2, 6, 7], 3, 41);
        list.run_circuit(file, &[1, 6], 3, 40);
        list.run_circuit(file, &[1, 6, 7], 2, 42);
        for cut in 0..file.len() {
            list.read_circuit(&file[..cut], if cut < 8 { 60 } else { 61 });
        }
    }
}

/// Files with guards whose version is made the other: then the tables have another length, and bytes are left or missing.
fn exchanged(list: &mut List) {
    let was = example_3_of_version_1();
    list.accepted_circuit(&was, &[0, 1]);
    list.gives(run_case(&was, &[1, 6, 7], 3), &[1, 42, 7]);
    list.gives(run_case(&was, &[0, 6, 7], 3), &[0, 49, 7]);
    list.refused_circuit(&with_version(&was, [0, 2]), 61);
    let now = list.file(&R1, &P1);
    list.accepted_circuit(&now, &[0, 1]);
    list.gives(run_case(&now, &[1, 6, 7], 3), &[1, 42, 7]);
    list.gives(run_case(&now, &[0, 6, 7], 3), &[0, 49, 7]);
    list.refused_circuit(&with_version(&now, [0, 1]), 61);
    for wire in (0..=9).chain([10, 255, 65_535]) {
        list.record(&now, wire, 0);
        list.record(&was, wire, 0);
    }
    for count in 0..=VERSION_1.guard_wires_max {
        let made = circuit(&[Kind::Bit], vec![guard(&vec![0; count], 1)], &[1]);
        let [first, second] = VERSIONS.map(|version| made.file_of(version));
        assert_eq!(second.len() - first.len(), 24);
        list.accepted_circuit(&first, &[0, 1]);
        list.accepted_circuit(&second, &[0, 1]);
        list.refused_circuit(&with_version(&first, [0, 2]), 61);
        list.refused_circuit(&with_version(&second, [0, 1]), 61);
    }
}
