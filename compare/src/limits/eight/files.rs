//! Files of version 2: example 3's cut and changed, as many bytes and guards as there can be, and circuits that give the same
//! figures in both versions.

use super::super::circuits::{
    choice, circuit, guard, guard_where, operation_on, pick, run_case, wanted_of_example_3,
};
use super::super::List;
use super::bits;
use crate::examples::{P1, R1};
use crate::law::*;
use crate::write::{Fused, Record};

pub fn add(list: &mut List) {
    cuts(list);
    changed(list);
    most_bytes(list);
    both_versions(list);
}

fn cuts(list: &mut List) {
    let mut file = list.file(&R1, &P1);
    for length in 0..file.len() {
        list.read_circuit(&file[..length], if length < 8 { 60 } else { 61 });
    }
    for more in [0x00, 0x01, 0x32, 0xFF] {
        file.push(more);
        list.refused_circuit(&file, 61);
    }
}

/// The place of a byte of example 3's file in the file of version 1; the bytes that only version 2 has are like the first of
/// their table.
fn before(place: usize) -> usize {
    match place {
        0..=17 => place,
        18..=42 => 18,
        43..=49 => place - 24,
        50..=53 => place - 24,
        54..=78 => 30,
        _ => place - 48,
    }
}

/// Every byte of example 3's file with each of its bits turned, and made 00 and FF.
fn changed(list: &mut List) {
    let file = list.file(&R1, &P1);
    for place in 0..file.len() {
        list.byte = Some(place);
        let turned = (0..8).map(|bit| file[place] ^ 1 << bit);
        for byte in turned.chain([0x00, 0x01, 0x02, 0x03, 0xFF]) {
            let mut changed = file.clone();
            changed[place] = byte;
            if changed == file {
                continue;
            }
            let case = run_case(&changed, &[1, 6, 7], 3);
            // In version 1 the tables would be shorter, and bytes are left.
            let wanted = match (place, byte) {
                (4, 1) => Some(61),
                _ => wanted_of_example_3(before(place), byte),
            };
            match wanted {
                Some(wanted) => list.add(case, wanted),
                None => list.put(case),
            }
        }
    }
    list.byte = None;
}

/// Eight bits and 326 guards of 50 bytes, one of 44: 16,384 bytes.
fn most_guards() -> Fused {
    let wires = [0, 1, 2, 3, 4, 5, 6, 7];
    let mut records: Vec<Record> = (0..326)
        .map(|place| guard_where(&wires, |j| (j + place) % 5 == 0))
        .collect();
    records.push(guard_where(&wires[..5], |j| j < 32 && j % 3 == 0));
    let outputs = [8, 9, 100, 255, 256, 300, 333, 334];
    circuit(&[Kind::Bit; 8], records, &outputs)
}

fn most_bytes(list: &mut List) {
    let made = most_guards();
    let file = made.file();
    assert_eq!(file.len(), CIRCUIT_BYTES_MAX);
    list.accepted_circuit(&file, &[]);
    for setting in [0, 1, 100, 254, 255] {
        let inputs = bits(setting, 8);
        let of = |wire: usize| match wire {
            334 => u32::from(setting % 32 % 3 == 0),
            _ => u32::from((setting + wire - 8) % 5 == 0),
        };
        let figures = [8, 9, 100, 255, 256, 300, 333, 334].map(of);
        list.gives(run_case(&file, &inputs, 8), &figures);
    }
    list.read_circuit(&file[..file.len() - 1], 61);
    list.refused_circuit(&[&file[..], &[0x00]].concat(), 60);
    // 640 wires of which 400 are guards of no wire, 34 bytes each; 641.
    for (wires, wanted) in [(WIRES_MAX, 0), (WIRES_MAX + 1, 60)] {
        let mut records = vec![guard(&[], 1); 400];
        records.resize(wires - 1, Record::Bit(true));
        let file = circuit(&[Kind::Bit], records, &[1]).file();
        match wanted {
            0 => list.accepted_circuit(&file, &[0, 1]),
            _ => list.refused_circuit(&file, wanted),
        }
    }
}

/// Circuits with every kind of record in both versions.
fn both_versions(list: &mut List) {
    let kinds = [Kind::Bit, Kind::Word, Kind::Word, Kind::Bit];
    let records = vec![
        Record::Word(5),
        Record::Bit(true),
        operation_on(PRODUCT, &[1, 2]),
        operation_on(LESS, &[1, 2]),
        choice(7, 1, 2),
        guard(&[], 1),
        guard(&[0, 3], 0b0110),
        guard(&[0, 3, 5, 7, 0, 3], 0x8000_0000_0000_0001),
        pick(&[(10, 6), (9, 4)]),
        pick(&[(10, 1), (11, 2)]),
        pick(&[(10, 7), (11, 0), (0, 3)]),
    ];
    let made = circuit(&kinds, records, &[14, 12, 13, 11]);
    for version in VERSIONS {
        let file = made.file_of(version);
        list.accepted_circuit(&file, &[0, 1, 2, 3]);
        for wire in 0..15 {
            list.record(&file, wire, 0);
        }
        // v0, v3 and v1 < v2 are the bits; 10 is their difference, 11 is 1 where all are 1, 12 a product and 5.
        list.gives(run_case(&file, &[1, 6, 7, 0], 4), &[1, 47, 6, 0]);
        list.gives(run_case(&file, &[0, 6, 7, 1], 4), &[1, 47, 6, 0]);
        list.gives(run_case(&file, &[1, 6, 7, 1], 4), &[0, 5, 7, 1]);
        list.gives(run_case(&file, &[1, 7, 6, 1], 4), &[1, 5, 0, 0]);
        list.gives(run_case(&file, &[0, 7, 6, 0], 4), &[0, 5, 0, 0]);
    }
}
