//! Every reason of 60, 61 and 62 by itself, and several in one file: the lowest number is answered, wherever in the
//! file its fault stands.

use super::super::List;
use super::{choice, circuit, guard, input, operation_on, pick};
use crate::circuit_file::kinds;
use crate::law::*;
use crate::write::{Fused, Record, Wire};

pub fn add(list: &mut List) {
    list.accepted_circuit(&sample().file_of(VERSION_1), &[0, 1, 2, 3]);
    headers(list);
    codes(list);
    layouts(list);
    inputs(list);
    wires(list);
    tables(list);
    outputs(list);
    several(list);
    before_inputs(list);
}

const KINDS: [Kind; 4] = [Kind::Bit, Kind::Word, Kind::Word, Kind::Bit];

/// A circuit with every kind of record, the last one an and.
fn sample() -> Fused {
    let mut records = vec![Record::Word(5), Record::Bit(true)];
    records.extend([SUM, DIFFERENCE, PRODUCT, LESS, EQUAL].map(|code| operation_on(code, &[1, 2])));
    records.extend([AND, OR].map(|code| operation_on(code, &[0, 3])));
    records.extend([
        operation_on(NOT, &[0]),
        choice(0, 1, 2),
        choice(0, 3, 5),
        guard(&[], 1),
        guard(&[0, 3], 0b0110),
        guard(&[0, 3, 5, 9, 10, 11], 0x8000_0000_0000_0001),
        pick(&[(17, 6), (18, 14)]),
        pick(&[(17, 9), (18, 15), (16, 0)]),
        operation_on(AND, &[20, 12]),
    ]);
    circuit(&KINDS, records, &[21, 19, 14, 20])
}

fn changed(file: &[u8], place: usize, byte: u8) -> Vec<u8> {
    let mut bytes = file.to_vec();
    bytes[place] = byte;
    bytes
}

/// Where the record of a wire begins.
fn start(circuit: &Fused, wire: usize) -> usize {
    let records = circuit.records[..wire].to_vec();
    let outputs = Vec::new();
    Fused { records, outputs }.file_of(VERSION_1).len()
}

/// The file with the last record made another one.
fn with_last(record: Record) -> Vec<u8> {
    let mut circuit = sample();
    *circuit.records.last_mut().expect("records") = record;
    circuit.outputs[0] = Some(Wire(20));
    circuit.file_of(VERSION_1)
}

/// Row 60.
fn headers(list: &mut List) {
    let file = sample().file_of(VERSION_1);
    for length in 0..CIRCUIT_BYTES_MIN {
        list.refused_circuit(&file[..length], 60);
    }
    // No bit alone makes version 1 version 2.
    for place in 0..5 {
        for bit in 0..8 {
            list.refused_circuit(&changed(&file, place, file[place] ^ 1 << bit), 60);
        }
    }
    for variables in [0, 33, 34, 64, 255] {
        list.refused_circuit(&changed(&file, 5, variables), 60);
    }
    for wires in [641u16, 642, 1024, 32_768, 65_535] {
        let [high, low] = wires.to_be_bytes();
        list.refused_circuit(&changed(&changed(&file, 6, high), 7, low), 60);
    }
}

/// Row 61: every code that there is none of, in a record of seven bytes, the last and one before others.
fn codes(list: &mut List) {
    let last = with_last(choice(0, 3, 3));
    let place = start(&sample(), sample().records.len() - 1);
    let early = sample().file_of(VERSION_1);
    let early_place = start(&sample(), 14);
    for code in 0..=u8::MAX {
        let known = operation(code).is_some()
            || [WORD_INPUT, BIT_INPUT, WORD, BIT, CHOICE, PICK, GUARD].contains(&code);
        if !known {
            list.read_circuit(&changed(&last, place, code), 61);
            list.read_circuit(&changed(&early, early_place, code), 61);
        }
    }
    list.refused_circuit(&changed(&last, place, 0x33), 61);
}

/// Row 61: the other reasons.
fn layouts(list: &mut List) {
    let file = sample().file_of(VERSION_1);
    // The outputs run past the end, then the records; bytes are left.
    for length in CIRCUIT_BYTES_MIN..file.len() {
        list.read_circuit(&file[..length], 61);
    }
    list.refused_circuit(&file[..CIRCUIT_BYTES_MIN], 61);
    list.refused_circuit(&file[..file.len() - 1], 61);
    list.refused_circuit(&[&file[..], &[0x00]].concat(), 61);
    list.refused_circuit(&[&file[..], &[0x00; 8]].concat(), 61);
    // Another count of wires or variables, and the bytes no longer fit.
    for (place, byte) in [
        (7, 0),
        (7, 21),
        (7, 23),
        (6, 1),
        (6, 2),
        (5, 3),
        (5, 5),
        (5, 32),
    ] {
        list.refused_circuit(&changed(&file, place, byte), 61);
    }
    for byte in [0x02, 0x03, 0x80, 0xFF] {
        let place = start(&sample(), 5) + 1;
        list.refused_circuit(&changed(&file, place, byte), 61);
    }
    for count in [7, 8, 64, 255] {
        list.refused_circuit(&with_last(guard(&vec![0; count], 0)), 61);
    }
    list.refused_circuit(&with_last(pick(&[])), 61);
    // A header of 8 bytes that says no wire.
    list.refused_circuit(&changed(&file[..CIRCUIT_BYTES_MIN], 7, 0), 61);
}

/// Row 62: the inputs are not exactly the first V records in order.
fn inputs(list: &mut List) {
    let with = |change: &dyn Fn(&mut Vec<Record>)| {
        let mut circuit = sample();
        change(&mut circuit.records);
        circuit.file_of(VERSION_1)
    };
    for (one, other) in [(0, 3), (1, 2), (0, 1), (3, 4), (0, 21)] {
        list.refused_circuit(&with(&|records| records.swap(one, other)), 62);
    }
    for variable in [0, 1, 3, 4, 32, 255] {
        let changed = with(&|records| records[2] = input(variable, Kind::Word));
        list.refused_circuit(&changed, 62);
    }
    // A constant or an input in the place of the other, an input more, one fewer.
    list.refused_circuit(&with(&|records| records[2] = Record::Word(0)), 62);
    list.refused_circuit(&with(&|records| records[4] = input(2, Kind::Word)), 62);
    list.refused_circuit(&with(&|records| records[4] = input(4, Kind::Word)), 62);
    list.refused_circuit(&with(&|records| records.push(input(4, Kind::Bit))), 62);
    list.refused_circuit(&with(&|records| records.push(input(0, Kind::Bit))), 62);
    // Fewer wires than variables, though every output is a wire of the right kind; no wire at all.
    for wires in 0..4 {
        let short = circuit(&vec![Kind::Bit; wires], vec![], &[0; 4]);
        list.refused_circuit(&short.file_of(VERSION_1), 62);
    }
    list.refused_circuit(
        &circuit(&[], vec![Record::Bit(true)], &[0]).file_of(VERSION_1),
        62,
    );
}

/// A record of the sample with its wire at a place made another one.
fn with_wire(own: usize, place: usize, to: usize) -> Vec<u8> {
    let mut circuit = sample();
    let wires = &mut circuit.records[own];
    match wires {
        Record::Operation(_, wires) | Record::Guard(wires, _) => wires[place] = Wire(to),
        Record::Choice(condition, first, second) => *[condition, first, second][place] = Wire(to),
        Record::Pick(pairs) if place & 1 == 0 => pairs[place / 2].0 = Wire(to),
        Record::Pick(pairs) => pairs[place / 2].1 = Wire(to),
        _ => unreachable!("it reads no wire"),
    }
    circuit.file_of(VERSION_1)
}

/// Row 62: every wire of every record made the record's own, a later one, none at all, and one of the other kind.
fn wires(list: &mut List) {
    let sample = sample();
    let count = sample.records.len();
    let kinds = kinds(&sample).expect("a good circuit");
    for (own, record) in sample.records.iter().enumerate() {
        for (place, wire) in record.reads().iter().enumerate() {
            let other = usize::from(kinds[wire.0] == Kind::Bit);
            for to in [own, own + 1, count, 65_535, other] {
                let file = with_wire(own, place, to);
                list.read_circuit(&file, 62);
                list.run_circuit(&file, &[1, 6, 7, 0], 4, 62);
            }
        }
    }
    list.refused_circuit(&with_wire(6, 0, 6), 62);
}

/// Row 62: a table bit set from 2^d up.
fn tables(list: &mut List) {
    let most = VERSION_1.guard_wires_max;
    for count in 0..=most {
        let wires = &[0, 3, 0, 3, 0, 3][..count];
        for bit in 0..VERSION_1.table_bits() {
            let wanted = if bit < 1 << count { 0 } else { 62 };
            list.read_circuit(&with_last(guard(wires, 1 << bit)), wanted);
        }
        let wanted = if count < most { 62 } else { 0 };
        list.run_circuit(&with_last(guard(wires, u64::MAX)), &[1, 6, 7, 0], 4, wanted);
    }
    list.refused_circuit(&with_last(guard(&[], 2)), 62);
}

/// Row 62: an output is no wire, or not of its variable's kind. FF FF is admitted (C-13).
fn outputs(list: &mut List) {
    let sample = sample();
    let kinds = kinds(&sample).expect("a good circuit");
    for (variable, kind) in KINDS.iter().enumerate() {
        let others = (0..kinds.len()).filter(|&wire| kinds[wire] != *kind);
        for output in others.chain([22, 23, 256, 640, NO_WIRE]) {
            let mut circuit = sample.clone();
            circuit.outputs[variable] = Some(Wire(output));
            let wanted = if output == NO_WIRE { 0 } else { 62 };
            list.read_circuit(&circuit.file_of(VERSION_1), wanted);
        }
        for output in (0..kinds.len()).filter(|&wire| kinds[wire] == *kind) {
            let mut circuit = sample.clone();
            circuit.outputs[variable] = Some(Wire(output));
            list.run_circuit(&circuit.file_of(VERSION_1), &[1, 6, 7, 0], 4, 0);
        }
    }
    let mut circuit = sample.clone();
    circuit.outputs[0] = Some(Wire(1));
    list.refused_circuit(&circuit.file_of(VERSION_1), 62);
}

/// A fault of a row set early or late in the sample's file.
fn broken(row: u8, late: bool, mut circuit: Fused) -> Fused {
    let place = if late { 21 } else { 4 };
    circuit.records[place] = match row {
        61 => pick(&[]),
        _ => operation_on(NOT, &[place]),
    };
    circuit
}

/// A file that breaks several rows.
fn several(list: &mut List) {
    for late in [false, true] {
        let both = broken(61, late, broken(62, !late, sample())).file_of(VERSION_1);
        list.refused_circuit(&broken(62, late, sample()).file_of(VERSION_1), 62);
        list.refused_circuit(&broken(61, late, sample()).file_of(VERSION_1), 61);
        list.refused_circuit(&both, 61);
        for row in [61, 62] {
            let file = broken(row, late, sample()).file_of(VERSION_1);
            for (place, byte, wanted) in [
                (0, 0x44, 60),
                // In version 2 (C-17) the guards' tables would be longer, and the records run past the end.
                (4, 0x02, 61),
                (5, 0x00, 60),
                (5, 0x21, 60),
                (6, 0x03, 60),
            ] {
                list.refused_circuit(&changed(&file, place, byte), wanted);
                list.refused_circuit(&changed(&both, place, byte), wanted);
            }
            let mut long = file.clone();
            long.resize(CIRCUIT_BYTES_MAX + 1, 0x00);
            list.read_circuit(&long, 60);
            list.read_circuit(&long[..CIRCUIT_BYTES_MAX], 61);
        }
    }
    // An output that names no wire, and 62 in the inputs, with the bytes' end wrong.
    let mut circuit = sample();
    circuit.outputs[3] = Some(Wire(65_535));
    let file = circuit.file_of(VERSION_1);
    list.refused_circuit(&file[..file.len() - 1], 61);
    list.refused_circuit(&[&file[..], &[0x00]].concat(), 61);
    circuit.records.swap(0, 3);
    let file = circuit.file_of(VERSION_1);
    list.refused_circuit(&file, 62);
    list.refused_circuit(&file[..file.len() - 1], 61);
}

/// 60 to 62 come before 40 to 42, whatever inputs and room are.
fn before_inputs(list: &mut List) {
    let good = sample().file_of(VERSION_1);
    let late = broken(62, true, sample()).file_of(VERSION_1);
    for (file, numbers) in [
        (&good, [40, 40, 41, 42, 40, 41, 41]),
        (&changed(&good, 0, 0x00), [60; 7]),
        (&good[..good.len() - 1].to_vec(), [61; 7]),
        (&late, [62; 7]),
    ] {
        list.run_circuit(file, &[1, 6, 7], 4, numbers[0]);
        list.run_circuit(file, &[1, 6, 7, 0, 0], 4, numbers[1]);
        list.run_circuit(file, &[1, 6, 7, 2], 4, numbers[2]);
        list.run_circuit(file, &[1, 6, 7, 0], 3, numbers[3]);
        list.run_circuit(file, &[2], 0, numbers[4]);
        list.run_circuit(file, &[1, 6, 7, 2], 3, numbers[5]);
        list.run_circuit(file, &[u32::MAX, 6, 7, 0], 0, numbers[6]);
    }
}
