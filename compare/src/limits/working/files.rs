//! Circuit files with FF FF as an output: it is admitted for any variable, and 0 is written there. Other numbers that
//! are no wire are refused by 62 as before.

use super::super::circuits::{choice, circuit, guard, operation_on, pick, run_case};
use super::super::List;
use crate::examples::{P1, R1};
use crate::law::*;
use crate::write::{Fused, Record, Wire};

pub fn add(list: &mut List) {
    every_output(list);
    no_wires(list);
    example_3(list);
    few_and_many(list);
    largest(list);
    inside_records(list);
    other_rows(list);
}

/// Numbers that are no wire of a small file: beside FF FF, the most that wires can be, the first that is none.
const ODD: [usize; 7] = [0xFFFE, 0xFF00, 0xFEFF, 0x00FF, 0x0280, 0x8000, 7];

const KINDS: [Kind; 4] = [Kind::Bit, Kind::Word, Kind::Word, Kind::Bit];

/// v0 becomes v1 < v2, v1 the sum of both, v2 what v1 was, v3 that comparison and v0; of those in the mask there is no
/// output.
fn sample(mask: usize) -> Fused {
    let records = vec![
        operation_on(SUM, &[1, 2]),
        operation_on(LESS, &[1, 2]),
        operation_on(AND, &[0, 5]),
    ];
    circuit(&KINDS, records, &without([5, 4, 1, 6], mask))
}

/// The outputs, FF FF in the places of the mask.
fn without<const N: usize>(mut outputs: [usize; N], mask: usize) -> [usize; N] {
    for (place, output) in outputs.iter_mut().enumerate() {
        *output = if mask >> place & 1 == 1 {
            NO_WIRE
        } else {
            *output
        };
    }
    outputs
}

/// The figures, 0 in the places of the mask.
fn written<const N: usize>(mut figures: [u32; N], mask: usize) -> [u32; N] {
    for (place, figure) in figures.iter_mut().enumerate() {
        *figure = if mask >> place & 1 == 1 { 0 } else { *figure };
    }
    figures
}

/// FF FF as every set of a file's outputs, on words and on bits.
fn every_output(list: &mut List) {
    for mask in 0..16 {
        let file = sample(mask).file_of(VERSION_1);
        list.accepted_circuit(&file, &[]);
        for wire in [1, 6, NO_WIRE] {
            list.record(&file, wire, 0);
        }
        for (inputs, figures) in [
            ([1, 6, 7, 0], [1, 13, 6, 1]),
            ([0, 7, 6, 1], [0, 13, 7, 0]),
            ([0, u32::MAX, 1, 0], [0, 0, u32::MAX, 0]),
        ] {
            for room in [4, 5, 9] {
                let figures = written(figures, mask);
                list.gives(run_case(&file, &inputs, room), &figures);
            }
        }
        // Bits are bits, all places and all inputs are wanted.
        for (inputs, room, wanted) in [
            (&[2, 6, 7, 0][..], 4, 41),
            (&[0, 6, 7, 2], 4, 41),
            (&[1, 6, 7, u32::MAX], 3, 41),
            (&[1, 6, 7, 0], 3, 42),
            (&[1, 6, 7, 0], 0, 42),
            (&[1, 6, 7], 4, 40),
            (&[1, 6, 7, 0, 0], 5, 40),
        ] {
            list.run_circuit(&file, inputs, room, wanted);
        }
    }
}

/// Every output made another number that is no wire, the others wires or FF FF.
fn no_wires(list: &mut List) {
    for (place, &kind) in KINDS.iter().enumerate() {
        for mask in [0, 0b1111, 0b0110, 0b1001] {
            for odd in ODD {
                let mut circuit = sample(mask);
                circuit.outputs[place] = Some(Wire(odd));
                list.refused_circuit(&circuit.file_of(VERSION_1), 62);
            }
            // A wire of the other kind.
            let mut circuit = sample(mask);
            circuit.outputs[place] = Some(Wire(usize::from(kind == Kind::Bit)));
            list.refused_circuit(&circuit.file_of(VERSION_1), 62);
        }
    }
}

/// Example 3's file with FF FF as every set of its outputs.
fn example_3(list: &mut List) {
    for mask in 0..8 {
        let mut file = list.file(&R1, &P1);
        let outputs = without([0, 8, 2], mask);
        for (place, output) in outputs.into_iter().enumerate() {
            let at = 70 + 2 * place;
            file[at..at + 2].copy_from_slice(&(output as u16).to_be_bytes());
        }
        list.accepted_circuit(&file, &[]);
        for wire in 0..9 {
            list.record(&file, wire, 0);
        }
        for (inputs, figures) in [([1, 6, 7], [1, 42, 7]), ([0, 6, 7], [0, 49, 7])] {
            list.gives(run_case(&file, &inputs, 3), &written(figures, mask));
        }
        list.run_circuit(&file, &[2, 6, 7], 3, 41);
    }
}

/// One variable, and 32, of both kinds, none with an output; the first or the last alone with one.
fn few_and_many(list: &mut List) {
    for kind in [Kind::Word, Kind::Bit] {
        let file = circuit(&[kind], vec![], &[NO_WIRE]).file_of(VERSION_1);
        list.accepted_circuit(&file, &[]);
        list.gives(run_case(&file, &[1], 1), &[0]);
        list.gives(run_case(&file, &[0], 2), &[0]);
        match kind {
            Kind::Word => list.gives(run_case(&file, &[2], 1), &[0]),
            Kind::Bit => list.run_circuit(&file, &[2], 1, 41),
        }
        for odd in ODD {
            list.refused_circuit(&circuit(&[kind], vec![], &[odd]).file_of(VERSION_1), 62);
        }
        for mask in [usize::MAX, !1, !(1 << 31), 1, 1 << 31] {
            let outputs = without([31; 32], mask);
            let file = circuit(&[kind; 32], vec![], &outputs).file_of(VERSION_1);
            list.accepted_circuit(&file, &[]);
            list.gives(run_case(&file, &[1; 32], 33), &written([1; 32], mask));
            list.run_circuit(&file, &[1; 32], 31, 42);
            match kind {
                Kind::Word => list.gives(run_case(&file, &[2; 32], 32), &written([2; 32], mask)),
                Kind::Bit => list.run_circuit(&file, &[2; 32], 32, 41),
            }
        }
    }
}

/// 640 wires: 02 7F is the last, 02 80 none; 16,384 bytes.
fn largest(list: &mut List) {
    let sum = |wire: usize| operation_on(SUM, &[wire - 1, 0]);
    let of = |output| {
        circuit(&[Kind::Word], (1..WIRES_MAX).map(sum).collect(), &[output]).file_of(VERSION_1)
    };
    list.gives(run_case(&of(639), &[3], 1), &[1920]);
    list.gives(run_case(&of(NO_WIRE), &[3], 2), &[0]);
    list.accepted_circuit(&of(NO_WIRE), &[]);
    for none in [0x0280, 0x0281, 0xFF00, 0xFFFE] {
        list.refused_circuit(&of(none), 62);
    }
    // 12 bytes beside the records: 16 picks of 255 pairs and four words.
    let mut records = vec![pick(&[(0, 0); 255]); 16];
    records.extend(vec![Record::Word(7); 4]);
    let file = circuit(&[Kind::Bit], records, &[NO_WIRE]).file_of(VERSION_1);
    assert_eq!(file.len(), CIRCUIT_BYTES_MAX);
    list.accepted_circuit(&file, &[]);
    list.gives(run_case(&file, &[1], 1), &[0]);
    list.refused_circuit(&[&file[..], &[0xFF]].concat(), 60);
}

/// FF FF is an output's alone: a record that reads it is refused by 62, whatever the outputs are.
fn inside_records(list: &mut List) {
    for record in [
        operation_on(NOT, &[NO_WIRE]),
        operation_on(AND, &[0, NO_WIRE]),
        operation_on(SUM, &[NO_WIRE, 1]),
        choice(NO_WIRE, 1, 1),
        choice(0, NO_WIRE, 1),
        choice(0, 1, NO_WIRE),
        pick(&[(NO_WIRE, 1)]),
        pick(&[(0, NO_WIRE)]),
        guard(&[NO_WIRE], 1),
    ] {
        for outputs in [[0, 1], [NO_WIRE, 1], [0, NO_WIRE], [NO_WIRE; 2]] {
            let kinds = [Kind::Bit, Kind::Word];
            let file = circuit(&kinds, vec![record.clone()], &outputs).file_of(VERSION_1);
            list.refused_circuit(&file, 62);
        }
    }
}

/// The other faults are found beside FF FF: bytes missing and left, inputs that are missing, too few wires.
fn other_rows(list: &mut List) {
    let file = sample(0b1111).file_of(VERSION_1);
    for cut in 1..=8 {
        list.refused_circuit(&file[..file.len() - cut], 61);
    }
    list.refused_circuit(&[&file[..], &[0xFF]].concat(), 61);
    list.refused_circuit(&[&file[..], &[0xFF; 2]].concat(), 61);
    for (place, byte, wanted) in [
        (0, 0x42, 60),
        // In version 2 (C-17) it is as good, since it has no guard.
        (4, 0x02, 0),
        (5, 0x00, 60),
        (5, 0x21, 60),
        (6, 0x03, 60),
        (5, 0x05, 61),
        (7, 0x06, 61),
        (8, 0x02, 61),
        (9, 0x01, 62),
        (8, 0x00, 62),
    ] {
        let mut changed = file.clone();
        changed[place] = byte;
        if wanted > 0 {
            list.refused_circuit(&changed, wanted);
            continue;
        }
        list.read_circuit(&changed, 0);
        list.record(&changed, 0, 0);
        list.run_circuit(&changed, &[1, 6, 7], 3, 40);
        list.run_circuit(&changed, &[], 0, 40);
    }
    for wires in 0..4 {
        let short = circuit(&vec![Kind::Bit; wires], vec![], &[NO_WIRE; 4]);
        list.refused_circuit(&short.file_of(VERSION_1), 62);
    }
    list.refused_circuit(&circuit(&[], vec![], &[NO_WIRE]).file_of(VERSION_1), 62);
}
