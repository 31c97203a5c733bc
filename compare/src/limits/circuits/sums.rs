//! Circuits as another house may write them: picks with several guards at 1, guards of no wire, every table bit,
//! wires that nothing reads, and the limits of wires, bytes and variables.

use super::super::List;
use super::{choice, circuit, guard, operation_on, pick};
use crate::law::*;
use crate::write::Record;

pub fn add(list: &mut List) {
    words(list);
    bits(list);
    doubled(list);
    guards(list);
    every_operation(list);
    outputs(list);
    wires(list);
    bytes(list);
    variables(list);
}

const THREE: [(usize, usize); 3] = [(0, 3), (1, 4), (2, 5)];

/// Three bits guard three words; v3 becomes their pick.
fn words(list: &mut List) {
    let mut kinds = [Kind::Word; 6];
    kinds[..3].fill(Kind::Bit);
    let file = circuit(&kinds, vec![pick(&THREE)], &[0, 1, 2, 6, 4, 5]).file_of(VERSION_1);
    for ([a, b, c], sum) in [
        ([0, 0, 0], 0),
        ([1, 0, 0], 4_000_000_000),
        ([0, 1, 0], 300_000_000),
        ([0, 0, 1], 7),
        ([1, 1, 0], 5_032_704),
        ([1, 0, 1], 4_000_000_007),
        ([0, 1, 1], 300_000_007),
        ([1, 1, 1], 5_032_711),
    ] {
        let values = [4_000_000_000, 300_000_000, 7];
        let inputs = [[a, b, c], values].concat();
        let results = [a, b, c, sum, 300_000_000, 7];
        list.run_gives(&file, &inputs, &results);
    }
    let most = [1, 1, 1, u32::MAX, u32::MAX, u32::MAX];
    list.run_gives(&file, &most, &[1, 1, 1, u32::MAX - 2, u32::MAX, u32::MAX]);
    list.accepted_circuit(&file, &[0, 7]);
}

/// Three bits guard three bits: two ones give 0, three give 1.
fn bits(list: &mut List) {
    let file = circuit(&[Kind::Bit; 6], vec![pick(&THREE)], &[0, 1, 2, 6, 4, 5]).file_of(VERSION_1);
    for turn in 0..64u32 {
        let inputs: Vec<u32> = (0..6).map(|place| turn >> place & 1).collect();
        let mut results = inputs.clone();
        results[3] = (turn & turn >> 3 & 7).count_ones() % 2;
        list.run_gives(&file, &inputs, &results);
    }
}

/// One guard or one pair several times, and 255 pairs.
fn doubled(list: &mut List) {
    for (kind, value, twice, many) in [
        (Kind::Word, 3_000_000_000, 1_705_032_704, 495_821_312),
        (Kind::Bit, 1, 0, 1),
    ] {
        let records = vec![pick(&[(0, 1), (0, 1)]), pick(&[(0, 1); 255])];
        let file = circuit(&[Kind::Bit, kind, kind], records, &[0, 3, 4]).file_of(VERSION_1);
        list.run_gives(&file, &[1, value, 0], &[1, twice, many]);
        list.run_gives(&file, &[0, value, 0], &[0, 0, 0]);
        list.accepted_circuit(&file, &[]);
    }
    // A pick whose one value is its guard.
    let file = circuit(&[Kind::Bit], vec![pick(&[(0, 0)])], &[1]).file_of(VERSION_1);
    list.run_gives(&file, &[1], &[1]);
    list.run_gives(&file, &[0], &[0]);
}

/// Guards of no wire, of one wire named twice, and of each count with each of its table's bits alone.
fn guards(list: &mut List) {
    for (table, figure) in [(0, 0), (1, 1)] {
        let file = circuit(&[Kind::Bit], vec![guard(&[], table)], &[1]).file_of(VERSION_1);
        list.run_gives(&file, &[0], &[figure]);
        list.run_gives(&file, &[1], &[figure]);
    }
    let twice = circuit(&[Kind::Bit], vec![guard(&[0, 0], 0b1000)], &[1]).file_of(VERSION_1);
    list.run_gives(&twice, &[1], &[1]);
    list.run_gives(&twice, &[0], &[0]);
    for count in 1..=VERSION_1.guard_wires_max {
        let wires: Vec<usize> = (0..count).collect();
        for j in 0..1usize << count {
            let mut outputs = wires.clone();
            outputs[0] = count;
            let table = 1 << j;
            let file = circuit(
                &vec![Kind::Bit; count],
                vec![guard(&wires, table)],
                &outputs,
            );
            let inputs: Vec<u32> = wires.iter().map(|t| (j >> t & 1) as u32).collect();
            let mut results = inputs.clone();
            results[0] = 1;
            list.run_gives(&file.file_of(VERSION_1), &inputs, &results);
            let mut other = inputs.clone();
            other[j % count] ^= 1;
            let mut results = other.clone();
            results[0] = 0;
            list.run_gives(&file.file_of(VERSION_1), &other, &results);
        }
    }
}

/// Every operation and choice on the other house's wires, the higher one first too.
fn every_operation(list: &mut List) {
    let kinds = [Kind::Bit, Kind::Bit, Kind::Word, Kind::Word];
    for row in OPERATIONS {
        let (first, second) = match row.takes {
            Kind::Bit => (1, 0),
            Kind::Word => (3, 2),
        };
        let record = operation_on(row.code, &[first, second][..row.arguments]);
        let outputs = match row.gives {
            Kind::Bit => [4, 1, 2, 3],
            Kind::Word => [0, 1, 4, 3],
        };
        let file = circuit(&kinds, vec![record], &outputs).file_of(VERSION_1);
        for inputs in [
            [0, 0, 5, 7],
            [0, 1, 7, 5],
            [1, 0, 6, 6],
            [1, 1, 0, u32::MAX],
        ] {
            let figure = work_out(row.code, inputs[first], inputs[second]);
            let mut results = inputs;
            results[if row.gives == Kind::Bit { 0 } else { 2 }] = figure;
            list.run_gives(&file, &inputs, &results);
        }
    }
    let records = vec![choice(1, 2, 3), choice(0, 1, 0)];
    let file = circuit(&kinds, records, &[5, 1, 4, 2]).file_of(VERSION_1);
    for (inputs, results) in [
        ([0, 0, 5, 7], [0, 0, 7, 5]),
        ([0, 1, 5, 7], [0, 1, 5, 5]),
        ([1, 0, 5, 7], [0, 0, 7, 5]),
        ([1, 1, 5, 7], [1, 1, 5, 5]),
    ] {
        list.run_gives(&file, &inputs, &results);
    }
}

/// Outputs: all the same wire, variables exchanged; wires that nothing reads.
fn outputs(list: &mut List) {
    let unread = vec![Record::Word(9), Record::Bit(true), guard(&[], 1)];
    for (outputs, results) in [
        ([0, 0, 0], [5, 5, 5]),
        ([2, 0, 1], [7, 5, 6]),
        ([3, 3, 1], [9, 9, 6]),
    ] {
        let file = circuit(&[Kind::Word; 3], unread.clone(), &outputs).file_of(VERSION_1);
        list.run_gives(&file, &[5, 6, 7], &results);
        list.accepted_circuit(&file, &[0]);
    }
}

/// So many sums, each of the wire before with itself.
fn chain(wires: usize) -> Vec<u8> {
    let sum = |wire: usize| operation_on(SUM, &[wire - 1, wire - 1]);
    circuit(&[Kind::Word], (1..wires).map(sum).collect(), &[wires - 1]).file_of(VERSION_1)
}

/// Up to 640 wires, and one more.
fn wires(list: &mut List) {
    for wires in [1, 2, 32, 33, 255, 256, 257, 639, 640] {
        list.accepted_circuit(&chain(wires), &[0, 1]);
    }
    list.run_gives(&chain(32), &[3], &[1 << 31]);
    let file = chain(WIRES_MAX);
    for wire in [255, 256, 257, 511, 512, 638] {
        list.record(&file, wire, 0);
    }
    list.refused_circuit(&chain(WIRES_MAX + 1), 60);
    list.refused_circuit(&chain(700), 60);
}

/// A file of picks that has just so many bytes: 12 for the header and a bit's input and output, then picks of
/// 255 pairs, one of as many as leaves two to five bytes, and constants.
fn of_bytes(bytes: usize) -> Vec<u8> {
    let mut records = Vec::new();
    let mut left = bytes - 12;
    while left > 0 {
        let (record, size) = match left {
            2 | 4 => (Record::Bit(true), 2),
            3 => (operation_on(NOT, &[0]), 3),
            5 | 7 => (Record::Word(7), 5),
            _ => {
                let pairs = ((left - 2) / 4 - usize::from(left % 4 == 3)).min(255);
                (pick(&vec![(0, 0); pairs]), 2 + 4 * pairs)
            }
        };
        records.push(record);
        left -= size;
    }
    let file = circuit(&[Kind::Bit], records, &[1]).file_of(VERSION_1);
    assert_eq!(file.len(), bytes);
    file
}

/// Up to 16,384 bytes, and one more.
fn bytes(list: &mut List) {
    for bytes in [14, 15, 4096, 8433, 16_383, CIRCUIT_BYTES_MAX] {
        let file = of_bytes(bytes);
        list.accepted_circuit(&file, &[0, 1]);
        list.read_circuit(&file[..bytes - 1], 61);
    }
    for bytes in [CIRCUIT_BYTES_MAX + 1, 20_000] {
        list.refused_circuit(&of_bytes(bytes), 60);
    }
}

/// One variable to 32; none and 33.
fn variables(list: &mut List) {
    for (variables, wanted) in [(1, 0), (2, 0), (31, 0), (32, 0), (33, 60), (255, 60)] {
        for kind in [Kind::Word, Kind::Bit] {
            let outputs: Vec<usize> = (0..variables).rev().collect();
            let file = circuit(&vec![kind; variables], vec![], &outputs).file_of(VERSION_1);
            list.read_circuit(&file, wanted);
            let inputs: Vec<u32> = (0..variables as u32).map(|place| place % 2).collect();
            list.run_circuit(&file, &inputs, variables, wanted);
            list.run_circuit(&file, &inputs[1..], variables, wanted.max(40));
            list.run_circuit(&file, &inputs, variables - 1, wanted.max(42));
            let over = if kind == Kind::Bit { 41 } else { 0 };
            list.run_circuit(&file, &vec![2; variables], variables, wanted.max(over));
        }
    }
    list.refused_circuit(&circuit(&[], vec![], &[]).file_of(VERSION_1), 60);
    list.refused_circuit(
        &circuit(&[], vec![Record::Bit(true)], &[]).file_of(VERSION_1),
        60,
    );
}
