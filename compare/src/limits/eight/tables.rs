//! Guards of circuit files in both versions: how many wires they have, and which bits of their tables are set.

use super::super::circuits::{circuit, guard_where, pick, run_case};
use super::super::List;
use super::bits;
use crate::law::*;
use crate::write::{Record, Wire};

pub fn add(list: &mut List) {
    for version in VERSIONS {
        counts(list, version);
        every_bit(list, version);
        full(list, version);
        one_bit_runs(list, version);
    }
    any_table(list);
    several(list);
}

/// A file of so many bits and a guard over these wires, whose figure v0 gets.
fn of_guard(
    version: Version,
    variables: usize,
    wires: &[usize],
    has: impl Fn(usize) -> bool,
) -> Vec<u8> {
    let mut outputs: Vec<usize> = (0..variables).collect();
    outputs[0] = variables;
    let kinds = vec![Kind::Bit; variables];
    circuit(&kinds, vec![guard_where(wires, has)], &outputs).file_of(version)
}

/// From no wire to more than there can be; the table has the version's length, or the other's, or that of so many wires.
fn counts(list: &mut List, version: Version) {
    let most = version.guard_wires_max;
    for count in 0..=most + 4 {
        let file = of_guard(version, 2, &vec![1; count], |_| false);
        match count <= most {
            true => list.accepted_circuit(&file, &[0, 1, 2, 3]),
            false => list.refused_circuit(&file, 61),
        }
    }
    for count in [most + 1, most + 2, 64, 127, 128, 255] {
        for table in [8, 16, 32, 64] {
            let mut file = of_guard(version, 2, &[], |_| false);
            // The guard begins behind the header and two inputs, and ends before the two outputs.
            let outputs = file.split_off(file.len() - 4);
            file.truncate(12);
            file.extend([GUARD, count as u8]);
            file.extend(vec![0; 2 * count + table]);
            file.extend(outputs);
            list.refused_circuit(&file, 61);
        }
    }
}

/// Every bit alone: from 2^d up it is 62.
fn every_bit(list: &mut List, version: Version) {
    for count in 0..=version.guard_wires_max {
        let wires: Vec<usize> = (0..count).map(|place| place % 2).collect();
        for bit in 0..version.table_bits() {
            let wanted = if bit < 1 << count { 0 } else { 62 };
            let file = of_guard(version, 2, &wires, |j| j == bit);
            list.read_circuit(&file, wanted);
        }
        let first_above = of_guard(version, 2, &wires, |j| j == 1 << count);
        match count < version.guard_wires_max {
            true => list.refused_circuit(&first_above, 62),
            false => list.accepted_circuit(&first_above, &[0, 3]),
        }
    }
}

/// Tables of all bits, of the first 2^d, of all but the first 2^d, and with one bit more.
fn full(list: &mut List, version: Version) {
    let most = version.guard_wires_max;
    for count in 0..=most {
        let wires: Vec<usize> = (0..count).collect();
        let inside = of_guard(version, 8, &wires, |j| j < 1 << count);
        list.accepted_circuit(&inside, &[]);
        for setting in [0, 255, 0b0101_0101, 1 << count >> 1] {
            let inputs = bits(setting, 8);
            let mut figures = inputs.clone();
            figures[0] = 1;
            list.gives(run_case(&inside, &inputs, 8), &figures);
        }
        if count < most {
            let all = of_guard(version, 8, &wires, |_| true);
            list.refused_circuit(&all, 62);
            let above = of_guard(version, 8, &wires, |j| j >= 1 << count);
            list.refused_circuit(&above, 62);
            let last = version.table_bits() - 1;
            let one_more = of_guard(version, 8, &wires, |j| j < 1 << count || j == last);
            list.refused_circuit(&one_more, 62);
        }
    }
}

/// As many wires as there can be and one bit of the table: 1 under its setting, 0 under those that differ in a bit.
fn one_bit_runs(list: &mut List, version: Version) {
    let most = version.guard_wires_max;
    let wires: Vec<usize> = (0..most).collect();
    for bit in 0..version.table_bits() {
        let file = of_guard(version, most, &wires, |j| j == bit);
        for (setting, figure) in [(bit, 1), (bit ^ 1 << (bit % most), 0)] {
            let inputs = bits(setting, most);
            let mut figures = inputs.clone();
            figures[0] = figure;
            list.gives(run_case(&file, &inputs, most), &figures);
        }
    }
}

/// Byte by byte other bits, so that bytes or wires in another order show: every setting.
fn any_table(list: &mut List) {
    // Byte b of the table, from the lowest, is 7b + 1; the wires stand from the highest down, and one comes twice.
    let has = |j: usize| (7 * (j / 8) + 1) >> (j % 8) & 1 == 1;
    for wires in [
        [0, 1, 2, 3, 4, 5, 6, 7],
        [7, 6, 5, 4, 3, 2, 1, 0],
        [0, 1, 2, 3, 3, 5, 6, 7],
    ] {
        let file = of_guard(VERSION_2, 8, &wires, has);
        list.record(&file, 8, 0);
        for setting in 0..SETTINGS {
            let inputs = bits(setting, 8);
            let j: usize = (0..8).map(|t| (setting >> wires[t] & 1) << t).sum();
            let mut figures = inputs.clone();
            figures[0] = u32::from(has(j));
            list.gives(run_case(&file, &inputs, 8), &figures);
        }
    }
    // The same of six wires in both versions.
    for version in VERSIONS {
        let has = |j: usize| j < 64 && (29 * (j / 8) + 3) >> (j % 8) & 1 == 1;
        let file = of_guard(version, 6, &[5, 0, 4, 1, 3, 2], has);
        for setting in 0..64 {
            let inputs = bits(setting, 6);
            let order = [5, 0, 4, 1, 3, 2];
            let j: usize = (0..6).map(|t| (setting >> order[t] & 1) << t).sum();
            let mut figures = inputs.clone();
            figures[0] = u32::from(has(j));
            list.gives(run_case(&file, &inputs, 6), &figures);
        }
    }
}

/// Faults of two rows in one file: 60 before 61 before 62, wherever they stand.
fn several(list: &mut List) {
    for version in VERSIONS {
        let most = version.guard_wires_max;
        let made =
            |records: Vec<Record>| circuit(&[Kind::Bit; 2], records, &[0, 1]).file_of(version);
        let above = || guard_where(&[0], |j| j == 2);
        let over = || guard_where(&vec![0; most + 1], |_| false);
        let late = || Record::Guard(vec![Wire(9); most], Default::default());
        let good = || guard_where(&vec![1; most], |_| true);
        list.accepted_circuit(&made(vec![good(), good()]), &[0, 3]);
        for (records, wanted) in [
            (vec![good(), above()], 62),
            (vec![above(), good()], 62),
            (vec![late(), good()], 62),
            (vec![good(), late()], 62),
            (vec![above(), over()], 61),
            (vec![over(), above()], 61),
            (vec![late(), over()], 61),
            (vec![good(), pick(&[]), above()], 61),
            (vec![good(), pick(&[(2, 0)]), late()], 62),
        ] {
            let mut file = made(records);
            list.refused_circuit(&file, wanted);
            for (bytes, wanted) in [([0, 3], 60), ([1, version.bytes[1]], 60)] {
                file[3..5].copy_from_slice(&bytes);
                list.refused_circuit(&file, wanted);
            }
        }
        // A guard's wire is a word; its own; none at all.
        for wire in [1, 2, 3, NO_WIRE] {
            for place in 0..most {
                let mut wires = vec![0; most];
                wires[place] = wire;
                let record = guard_where(&wires, |_| true);
                let kinds = [Kind::Bit, Kind::Word];
                let file = circuit(&kinds, vec![record], &[0, 1]).file_of(version);
                list.read_circuit(&file, 62);
            }
        }
    }
}
