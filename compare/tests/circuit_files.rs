//! C-11: circuit files read, shown by record and run; most of them written out byte by byte, in version 1. Those of
//! version 2 are in `tests/eight.rs`.

use compare::answer::Answer;
use compare::circuit::{accept, preconditions};
use compare::circuit_file::{self, read_circuit, record};
use compare::direct;
use compare::generate::words::Words;
use compare::generate::{circuits, inputs, plans, rules, Random};
use compare::law::*;
use compare::plan::check;
use compare::run::run_circuit;
use compare::write::{fuse, Wire};

const UNTOUCHED: u32 = 3_735_928_559;

fn hex(text: &str) -> Vec<u8> {
    text.split_whitespace()
        .map(|pair| u8::from_str_radix(pair, 16).unwrap())
        .collect()
}

/// Mark and version, then what is given.
fn cir(rest: &str) -> Vec<u8> {
    hex(&format!("43 49 52 00 01 {rest}"))
}

fn refused(number: u8) -> Answer {
    Answer {
        number,
        ..Answer::default()
    }
}

/// A file refused by all three operations, and nothing written.
#[track_caller]
fn assert_refused(file: &[u8], number: u8) {
    assert_eq!(read_circuit(file), refused(number));
    assert_eq!(record(file, Wire(0)), []);
    let mut results = [UNTOUCHED; 40];
    for inputs in [&[][..], &[0], &[0, 1], &[2, 2]] {
        assert_eq!(run_circuit(file, inputs, &mut results), refused(number));
    }
    assert_eq!(results, [UNTOUCHED; 40]);
}

/// A file of so many wires that gives these figures, and writes nothing after them.
#[track_caller]
fn assert_gives(file: &[u8], wires: usize, inputs: &[u32], wanted: &[u32]) {
    let mut results = [UNTOUCHED; 40];
    let answer = run_circuit(file, inputs, &mut results);
    assert_eq!(answer, Answer::of_file(wires, file.len()));
    assert_eq!(read_circuit(file), answer);
    assert_eq!(results[..wanted.len()], *wanted);
    assert!(results[wanted.len()..]
        .iter()
        .all(|&left| left == UNTOUCHED));
}

/// A bit and a word; each of them its own output.
const GOOD: &str = "02 00 02 01 00 00 01 00 00 00 01";

#[test]
fn row_60() {
    assert_gives(&cir(GOOD), 2, &[1, 7], &[1, 7]);
    let good = cir(GOOD);
    for length in 0..8 {
        assert_refused(&good[..length], 60);
    }
    for (place, byte) in [
        (0, 0x44),
        (1, 0x00),
        (2, 0x72),
        (3, 0x01),
        (4, 0x00),
        (4, 0x03),
        (5, 0),
        (5, 33),
        (5, 255),
        (6, 3),
        (6, 255),
    ] {
        let mut file = good.clone();
        file[place] = byte;
        assert_refused(&file, 60);
    }
}

#[test]
fn the_limits_of_row_60() {
    // 641 wires: 640 bit constants after the input.
    let with = |wires: usize| {
        let [high, low] = (wires as u16).to_be_bytes();
        let mut file = cir("01");
        file.extend([high, low, 0x01, 0x00]);
        file.extend([0x12, 0x01].repeat(wires - 1));
        file.extend([0x00, 0x00]);
        file
    };
    assert_gives(&with(640), 640, &[1], &[1]);
    assert_refused(&with(641), 60);
    // 16,384 bytes: 12 for the header, the input and the output, 16 picks of 255 pairs, four words.
    let mut file = cir("01 00 15 01 00");
    for _ in 0..16 {
        file.extend([0x31, 0xFF]);
        file.extend([0x00; 4 * 255]);
    }
    file.extend(hex("11 00 00 00 07").repeat(4));
    file.extend([0x00, 0x01]);
    assert_eq!(file.len(), CIRCUIT_BYTES_MAX);
    assert_gives(&file, 21, &[1], &[1]);
    file.push(0x00);
    assert_refused(&file, 60);
    for version in VERSIONS {
        let file = circuits::at_bytes(&mut Random::new(1), version, 16_385);
        assert_refused(&file, 60);
    }
}

#[test]
fn row_61() {
    for rest in [
        // Header alone; no wire, no outputs; outputs short by one byte; one byte left.
        "02 00 02",
        "02 00 00",
        "02 00 02 01 00 00 01 00 00 00",
        "02 00 02 01 00 00 01 00 00 00 01 00",
        // Fewer and more wires than there are records.
        "02 00 01 01 00 00 01 00 00 00 01",
        "02 00 03 01 00 00 01 00 00 00 01",
        // Codes that are none.
        "02 00 03 01 00 00 01 02 00 00 00 01",
        "02 00 03 01 00 00 01 10 00 00 00 00 01",
        "02 00 03 01 00 00 01 13 00 00 00 00 01",
        "02 00 03 01 00 00 01 28 00 01 00 01 00 00 00 01",
        "02 00 03 01 00 00 01 33 00 00 00 00 01",
        // Bit constants of 2 and 255.
        "02 00 03 01 00 00 01 12 02 00 00 00 01",
        "02 00 03 01 00 00 01 12 FF 00 00 00 01",
        // A guard of seven wires; a pick of no pair.
        "01 00 02 01 00 32 07 00 00 00 00 00 00 00 00 00 00 00 00 00 00 00 00 00 00 00 00 00 00 00 00",
        "01 00 02 01 00 31 00 00 00",
        // Records cut: an input, constants, an operation, "not", a choice, a pick, a guard.
        "01 00 01 01",
        "01 00 02 01 00 11 00 00 00",
        "01 00 02 01 00 12",
        "01 00 02 01 00 25 00 00 00",
        "01 00 02 01 00 27 00",
        "01 00 02 01 00 30 00 00 00 00 00",
        "01 00 02 01 00 31",
        "01 00 02 01 00 31 01 00 00 00",
        "01 00 02 01 00 32",
        "01 00 02 01 00 32 00 00 00 00 00 00 00 00",
    ] {
        assert_refused(&cir(rest), 61);
    }
}

#[test]
fn row_62() {
    for rest in [
        // Inputs: exchanged, one twice, a number that is no variable, one missing, one more, one late.
        "02 00 02 00 01 01 00 00 01 00 00",
        "02 00 02 01 00 01 00 00 00 00 00",
        "02 00 02 01 00 00 02 00 00 00 01",
        "02 00 02 01 00 11 00 00 00 07 00 00 00 01",
        "02 00 03 01 00 00 01 00 02 00 00 00 01",
        "02 00 03 01 00 12 01 00 01 00 00 00 02",
        // Fewer wires than variables, none of them.
        "02 00 01 01 00 00 00 00 00",
        "02 00 00 00 00 00 00",
        // Its own wire, a later one, none.
        "02 00 03 01 00 00 01 27 00 02 00 00 00 01",
        "02 00 04 01 00 00 01 27 00 03 12 00 00 00 00 01",
        "02 00 03 01 00 00 01 27 FF FF 00 00 00 01",
        // Kinds of operations: words wanted, bits wanted.
        "02 00 03 01 00 00 01 20 00 00 00 01 00 00 00 01",
        "02 00 03 01 00 00 01 23 00 01 00 00 00 00 00 01",
        "02 00 03 01 00 00 01 24 00 00 00 00 00 00 00 01",
        "02 00 03 01 00 00 01 25 00 00 00 01 00 00 00 01",
        "02 00 03 01 00 00 01 27 00 01 00 00 00 01",
        // A choice by a word; values of two kinds.
        "02 00 03 01 00 00 01 30 00 01 00 01 00 01 00 00 00 01",
        "02 00 03 01 00 00 01 30 00 00 00 01 00 00 00 00 00 01",
        // A pick whose guard is a word; values of two kinds.
        "02 00 03 01 00 00 01 31 01 00 01 00 01 00 00 00 01",
        "02 00 03 01 00 00 01 31 02 00 00 00 01 00 00 00 00 00 00 00 01",
        // A guard's wire is a word; table bits from 2^d up, the lowest and the highest.
        "02 00 03 01 00 00 01 32 01 00 01 00 00 00 00 00 00 00 01 00 00 00 01",
        "02 00 03 01 00 00 01 32 00 00 00 00 00 00 00 00 02 00 00 00 01",
        "02 00 03 01 00 00 01 32 01 00 00 00 00 00 00 00 00 00 04 00 00 00 01",
        "02 00 03 01 00 00 01 32 01 00 00 80 00 00 00 00 00 00 00 00 00 00 01",
        // Outputs: no wire, of the other kind.
        "02 00 02 01 00 00 01 00 02 00 01",
        "02 00 02 01 00 00 01 00 00 FF FE",
        "02 00 02 01 00 00 01 00 01 00 01",
        "02 00 02 01 00 00 01 00 00 00 00",
    ] {
        assert_refused(&cir(rest), 62);
    }
}

/// The lower number decides, wherever its fault stands.
#[test]
fn several_rows() {
    for (rest, wanted) in [
        // 62 early and 61 late, 61 early and 62 late.
        ("02 00 03 00 01 01 00 28 00 00 00 00 00 00", 61),
        ("02 00 03 01 00 00 01 12 02 00 00 FF FF", 61),
        ("02 00 03 01 00 12 02 27 00 01 00 00 00 01", 61),
        // 60 with either, and with both.
        ("00 00 01 12 02", 60),
        ("21 00 02 00 01 01 00 00 01 00 00", 60),
        ("02 02 81 00 01 01 00 28", 60),
    ] {
        assert_refused(&cir(rest), wanted);
    }
}

#[test]
fn rows_40_to_42_come_last() {
    let good = cir(GOOD);
    let mut results = [UNTOUCHED; 2];
    for (inputs, room, wanted) in [
        (&[][..], 2, 40),
        (&[2], 1, 40),
        (&[0, 1, 2], 2, 40),
        (&[2, 5], 1, 41),
        (&[1, 2], 1, 42),
        (&[1, 2], 0, 42),
    ] {
        let answer = run_circuit(&good, inputs, &mut results[..room]);
        assert_eq!(answer, refused(wanted));
    }
    assert_eq!(results, [UNTOUCHED; 2]);
}

#[test]
fn a_pick_is_a_sum() {
    // Bits v0, v1; words v2, v3; v2 := the pick of (v0, v2), (v1, v3), (v0, v3).
    let words = cir("04 00 05 01 00 01 01 00 02 00 03 \
         31 03 00 00 00 02 00 01 00 03 00 00 00 03 00 00 00 01 00 04 00 03");
    let (x, y) = (4_000_000_000, 300_000_000);
    for ([v0, v1], sum) in [
        ([0, 0], 0),
        ([1, 0], 5_032_704),
        ([0, 1], y),
        ([1, 1], 305_032_704),
    ] {
        assert_gives(&words, 5, &[v0, v1, x, y], &[v0, v1, sum, y]);
    }
    // The same of bits: modulo 2.
    let bits = cir("04 00 05 01 00 01 01 01 02 01 03 \
         31 03 00 00 00 02 00 01 00 03 00 00 00 03 00 00 00 01 00 04 00 03");
    for ([v0, v1, v2, v3], sum) in [
        ([1, 0, 1, 1], 0),
        ([1, 1, 1, 1], 1),
        ([0, 1, 1, 1], 1),
        ([1, 1, 0, 1], 0),
        ([1, 0, 1, 0], 1),
        ([0, 0, 1, 1], 0),
    ] {
        assert_gives(&bits, 5, &[v0, v1, v2, v3], &[v0, v1, sum, v3]);
    }
}

#[test]
fn guards_of_another_house() {
    // Of no wire: table 1, table 0. Of v0 twice: bit 3 and bit 1 of the table.
    let file = cir("04 00 08 01 00 01 01 01 02 01 03 \
         32 00 00 00 00 00 00 00 00 01 32 00 00 00 00 00 00 00 00 00 \
         32 02 00 00 00 00 00 00 00 00 00 00 00 08 32 02 00 00 00 00 00 00 00 00 00 00 00 02 \
         00 04 00 05 00 06 00 07");
    assert_gives(&file, 8, &[1, 0, 0, 0], &[1, 0, 1, 0]);
    assert_gives(&file, 8, &[0, 1, 1, 1], &[1, 0, 0, 0]);
    // Wire t is bit t of j: v0 the lowest.
    let file = cir("02 00 03 01 00 01 01 32 02 00 00 00 01 00 00 00 00 00 00 00 02 00 02 00 01");
    for ([v0, v1], wanted) in [([0, 0], 0), ([1, 0], 1), ([0, 1], 0), ([1, 1], 0)] {
        assert_gives(&file, 3, &[v0, v1], &[wanted, v1]);
    }
}

/// Records follow each other from the header to the outputs, in every file that is accepted.
fn assert_parts(file: &[u8], variables: usize) {
    let wires = read_circuit(file).wires;
    let parts: Vec<&[u8]> = (0..wires).map(|wire| record(file, Wire(wire))).collect();
    assert!(parts.iter().all(|part| part.len() >= 2));
    assert_eq!(parts.concat(), file[8..file.len() - 2 * variables]);
    let mut from = 8;
    for part in parts {
        // The caller's own bytes, not a copy.
        assert!(std::ptr::eq(part, &file[from..from + part.len()]));
        from += part.len();
    }
    for wire in [wires, wires + 1, 65_535, usize::MAX] {
        assert_eq!(record(file, Wire(wire)), []);
    }
}

/// What a direct run of an accepted rule writes.
fn results_of(rule: &[u8], inputs: &[u32]) -> Vec<u32> {
    let mut results = vec![UNTOUCHED; inputs.len()];
    assert_eq!(direct::run(rule, inputs, &mut results).number, 0);
    results
}

/// Every file that our writer makes is read and gives the figures of its rule.
#[test]
fn our_own_files() {
    let mut random = Random::new(11);
    for _ in 0..600 {
        let rule = rules::accepted(&mut random, Words::ALL);
        let accepted = accept(&rule).unwrap();
        let needs = preconditions(&accepted.circuit);
        let ground = plans::Ground::new(&accepted.circuit, &needs);
        let plan = plans::valid(&mut random, &ground);
        let plan = check(&accepted.circuit, needs.clone(), &plan).unwrap();
        let fused = fuse(&accepted.circuit, &plan);
        let file = fused.file();
        let read = circuit_file::accept(&file).expect("our own file");
        assert_eq!(read.circuit, fused);
        assert_eq!(read.variables(), accepted.rule.kinds());
        assert_parts(&file, accepted.rule.variables.len());
        for _ in 0..4 {
            let inputs = inputs(&mut random, &accepted.rule.kinds());
            let wanted = results_of(&rule, &inputs);
            assert_gives(&file, fused.records.len(), &inputs, &wanted);
        }
    }
}

/// The stored files of the repository's examples.
#[test]
fn stored_files() {
    let mut random = Random::new(14);
    let mut read = 0;
    for example in std::fs::read_dir("../examples").unwrap() {
        let folder = example.unwrap().path();
        let Ok(file) = std::fs::read(folder.join("expected.cir")) else {
            continue;
        };
        let rule = std::fs::read(folder.join("rule.rul")).unwrap();
        let accepted = accept(&rule).unwrap();
        let wires = read_circuit(&file).wires;
        for _ in 0..20 {
            let inputs = inputs(&mut random, &accepted.rule.kinds());
            let wanted = results_of(&rule, &inputs);
            assert_gives(&file, wires, &inputs, &wanted);
        }
        assert_parts(&file, accepted.rule.variables.len());
        read += 1;
    }
    assert!(read >= 5, "only {read} examples");
}

/// Files of other houses are read back as they were made, and reach the limits.
#[test]
fn files_of_other_houses() {
    let mut random = Random::new(12);
    let (mut most_wires, mut most_bytes) = (0, 0);
    for _ in 0..600 {
        let made = circuits::foreign(&mut random, Words::ALL);
        let file = made.file();
        let read = circuit_file::accept(&file).expect("a good file");
        assert_eq!(read.circuit, made.circuit);
        assert_eq!(read.version, made.version);
        assert_parts(&file, made.circuit.outputs.len());
        most_wires = most_wires.max(made.circuit.records.len());
        most_bytes = most_bytes.max(file.len());
    }
    assert_eq!((most_wires, most_bytes), (WIRES_MAX, CIRCUIT_BYTES_MAX));
}

/// Any bytes are answered, and each number is one of reading's; a refused file runs on nothing.
#[test]
fn any_bytes() {
    let mut random = Random::new(13);
    for turn in 0..3000 {
        let file = match turn % 3 {
            0 => circuits::damaged(&mut random, Words::ALL),
            1 => (0..random.below(60)).map(|_| random.any() as u8).collect(),
            _ => {
                let mut file = cir("02 00 09");
                file.extend((0..random.below(60)).map(|_| random.any() as u8));
                file
            }
        };
        let answer = read_circuit(&file);
        assert!([0, 60, 61, 62].contains(&answer.number));
        if answer.number != 0 {
            assert_eq!(answer, refused(answer.number));
            assert_refused(&file, answer.number);
        }
    }
}
