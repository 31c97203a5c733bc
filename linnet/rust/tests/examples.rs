//! Examples of document 01, working variables, and a file as another house may write it, through the wrapper and, from C, through the header.

use linnet::Answer;
use std::path::Path;
use std::process::Command;

const R1: [u8; 29] = [
    0x52, 0x55, 0x4C, 0x00, 0x01, 0x03, 0x01, 0x00, 0x00, 0x03, 0x10, 0x00, 0x01, 0x01, 0x22, 0x10,
    0x01, 0x10, 0x02, 0x00, 0x01, 0x01, 0x22, 0x10, 0x02, 0x10, 0x02, 0x00, 0x00,
];

fn refused(number: u8, place: usize) -> Answer {
    Answer {
        number,
        place,
        ..Answer::default()
    }
}

fn plain(gates: usize, before: usize) -> Answer {
    Answer {
        gates,
        before,
        ..Answer::default()
    }
}

#[test]
fn rules_are_read() {
    assert_eq!(linnet::read_rule(&R1), plain(6, 33));
    assert_eq!(linnet::read_rule(&R1[..28]), refused(4, 28));
    assert_eq!(linnet::read_rule(&[]), refused(1, 0));
}

#[test]
fn rules_run() {
    let mut results = [9; 4];
    let answer = linnet::run_rule(&R1, &[2, 6, 7], &mut results);
    assert_eq!((answer, results), (refused(41, 0), [9; 4]));
    let answer = linnet::run_rule(&R1, &[1, 6, 7], &mut results);
    assert_eq!((answer, results), (plain(6, 33), [1, 42, 7, 9]));
    assert_eq!(linnet::run_rule(&R1, &[], &mut []), refused(40, 0));
}

#[test]
fn plain_circuits_are_shown() {
    let shown = linnet::show_plain(&R1);
    assert_eq!(shown.answer, plain(6, 33));
    assert_eq!(
        shown.rows[12..24],
        [0x22, 1, 2, 0, 0x22, 2, 2, 0, 0x30, 0, 3, 4]
    );
    assert_eq!(shown.needs[12..16], [0xAAAA_AAAA_AAAA_AAAA; 4]);
    assert_eq!(shown.needs[16..20], [0x5555_5555_5555_5555; 4]);
    assert_eq!(
        (
            shown.rows[24..].iter().sum::<u32>(),
            shown.needs[24..].iter().sum::<u64>()
        ),
        (0, 0)
    );
    let shown = linnet::show_plain(&R1[..28]);
    assert_eq!(shown.answer, refused(4, 28));
    assert_eq!((shown.rows, shown.needs), ([0; 1024], [0; 1024]));
}

#[test]
fn plans_are_checked_written_and_run() {
    let p1 = [0x50, 0x4C, 0x4E, 0, 1, 0, 6, 0, 1, 2, 0, 3, 0, 4];
    let fused = Answer {
        wires: 8,
        bytes: 114,
        after: 24,
        ..plain(6, 33)
    };
    assert_eq!(linnet::check_plan(&R1, &p1), plain(6, 33));
    assert_eq!(linnet::check_plan(&R1, &p1[..13]), refused(23, 0));
    let mut out = [0xEE; 118];
    assert_eq!(
        linnet::write_fused(&R1, &p1, &mut out[..113]),
        refused(50, 0)
    );
    assert_eq!(out, [0xEE; 118]);
    assert_eq!(linnet::write_fused(&R1, &p1, &mut out), fused);
    assert_eq!(out[..5], *b"CIR\x00\x02");
    assert_eq!((out[113], out[114]), (2, 0xEE));
    let mut results = [9; 4];
    assert_eq!(linnet::run_fused(&R1, &p1, &[0, 6, 7], &mut results), fused);
    assert_eq!(results, [0, 49, 7, 9]);
}

/// The groups of a plan stand in rising order of their smallest members. The rule is that of the guide's row 32:
/// five ands, none of them needed, and groups {1, 2} and {3, 4}.
#[test]
fn groups_stand_in_one_order() {
    let rule = [
        0x52, 0x55, 0x4C, 0, 1, 1, 3, 1, 0, 0x25, 0x25, 0x25, 0x10, 0, 0x10, 0, 0x25, 0x10, 0,
        0x10, 0, 0x25, 0x10, 0, 0x10, 0, 0,
    ];
    let head = [0x50, 0x4C, 0x4E, 0, 1, 0, 6, 0, 2];
    let (first, second) = ([2, 0, 1, 0, 2], [2, 0, 3, 0, 4]);
    let answer = |one: [u8; 5], two: [u8; 5]| {
        let plan = [&head[..], &one, &two].concat();
        linnet::check_plan(&rule, &plan)
    };
    assert_eq!(answer(first, second), plain(6, 5));
    assert_eq!(answer(second, first), refused(32, 0));
    assert_eq!(answer(first, first), refused(26, 0));
}

/// R1 with v2 made a working word: every run writes 0 for it, and its output in the file is FF FF.
#[test]
fn working_variables_give_0() {
    let p1 = [0x50, 0x4C, 0x4E, 0, 1, 0, 6, 0, 1, 2, 0, 3, 0, 4];
    let mut rule = R1;
    rule[8] = 2;
    let mut results = [9; 4];
    let answer = linnet::run_rule(&rule, &[1, 6, 7], &mut results);
    assert_eq!((answer, results), (plain(6, 33), [1, 42, 0, 9]));
    results = [9; 4];
    linnet::run_fused(&rule, &p1, &[0, 6, 7], &mut results);
    assert_eq!(results, [0, 49, 0, 9]);
    let mut file = [0; 114];
    assert_eq!(linnet::write_fused(&rule, &p1, &mut file).bytes, 114);
    assert_eq!(file[..112], circuit()[..112]);
    assert_eq!(file[112..], [0xFF, 0xFF]);
    results = [9; 4];
    linnet::run_circuit(&file, &[1, 6, 7], &mut results);
    assert_eq!(results, [1, 42, 0, 9]);
    file[113] = 0xFE;
    assert_eq!(linnet::read_circuit(&file), refused(62, 0));
    rule[8] = 4;
    assert_eq!(linnet::read_rule(&rule), refused(3, 8));
    // v0 made a working bit.
    rule[8] = 0;
    rule[6] = 3;
    let answer = linnet::run_rule(&rule, &[2, 6, 7], &mut results);
    assert_eq!(answer, refused(41, 0));
    linnet::run_rule(&rule, &[1, 6, 7], &mut results);
    assert_eq!(results, [0, 42, 7, 9]);
}

/// Example 3's file, 114 bytes.
fn circuit() -> Vec<u8> {
    let p1 = [0x50, 0x4C, 0x4E, 0, 1, 0, 6, 0, 1, 2, 0, 3, 0, 4];
    let mut out = [0; 114];
    assert_eq!(linnet::write_fused(&R1, &p1, &mut out).number, 0);
    out.to_vec()
}

/// The same in version 1, 66 bytes: tables of 8 bytes.
fn circuit_of_version_1() -> Vec<u8> {
    let file = circuit();
    let mut before = [&file[..18], &file[42..54], &file[78..]].concat();
    before[4] = 1;
    assert_eq!(before.len(), 66);
    before
}

/// The same as it was written before C-18, 124 bytes: a pick at the second place too, where both products have v2.
fn circuit_of_before() -> Vec<u8> {
    let pick = [0x31, 2, 0, 3, 0, 2, 0, 4, 0, 2];
    let rest = [0x22, 0, 5, 0, 6, 0x30, 0, 0, 0, 7, 0, 7, 0, 0, 0, 8, 0, 2];
    let mut before = [&circuit()[..96], &pick, &rest].concat();
    before[7] = 9;
    before
}

/// Files of today in both versions, and of before.
#[test]
fn circuit_files_are_read_and_run() {
    // The last bytes of the two tables; the second factor with both guards at 1, which a pick adds up.
    read_and_run(circuit(), 8, [49, 85], 7);
    read_and_run(circuit_of_version_1(), 8, [25, 37], 7);
    read_and_run(circuit_of_before(), 9, [49, 85], 14);
}

fn read_and_run(file: Vec<u8>, wires: usize, tables: [usize; 2], second: u32) {
    let accepted = Answer {
        wires,
        bytes: file.len(),
        ..Answer::default()
    };
    assert_eq!(linnet::read_circuit(&file), accepted);
    let mut results = [9; 4];
    assert_eq!(
        linnet::run_circuit(&file, &[1, 6, 7], &mut results),
        accepted
    );
    assert_eq!(results, [1, 42, 7, 9]);
    for (inputs, room, number) in [
        (&[1, 6][..], 4, 40),
        (&[2, 6, 7], 4, 41),
        (&[1, 6, 7], 2, 42),
    ] {
        let answer = linnet::run_circuit(&file, inputs, &mut results[..room]);
        assert_eq!(answer, refused(number, 0));
    }
    assert_eq!(results, [1, 42, 7, 9]);
    // Both guards always at 1: the picks give sums.
    let mut sums = file.clone();
    (sums[tables[0]], sums[tables[1]]) = (3, 3);
    assert_eq!(
        linnet::run_circuit(&sums, &[1, 6, 7], &mut results),
        accepted
    );
    assert_eq!(results, [1, 13 * second, 7, 9]);
}

#[test]
fn circuit_files_are_refused() {
    let file = circuit();
    let mut results = [9; 3];
    for (place, byte, number) in [
        (0, 0x44, 60),
        (4, 0x03, 60),
        // In version 1 the tables would be shorter, and bytes are left.
        (4, 0x01, 61),
        (15, 9, 61),
        (96, 0x28, 61),
        (17, 1, 62),
        (49, 4, 62),
        (18, 0x80, 62),
    ] {
        let mut file = file.clone();
        file[place] = byte;
        assert_eq!(linnet::read_circuit(&file), refused(number, 0));
        assert_eq!(linnet::record(&file, 0), []);
        let answer = linnet::run_circuit(&file, &[2, 6], &mut results);
        assert_eq!((answer, results), (refused(number, 0), [9; 3]));
    }
    assert_eq!(linnet::read_circuit(&file[..8]), refused(61, 0));
    assert_eq!(linnet::read_circuit(&[]), refused(60, 0));
}

/// C-17: eight conditions and ifs eight deep, and nine of each.
#[test]
fn eight_conditions() {
    let conditions = |count: usize| {
        let branch = [0x03, 0x27, 0x10, 0, 1, 0, 0x10, 0, 0, 0].repeat(count);
        [&b"RUL\x00\x01\x01\x01"[..], &branch, &[0]].concat()
    };
    assert_eq!(linnet::read_rule(&conditions(8)), plain(17, 24));
    assert_eq!(linnet::read_rule(&conditions(9)), refused(11, 98));
    let nested = |depth: usize| {
        let ifs = [0x03, 0x10, 0, 0].repeat(depth);
        let inside = [1, 0, 0x27, 0x10, 0];
        let ends = vec![0; depth + 1];
        [&b"RUL\x00\x01\x01\x01"[..], &ifs, &inside, &ends].concat()
    };
    assert_eq!(linnet::read_rule(&nested(8)), plain(10, 24));
    assert_eq!(linnet::read_rule(&nested(9)), refused(8, 39));
    // Each condition but the first is what the choice before it gives, turned: all are needed always. The last gate's
    // condition is gate 15.
    let shown = linnet::show_plain(&conditions(8));
    assert_eq!(shown.rows[64..68], [0x30, 15, 14, 14]);
    assert_eq!(shown.needs[60..68], [u64::MAX; 8]);
}

/// Records follow each other between header and outputs, in the caller's own bytes.
#[test]
fn records_are_shown() {
    let file = circuit();
    let mut from = 8;
    for wire in 0..8 {
        let part = linnet::record(&file, wire);
        assert!(std::ptr::eq(part, &file[from..from + part.len()]));
        from += part.len();
    }
    assert_eq!(from, 108);
    assert_eq!(linnet::record(&file, 6), [0x22, 0x00, 0x05, 0x00, 0x02]);
    for none in [8, 9, 65_535, usize::MAX] {
        assert_eq!(linnet::record(&file, none), []);
    }
}

const CHARGES: &[u8] = include_bytes!("../../../examples/other-house/charges.cir");

/// A file made by hand, as another house may write it: both guards of its pick are 1.
#[test]
fn files_of_another_house_run() {
    let mut results = [0; 4];
    let record = linnet::record(CHARGES, 4);
    let answer = linnet::run_circuit(CHARGES, &[1, 1, 500, 250], &mut results);
    assert_eq!(record, &CHARGES[16..26]);
    assert_eq!((answer.number, answer.wires, answer.bytes), (0, 5, 34));
    assert_eq!(results, [1, 1, 750, 250]);
    for (bits, sum) in [([0, 0], 0), ([1, 0], 500), ([0, 1], 250)] {
        let inputs = [bits[0], bits[1], 500, 250];
        linnet::run_circuit(CHARGES, &inputs, &mut results);
        assert_eq!(results, [bits[0], bits[1], sum, 250]);
    }
}

/// `linnet/c/examples.c`, compiled by gcc with every warning an error, and run.
#[test]
fn c_programs_call_it() {
    let root = Path::new(env!("CARGO_MANIFEST_DIR")).join("../..");
    let program = Path::new(env!("CARGO_TARGET_TMPDIR")).join("examples");
    let mut gcc = Command::new("gcc");
    gcc.args([
        "-std=c99",
        "-pedantic",
        "-Wall",
        "-Wextra",
        "-Werror",
        "-O2",
    ]);
    gcc.arg("-I").arg(root.join("linnet"));
    gcc.arg(root.join("linnet/c/examples.c"));
    gcc.arg(root.join("crates/linnet/out/liblinnet.a"));
    gcc.arg("-o").arg(&program);
    assert!(gcc.status().expect("gcc runs").success(), "{gcc:?}");
    let ran = Command::new(&program).output().expect("it runs");
    let said = String::from_utf8_lossy(&ran.stdout);
    assert!(ran.status.success(), "{said}");
}
