//! Examples of document 01; what is refused writes nothing. Many more cases are compared by the harness.

use std::mem::MaybeUninit;
use tuned::*;

#[rustfmt::skip]
const R1: [u8; 29] = [
    0x52, 0x55, 0x4C, 0x00, 0x01, 0x03, 0x01, 0x00, 0x00,
    0x03, 0x10, 0x00,
        0x01, 0x01, 0x22, 0x10, 0x01, 0x10, 0x02, 0x00,
        0x01, 0x01, 0x22, 0x10, 0x02, 0x10, 0x02, 0x00,
    0x00,
];

#[rustfmt::skip]
const P1: [u8; 14] = [0x50, 0x4C, 0x4E, 0x00, 0x01, 0x00, 0x06, 0x00, 0x01, 0x02, 0x00, 0x03, 0x00, 0x04];

/// Example 3's file in version 1, as document 01 has it.
#[rustfmt::skip]
const FILE: [u8; 76] = [
    0x43, 0x49, 0x52, 0x00, 0x01, 0x03, 0x00, 0x09,
    0x01, 0x00, 0x00, 0x01, 0x00, 0x02,
    0x32, 0x01, 0x00, 0x00, 0x00, 0x00, 0x00, 0x00, 0x00, 0x00, 0x00, 0x02,
    0x32, 0x01, 0x00, 0x00, 0x00, 0x00, 0x00, 0x00, 0x00, 0x00, 0x00, 0x01,
    0x31, 0x02, 0x00, 0x03, 0x00, 0x01, 0x00, 0x04, 0x00, 0x02,
    0x31, 0x02, 0x00, 0x03, 0x00, 0x02, 0x00, 0x04, 0x00, 0x02,
    0x22, 0x00, 0x05, 0x00, 0x06,
    0x30, 0x00, 0x00, 0x00, 0x07, 0x00, 0x07,
    0x00, 0x00, 0x00, 0x08, 0x00, 0x02,
];

/// The same in version 2 (C-17), as it was written before C-18: 24 bytes more in each table.
fn file_before() -> Vec<u8> {
    let more = [0; 24];
    let parts = [&FILE[..18], &more, &FILE[18..30], &more, &FILE[30..]];
    let mut file = parts.concat();
    file[4] = 2;
    file
}

/// As it is written: the products have one wire at their second place, so there is no pick there (C-18).
fn file() -> Vec<u8> {
    let before = file_before();
    let mut file = [&before[..96], &before[106..]].concat();
    // A wire less: the product reads the pick and v2, the choice the product, v1's output is the choice.
    for (place, wire) in [(7, 8), (100, 2), (105, 6), (107, 6), (111, 7)] {
        file[place] = wire;
    }
    file
}

fn line(answer: Answer) -> [usize; 7] {
    [
        usize::from(answer.number),
        answer.place,
        answer.gates,
        answer.wires,
        answer.bytes,
        answer.before,
        answer.after,
    ]
}

#[test]
fn example_1_circuit_of_r1() {
    assert_eq!(line(read_rule(&R1)), [0, 0, 6, 0, 0, 33, 0]);
    let mut room = MaybeUninit::uninit();
    let shown = show_plain(&R1, &mut room);
    assert_eq!(
        shown.rows[12..24],
        [0x22, 1, 2, 0, 0x22, 2, 2, 0, 0x30, 0, 3, 4]
    );
    assert_eq!(shown.needs[12..16], [0xAAAA_AAAA_AAAA_AAAA; 4]);
    assert_eq!(shown.needs[16..20], [0x5555_5555_5555_5555; 4]);
    assert!(shown.rows[24..].iter().all(|&number| number == 0));
    assert!(shown.needs[24..].iter().all(|&word| word == 0));
}

/// A direct run, and a fused run in both ways, give the same.
#[test]
fn example_2_runs() {
    for (inputs, wanted) in [([1, 6, 7], [1, 42, 7]), ([0, 6, 7], [0, 49, 7])] {
        let mut results = [9; 4];
        assert_eq!(run_rule(&R1, &inputs, &mut results).number, 0);
        assert_eq!((&results[..3], results[3]), (&wanted[..], 9));
        for fused in [run_fused, run_fused_unwritten] {
            let mut results = [9; 4];
            let answer = fused(&R1, &P1, &inputs, &mut results);
            assert_eq!(line(answer), [0, 0, 6, 8, 114, 33, 24]);
            assert_eq!((&results[..3], results[3]), (&wanted[..], 9));
        }
    }
    let mut results = [9; 3];
    assert_eq!(run_rule(&R1, &[2, 6, 7], &mut results).number, 41);
    assert_eq!(run_fused(&R1, &P1, &[0, 6], &mut results).number, 40);
    assert_eq!(
        run_fused_unwritten(&R1, &P1, &[0, 6, 7], &mut results[..2]).number,
        42
    );
    assert_eq!(results, [9; 3]);
}

#[test]
fn example_3_the_whole_file() {
    let mut out = [0xEE; 118];
    assert_eq!(write_fused(&R1, &P1, &mut out).number, 0);
    assert_eq!((&out[..114], &out[114..]), (&file()[..], &[0xEE; 4][..]));
    let mut short = [0xEE; 113];
    assert_eq!(
        line(write_fused(&R1, &P1, &mut short)),
        [50, 0, 0, 0, 0, 0, 0]
    );
    assert_eq!(short, [0xEE; 113]);
}

#[test]
fn example_4_refusals_of_reading() {
    let refused = |rule: &[u8]| line(read_rule(rule))[..2].to_vec();
    assert_eq!(refused(&R1[..28]), [4, 28]);
    assert_eq!(refused(&[&R1[..], &[0]].concat()), [9, 29]);
    for (place, byte, number) in [(11, 3, 6), (11, 1, 7), (14, 0x28, 5), (14, 0x23, 7)] {
        let mut rule = R1;
        rule[place] = byte;
        assert_eq!(refused(&rule), [number, place]);
    }
}

#[test]
fn example_5_a_choice_is_not_costly() {
    let mut plan = P1;
    plan[13] = 5;
    assert_eq!(line(check_plan(&R1, &plan)), [27, 0, 0, 0, 0, 0, 0]);
    assert_eq!(line(check_plan(&R1, &P1)), [0, 0, 6, 0, 0, 33, 0]);
}

#[test]
fn example_3_read_and_run() {
    for file in [FILE.to_vec(), file_before()] {
        let done = [0, 0, 0, 9, file.len(), 0, 0];
        assert_eq!(line(read_circuit(&file)), done);
        for (inputs, wanted) in [([1, 6, 7], [1, 42, 7]), ([0, 6, 7], [0, 49, 7])] {
            let mut results = [9; 4];
            let answer = run_circuit(&file, &inputs, &mut results);
            assert_eq!(line(answer), done);
            assert_eq!((&results[..3], results[3]), (&wanted[..], 9));
        }
        let parts: Vec<&[u8]> = (0..9).map(|wire| record(&file, wire)).collect();
        assert_eq!(parts.concat(), file[8..file.len() - 6]);
        assert_eq!(parts[7], [0x22, 0x00, 0x05, 0x00, 0x06]);
        for none in [9, 65_535, usize::MAX] {
            assert_eq!(record(&file, none), []);
        }
    }
}

/// C-18: the file as it is written.
#[test]
fn example_3_without_a_pick() {
    let file = file();
    assert_eq!(line(read_circuit(&file)), [0, 0, 0, 8, 114, 0, 0]);
    for (inputs, wanted) in [([1, 6, 7], [1, 42, 7]), ([0, 6, 7], [0, 49, 7])] {
        let mut results = [9; 3];
        assert_eq!(run_circuit(&file, &inputs, &mut results).number, 0);
        assert_eq!(results, wanted);
    }
    assert_eq!(record(&file, 6), [0x22, 0x00, 0x05, 0x00, 0x02]);
    assert_eq!(record(&file, 8), []);
}

/// C-18: nine comparisons of one word with itself have equal wires, so each group is its operation alone.
#[test]
fn groups_without_guards() {
    for (groups, wires) in [
        (&[&[1, 2][..]][..], 9),
        (&[&[1, 2], &[3, 4, 5]], 7),
        (&[&[1, 2, 3, 4, 5, 6, 7, 8, 9]], 2),
    ] {
        let operations = wires - 1;
        let bytes = 12 + 5 * operations;
        let mut out = [0xEE; 60];
        let answer = write_fused(&nine(), &plan(10, groups), &mut out);
        let wanted = [0, 0, 10, wires, bytes, 360, 40 * operations];
        assert_eq!(line(answer), wanted);
        assert_eq!(&out[10..15], [0x23, 0, 0, 0, 0]);
        let mut results = [9];
        let answer = run_fused_unwritten(&nine(), &plan(10, groups), &[5], &mut results);
        assert_eq!((line(answer), results), (wanted, [5]));
    }
}

/// C-17: eight conditions and ifs eight deep, nine are refused; each version has its own guards.
#[test]
fn eight_conditions() {
    let conditions = |count: usize| {
        let mut rule = b"RUL\x00\x01\x01\x01".to_vec();
        rule.extend(b"\x03\x27\x10\x00\x01\x00\x10\x00\x00\x00".repeat(count));
        rule.push(0);
        rule
    };
    assert_eq!(line(read_rule(&conditions(8))), [0, 0, 17, 0, 0, 24, 0]);
    assert_eq!(line(read_rule(&conditions(9)))[..2], [11, 98]);
    let nested = |depth: usize| {
        let mut rule = b"RUL\x00\x01\x01\x01".to_vec();
        rule.extend(b"\x03\x10\x00\x00".repeat(depth));
        rule.extend(b"\x01\x00\x27\x10\x00");
        rule.extend(vec![0; depth + 1]);
        rule
    };
    assert_eq!(line(read_rule(&nested(8))), [0, 0, 10, 0, 0, 24, 0]);
    assert_eq!(line(read_rule(&nested(9)))[..2], [8, 39]);
    for (version, most, table) in [(1, 6, 8), (2, 8, 32)] {
        for count in 0..=most + 1 {
            let head = [&b"CIR\x00"[..], &[version, 1, 0, 2, 1, 0, 0x32, count]].concat();
            let mut file = [head, vec![0; 2 * usize::from(count) + table - 1]].concat();
            file.extend([1, 0, 1]);
            let wanted = if count <= most { 0 } else { 61 };
            assert_eq!(read_circuit(&file).number, wanted);
            let place = file.len() - 3;
            file[place] = 0;
            file[place + 1 - table] = 0x80;
            let wanted = [62, 0, 61][usize::from(count >= most) + usize::from(count > most)];
            assert_eq!(read_circuit(&file).number, wanted);
            file[4] = 3;
            assert_eq!(read_circuit(&file).number, 60);
        }
    }
}

/// What is refused writes nothing, and the lowest number decides.
#[test]
fn refusals_of_circuit_files() {
    let changed = |changes: &[(usize, u8)]| {
        let mut file = FILE;
        changes.iter().for_each(|&(place, byte)| file[place] = byte);
        file.to_vec()
    };
    let mut results = [9; 4];
    for (file, wanted) in [
        (Vec::new(), 60),
        (FILE[..7].to_vec(), 60),
        (vec![0; 16_385], 60),
        (changed(&[(0, 0x44)]), 60),
        (changed(&[(5, 0)]), 60),
        (changed(&[(5, 33)]), 60),
        (changed(&[(6, 3)]), 60),
        (FILE[..8].to_vec(), 61),
        (FILE[..75].to_vec(), 61),
        ([&FILE[..], &[0]].concat(), 61),
        (changed(&[(58, 0x28)]), 61),
        (changed(&[(15, 7)]), 61),
        (changed(&[(39, 0)]), 61),
        // A fault of 62 before one of 61, and after it.
        (changed(&[(9, 1), (63, 0x33)]), 61),
        (changed(&[(14, 0x33), (75, 0xFF)]), 61),
        (changed(&[(9, 1)]), 62),
        (changed(&[(17, 3)]), 62),
        (changed(&[(17, 1)]), 62),
        (changed(&[(25, 4)]), 62),
        (changed(&[(43, 3)]), 62),
        (changed(&[(60, 7)]), 62),
        (changed(&[(71, 1)]), 62),
        (changed(&[(75, 9)]), 62),
    ] {
        assert_eq!(line(read_circuit(&file)), [wanted, 0, 0, 0, 0, 0, 0]);
        assert_eq!(record(&file, 0), []);
        for inputs in [&[1, 6, 7][..], &[2, 6, 7], &[]] {
            let answer = run_circuit(&file, inputs, &mut results);
            assert_eq!(line(answer), [wanted, 0, 0, 0, 0, 0, 0]);
        }
    }
    assert_eq!(run_circuit(&FILE, &[2, 6], &mut results[..2]).number, 40);
    assert_eq!(run_circuit(&FILE, &[2, 6, 7], &mut results[..2]).number, 41);
    assert_eq!(run_circuit(&FILE, &[2, 6, 7], &mut results).number, 41);
    assert_eq!(run_circuit(&FILE, &[1, 6, 7], &mut results[..2]).number, 42);
    assert_eq!(results, [9; 4]);
}

/// Both guards of the picks at 1, for words and, with v1 and v2 bits and an "and", for bits.
#[test]
fn a_pick_is_a_sum() {
    let mut file = FILE;
    file[25] = 3;
    file[37] = 3;
    let mut results = [9; 3];
    assert_eq!(run_circuit(&file, &[1, 6, 7], &mut results).number, 0);
    assert_eq!(results, [1, 13 * 14, 7]);
    let inputs = [0, u32::MAX, 3];
    assert_eq!(run_circuit(&file, &inputs, &mut results).number, 0);
    assert_eq!(results, [0, 12, 3]);
    file[10] = 1;
    file[12] = 1;
    file[58] = 0x26;
    for (inputs, wanted) in [([1, 1, 0], 1), ([1, 1, 1], 0), ([0, 0, 1], 1)] {
        assert_eq!(run_circuit(&file, &inputs, &mut results).number, 0);
        assert_eq!(results, [inputs[0], wanted, inputs[2]]);
    }
}

/// One word and nine comparisons, gates 1 to 9, that nothing needs: "if v0 < v0" with nothing in it.
fn nine() -> Vec<u8> {
    let mut rule = vec![0x52, 0x55, 0x4C, 0x00, 0x01, 0x01, 0x00];
    rule.extend([0x03, 0x23, 0x10, 0x00, 0x10, 0x00, 0x00, 0x00].repeat(9));
    rule.push(0x00);
    rule
}

fn plan(gates: u8, groups: &[&[u8]]) -> Vec<u8> {
    let mut plan = vec![0x50, 0x4C, 0x4E, 0x00, 0x01, 0x00, gates];
    plan.extend([0x00, groups.len() as u8]);
    for group in groups {
        plan.push(group.len() as u8);
        group.iter().for_each(|&member| plan.extend([0, member]));
    }
    plan
}

/// C-15: smallest members rise, 32 after 26 and before 27, wherever in the file each fault stands.
#[test]
fn groups_in_order() {
    for (groups, wanted) in [
        (&[][..], 0),
        (&[&[8, 9][..]], 0),
        (&[&[1, 9], &[3, 5]], 0),
        (&[&[3, 5], &[1, 9]], 32),
        (&[&[1, 2], &[3, 4], &[5, 6]], 0),
        (&[&[3, 4], &[1, 2], &[5, 6]], 32),
        (&[&[1, 2], &[5, 6], &[3, 4]], 32),
        (&[&[1, 2], &[1, 3]], 26),
        (&[&[3, 4], &[1, 2], &[5, 6], &[6, 7]], 26),
        (&[&[1, 2], &[2, 3], &[7, 8], &[5, 6]], 26),
        (&[&[3, 4], &[1, 2], &[6, 5]], 25),
        (&[&[3, 4], &[1, 2], &[5]], 24),
        (&[&[0, 1], &[2, 3]], 27),
        (&[&[2, 3], &[0, 1]], 32),
    ] {
        let plan = plan(10, groups);
        assert_eq!(check_plan(&nine(), &plan).number, wanted, "{groups:?}");
        let mut out = [0xEE; 400];
        assert_eq!(write_fused(&nine(), &plan, &mut out).number, wanted);
        assert!(wanted == 0 || out == [0xEE; 400]);
        for fused in [run_fused, run_fused_unwritten] {
            let mut results = [9];
            assert_eq!(fused(&nine(), &plan, &[5], &mut results).number, wanted);
            assert_eq!(results, [if wanted == 0 { 5 } else { 9 }]);
        }
    }
}
