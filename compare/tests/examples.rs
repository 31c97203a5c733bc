//! Examples 1 to 9 of document 01, worked out by hand there, and readings left open by it.

use compare::answer::Answer;
use compare::circuit::{accept, preconditions, read_rule, Gate, GateNumber};
use compare::examples::{P1, R1, R2, R7, R8};
use compare::law::*;
use compare::plan::check_plan;
use compare::rule::{bytes_of, read, Expression, Rule, Statement};
use compare::{direct, run, write};

const UNTOUCHED: u32 = 3_735_928_559;

fn refused(number: u8, place: usize) -> Answer {
    Answer {
        number,
        place,
        ..Answer::default()
    }
}

fn plan(gates: u16, groups: &[&[u16]]) -> Vec<u8> {
    let mut bytes = PLAN_MARK.to_vec();
    bytes.extend(gates.to_be_bytes());
    bytes.extend((groups.len() as u16).to_be_bytes());
    for group in groups {
        bytes.push(group.len() as u8);
        for member in *group {
            bytes.extend(member.to_be_bytes());
        }
    }
    bytes
}

fn changed(place: usize, byte: u8) -> Vec<u8> {
    let mut bytes = R1.to_vec();
    bytes[place] = byte;
    bytes
}

fn hex(text: &str) -> Vec<u8> {
    text.split_whitespace()
        .map(|pair| u8::from_str_radix(pair, 16).unwrap())
        .collect()
}

#[test]
fn example_1_circuit_of_r1() {
    let circuit = accept(&R1).ok().unwrap().circuit;
    let n = GateNumber;
    assert_eq!(
        circuit.gates,
        vec![
            Gate::Start(0, Kind::Bit),
            Gate::Start(1, Kind::Word),
            Gate::Start(2, Kind::Word),
            Gate::Operation(PRODUCT, vec![n(1), n(2)]),
            Gate::Operation(PRODUCT, vec![n(2), n(2)]),
            Gate::Choice(n(0), n(3), n(4)),
        ]
    );
    assert_eq!(circuit.outputs, [0, 5, 2].map(|gate| Some(n(gate))));
    assert_eq!(circuit.conditions, vec![n(0)]);
    let needs: Vec<String> = preconditions(&circuit).iter().map(|s| s.hex()).collect();
    // The patterns go on over 256 bits (C-17).
    assert_eq!(needs[3], "A".repeat(64));
    assert_eq!(needs[4], "5".repeat(64));
    for always in [0, 2, 5] {
        assert_eq!(needs[always], "F".repeat(64));
    }
    assert_eq!(needs[1], "A".repeat(64));
    assert_eq!(read_rule(&R1), Answer::of_plain(6, 33));
}

#[test]
fn example_2_direct_runs() {
    let mut results = [UNTOUCHED; 4];
    let done = Answer::of_plain(6, 33);
    assert_eq!(direct::run(&R1, &[1, 6, 7], &mut results), done);
    assert_eq!(results, [1, 42, 7, UNTOUCHED]);
    assert_eq!(direct::run(&R1, &[0, 6, 7], &mut results[..3]), done);
    assert_eq!(results, [0, 49, 7, UNTOUCHED]);

    let mut results = [UNTOUCHED; 3];
    assert_eq!(direct::run(&R1, &[2, 6, 7], &mut results), refused(41, 0));
    // 40 before 41 before 42, and nothing is written.
    assert_eq!(direct::run(&R1, &[2, 6], &mut results[..2]), refused(40, 0));
    assert_eq!(
        direct::run(&R1, &[2, 6, 7], &mut results[..2]),
        refused(41, 0)
    );
    assert_eq!(
        direct::run(&R1, &[1, 6, 7], &mut results[..2]),
        refused(42, 0)
    );
    assert_eq!(results, [UNTOUCHED; 3]);
    // Rule before inputs.
    assert_eq!(
        direct::run(&R1[..28], &[2, 6], &mut results),
        refused(4, 28)
    );
}

#[test]
fn example_3_the_whole_file() {
    // Document 01's bytes, and those of version 2 (C-17): 24 more in each table.
    let of = |version: &str, more: &str| {
        hex(&format!(
            "43 49 52 {version} 03 00 09 01 00 00 01 00 02 \
             32 01 00 00 {more} 00 00 00 00 00 00 00 02 32 01 00 00 {more} 00 00 00 00 00 00 00 01 \
             31 02 00 03 00 01 00 04 00 02 31 02 00 03 00 02 00 04 00 02 \
             22 00 05 00 06 30 00 00 00 07 00 07 00 00 00 08 00 02"
        ))
    };
    let table = "00 ".repeat(31);
    // Since C-18: no pick at the second place, where both products have v2.
    let file = hex(&format!(
        "43 49 52 00 02 03 00 08 01 00 00 01 00 02 32 01 00 00 {table} 02 32 01 00 00 {table} 01 \
         31 02 00 03 00 01 00 04 00 02 22 00 05 00 02 30 00 00 00 06 00 06 00 00 00 07 00 02"
    ));
    let before = [of("00 01", ""), of("00 02", &"00 ".repeat(24))];
    let lengths = [&before[0], &before[1], &file].map(Vec::len);
    assert_eq!(lengths, [76, 124, 114]);
    let done = Answer::of_fused(6, 8, 114, 33, 24);
    for room in [114, 115, 200] {
        let mut buffer = vec![0xEE; room];
        assert_eq!(write::write(&R1, &P1, &mut buffer), done);
        assert_eq!(buffer[..114], file);
        assert!(buffer[114..].iter().all(|&byte| byte == 0xEE));
    }
    let mut buffer = [0xEE; 113];
    assert_eq!(write::write(&R1, &P1, &mut buffer), refused(50, 0));
    assert_eq!(buffer, [0xEE; 113]);

    for (file, wires) in [(&before[0], 9), (&before[1], 9), (&file, 8)] {
        for (inputs, wanted) in [([1, 6, 7], [1, 42, 7]), ([0, 6, 7], [0, 49, 7])] {
            let mut results = [UNTOUCHED; 3];
            let answer = run::run_circuit(file, &inputs, &mut results);
            let done = Answer::of_file(wires, file.len());
            assert_eq!((answer, results), (done, wanted));
        }
    }
    let mut results = [UNTOUCHED; 4];
    assert_eq!(run::run(&R1, &P1, &[1, 6, 7], &mut results), done);
    assert_eq!(results, [1, 42, 7, UNTOUCHED]);
    assert_eq!(run::run(&R1, &P1, &[0, 6, 7], &mut results), done);
    assert_eq!(results, [0, 49, 7, UNTOUCHED]);
}

#[test]
fn example_4_refusals_of_reading() {
    let mut more = R1.to_vec();
    more.push(0x00);
    for (bytes, number, place) in [
        (R1[..28].to_vec(), 4, 28),
        (more, 9, 29),
        (changed(11, 0x03), 6, 11),
        (changed(11, 0x01), 7, 11),
        (changed(14, 0x28), 5, 14),
        (changed(14, 0x23), 7, 14),
    ] {
        assert_eq!(read_rule(&bytes), refused(number, place));
        // Rule before plan and buffer.
        assert_eq!(check_plan(&bytes, &[]), refused(number, place));
        assert_eq!(
            write::write(&bytes, &P1, &mut [0xEE; 10]),
            refused(number, place)
        );
    }
}

#[test]
fn readings_where_document_01_leaves_a_choice() {
    let with = |tail: &str| {
        let mut bytes = hex("52 55 4C 00 01 02 00 01");
        bytes.extend(hex(tail));
        read(&bytes).map_err(|refusal| (refusal.number, refusal.place))
    };
    // `12 02` where a word is wanted: 7 on the code; where a bit is wanted: 5 on the byte.
    assert_eq!(with("01 00 12 02 00"), Err((7, 10)));
    assert_eq!(with("01 01 12 02 00"), Err((5, 11)));
    // A known code out of its position is 5.
    assert_eq!(with("01 00 02 00"), Err((5, 10)));
    assert_eq!(with("10 00 00"), Err((5, 8)));
    assert_eq!(with("20 00 00"), Err((5, 8)));
    // At depth 9: 5, then 7, then 8 on one byte; a variable is 8 on its code.
    let deep = "01 00 20 20 20 20 20 20 20 20 ";
    assert_eq!(with(&format!("{deep} 28")), Err((5, 18)));
    assert_eq!(with(&format!("{deep} 12 02")), Err((7, 18)));
    assert_eq!(with(&format!("{deep} 11 00")), Err((8, 18)));
    assert_eq!(with(&format!("{deep} 10 FF")), Err((8, 18)));
    assert_eq!(with(&format!("{deep} 20")), Err((8, 18)));
    assert_eq!(with(&format!("{deep} 23")), Err((7, 18)));
    assert_eq!(with(deep), Err((4, 18)));
    // Sizes of 0 and 1 are laid out for 23 and refused by 24; equal neighbours are 25.
    assert_eq!(check_plan(&R1, &plan(6, &[&[]])), refused(24, 0));
    assert_eq!(check_plan(&R1, &plan(6, &[&[3]])), refused(24, 0));
    assert_eq!(check_plan(&R1, &plan(6, &[&[3, 3]])), refused(25, 0));
    // The first failing row over the whole file: 24 in the second group before 25 in the first.
    assert_eq!(check_plan(&R1, &plan(6, &[&[4, 3], &[3]])), refused(24, 0));
    assert_eq!(
        check_plan(&R1, &plan(6, &[&[3, 4], &[3, 9]])),
        refused(25, 0)
    );
    assert_eq!(
        check_plan(&R1, &plan(6, &[&[3, 4], &[3, 4]])),
        refused(26, 0)
    );
}

#[test]
fn example_5_a_choice_is_not_costly() {
    assert_eq!(check_plan(&R1, &plan(6, &[&[3, 5]])), refused(27, 0));
}

#[test]
fn example_6_a_joined_gate_waits_for_its_conditions() {
    let circuit = accept(&R2).ok().unwrap().circuit;
    assert_eq!(circuit.gates.len(), 11);
    for (gate, code) in [(4, PRODUCT), (7, PRODUCT), (5, LESS), (6, LESS)] {
        assert_eq!(circuit.gates[gate].code(), code);
    }
    let done = Answer::of_plain(11, 15 + 40 + 40 + 15 + 3 * 3);
    assert_eq!(check_plan(&R2, &plan(11, &[&[4, 7]])), done);
    assert_eq!(check_plan(&R2, &plan(11, &[&[5, 6]])), done);
    let both = plan(11, &[&[4, 7], &[5, 6]]);
    assert_eq!(check_plan(&R2, &both), refused(30, 0));
}

/// The two files of example 6, worked out by hand: a guard over two conditions, and a group that
/// is written after a later gate since it waits for it.
#[test]
fn example_6_the_files() {
    let table = "00 ".repeat(31);
    let head = "43 49 52 00 02 04 00 0D 01 00 00 01 00 02 01 03";
    // Both products have v1 at their first place, both comparisons v2 at their second: no pick there (C-18).
    let products = format!(
        "{head} 23 00 01 00 02 32 01 00 00 {table} 02 32 02 00 00 00 04 {table} 04 \
         31 02 00 05 00 01 00 06 00 02 22 00 01 00 07 \
         23 00 08 00 02 30 00 04 00 08 00 01 30 00 00 00 01 00 0A 30 00 00 00 09 00 03 \
         00 00 00 0B 00 02 00 0C"
    );
    let comparisons = format!(
        "{head} 22 00 01 00 01 32 01 00 00 {table} 02 32 01 00 00 {table} 01 \
         31 02 00 05 00 04 00 06 00 01 23 00 07 00 02 \
         22 00 01 00 02 30 00 08 00 09 00 01 30 00 00 00 01 00 0A 30 00 00 00 08 00 03 \
         00 00 00 0B 00 02 00 0C"
    );
    for (group, text, after) in [
        ([4, 7], products, 40 + 2 + 4 + 15 + 40 + 9),
        ([5, 6], comparisons, 15 + 2 + 4 + 40 + 15 + 9),
    ] {
        let file = hex(&text);
        let mut buffer = vec![0xEE; file.len()];
        assert_eq!(
            write::write(&R2, &plan(11, &[&group]), &mut buffer),
            Answer::of_fused(11, 13, file.len(), 119, after)
        );
        assert_eq!(buffer, file);
    }
}

#[test]
fn example_7_a_wait_inside_one_group() {
    assert_eq!(read_rule(&R7), Answer::of_plain(4, 30));
    assert_eq!(check_plan(&R7, &plan(4, &[&[1, 2]])), refused(30, 0));
}

#[test]
fn example_8_conditions_are_free() {
    assert_eq!(read_rule(&R8), Answer::of_plain(11, 2 * (40 + 15 + 3)));
    assert_eq!(check_plan(&R8, &plan(11, &[&[5, 9]])), refused(29, 0));
}

#[test]
fn example_9_arithmetic() {
    for (code, first, second, result) in [
        (SUM, u32::MAX, 1, 0),
        (DIFFERENCE, 0, 1, u32::MAX),
        (PRODUCT, 65536, 65536, 0),
    ] {
        let value =
            Expression::Operation(code, vec![Expression::Variable(0), Expression::Variable(1)]);
        let block = vec![Statement::Assign(0, value)];
        let bytes = bytes_of(&Rule::of_results(&[Kind::Word; 2], block));
        let mut results = [UNTOUCHED; 2];
        assert_eq!(
            direct::run(&bytes, &[first, second], &mut results).number,
            0
        );
        assert_eq!(results, [result, second]);
        assert_eq!(
            run::run(&bytes, &plan(3, &[]), &[first, second], &mut results).number,
            0
        );
        assert_eq!(results, [result, second]);
    }
}
