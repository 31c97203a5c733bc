//! C-17: eight conditions, ifs nested eight deep, circuit files of version 2, and those of version 1 that are read still.

use compare::answer::Answer;
use compare::circuit::{accept, accept_within, preconditions, read_rule, Settings};
use compare::circuit_file::{self, read_circuit, record};
use compare::examples::{P1, R1};
use compare::generate::words::Words;
use compare::generate::{cases, inputs, plans, rules, Random};
use compare::law::*;
use compare::limits;
use compare::limits::parts::{not, rule, set, two, var, when, word};
use compare::plan::{accept_both, check};
use compare::rule::Block;
use compare::run::run_circuit;
use compare::stream::{Case, LAST, STREAM_MARK};
use compare::write::{fuse, fuse_with, write, Record, Wire};
use compare::{direct, run};

const UNTOUCHED: u32 = 3_735_928_559;

fn hex(text: &str) -> Vec<u8> {
    text.split_whitespace()
        .map(|pair| u8::from_str_radix(pair, 16).unwrap())
        .collect()
}

fn refused(number: u8, place: usize) -> Answer {
    Answer {
        number,
        place,
        ..Answer::default()
    }
}

/// One bit; ifs on it so deep, each in the first block of the one before.
fn nested(depth: usize) -> Vec<u8> {
    let inner: Block = vec![set(0, not(var(0)))];
    let around = |block, _| vec![when(var(0), block, vec![])];
    rule(&[Kind::Bit], (0..depth).fold(inner, around))
}

#[test]
fn ifs_nest_eight_deep() {
    for depth in 1..=8 {
        let done = Answer::of_plain(2 + depth, 3 * depth);
        assert_eq!(read_rule(&nested(depth)), done);
    }
    // Seven bytes before the first if, three an if: the ninth code is refused.
    for depth in [9, 10, 100] {
        assert_eq!(read_rule(&nested(depth)), refused(8, 7 + 3 * 8));
    }
    // Expressions stay eight deep.
    let deep = |depth: usize| {
        let value = (1..depth).fold(var(0), |inner, _| not(inner));
        rule(&[Kind::Bit], vec![set(0, value)])
    };
    assert_eq!(read_rule(&deep(8)).number, 0);
    assert_eq!(read_rule(&deep(9)), refused(8, 7 + 2 + 8));
}

/// The limits of before are kept for the generator alone, and what they accept is accepted now, as it was.
#[test]
fn the_limits_of_before() {
    assert_eq!(
        accept_within(&nested(7), LIMITS_BEFORE)
            .err()
            .unwrap()
            .number,
        8
    );
    let mut random = Random::new(170);
    let mut more = 0;
    for _ in 0..500 {
        let bytes = rules::accepted(&mut random, Words::ALL);
        let now = accept(&bytes).unwrap();
        match accept_within(&bytes, LIMITS_BEFORE) {
            Ok(before) => assert_eq!(before.circuit, now.circuit),
            Err(refusal) => {
                assert!([8, 11].contains(&refusal.number));
                more += 1;
            }
        }
    }
    assert!(more > 100, "only {more} with more than there was before");
}

/// Nested ifs on bits v0 to v7: v8 := v9 × v9 where all are 1, v8 := v10 × v10 where only v7 is not. Both rest on all eight
/// conditions, so each table has a single bit, 255 and 127.
fn at_the_end() -> (Vec<u8>, Vec<u8>) {
    let mut kinds = vec![Kind::Bit; 8];
    kinds.extend([Kind::Word; 3]);
    let square = |of| vec![set(8, two(PRODUCT, var(of), var(of)))];
    let mut block = vec![when(var(7), square(9), square(10))];
    for t in (0..7).rev() {
        block = vec![when(var(t), block, vec![])];
    }
    let plan = hex("50 4C 4E 00 01 00 15 00 01 02 00 0B 00 0C");
    (rule(&kinds, block), plan)
}

#[test]
fn preconditions_of_eight_conditions() {
    let (rule, _) = at_the_end();
    let needs = preconditions(&accept(&rule).unwrap().circuit);
    let text: Vec<String> = needs.iter().map(Settings::hex).collect();
    // Setting 255 is the highest bit; 127 the highest bit of the lower half.
    assert_eq!(text[11], format!("8{}", "0".repeat(63)));
    assert_eq!(text[12], format!("{}8{}", "0".repeat(32), "0".repeat(31)));
    // Condition 7 is needed where the seven others are 1, v8's starting value where one of them is not, and bits are results.
    assert_eq!(text[13], format!("8{}8{}", "0".repeat(31), "0".repeat(31)));
    assert_eq!(text[8], format!("7{}7{}", "F".repeat(31), "F".repeat(31)));
    assert!((0..8).all(|t| needs[11].rests_on(t)));
    assert!((0..7).all(|t| needs[13].rests_on(t)) && !needs[13].rests_on(7));
}

#[test]
fn guards_of_eight_wires() {
    let (rule, plan) = at_the_end();
    let mut buffer = vec![0xEE; 500];
    let answer = write(&rule, &plan, &mut buffer);
    // 21 gates; two guards of 50 bytes, two picks of 10, a product, eight choices of 7, 11 inputs and outputs.
    let bytes = 8 + 11 * 2 + 100 + 20 + 5 + 8 * 7 + 22;
    assert_eq!(answer, Answer::of_fused(21, 24, bytes, 54, 24 + 15 + 2 + 8));
    let wires = "00 00 00 01 00 02 00 03 00 04 00 05 00 06 00 07";
    let zeros = |count: usize| "00 ".repeat(count);
    let first = hex(&format!("32 08 {wires} 80 {}", zeros(31)));
    let second = hex(&format!("32 08 {wires} {} 80 {}", zeros(16), zeros(15)));
    assert_eq!(buffer[30..130], [first.clone(), second].concat());
    assert_eq!(record(&buffer[..bytes], Wire(11)), first);
    for (setting, figure) in [(255, 9), (127, 25), (254, 2), (0, 2), (191, 2)] {
        let bits = (0..8).map(|t| setting >> t & 1);
        let inputs: Vec<u32> = bits.chain([2, 3, 5]).collect();
        let mut wanted = inputs.clone();
        wanted[8] = figure;
        let mut results = vec![UNTOUCHED; 11];
        assert_eq!(direct::run(&rule, &inputs, &mut results).number, 0);
        assert_eq!(results, wanted);
        results.fill(UNTOUCHED);
        assert_eq!(run::run(&rule, &plan, &inputs, &mut results), answer);
        assert_eq!(results, wanted);
        results.fill(UNTOUCHED);
        let ran = run_circuit(&buffer[..bytes], &inputs, &mut results);
        assert_eq!(ran, Answer::of_file(24, bytes));
        assert_eq!(results, wanted);
    }
}

/// Eight comparisons one after the other are conditions, a ninth is one too many; what stands in no choice is none.
#[test]
fn conditions_are_counted() {
    let less = || two(LESS, var(0), word(5));
    let chosen = || when(less(), vec![set(0, word(7))], vec![]);
    let of = |block: Block| rule(&[Kind::Word], block);
    let empty = || when(less(), vec![], vec![]);
    assert_eq!(read_rule(&of(vec![chosen(); 8])).number, 0);
    let nine = of(vec![chosen(); 9]);
    assert_eq!(read_rule(&nine), refused(11, nine.len()));
    let mixed = [vec![empty(); 4], vec![chosen(); 8], vec![empty(); 4]].concat();
    assert_eq!(read_rule(&of(mixed)).number, 0);
}

/// One bit and a guard over it so many times, with a table of so many bytes whose last one is given.
fn guard_file(version: &str, wires: usize, table: usize, last: &str) -> Vec<u8> {
    hex(&format!(
        "43 49 52 {version} 01 00 02 01 00 32 {wires:02X} {} {} {last} 00 01",
        "00 00 ".repeat(wires),
        "00 ".repeat(table - 1)
    ))
}

#[test]
fn each_version_has_its_own_guards() {
    for (version, most, table) in [("00 01", 6, 8), ("00 02", 8, 32)] {
        for wires in 0..=most {
            let file = guard_file(version, wires, table, "01");
            assert_eq!(read_circuit(&file), Answer::of_file(2, file.len()));
            // All wires at 0: bit 0 of the table, the lowest of the last byte.
            for (input, wanted) in [(0, 1), (1, u32::from(wires == 0))] {
                let mut results = [UNTOUCHED];
                assert_eq!(run_circuit(&file, &[input], &mut results).number, 0);
                assert_eq!(results, [wanted]);
            }
        }
        for wires in [most + 1, most + 2, 255] {
            let file = guard_file(version, wires, table, "00");
            assert_eq!(read_circuit(&file), refused(61, 0));
        }
        // The other version's table: bytes are left or missing.
        for wires in [0, 1, 6] {
            let file = guard_file(version, wires, 40 - table, "01");
            assert_eq!(read_circuit(&file), refused(61, 0));
        }
        // A bit from 2^d up, the first and the last.
        for (wires, last) in [(0, "02"), (1, "04"), (2, "10"), (0, "80")] {
            let file = guard_file(version, wires, table, last);
            assert_eq!(read_circuit(&file), refused(62, 0));
        }
        for wires in 0..=most {
            let mut file = guard_file(version, wires, table, "00");
            let first = file.len() - 2 - table;
            file[first] = 0x80;
            let wanted = if wires == most { 0 } else { 62 };
            assert_eq!(read_circuit(&file).number, wanted);
        }
    }
    for version in [
        "00 00", "00 03", "00 FF", "01 00", "01 01", "01 02", "02 00", "02 01",
    ] {
        for table in [8, 32] {
            let file = guard_file(version, 1, table, "01");
            assert_eq!(read_circuit(&file), refused(60, 0));
        }
    }
}

/// What writing makes is version 2, and of six conditions or fewer it has the same records in version 1, which is read and
/// gives the same figures.
#[test]
fn both_versions_give_the_same() {
    let mut random = Random::new(171);
    let [mut small, mut wide] = [0; 2];
    for _ in 0..600 {
        let bytes = rules::accepted(&mut random, Words::ALL);
        let accepted = accept(&bytes).unwrap();
        let needs = preconditions(&accepted.circuit);
        let ground = plans::Ground::new(&accepted.circuit, &needs);
        let plan = plans::valid(&mut random, &ground);
        let plan = check(&accepted.circuit, needs.clone(), &plan).unwrap();
        let fused = fuse(&accepted.circuit, &plan);
        let file = fused.file();
        assert_eq!(file[..5], hex("43 49 52 00 02"));
        let guards = |record: &&Record| matches!(record, Record::Guard(..));
        let most = fused.records.iter().filter_map(|record| match record {
            Record::Guard(wires, _) => Some(wires.len()),
            _ => None,
        });
        let before = fused.file_of(VERSION_1);
        let count = fused.records.iter().filter(guards).count();
        assert_eq!(file.len(), before.len() + 24 * count);
        if most.max() > Some(VERSION_1.guard_wires_max) {
            assert_eq!(read_circuit(&before), refused(61, 0));
            wide += 1;
            continue;
        }
        small += usize::from(count > 0);
        let read = circuit_file::accept(&before).expect("a file of version 1");
        assert_eq!((read.version, &read.circuit), (VERSION_1, &fused));
        for _ in 0..3 {
            let inputs = inputs(&mut random, &accepted.rule.kinds());
            let [mut one, mut other] = [(); 2].map(|()| vec![UNTOUCHED; inputs.len()]);
            assert_eq!(run_circuit(&before, &inputs, &mut one).number, 0);
            assert_eq!(run_circuit(&file, &inputs, &mut other).number, 0);
            assert_eq!(one, other);
        }
    }
    assert!(small > 150 && wide > 35, "{small}, {wide}");
}

/// The files that were written before, and what they printed then: see `limits::eight_cases`, which looks at the lines.
#[test]
fn kept_files_are_of_version_1() {
    let kept = compare::stream::cases(&std::fs::read("data/version_1.cas").unwrap()).unwrap();
    assert!(kept.len() > 500);
    assert!(kept
        .iter()
        .all(|case| case.first.starts_with(&hex("43 49 52 00 01"))));
    let mut files: Vec<&[u8]> = kept.iter().map(|case| &case.first[..]).collect();
    files.sort();
    files.dedup();
    assert!(files.len() > 100, "only {}", files.len());
}

/// A number for a stream's bytes (FNV-1a).
fn mark_of(cases: impl Iterator<Item = Case>) -> u64 {
    let mut stream = STREAM_MARK.to_vec();
    cases.for_each(|case| case.put(&mut stream));
    stream.iter().fold(0xCBF2_9CE4_8422_2325, |mark, &byte| {
        (mark ^ u64::from(byte)).wrapping_mul(0x0000_0100_0000_01B3)
    })
}

fn random_cases(seed: u64, words: Words) -> impl Iterator<Item = Case> {
    let mut random = Random::new(seed);
    let operations: Vec<u8> = (1..=LAST).collect();
    std::iter::repeat_with(move || cases::case(&mut random, &operations, words))
}

/// What C-15 brought is made as it was then; `tests/ordered_cases.rs` and `tests/working.rs` have what was before it,
/// `tests/equal.rs` what was after it.
#[test]
fn cases_stay() {
    let random = random_cases(4, Words::BEFORE_EIGHT).take(2000);
    assert_eq!(mark_of(random), 0x3D20_AF0D_4EF8_54C3);
    assert_eq!(
        mark_of(limits::ordered_cases().into_iter()),
        0xEB76_94BA_62A9_08F1
    );
}

/// The first 2,000 cases of seed 5: how many have what C-17 brings.
#[test]
fn many_conditions_are_often_made() {
    let [mut accepted, mut more, mut eight, mut wide] = [0; 4];
    let mut files = [0; 2];
    for case in random_cases(5, Words::BEFORE_EQUAL).take(2000) {
        if case.operation >= 7 {
            for (count, version) in files.iter_mut().zip(VERSIONS) {
                *count += usize::from(case.first.get(3..5) == Some(&version.bytes));
            }
            continue;
        }
        let Ok(rule) = accept(&case.first) else {
            continue;
        };
        accepted += 1;
        more += usize::from(rule.circuit.conditions.len() > 6);
        eight += usize::from(rule.circuit.conditions.len() == 8);
        if let Ok((accepted, plan)) = accept_both(&case.first, &case.second) {
            let records = fuse_with(&accepted.circuit, &plan, PICKS_BEFORE).records;
            let many = |record: &Record| matches!(record, Record::Guard(w, _) if w.len() > 6);
            wide += usize::from(records.iter().any(many));
        }
    }
    println!("{accepted} accepted rules, {more} of more than six conditions, {eight} of eight");
    println!(
        "{wide} circuits with a guard of more than six wires; files of versions 1 and 2: {files:?}"
    );
    assert!(4 * more > accepted && 10 * eight > accepted && wide > 30);
    assert!(files.iter().all(|&count| count > 100));
}

/// Example 3 had 124 bytes until C-18.
#[test]
fn example_3_was_124_bytes() {
    let (accepted, plan) = accept_both(&R1, &P1).unwrap();
    let before = fuse_with(&accepted.circuit, &plan, PICKS_BEFORE);
    assert_eq!(before.file().len(), 124);
    assert_eq!(before.file_of(VERSION_1).len(), 76);
}
