//! The tuned implementation beside the plain one, line by line as the conformance stream has them: on every fixed case,
//! and on random ones with and without working variables (C-13), with groups in order (C-15) and in any, with eight
//! conditions (C-17) and with six, with many equal wires (C-18) and with few. Both ways of running a fused circuit.

use compare::generate::group_order::GroupOrder;
use compare::generate::kinds::Kinds;
use compare::generate::words::Words;
use compare::generate::{cases, Random};
use compare::limits;
use compare::stream::*;
use std::mem::MaybeUninit;
use tuned::Answer;

/// The seven numbers, as the stream has them.
fn numbers(answer: Answer) -> String {
    let Answer {
        number,
        place,
        gates,
        wires,
        bytes,
        before,
        after,
    } = answer;
    format!("{number} {place} {gates} {wires} {bytes} {before} {after}")
}

fn hex(bytes: &[u8]) -> String {
    match bytes {
        [] => "-".into(),
        _ => bytes.iter().map(|byte| format!("{byte:02X}")).collect(),
    }
}

/// A call that is lent result places.
fn with_results(room: u16, call: impl Fn(&mut [u32]) -> Answer) -> String {
    let mut results = vec![3_735_928_559; usize::from(room)];
    let mut text = numbers(call(&mut results)) + " |";
    for result in results {
        text.push_str(&format!(" {result}"));
    }
    text
}

fn written(case: &Case) -> String {
    let mut out = vec![0xEE; usize::from(case.room)];
    let answer = tuned::write_fused(&case.first, &case.second, &mut out);
    let (file, others) = out.split_at(answer.bytes);
    let untouched = others.iter().filter(|&&byte| byte == 0xEE).count();
    format!("{} | {} {untouched}", numbers(answer), hex(file))
}

fn shown(case: &Case) -> String {
    let mut room = MaybeUninit::uninit();
    let shown = tuned::show_plain(&case.first, &mut room);
    let mut text = numbers(shown.answer) + " |";
    for gate in 0..shown.answer.gates {
        let [code, a, b, c] = [0, 1, 2, 3].map(|place| shown.rows[4 * gate + place]);
        let words = shown.needs[4 * gate..][..4].iter().rev();
        let needs: String = words.map(|word| format!("{word:016X}")).collect();
        text.push_str(&format!(" {code:02X}.{a}.{b}.{c}.{needs}"));
    }
    text
}

/// The case's line or, of a fused run, one for each way.
fn lines(case: &Case) -> Vec<String> {
    let (first, second, inputs) = (&case.first, &case.second, &case.inputs);
    let one = match case.operation {
        READ => numbers(tuned::read_rule(first)),
        DIRECT => with_results(case.room, |results| tuned::run_rule(first, inputs, results)),
        CHECK => numbers(tuned::check_plan(first, second)),
        WRITE => written(case),
        FUSED => {
            return [tuned::run_fused, tuned::run_fused_unwritten]
                .map(|run| with_results(case.room, |results| run(first, second, inputs, results)))
                .to_vec()
        }
        PLAIN => shown(case),
        READ_CIRCUIT => numbers(tuned::read_circuit(first)),
        RECORD => {
            let record = tuned::record(first, usize::from(case.number));
            format!("{} | {}", numbers(tuned::read_circuit(first)), hex(record))
        }
        _ => with_results(case.room, |results| {
            tuned::run_circuit(first, inputs, results)
        }),
    };
    vec![one]
}

#[track_caller]
fn assert_same(case: &Case) {
    let (answer, after) = case.work().expect("an operation that is built");
    let wanted = answer.line() + &after;
    for line in lines(case) {
        assert_eq!(line, wanted, "{case:02X?}");
    }
}

#[test]
fn on_fixed_cases() {
    limits::cases().iter().for_each(assert_same);
    limits::circuit_cases().iter().for_each(assert_same);
    limits::working_cases().iter().for_each(assert_same);
    limits::ordered_cases().iter().for_each(assert_same);
    limits::eight_cases().iter().for_each(assert_same);
    limits::equal_cases().iter().for_each(assert_same);
    limits::more_cases().iter().for_each(assert_same);
}

#[test]
fn on_random_cases() {
    let operations: Vec<u8> = (1..=LAST).collect();
    let results = Words {
        kinds: Kinds::Results,
        ..Words::ALL
    };
    let any = Words {
        order: GroupOrder::Any,
        ..Words::ALL
    };
    for (words, seed, count) in [
        (Words::ALL, 13, 6_000),
        (Words::BEFORE_EQUAL, 18, 2_000),
        (Words::BEFORE_EIGHT, 16, 2_000),
        (results, 14, 2_000),
        (any, 15, 2_000),
    ] {
        let mut random = Random::new(seed);
        for _ in 0..count {
            assert_same(&cases::case(&mut random, &operations, words));
        }
    }
}
