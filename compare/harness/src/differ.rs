//! One case given to several tools: the same answer, and every byte that was lent the same afterwards.

use crate::tool::{Shown, Tool};
use compare::answer::Answer;
use compare::stream::{
    Case, CHECK, DIRECT, FUSED, PLAIN, READ, READ_CIRCUIT, RECORD, RUN_CIRCUIT, WRITE,
};
use std::fmt::UpperHex;

/// So many elements before and after what is lent belong to nobody, and stay as they are.
const AROUND: usize = 16;

/// What a call leaves: its answer, all that it was lent with what lies around, a circuit shown, a part of a file.
#[derive(Clone, Debug, PartialEq, Eq)]
pub struct Outcome {
    pub answer: Answer,
    pub words: Vec<u32>,
    pub bytes: Vec<u8>,
    pub shown: Option<Box<Shown>>,
    /// Where in the caller's file the part begins, and its length; 0 and 0 for an empty one.
    pub part: Option<(usize, usize)>,
}

/// Calls the case's operation. Buffers hold a pattern before, so that every change shows.
pub fn outcome(tool: &dyn Tool, case: &Case) -> Outcome {
    let (rule, inputs) = (&case.first, &case.inputs);
    let plan = &case.second;
    match case.operation {
        READ => answered(tool.read_rule(rule)),
        DIRECT => with_words(case, |results| tool.run_rule(rule, inputs, results)),
        CHECK => answered(tool.check_plan(rule, plan)),
        WRITE => with_bytes(case, |out| tool.write_fused(rule, plan, out)),
        FUSED => with_words(case, |results| tool.run_fused(rule, plan, inputs, results)),
        PLAIN => {
            let shown = tool.show_plain(rule);
            Outcome {
                shown: Some(Box::new(shown.clone())),
                ..answered(shown.answer)
            }
        }
        READ_CIRCUIT => answered(tool.read_circuit(rule)),
        RECORD => {
            let part = tool.record(rule, usize::from(case.number));
            Outcome {
                part: Some(place_of(part, rule)),
                ..answered(tool.read_circuit(rule))
            }
        }
        RUN_CIRCUIT => with_words(case, |results| tool.run_circuit(rule, inputs, results)),
        operation => unreachable!("operation {operation} is not generated"),
    }
}

fn answered(answer: Answer) -> Outcome {
    Outcome {
        answer,
        words: Vec::new(),
        bytes: Vec::new(),
        shown: None,
        part: None,
    }
}

/// Where a part of a file begins, and its length. An empty one may lie anywhere.
fn place_of(part: &[u8], file: &[u8]) -> (usize, usize) {
    match part.len() {
        0 => (0, 0),
        length => {
            let start = (part.as_ptr() as usize).wrapping_sub(file.as_ptr() as usize);
            (start, length)
        }
    }
}

fn with_words(case: &Case, call: impl Fn(&mut [u32]) -> Answer) -> Outcome {
    let room = usize::from(case.room);
    let mut words: Vec<u32> = (0..room + 2 * AROUND)
        .map(|place| 0xDEAD_0000 + place as u32)
        .collect();
    let answer = call(&mut words[AROUND..AROUND + room]);
    Outcome {
        words,
        ..answered(answer)
    }
}

fn with_bytes(case: &Case, call: impl Fn(&mut [u8]) -> Answer) -> Outcome {
    let room = usize::from(case.room);
    let mut bytes: Vec<u8> = (0..room + 2 * AROUND)
        .map(|place| 0xC0 + (place % 61) as u8)
        .collect();
    let answer = call(&mut bytes[AROUND..AROUND + room]);
    Outcome {
        bytes,
        ..answered(answer)
    }
}

/// A case given to every tool: the first one's answer, and where others differ from it, in words, if any does.
pub fn differences(tools: &[&dyn Tool], case: &Case) -> (Answer, Option<String>) {
    let first = outcome(tools[0], case);
    let mut text = String::new();
    for other in &tools[1..] {
        if let Some(more) = difference(&first, &outcome(*other, case)) {
            text.push_str(&format!(
                "{} and {}:\n{more}",
                tools[0].name(),
                other.name()
            ));
        }
    }
    (first.answer, (!text.is_empty()).then_some(text))
}

/// Where two outcomes differ, in words; none if they are the same.
pub fn difference(one: &Outcome, other: &Outcome) -> Option<String> {
    if one == other {
        return None;
    }
    let mut text = format!("{}\n{}\n", one.answer.line(), other.answer.line());
    text.push_str(&first_place("result", AROUND, &one.words, &other.words));
    text.push_str(&first_place("byte", AROUND, &one.bytes, &other.bytes));
    if one.part != other.part {
        let (one, other) = (one.part, other.part);
        text.push_str(&format!("start and length: {one:?} and {other:?}\n"));
    }
    if let (Some(one), Some(other)) = (&one.shown, &other.shown) {
        text.push_str(&first_place(
            "number of the rows",
            0,
            &one.rows,
            &other.rows,
        ));
        text.push_str(&first_place(
            "word of the preconditions, four a gate,",
            0,
            &one.needs,
            &other.needs,
        ));
    }
    Some(text)
}

/// The first place that differs, counted from where the lent part starts.
fn first_place<T: PartialEq + UpperHex>(
    what: &str,
    start: usize,
    one: &[T],
    other: &[T],
) -> String {
    match (0..one.len()).find(|&place| one[place] != other[place]) {
        Some(place) => {
            let (one, other) = (&one[place], &other[place]);
            let place = place as isize - start as isize;
            format!("{what} {place}: {one:X} and {other:X}\n")
        }
        None => String::new(),
    }
}
