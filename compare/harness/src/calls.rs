//! The calls that are measured: straight into each tool, with buffers that are lent again and again. No answer
//! is turned into another form here, since that would be measured too.

use crate::measure::{caller, Caller};
use crate::tool::plain_circuit;
use compare::law::{CIRCUIT_BYTES_MAX, VARIABLES_MAX};
use compare::stream::{CHECK, DIRECT, FUSED, PLAIN, READ, READ_CIRCUIT, RUN_CIRCUIT, WRITE};
use std::hint::black_box;
use std::mem::MaybeUninit;

/// Result places that suffice for every rule.
fn results() -> Vec<u32> {
    vec![0; VARIABLES_MAX]
}

/// A circuit buffer that suffices for every file.
fn buffer() -> Vec<u8> {
    vec![0; CIRCUIT_BYTES_MAX]
}

/// Operations that lend something, of any tool: its function, called on a subject.
macro_rules! lending {
    (run $function:path) => {{
        let mut results = results();
        caller(move |case| $function(&case.rule, &case.inputs, black_box(&mut results)))
    }};
    (file $function:path) => {{
        let mut results = results();
        caller(move |case| $function(&case.file, &case.inputs, black_box(&mut results)))
    }};
    (write $function:path) => {{
        let mut out = buffer();
        caller(move |case| $function(&case.rule, &case.plan, black_box(&mut out)))
    }};
    (fused $function:path) => {{
        let mut results = results();
        caller(move |case| {
            $function(
                &case.rule,
                &case.plan,
                &case.inputs,
                black_box(&mut results),
            )
        })
    }};
}

/// The proved library.
pub fn proved(operation: u8) -> Caller {
    match operation {
        READ => caller(|case| linnet::read_rule(&case.rule)),
        DIRECT => lending!(run linnet::run_rule),
        CHECK => caller(|case| linnet::check_plan(&case.rule, &case.plan)),
        WRITE => lending!(write linnet::write_fused),
        FUSED => lending!(fused linnet::run_fused),
        // What it gives is large: it stays where the library put it.
        PLAIN => caller(|case| {
            let shown = linnet::show_plain(&case.rule);
            black_box(&shown);
        }),
        READ_CIRCUIT => caller(|case| linnet::read_circuit(&case.file)),
        RUN_CIRCUIT => lending!(file linnet::run_circuit),
        operation => unreachable!("operation {operation} is not measured"),
    }
}

/// The implementation in plain Rust. It gives a plain circuit in its own form.
pub fn plain(operation: u8) -> Caller {
    match operation {
        READ => caller(|case| compare::circuit::read_rule(&case.rule)),
        DIRECT => lending!(run compare::direct::run),
        CHECK => caller(|case| compare::plan::check_plan(&case.rule, &case.plan)),
        WRITE => lending!(write compare::write::write),
        FUSED => lending!(fused compare::run::run),
        PLAIN => caller(|case| plain_circuit(&case.rule)),
        READ_CIRCUIT => caller(|case| compare::circuit_file::read_circuit(&case.file)),
        RUN_CIRCUIT => lending!(file compare::run::run_circuit),
        operation => unreachable!("operation {operation} is not measured"),
    }
}

/// The tuned implementation, a fused run from the file's bytes.
pub fn tuned(operation: u8) -> Caller {
    match operation {
        READ => caller(|case| tuned::read_rule(&case.rule)),
        DIRECT => lending!(run tuned::run_rule),
        CHECK => caller(|case| tuned::check_plan(&case.rule, &case.plan)),
        WRITE => lending!(write tuned::write_fused),
        FUSED => lending!(fused tuned::run_fused),
        PLAIN => caller(|case| {
            let mut room = MaybeUninit::uninit();
            black_box(tuned::show_plain(&case.rule, &mut room));
        }),
        READ_CIRCUIT => caller(|case| tuned::read_circuit(&case.file)),
        RUN_CIRCUIT => lending!(file tuned::run_circuit),
        operation => unreachable!("operation {operation} is not measured"),
    }
}

/// The tuned implementation's fused run without a file.
pub fn tuned_unwritten() -> Caller {
    lending!(fused tuned::run_fused_unwritten)
}
