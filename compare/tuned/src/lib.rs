//! Document 01's operations 01 to 06 with requests C-12, C-13, C-15, C-17 and C-18, C-11's 07 to 09 and C-16's program, in Rust tuned for speed:
//! a tool to measure the proved one beside. No allocation, nothing cleared that is not read, one pass over the rule, one
//! over the plan, one backward over the gates, one to order and one to write; one over a circuit file.
//!
//! Indices are mostly not tested and places are read uncleared (`places`): the functions here are safe to call
//! only because what lies below is right, which nothing proves. The harness compares it with the other two tools.

mod answer;
mod circuit_file;
mod law;
mod month;
mod needed;
mod order;
mod places;
mod plan;
mod reading;
mod running;
mod writing;

pub use answer::{Answer, Shown};
pub use month::month;
pub use needed::pass_alone;

use circuit_file::{header, Pass};
use law::*;
use needed::{conditions, find_needed, Set};
use order::{order, Counts, Nothing, Order};
use plan::Planned;
use reading::{Reader, COUNT, MAKE, RUN, SHOW};
use running::Figures;
use std::mem::MaybeUninit;
use std::ptr::null_mut;

// No operation is inlined into its caller: what is measured is a call, as it is of the proved library.

/// Operation 01: reads a rule.
#[inline(never)]
pub fn read_rule(rule: &[u8]) -> Answer {
    let mut reader = Reader::new(null_mut(), null_mut());
    match read::<COUNT>(&mut reader, rule) {
        Some(()) => reader.accepted(),
        None => reader.refused(),
    }
}

#[inline(always)]
fn read<const DO: u8>(reader: &mut Reader, rule: &[u8]) -> Option<()> {
    reader.header::<DO>(rule)?;
    reader.body::<DO>(rule)
}

/// Operation 02: runs a rule directly; results in the first V places.
#[inline(never)]
pub fn run_rule(rule: &[u8], inputs: &[u32], results: &mut [u32]) -> Answer {
    let mut reader = Reader::new(null_mut(), null_mut());
    if reader.header::<COUNT>(rule).is_none() {
        return reader.refused();
    }
    let row = reader.inputs_row(inputs, results.len());
    if row != 0 {
        // The rule's own refusal comes first.
        return match reader.body::<COUNT>(rule) {
            Some(()) => Answer::refused(row, 0),
            None => reader.refused(),
        };
    }
    for (variable, &input) in inputs.iter().enumerate() {
        reader.figures.set(variable, input);
    }
    if reader.body::<RUN>(rule).is_none() {
        return reader.refused();
    }
    for (variable, result) in results[..reader.variables].iter_mut().enumerate() {
        *result = reader.written(variable, reader.figures.get(variable));
    }
    reader.accepted()
}

/// Operation 06: shows the plain circuit of a rule, with each gate's precondition. The place for it is lent
/// uncleared, so that nothing is stored twice.
#[inline(never)]
pub fn show_plain<'a>(rule: &[u8], shown: &'a mut MaybeUninit<Shown>) -> &'a Shown {
    let out = shown.as_mut_ptr();
    // Rows and needs have room for every gate, and all of both is set before a reference to them is made.
    unsafe {
        let rows = (&raw mut (*out).rows).cast::<u32>();
        let needs = (&raw mut (*out).needs).cast::<Set>();
        let mut reader = Reader::new(rows, null_mut());
        let (answer, gates) = match read::<SHOW>(&mut reader, rule) {
            Some(()) => {
                find_needed::<SHOW>(&reader, &conditions(&reader.marked), rows, needs);
                (reader.accepted(), reader.gates())
            }
            None => (reader.refused(), 0),
        };
        (&raw mut (*out).answer).write(answer);
        std::ptr::write_bytes(rows.add(4 * gates), 0, 4 * (GATES_MAX - gates));
        std::ptr::write_bytes(needs.add(gates), 0, GATES_MAX - gates);
        shown.assume_init_ref()
    }
}

/// The rule read and made, needed gates found, the plan held against rows 20 to 29 and 32; or the refusal.
/// The place for the reader is the caller's, since handing one up would copy it.
#[inline(always)]
fn plan<'a>(
    circuit: &mut Planned,
    reader: &'a mut MaybeUninit<Reader>,
    rule: &[u8],
    plan: &[u8],
) -> Result<&'a Reader, Answer> {
    let (rows, constants) = (circuit.rows.as_mut_ptr(), circuit.constants.as_mut_ptr());
    let reader = reader.write(Reader::new(rows, constants));
    if read::<MAKE>(reader, rule).is_none() {
        return Err(reader.refused());
    }
    circuit.gates = reader.gates();
    circuit.variables = reader.variables;
    circuit.conditions = conditions(&reader.marked);
    circuit.conditions_count = reader.conditions;
    let (rows, needs) = (circuit.rows.as_mut_ptr(), circuit.needs.as_mut_ptr());
    // Both are arrays of 256, and the rule is accepted.
    unsafe { find_needed::<MAKE>(reader, &circuit.conditions, rows, needs) };
    match circuit.check(plan) {
        0 => Ok(reader),
        row => Err(Answer::refused(row, 0)),
    }
}

/// The answer with all five counts.
#[inline(always)]
fn counted(circuit: &Planned, reader: &Reader) -> Answer {
    let before = reader.cost();
    Answer {
        number: 0,
        place: 0,
        gates: circuit.gates,
        wires: circuit.wires_count(),
        bytes: 8 + reader.bytes().wrapping_add_signed(circuit.more_bytes) + 2 * circuit.variables,
        before,
        after: (before as isize + circuit.more_cost) as usize,
    }
}

/// Operation 03: checks a plan for a rule.
#[inline(never)]
pub fn check_plan(rule: &[u8], plan: &[u8]) -> Answer {
    let (mut circuit, mut reader) = (Planned::new(), MaybeUninit::uninit());
    let reader = match self::plan(&mut circuit, &mut reader, rule, plan) {
        Ok(reader) => reader,
        Err(answer) => return answer,
    };
    if !order(&mut circuit, plan, &mut Nothing) {
        return Answer::refused(30, 0);
    }
    reader.accepted()
}

/// What operation 04 answers with room enough, and nothing written: one entry of a batch (C-16). Its one caller takes it in.
#[inline(always)]
fn count_fused(rule: &[u8], plan: &[u8]) -> Answer {
    let (mut circuit, mut reader) = (Planned::new(), MaybeUninit::uninit());
    let reader = match self::plan(&mut circuit, &mut reader, rule, plan) {
        Ok(reader) => reader,
        Err(answer) => return answer,
    };
    match order(&mut circuit, plan, &mut Counts) {
        true => counted(&circuit, reader),
        false => Answer::refused(30, 0),
    }
}

/// Operation 04: writes the fused circuit's file at the start of `out`.
#[inline(never)]
pub fn write_fused(rule: &[u8], plan: &[u8], out: &mut [u8]) -> Answer {
    let (mut circuit, mut reader) = (Planned::new(), MaybeUninit::uninit());
    let reader = match self::plan(&mut circuit, &mut reader, rule, plan) {
        Ok(reader) => reader,
        Err(answer) => return answer,
    };
    let mut groups = Order::new();
    if !order(&mut circuit, plan, &mut groups) {
        return Answer::refused(30, 0);
    }
    let answer = counted(&circuit, reader);
    if out.len() < answer.bytes {
        return Answer::refused(50, 0);
    }
    unsafe {
        writing::write_file(&circuit, plan, &groups, reader, out.as_mut_ptr());
    }
    answer
}

/// Operation 05: writes the fused circuit's file and runs it, record by record, as the proved tool does.
#[inline(never)]
pub fn run_fused(rule: &[u8], plan: &[u8], inputs: &[u32], results: &mut [u32]) -> Answer {
    let (mut circuit, mut reader) = (Planned::new(), MaybeUninit::uninit());
    let reader = match self::plan(&mut circuit, &mut reader, rule, plan) {
        Ok(reader) => reader,
        Err(answer) => return answer,
    };
    let mut groups = Order::new();
    if !order(&mut circuit, plan, &mut groups) {
        return Answer::refused(30, 0);
    }
    let row = reader.inputs_row(inputs, results.len());
    if row != 0 {
        return Answer::refused(row, 0);
    }
    let mut file = places::Places::<u8, CIRCUIT_BYTES_MAX>::new();
    let file = file.as_mut_ptr();
    // A file that is always long enough; V inputs and at least V results, by rows 40 and 42.
    unsafe {
        writing::write_file(&circuit, plan, &groups, reader, file);
        running::run_file(file, inputs, results.as_mut_ptr());
    }
    counted(&circuit, reader)
}

/// Operation 05 again, without a file: figures are worked out as the order is found.
#[inline(never)]
pub fn run_fused_unwritten(
    rule: &[u8],
    plan: &[u8],
    inputs: &[u32],
    results: &mut [u32],
) -> Answer {
    let (mut circuit, mut reader) = (Planned::new(), MaybeUninit::uninit());
    let reader = match self::plan(&mut circuit, &mut reader, rule, plan) {
        Ok(reader) => reader,
        Err(answer) => return answer,
    };
    let row = reader.inputs_row(inputs, results.len());
    if row != 0 {
        let ends = order(&mut circuit, plan, &mut Nothing);
        return Answer::refused(if ends { row } else { 30 }, 0);
    }
    let mut figures = Figures::start(&circuit, inputs);
    if !order(&mut circuit, plan, &mut figures) {
        return Answer::refused(30, 0);
    }
    for (variable, result) in results[..circuit.variables].iter_mut().enumerate() {
        let last = reader.present[variable & 31];
        *result = reader.written(variable, figures.of(last));
    }
    counted(&circuit, reader)
}

/// Operation 07: reads a circuit file.
#[inline(never)]
pub fn read_circuit(file: &[u8]) -> Answer {
    let Some(header) = header(file) else {
        return Answer::refused(60, 0);
    };
    match Pass::new(file).whole::<false>(header, &[]) {
        Some(_) => Answer::of_file(header.wires, file.len()),
        None => Answer::refused(circuit_file::row(file, header), 0),
    }
}

/// Operation 08: the part of a circuit file that holds a wire's record; empty for a refused file or a number that is
/// no wire.
#[inline(never)]
pub fn record(file: &[u8], wire: usize) -> &[u8] {
    let answer = read_circuit(file);
    if answer.number != 0 || wire >= answer.wires {
        return &[];
    }
    circuit_file::part(file, wire)
}

/// Operation 09: runs a circuit file; results in the first V places.
#[inline(never)]
pub fn run_circuit(file: &[u8], inputs: &[u32], results: &mut [u32]) -> Answer {
    let Some(header) = header(file) else {
        return Answer::refused(60, 0);
    };
    let variables = header.variables;
    if inputs.len() != variables || results.len() < variables {
        // The file's own refusal comes first.
        let answer = read_circuit(file);
        return match answer.number {
            0 => {
                let row = circuit_file::inputs_row(file, variables, inputs, results.len());
                Answer::refused(row, 0)
            }
            _ => answer,
        };
    }
    let mut pass = Pass::new(file);
    match pass.whole::<true>(header, inputs) {
        Some(false) => pass.results(variables, results),
        Some(true) => return Answer::refused(41, 0),
        None => return Answer::refused(circuit_file::row(file, header), 0),
    }
    Answer::of_file(header.wires, file.len())
}
