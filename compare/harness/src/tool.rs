//! The nine operations as the harness calls them, of each implementation.

use compare::answer::Answer;
use compare::circuit::{accept, preconditions, Circuit, Gate, Settings};
use compare::law::{GATES_MAX, SETTINGS};
use compare::write::Wire;
use std::mem::MaybeUninit;

/// Words of a precondition: bit j of the 256, from the lowest word's lowest bit on, is setting j.
pub const SET_WORDS: usize = SETTINGS / 64;

/// What operation 06 gives: the answer, four numbers a gate, and four words of precondition a gate; zeros after them.
#[derive(Clone, Debug, PartialEq, Eq)]
pub struct Shown {
    pub answer: Answer,
    pub rows: [u32; 4 * GATES_MAX],
    pub needs: [u64; SET_WORDS * GATES_MAX],
}

pub trait Tool: Sync {
    /// As the harness names it where it tells of a difference.
    fn name(&self) -> &'static str;
    fn read_rule(&self, rule: &[u8]) -> Answer;
    fn run_rule(&self, rule: &[u8], inputs: &[u32], results: &mut [u32]) -> Answer;
    fn check_plan(&self, rule: &[u8], plan: &[u8]) -> Answer;
    fn write_fused(&self, rule: &[u8], plan: &[u8], out: &mut [u8]) -> Answer;
    fn run_fused(&self, rule: &[u8], plan: &[u8], inputs: &[u32], results: &mut [u32]) -> Answer;
    fn show_plain(&self, rule: &[u8]) -> Shown;
    fn read_circuit(&self, file: &[u8]) -> Answer;
    fn record<'a>(&self, file: &'a [u8], wire: usize) -> &'a [u8];
    fn run_circuit(&self, file: &[u8], inputs: &[u32], results: &mut [u32]) -> Answer;
}

/// All that are compared; the others are held against the first.
#[cfg(feature = "proved")]
pub const TOOLS: [&dyn Tool; 4] = [&Proved, &Plain, &Tuned::Written, &Tuned::Unwritten];

/// Each implementation has an answer of its own, of the same seven numbers.
macro_rules! of {
    ($answer:expr) => {{
        let answer = $answer;
        Answer {
            number: answer.number,
            place: answer.place,
            gates: answer.gates,
            wires: answer.wires,
            bytes: answer.bytes,
            before: answer.before,
            after: answer.after,
        }
    }};
}

/// The proved tool, through the library that C and Rust programs link.
#[cfg(feature = "proved")]
pub struct Proved;

#[cfg(feature = "proved")]
impl Tool for Proved {
    fn name(&self) -> &'static str {
        "proved"
    }

    fn read_rule(&self, rule: &[u8]) -> Answer {
        of!(linnet::read_rule(rule))
    }

    fn run_rule(&self, rule: &[u8], inputs: &[u32], results: &mut [u32]) -> Answer {
        of!(linnet::run_rule(rule, inputs, results))
    }

    fn check_plan(&self, rule: &[u8], plan: &[u8]) -> Answer {
        of!(linnet::check_plan(rule, plan))
    }

    fn write_fused(&self, rule: &[u8], plan: &[u8], out: &mut [u8]) -> Answer {
        of!(linnet::write_fused(rule, plan, out))
    }

    fn run_fused(&self, rule: &[u8], plan: &[u8], inputs: &[u32], results: &mut [u32]) -> Answer {
        of!(linnet::run_fused(rule, plan, inputs, results))
    }

    fn show_plain(&self, rule: &[u8]) -> Shown {
        let shown = linnet::show_plain(rule);
        Shown {
            answer: of!(shown.answer),
            rows: shown.rows,
            needs: shown.needs,
        }
    }

    fn read_circuit(&self, file: &[u8]) -> Answer {
        of!(linnet::read_circuit(file))
    }

    fn record<'a>(&self, file: &'a [u8], wire: usize) -> &'a [u8] {
        linnet::record(file, wire)
    }

    fn run_circuit(&self, file: &[u8], inputs: &[u32], results: &mut [u32]) -> Answer {
        of!(linnet::run_circuit(file, inputs, results))
    }
}

/// The second implementation, in plain Rust.
pub struct Plain;

impl Tool for Plain {
    fn name(&self) -> &'static str {
        "plain"
    }

    fn read_rule(&self, rule: &[u8]) -> Answer {
        compare::circuit::read_rule(rule)
    }

    fn run_rule(&self, rule: &[u8], inputs: &[u32], results: &mut [u32]) -> Answer {
        compare::direct::run(rule, inputs, results)
    }

    fn check_plan(&self, rule: &[u8], plan: &[u8]) -> Answer {
        compare::plan::check_plan(rule, plan)
    }

    fn write_fused(&self, rule: &[u8], plan: &[u8], out: &mut [u8]) -> Answer {
        compare::write::write(rule, plan, out)
    }

    fn run_fused(&self, rule: &[u8], plan: &[u8], inputs: &[u32], results: &mut [u32]) -> Answer {
        compare::run::run(rule, plan, inputs, results)
    }

    fn show_plain(&self, rule: &[u8]) -> Shown {
        let mut shown = Shown {
            answer: compare::circuit::read_rule(rule),
            rows: [0; 4 * GATES_MAX],
            needs: [0; SET_WORDS * GATES_MAX],
        };
        if let Some((circuit, needs)) = plain_circuit(rule) {
            for (gate, needs) in needs.iter().enumerate() {
                shown.rows[4 * gate..4 * gate + 4].copy_from_slice(&row(&circuit.gates[gate]));
                let words = &mut shown.needs[SET_WORDS * gate..][..SET_WORDS];
                words.copy_from_slice(&needs.words());
            }
        }
        shown
    }

    fn read_circuit(&self, file: &[u8]) -> Answer {
        compare::circuit_file::read_circuit(file)
    }

    fn record<'a>(&self, file: &'a [u8], wire: usize) -> &'a [u8] {
        compare::circuit_file::record(file, Wire(wire))
    }

    fn run_circuit(&self, file: &[u8], inputs: &[u32], results: &mut [u32]) -> Answer {
        compare::run::run_circuit(file, inputs, results)
    }
}

/// The tuned implementation; it has two ways of running a fused circuit.
pub enum Tuned {
    /// From the bytes of the file, as the proved tool does.
    Written,
    /// Without a file.
    Unwritten,
}

impl Tool for Tuned {
    fn name(&self) -> &'static str {
        match self {
            Tuned::Written => "tuned",
            Tuned::Unwritten => "tuned, without a file",
        }
    }

    fn read_rule(&self, rule: &[u8]) -> Answer {
        of!(tuned::read_rule(rule))
    }

    fn run_rule(&self, rule: &[u8], inputs: &[u32], results: &mut [u32]) -> Answer {
        of!(tuned::run_rule(rule, inputs, results))
    }

    fn check_plan(&self, rule: &[u8], plan: &[u8]) -> Answer {
        of!(tuned::check_plan(rule, plan))
    }

    fn write_fused(&self, rule: &[u8], plan: &[u8], out: &mut [u8]) -> Answer {
        of!(tuned::write_fused(rule, plan, out))
    }

    fn run_fused(&self, rule: &[u8], plan: &[u8], inputs: &[u32], results: &mut [u32]) -> Answer {
        of!(match self {
            Tuned::Written => tuned::run_fused(rule, plan, inputs, results),
            Tuned::Unwritten => tuned::run_fused_unwritten(rule, plan, inputs, results),
        })
    }

    fn show_plain(&self, rule: &[u8]) -> Shown {
        let mut room = MaybeUninit::uninit();
        let shown = tuned::show_plain(rule, &mut room);
        Shown {
            answer: of!(shown.answer),
            rows: shown.rows,
            needs: shown.needs,
        }
    }

    fn read_circuit(&self, file: &[u8]) -> Answer {
        of!(tuned::read_circuit(file))
    }

    fn record<'a>(&self, file: &'a [u8], wire: usize) -> &'a [u8] {
        tuned::record(file, wire)
    }

    fn run_circuit(&self, file: &[u8], inputs: &[u32], results: &mut [u32]) -> Answer {
        of!(tuned::run_circuit(file, inputs, results))
    }
}

/// What the second implementation works out for operation 06, in its own form; none if refused.
pub fn plain_circuit(rule: &[u8]) -> Option<(Circuit, Vec<Settings>)> {
    let circuit = accept(rule).ok()?.circuit;
    let needs = preconditions(&circuit);
    Some((circuit, needs))
}

/// A gate's code, then the variable of a starting value, the figure of a constant, or arguments.
fn row(gate: &Gate) -> [u32; 4] {
    let mut row = [u32::from(gate.code()), 0, 0, 0];
    match gate {
        Gate::Start(variable, _) => row[1] = *variable as u32,
        Gate::Word(word) => row[1] = *word,
        Gate::Bit(bit) => row[1] = u32::from(*bit),
        Gate::Operation(..) | Gate::Choice(..) => {
            for (place, argument) in gate.arguments().iter().enumerate() {
                row[place + 1] = argument.0 as u32;
            }
        }
    }
    row
}
