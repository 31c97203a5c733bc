//! Figures of a circuit's records: of a rule's fused circuit, and of a circuit file from any house.

use crate::answer::Answer;
use crate::circuit_file::{self, kinds};
use crate::direct::{check_inputs, write_results};
use crate::law::*;
use crate::plan::accept_both;
use crate::write::{answer, fuse, Fused, Record, Wire};

/// The operation "run the fused circuit". Only the first V results are written, on success alone.
pub fn run(rule: &[u8], plan: &[u8], inputs: &[u32], results: &mut [u32]) -> Answer {
    let (accepted, plan) = match accept_both(rule, plan) {
        Ok(both) => both,
        Err(refusal) => return refusal.into(),
    };
    if let Err(refusal) = check_inputs(&accepted.rule.kinds(), inputs, results.len()) {
        return refusal.into();
    }
    let fused = fuse(&accepted.circuit, &plan);
    write_results(&figures(&fused, inputs), results);
    answer(&accepted, &fused, &fused.file())
}

/// The operation "run a circuit file". Only the first V results are written, on success alone.
pub fn run_circuit(file: &[u8], inputs: &[u32], results: &mut [u32]) -> Answer {
    let accepted = match circuit_file::accept(file) {
        Ok(accepted) => accepted,
        Err(refusal) => return refusal.into(),
    };
    if let Err(refusal) = check_inputs(&accepted.variables(), inputs, results.len()) {
        return refusal.into();
    }
    write_results(&figures(&accepted.circuit, inputs), results);
    accepted.answer()
}

/// The figure of every variable that has an output wire.
pub fn figures(circuit: &Fused, inputs: &[u32]) -> Vec<Option<u32>> {
    let figures = figures_of_wires(circuit, inputs);
    let figure = |output: &Option<Wire>| output.map(|wire| figures[wire.0]);
    circuit.outputs.iter().map(figure).collect()
}

/// Every wire's figure, record by record. The circuit is one that row 62 passes.
pub fn figures_of_wires(circuit: &Fused, inputs: &[u32]) -> Vec<u32> {
    let kinds = kinds(circuit).expect("records read earlier wires of the right kinds");
    let mut figures: Vec<u32> = Vec::new();
    for (record, kind) in circuit.records.iter().zip(kinds) {
        figures.push(figure(record, kind, inputs, &figures));
    }
    figures
}

fn figure(record: &Record, kind: Kind, inputs: &[u32], earlier: &[u32]) -> u32 {
    let of = |wire: &Wire| earlier[wire.0];
    match record {
        Record::Input(variable, _) => inputs[*variable],
        Record::Word(word) => *word,
        Record::Bit(bit) => u32::from(*bit),
        Record::Operation(code, wires) => {
            work_out(*code, of(&wires[0]), wires.get(1).map_or(0, of))
        }
        Record::Choice(condition, first, second) => match of(condition) {
            1 => of(first),
            _ => of(second),
        },
        Record::Pick(pairs) => {
            let picked = pairs.iter().filter(|(guard, _)| of(guard) == 1);
            sum(kind, picked.map(|(_, value)| of(value)))
        }
        Record::Guard(wires, table) => {
            let bits = wires.iter().enumerate();
            let j: usize = bits.map(|(t, wire)| (of(wire) as usize) << t).sum();
            u32::from(table.has(j))
        }
    }
}

/// The sum of a pick's values whose guards are 1: modulo 4,294,967,296 of words, modulo 2 of bits.
fn sum(kind: Kind, values: impl Iterator<Item = u32>) -> u32 {
    let sum = values.fold(0, u32::wrapping_add);
    match kind {
        Kind::Word => sum,
        Kind::Bit => sum % 2,
    }
}
