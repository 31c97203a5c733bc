//! C-11: circuit files read, shown by record and run. Files are put together from records, and faults set in
//! their bytes; the number beside each is document 02's. All are of version 1; those of version 2 are in `eight`.

mod faults;
mod ours;
mod sums;

pub(super) use ours::wanted_of_example_3;

use super::List;
use crate::circuit::Settings;
use crate::circuit_file::accept;
use crate::law::*;
use crate::stream::{Case, READ_CIRCUIT, RECORD, RUN_CIRCUIT};
use crate::write::{Fused, Record, Wire};

pub fn add(list: &mut List) {
    list.family = "ours";
    ours::add(list);
    list.family = "sums";
    sums::add(list);
    list.family = "faults";
    faults::add(list);
}

impl List {
    #[track_caller]
    pub(super) fn read_circuit(&mut self, file: &[u8], wanted: u8) {
        self.add(
            Case {
                operation: READ_CIRCUIT,
                first: file.to_vec(),
                ..Case::default()
            },
            wanted,
        );
    }

    #[track_caller]
    pub(super) fn record(&mut self, file: &[u8], wire: usize, wanted: u8) {
        self.add(
            Case {
                operation: RECORD,
                number: wire as u16,
                first: file.to_vec(),
                ..Case::default()
            },
            wanted,
        );
    }

    #[track_caller]
    pub(super) fn run_circuit(&mut self, file: &[u8], inputs: &[u32], room: usize, wanted: u8) {
        self.add(run_case(file, inputs, room), wanted);
    }

    /// A run that succeeds, with the figures that it gives.
    #[track_caller]
    fn run_gives(&mut self, file: &[u8], inputs: &[u32], wanted: &[u32]) {
        let mut results = vec![0; wanted.len()];
        crate::run::run_circuit(file, inputs, &mut results);
        assert_eq!(results, wanted, "the figures of {inputs:?}");
        self.run_circuit(file, inputs, wanted.len(), 0);
    }

    /// A refused file by every operation; inputs that would be refused too come after it.
    #[track_caller]
    pub(super) fn refused_circuit(&mut self, file: &[u8], wanted: u8) {
        self.read_circuit(file, wanted);
        self.record(file, 0, wanted);
        self.run_circuit(file, &[1, 6, 7], 3, wanted);
        self.run_circuit(file, &[], 0, wanted);
    }

    /// An accepted file read, its first record and a number that is no wire shown, and run.
    #[track_caller]
    pub(super) fn accepted_circuit(&mut self, file: &[u8], turns: &[usize]) {
        self.read_circuit(file, 0);
        let accepted = accept(file).expect("an accepted file");
        let wires = accepted.parts.len();
        for wire in [0, wires - 1, wires] {
            self.record(file, wire, 0);
        }
        for &turn in turns {
            let inputs = super::inputs_of(&accepted.variables(), turn);
            self.run_circuit(file, &inputs, inputs.len() + turn % 2, 0);
        }
    }
}

pub(super) fn run_case(file: &[u8], inputs: &[u32], room: usize) -> Case {
    Case {
        operation: RUN_CIRCUIT,
        room: room as u16,
        first: file.to_vec(),
        inputs: inputs.to_vec(),
        ..Case::default()
    }
}

// Short names for putting circuits together. A wire is named by its number.

fn input(variable: usize, kind: Kind) -> Record {
    Record::Input(variable, kind)
}

pub(super) fn operation_on(code: u8, wires: &[usize]) -> Record {
    Record::Operation(code, wires.iter().copied().map(Wire).collect())
}

pub(super) fn choice(condition: usize, first: usize, second: usize) -> Record {
    Record::Choice(Wire(condition), Wire(first), Wire(second))
}

pub(super) fn pick(pairs: &[(usize, usize)]) -> Record {
    let pair = |&(guard, value): &(usize, usize)| (Wire(guard), Wire(value));
    Record::Pick(pairs.iter().map(pair).collect())
}

/// A guard whose table is the number's bits.
pub(super) fn guard(wires: &[usize], table: u64) -> Record {
    guard_where(wires, |j| j < 64 && table >> j & 1 == 1)
}

/// A guard whose table has these bits.
pub(super) fn guard_where(wires: &[usize], has: impl Fn(usize) -> bool) -> Record {
    let mut table = Settings::none();
    for j in (0..SETTINGS).filter(|&j| has(j)) {
        table.add(j);
    }
    Record::Guard(wires.iter().copied().map(Wire).collect(), table)
}

/// Inputs of these kinds, then the records.
pub(super) fn circuit(kinds: &[Kind], records: Vec<Record>, outputs: &[usize]) -> Fused {
    let inputs = kinds.iter().enumerate();
    let mut all: Vec<Record> = inputs.map(|(place, &kind)| input(place, kind)).collect();
    all.extend(records);
    Fused {
        records: all,
        outputs: outputs.iter().map(|&wire| Some(Wire(wire))).collect(),
    }
}
