//! What is measured: a rule, a plan, inputs and the circuit file, or several in a row.

use compare::circuit::accept;
use compare::circuit_file::{self, CircuitFile};
use compare::examples::{P1, R1};
use compare::law::{CIRCUIT_BYTES_MAX, PLAN_BYTES_MIN};
use compare::write::{write, Record};

/// A rule, a plan that is accepted for it, inputs, and the file of its circuit; or a circuit file and inputs alone.
#[derive(Clone)]
pub struct Subject {
    pub rule: Vec<u8>,
    pub plan: Vec<u8>,
    pub inputs: Vec<u32>,
    pub file: Vec<u8>,
}

impl Subject {
    pub fn of_rule(rule: Vec<u8>, plan: Vec<u8>, inputs: Vec<u32>) -> Subject {
        let mut file = vec![0; CIRCUIT_BYTES_MAX];
        let answer = write(&rule, &plan, &mut file);
        file.truncate(answer.bytes);
        Subject {
            rule,
            plan,
            inputs,
            file,
        }
    }

    pub fn wires(&self) -> usize {
        self.circuit_file().parts.len()
    }

    /// Pairs of the file's picks.
    pub fn pairs(&self) -> usize {
        let pairs = |record: &Record| match record {
            Record::Pick(pairs) => pairs.len(),
            _ => 0,
        };
        self.circuit_file().circuit.records.iter().map(pairs).sum()
    }

    /// Guards of the file.
    pub fn guards(&self) -> usize {
        let guard = |record: &&Record| matches!(record, Record::Guard(..));
        let records = self.circuit_file().circuit.records;
        records.iter().filter(guard).count()
    }

    /// Groups of the plan.
    pub fn groups(&self) -> usize {
        usize::from(u16::from_be_bytes([self.plan[7], self.plan[8]]))
    }

    /// Groups without guards, and groups with one pick: their members have equal wires at both places, or at one (C-18).
    pub fn equal(&self) -> [usize; 2] {
        let records = self.circuit_file().circuit.records;
        let is_pick = |record: &Record| matches!(record, Record::Pick(_));
        let picks = records.iter().filter(|record| is_pick(record)).count();
        // The guards of a group stand before its picks.
        let guarded = records
            .windows(2)
            .filter(|two| matches!(two[0], Record::Guard(..)) && is_pick(&two[1]));
        let guarded = guarded.count();
        [self.groups() - guarded, 2 * guarded - picks]
    }

    fn circuit_file(&self) -> CircuitFile<'_> {
        circuit_file::accept(&self.file).expect("an accepted file")
    }

    pub fn gates(&self) -> usize {
        self.circuit().gates.len()
    }

    pub fn conditions(&self) -> usize {
        self.circuit().conditions.len()
    }

    /// Gates in groups of the plan.
    pub fn joined(&self) -> usize {
        let mut groups = &self.plan[PLAN_BYTES_MIN..];
        let mut joined = 0;
        while let Some(&size) = groups.first() {
            joined += usize::from(size);
            groups = &groups[1 + 2 * usize::from(size)..];
        }
        joined
    }

    fn circuit(&self) -> compare::circuit::Circuit {
        accept(&self.rule).expect("an accepted rule").circuit
    }
}

/// One line of the page: what is called in a row, and how the page names it.
#[derive(Clone)]
pub struct Row {
    pub name: String,
    pub subjects: Vec<Subject>,
    pub goal: Goal,
}

/// What the ratio to tuned Rust is to be at most, by the least times.
#[derive(Clone, Copy, Debug, PartialEq, Eq)]
pub enum Goal {
    R1,
    Ladder,
    Mixed,
    /// None is set for plans that are hard to order or in step, nor for circuit files.
    None,
}

impl Row {
    pub fn one(name: String, subject: Subject, goal: Goal) -> Row {
        Row {
            name,
            subjects: vec![subject],
            goal,
        }
    }

    /// On average over the subjects.
    pub fn mean(&self, of: impl Fn(&Subject) -> usize) -> f64 {
        let sum: usize = self.subjects.iter().map(of).sum();
        sum as f64 / self.subjects.len() as f64
    }
}

pub fn r1() -> Row {
    let subject = Subject::of_rule(R1.to_vec(), P1.to_vec(), vec![1, 6, 7]);
    Row::one("R1".into(), subject, Goal::R1)
}
