//! What a pass is given of a rule, worked out before anything is timed.

use crate::passes::{Narrow, Wide, SET_WORDS};
use crate::rules::Sort;
use compare::circuit::{accept, Gate, GateNumber};
use compare::law::GATES_MAX;
use compare::rule::bytes_of;
use harness::tool::{Plain, Tool, Tuned};

/// The gates of an accepted rule, and what is known of them. Only `Given::of` makes one, and nothing changes it: the
/// passes rest on that, as they test no number.
#[repr(C, align(64))]
pub struct Given {
    rows: [u32; 4 * GATES_MAX],
    ranks: [u16; GATES_MAX],
    wanted: Vec<u16>,
    conditions: Vec<u8>,
    starts: usize,
    count: usize,
    choices: usize,
    needs: Wide,
}

impl Given {
    /// The rule of a sort with so many gates.
    pub fn of(sort: &Sort, gates: usize) -> Given {
        let rule = bytes_of(&(sort.rule)(gates));
        let circuit = accept(&rule).expect("a rule within the limits").circuit;
        let shown = Plain.show_plain(&rule);
        assert_eq!(shown, Tuned::Written.show_plain(&rule));
        assert_eq!(
            (circuit.gates.len(), circuit.conditions.len()),
            (gates, sort.conditions)
        );
        let mut sets = shown.needs.chunks(SET_WORDS).take(gates);
        assert!(sets.all(|set| set.iter().any(|&word| word != 0)));
        let last = circuit.outputs.iter().flatten();
        Given {
            rows: shown.rows,
            ranks: ranks(&circuit.conditions),
            wanted: last.map(|gate| gate.0 as u16).collect(),
            conditions: circuit.conditions.iter().map(|gate| gate.0 as u8).collect(),
            starts: circuit.outputs.len(),
            count: gates,
            choices: circuit.gates.iter().filter(|gate| is_choice(gate)).count(),
            needs: shown.needs,
        }
    }

    /// Four numbers a gate, as operation 06 shows them; zeros after the gates.
    pub fn rows(&self) -> &[u32; 4 * GATES_MAX] {
        &self.rows
    }

    /// Of each gate that is a condition its number, from 1 on; 0 of the others.
    pub fn ranks(&self) -> &[u16; GATES_MAX] {
        &self.ranks
    }

    /// The gates of the conditions, rising.
    pub fn conditions(&self) -> &[u8] {
        &self.conditions
    }

    /// The last gates of the result variables.
    pub fn wanted(&self) -> &[u16] {
        &self.wanted
    }

    /// How many gates are starting values; they come first.
    pub fn starts(&self) -> usize {
        self.starts
    }

    pub fn count(&self) -> usize {
        self.count
    }

    pub fn choices(&self) -> usize {
        self.choices
    }

    /// The preconditions, as operation 06 gives them; zeros after the gates.
    pub fn needs(&self) -> Wide {
        self.needs
    }

    /// The preconditions as they were before C-17, where there are no more conditions than there were then: of such a rule
    /// all four words of a set are the same.
    pub fn narrow_needs(&self) -> Narrow {
        std::array::from_fn(|gate| self.needs[SET_WORDS * gate])
    }
}

fn is_choice(gate: &Gate) -> bool {
    matches!(gate, Gate::Choice(..))
}

/// Of each gate its number among the conditions, from 1 on; 0 if it is none.
fn ranks(conditions: &[GateNumber]) -> [u16; GATES_MAX] {
    let mut ranks = [0; GATES_MAX];
    for (place, gate) in conditions.iter().enumerate() {
        ranks[gate.0] = place as u16 + 1;
    }
    ranks
}
