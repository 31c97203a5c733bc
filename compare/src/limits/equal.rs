//! C-18: no pick between equal wires, and no guards where no pick remains. Beside each case stands document 02's number, beside
//! most plans the wires, bytes and cost that counting their records gives, beside most runs their figures.

mod chains;
mod conditions;
mod document;
mod gates;
mod kept;
mod late;
mod longest;
mod odd;
mod places;
mod read;
mod unneeded;

use super::circuits::run_case;
use super::{plan, List};
use crate::circuit::read_rule;
use crate::law::*;
use crate::limits::parts::{var, when};
use crate::rule::Block;
use crate::stream::{Case, FUSED, WRITE};

pub fn add(list: &mut List) {
    list.family = "document";
    document::add(list);
    list.family = "places";
    places::add(list);
    list.family = "gates";
    gates::add(list);
    list.family = "chains";
    chains::add(list);
    list.family = "late";
    late::add(list);
    list.family = "unneeded";
    unneeded::add(list);
    list.family = "conditions";
    conditions::add(list);
    list.family = "longest";
    longest::add(list);
    list.family = "kept";
    kept::add(list);
}

/// Those that were found after the others were stored; they come behind all of them.
pub fn add_behind(list: &mut List) {
    list.family = "odd";
    odd::add(list);
    list.family = "read";
    read::add(list);
}

/// Ifs on v0, v1 and so on, each inside the second block of the one before, so that so many ends exclude each other.
fn ladder(ends: Vec<Block>) -> Block {
    let mut ends = ends.into_iter().enumerate().rev();
    let (_, mut block) = ends.next().expect("an end");
    for (t, end) in ends {
        block = vec![when(var(t), end, block)];
    }
    block
}

/// The end that a setting comes to, of so many.
fn reached(setting: usize, ends: usize) -> usize {
    (setting.trailing_ones() as usize).min(ends - 1)
}

/// The bits of the first so many conditions, of which a 0 leads to an end: so that setting 0 comes to the first.
fn bits(setting: usize, count: usize) -> Vec<u32> {
    (0..count).map(|t| 1 - (setting >> t & 1) as u32).collect()
}

/// How many conditions each end of a ladder rests on.
fn rests(ends: usize) -> impl Iterator<Item = usize> {
    (0..ends).map(move |end| (end + 1).min(ends - 1))
}

/// Wires, bytes and cost of what a plan's groups have beside one record a gate that is not joined.
#[derive(Clone, Copy, Debug, Default, PartialEq, Eq)]
struct Counted {
    wires: usize,
    bytes: usize,
    after: usize,
}

impl Counted {
    /// Records that are no guard and no pick: so many, of so many bytes and this cost.
    fn and(self, records: usize, bytes: usize, cost: usize) -> Counted {
        Counted {
            wires: self.wires + records,
            bytes: self.bytes + records * bytes,
            after: self.after + records * cost,
        }
    }

    /// The head, the inputs and the outputs.
    fn of_variables(count: usize) -> Counted {
        let inputs = Counted::default().and(count, 2, 0);
        let bytes = inputs.bytes + CIRCUIT_BYTES_MIN + 2 * count;
        Counted { bytes, ..inputs }
    }

    /// A joined group: the operation, so many picks and, where there is one, a guard for each member over so many
    /// conditions.
    fn group(self, code: u8, picks: usize, rests: impl Iterator<Item = usize>) -> Counted {
        let cost = operation(code).expect("an operation").cost;
        let rests: Vec<usize> = rests.collect();
        let members = rests.len();
        let mut all = self.and(1, 5, cost);
        if picks > 0 {
            all = all.and(picks, 2 + 4 * members, PICK_COST_A_PAIR * members);
            for wires in rests {
                all = all.and(1, 2 + 2 * wires + VERSION_2.table_bytes(), GUARD_COST);
            }
        }
        all
    }

    fn choices(self, count: usize) -> Counted {
        self.and(count, 7, CHOICE_COST)
    }
}

impl List {
    /// An accepted plan whose file has just these counts: checked, written into just enough room and one byte less.
    #[track_caller]
    fn counts(&mut self, rule: &[u8], plan: &[u8], wanted: Counted) -> Vec<u8> {
        let case = Case {
            operation: WRITE,
            room: wanted.bytes as u16,
            first: rule.to_vec(),
            second: plan.to_vec(),
            ..Case::default()
        };
        let (answer, _) = case.work().expect("an operation that is built");
        let counted = Counted {
            wires: answer.wires,
            bytes: answer.bytes,
            after: answer.after,
        };
        assert_eq!((answer.number, counted), (0, wanted));
        self.check(rule, plan, 0);
        self.add(case, 0);
        self.write(rule, plan, wanted.bytes - 1, 50);
        self.file(rule, plan)
    }

    /// Fused runs on inputs that are told apart by a turn each.
    #[track_caller]
    fn fused_turns(&mut self, rule: &[u8], plan: &[u8], turns: &[usize]) {
        for &turn in turns {
            let inputs = super::inputs(rule, turn);
            self.fused(rule, plan, &inputs, inputs.len() + turn % 2, 0);
        }
    }

    /// A fused run that ends with these figures.
    #[track_caller]
    fn run_fused(&mut self, rule: &[u8], plan: &[u8], inputs: &[u32], figures: &[u32]) {
        let fused = Case {
            operation: FUSED,
            second: plan.to_vec(),
            ..run_case(rule, inputs, inputs.len())
        };
        self.gives(fused, figures);
    }

    /// The same, and the file read and run.
    #[track_caller]
    fn run_both(&mut self, rule: &[u8], plan: &[u8], file: &[u8], inputs: &[u32], figures: &[u32]) {
        self.run_fused(rule, plan, inputs, figures);
        self.read_circuit(file, 0);
        self.gives(run_case(file, inputs, inputs.len()), figures);
    }
}

/// A plan of these groups, in order, with as many gates as the rule has.
fn plan_of(rule: &[u8], groups: &[Vec<usize>]) -> Vec<u8> {
    let mut groups: Vec<&[usize]> = groups.iter().map(|group| &group[..]).collect();
    groups.sort();
    plan(read_rule(rule).gates, &groups)
}

/// The gates of an operation, rising.
fn gates_of(rule: &[u8], code: u8) -> Vec<usize> {
    let circuit = crate::circuit::accept(rule)
        .expect("an accepted rule")
        .circuit;
    let gates = 0..circuit.gates.len();
    gates
        .filter(|&gate| circuit.gates[gate].code() == code)
        .collect()
}
