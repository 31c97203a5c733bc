//! The order of writing, and row 30.
//!
//! Gates are looked at in rising order. A group that cannot be written yet watches one group that it waits
//! for, and is looked at again when that is written; the lowest of those comes before the next gate, as all
//! of them are below it. So a plan in which much waits costs no search again and again.

use crate::law::GATES_MAX;
use crate::places::Places;
use crate::plan::{member, Planned, INNER, JOINED, WATCHED};

/// The wire of what is not written yet. Wires lie below 640, so its highest bit tells it.
const UNWRITTEN: u16 = 0xFFFF;

#[inline(always)]
fn unwritten(wires: u16) -> bool {
    wires & 0x8000 != 0
}

/// What is done with each group as its turn comes.
pub trait Taken {
    /// Whether picks are looked for, and with them wires, bytes and cost counted.
    const COUNTS: bool = true;
    fn alone(&mut self, circuit: &Planned, gate: usize, row: u32);
    fn joined(&mut self, circuit: &Planned, plan: &[u8], begins: usize);
}

/// The check asks nothing more than whether the order ends.
pub struct Nothing;

impl Taken for Nothing {
    const COUNTS: bool = false;
    #[inline(always)]
    fn alone(&mut self, _: &Planned, _: usize, _: u32) {}
    #[inline(always)]
    fn joined(&mut self, _: &Planned, _: &[u8], _: usize) {}
}

/// An entry of a batch is counted, and no more.
pub struct Counts;

impl Taken for Counts {
    #[inline(always)]
    fn alone(&mut self, _: &Planned, _: usize, _: u32) {}
    #[inline(always)]
    fn joined(&mut self, _: &Planned, _: &[u8], _: usize) {}
}

/// The groups in their order, each by its first member.
pub struct Order {
    groups: Places<u8, GATES_MAX>,
    count: usize,
}

impl Order {
    #[inline(always)]
    pub fn new() -> Order {
        Order {
            groups: Places::new(),
            count: 0,
        }
    }

    #[inline(always)]
    pub fn groups(&self) -> impl Iterator<Item = usize> + '_ {
        (0..self.count).map(|place| usize::from(self.groups.get(place)))
    }

    #[inline(always)]
    fn push(&mut self, first: usize) {
        self.groups.set(self.count, first as u8);
        self.count += 1;
    }
}

impl Taken for Order {
    #[inline(always)]
    fn alone(&mut self, _: &Planned, gate: usize, _: u32) {
        self.push(gate);
    }

    #[inline(always)]
    fn joined(&mut self, _: &Planned, plan: &[u8], begins: usize) {
        self.push(member(plan, begins, 0));
    }
}

/// The groups that watch a group: the first of them, and the one after each; 0 for none, as gate 0 never waits.
struct Watch {
    first: Places<u8, GATES_MAX>,
    next: Places<u8, GATES_MAX>,
}

impl Watch {
    #[inline(always)]
    fn add(&mut self, group: usize, watched: u8) {
        self.next.set(group, self.first.get(watched));
        self.first.set(watched, group as u8);
    }
}

/// The groups that are to be looked at again.
struct Awake {
    groups: [u64; 4],
    count: usize,
}

impl Awake {
    /// A group is written: those that watch it are to be looked at again.
    #[inline(always)]
    fn add_watching(&mut self, watch: &Watch, group: usize) {
        let mut watching = watch.first.get(group);
        while watching != 0 {
            self.groups[usize::from(watching >> 6)] |= 1 << (watching & 63);
            self.count += 1;
            watching = watch.next.get(watching);
        }
    }

    /// Takes the lowest.
    #[inline(always)]
    fn lowest(&mut self) -> Option<usize> {
        if self.count == 0 {
            return None;
        }
        let mut word = 0;
        while self.groups[word & 3] == 0 {
            word += 1;
        }
        let set = &mut self.groups[word & 3];
        let group = 64 * word + set.trailing_zeros() as usize;
        *set &= *set - 1;
        self.count -= 1;
        Some(group)
    }
}

/// Hands every group over in the order of writing; false when a circle remains.
#[inline(always)]
pub fn order(circuit: &mut Planned, plan: &[u8], taken: &mut impl Taken) -> bool {
    let (gates, variables) = (circuit.gates, circuit.variables);
    // The starting values are never joined and wait for nothing.
    for variable in 0..variables {
        circuit.wires.set(variable, variable as u16);
    }
    circuit.wires.fill(variables, gates, UNWRITTEN as u8);
    let mut watch = Watch {
        first: Places::new(),
        next: Places::new(),
    };
    watch.first.fill(0, gates, 0);
    let mut turn = Turn {
        circuit,
        plan,
        taken,
        watch: &mut watch,
        awake: Awake {
            groups: [0; 4],
            count: 0,
        },
        wire: variables,
    };
    let mut next = variables;
    loop {
        while next < gates && turn.circuit.marks.get(next) == 0 {
            turn.look_alone::<false>(next);
            next += 1;
        }
        if next == gates {
            // Nothing is awake here, so what is not written waits in a circle.
            let circuit = turn.circuit;
            return turn.wire + circuit.fewer_wires == gates + circuit.more_wires;
        }
        turn.look_with_awoken(next);
        next += 1;
    }
}

struct Turn<'a, T> {
    circuit: &'a mut Planned,
    plan: &'a [u8],
    taken: &'a mut T,
    watch: &'a mut Watch,
    awake: Awake,
    /// The next wire.
    wire: usize,
}

impl<T: Taken> Turn<'_, T> {
    /// A gate that is joined or watched, then all that it and those after it wake.
    #[inline(always)]
    fn look_with_awoken(&mut self, gate: usize) {
        let mut gate = gate;
        loop {
            let marks = self.circuit.marks.get(gate);
            if marks & JOINED == 0 {
                self.look_alone::<true>(gate);
            } else if marks & INNER == 0 {
                self.look_joined(gate);
            }
            match self.awake.lowest() {
                Some(awoken) => gate = awoken,
                None => return,
            }
        }
    }

    /// A gate alone: it is written, or watches.
    #[inline(always)]
    fn look_alone<const WATCHED: bool>(&mut self, gate: usize) {
        let row = self.circuit.rows.get(gate);
        if let Some(waited) = self.circuit.gate_waits_for(row) {
            return self.wait(gate, waited);
        }
        self.circuit.wires.set(gate, self.wire as u16);
        self.wire += 1;
        self.taken.alone(self.circuit, gate, row);
        if WATCHED {
            self.awake.add_watching(self.watch, gate);
        }
    }

    /// A joined group, by its first member: it is written, or watches.
    #[inline(always)]
    fn look_joined(&mut self, first: usize) {
        let begins = usize::from(self.circuit.begins.get(first));
        let size = usize::from(self.plan[begins]);
        if let Some(waited) = self.circuit.group_waits_for(self.plan, first, begins, size) {
            return self.wait(first, waited);
        }
        if T::COUNTS {
            let before = self.circuit.more_wires;
            self.circuit.count_group(self.plan, first, begins, size);
            self.wire += self.circuit.more_wires - before;
        }
        self.wire += 1;
        for place in 0..size {
            let gate = member(self.plan, begins, place);
            self.circuit.wires.set(gate, (self.wire - 1) as u16);
        }
        self.taken.joined(self.circuit, self.plan, begins);
        self.awake.add_watching(self.watch, first);
    }

    #[inline(always)]
    fn wait(&mut self, group: usize, waited: u8) {
        let watched = self.circuit.group.get(waited);
        let marks = self.circuit.marks.get(watched) | WATCHED;
        self.circuit.marks.set(watched, marks);
        self.watch.add(group, watched);
    }
}

impl Planned {
    /// An argument of a gate alone that has no wire yet.
    #[inline(always)]
    fn gate_waits_for(&self, row: u32) -> Option<u8> {
        let [_, x, y, z] = row.to_le_bytes();
        let [a, b, c] = [x, y, z].map(|gate| self.wires.get(gate));
        if !unwritten(a | b | c) {
            None
        } else if unwritten(a) {
            Some(x)
        } else if unwritten(b) {
            Some(y)
        } else {
            Some(z)
        }
    }

    /// An argument of a member, or a condition that one rests on, that has no wire yet. What has a wire
    /// keeps it, so the search goes on with the member at which it stopped.
    #[inline(always)]
    fn group_waits_for(
        &mut self,
        plan: &[u8],
        first: usize,
        begins: usize,
        size: usize,
    ) -> Option<u8> {
        let mut place = usize::from(self.passed.get(first));
        while place < size {
            let [_, x, y, _] = self.rows.get(member(plan, begins, place)).to_le_bytes();
            let [a, b] = [x, y].map(|gate| self.wires.get(gate));
            if unwritten(a | b) {
                self.passed.set(first, place as u8);
                return Some(if unwritten(a) { x } else { y });
            }
            place += 1;
        }
        self.passed.set(first, place as u8);
        self.group_rests_on_unwritten(first)
    }

    #[inline(always)]
    fn group_rests_on_unwritten(&self, first: usize) -> Option<u8> {
        let mut left = self.group_rests.get(first);
        while left != 0 {
            let condition = self.conditions[(left.trailing_zeros() & 7) as usize];
            if unwritten(self.wires.get(condition)) {
                return Some(condition);
            }
            left &= left - 1;
        }
        None
    }
}
