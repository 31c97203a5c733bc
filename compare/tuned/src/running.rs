//! Figures of the fused circuit: record by record from its file or, without one, group by group in order.

use crate::law::*;
use crate::needed::bit;
use crate::order::Taken;
use crate::places::Places;
use crate::plan::{member, Planned};

/// All bits for 1, none for 0: a guard's figure, so that picking is an "and".
#[inline(always)]
fn mask(bit: u32) -> u32 {
    0u32.wrapping_sub(bit)
}

/// The record at a place of a file, and the figures of the wires before it.
struct Record<'a> {
    at: *const u8,
    figures: &'a Places<u32, WIRES_MAX>,
}

impl Record<'_> {
    #[inline(always)]
    unsafe fn byte(&self, place: usize) -> u8 {
        *self.at.add(place)
    }

    #[inline(always)]
    unsafe fn two(&self, place: usize) -> u16 {
        u16::from_be(self.at.add(place).cast::<u16>().read_unaligned())
    }

    /// The figure of the wire that is named at a place.
    #[inline(always)]
    unsafe fn figure(&self, place: usize) -> u32 {
        self.figures.get(self.two(place))
    }

    /// What the record gives, and its size.
    #[inline(always)]
    unsafe fn work_out(&self) -> (u32, usize) {
        match self.byte(0) {
            WORD => {
                let word = self.at.add(1).cast::<u32>().read_unaligned();
                (u32::from_be(word), 5)
            }
            BIT => (u32::from(self.byte(1)), 2),
            NOT => (self.figure(1) ^ 1, 3),
            CHOICE => {
                let (first, second) = (self.figure(3), self.figure(5));
                (if self.figure(1) == 1 { first } else { second }, 7)
            }
            PICK => self.pick(),
            GUARD => self.guard(),
            code => (work_out(code, self.figure(1), self.figure(3)), 5),
        }
    }

    #[inline(always)]
    unsafe fn pick(&self) -> (u32, usize) {
        let count = usize::from(self.byte(1));
        let mut picked = 0;
        for pair in 0..count {
            let guard = self.figure(2 + 4 * pair);
            picked |= self.figure(4 + 4 * pair) & mask(guard);
        }
        (picked, 2 + 4 * count)
    }

    #[inline(always)]
    unsafe fn guard(&self) -> (u32, usize) {
        let count = usize::from(self.byte(1));
        let mut setting = 0;
        for condition in 0..count {
            setting |= self.figure(2 + 2 * condition) << condition;
        }
        // Bit j stands in the byte that is j / 8 before the last.
        let size = 2 + 2 * count + TABLE_BYTES;
        let table = self.byte(size - 1 - (setting >> 3 & 31) as usize);
        (u32::from(table) >> (setting & 7) & 1, size)
    }
}

/// The figures of a file's outputs.
///
/// # Safety
/// `file` is what `write_file` writes, `inputs` are its V inputs, `results` has room for V.
#[inline(always)]
pub unsafe fn run_file(file: *const u8, inputs: &[u32], results: *mut u32) {
    let mut figures = Places::new();
    for (variable, &input) in inputs.iter().enumerate() {
        figures.set(variable, input);
    }
    let head = Record {
        at: file,
        figures: &figures,
    };
    let wires = usize::from(head.two(6));
    let mut at = file.add(8 + 2 * inputs.len());
    for wire in inputs.len()..wires {
        let record = Record {
            at,
            figures: &figures,
        };
        let (figure, size) = record.work_out();
        figures.set(wire, figure);
        at = at.add(size);
    }
    let outputs = Record {
        at,
        figures: &figures,
    };
    for variable in 0..inputs.len() {
        *results.add(variable) = match outputs.two(2 * variable) {
            NO_WIRE => 0,
            wire => figures.get(wire),
        };
    }
}

/// Each gate's figure, worked out as its group's turn comes.
pub struct Figures(Places<u32, GATES_MAX>);

impl Figures {
    /// Conditions count as 0 until they are known: no member rests on one that is not.
    #[inline(always)]
    pub fn start(circuit: &Planned, inputs: &[u32]) -> Figures {
        let mut figures = Places::new();
        for &condition in &circuit.conditions[..circuit.conditions_count] {
            figures.set(condition, 0);
        }
        for (variable, &input) in inputs.iter().enumerate() {
            figures.set(variable, input);
        }
        Figures(figures)
    }

    #[inline(always)]
    pub fn of(&self, gate: u8) -> u32 {
        self.0.get(gate)
    }
}

impl Taken for Figures {
    #[inline(always)]
    fn alone(&mut self, circuit: &Planned, gate: usize, row: u32) {
        let [code, x, y, z] = row.to_le_bytes();
        let figure = if code == CHOICE {
            let (first, second) = (self.of(y), self.of(z));
            if self.of(x) == 1 {
                first
            } else {
                second
            }
        } else if code >= SUM {
            work_out(code, self.of(x), self.of(y))
        } else {
            circuit.constants.get(gate)
        };
        self.0.set(gate, figure);
    }

    /// A member's guard is 1 when the setting that the conditions give needs it. Without a pick all have the first's
    /// arguments (C-18).
    #[inline(always)]
    fn joined(&mut self, circuit: &Planned, plan: &[u8], begins: usize) {
        let size = usize::from(plan[begins]);
        let gate = member(plan, begins, 0);
        let [code, x, y, _] = circuit.rows.get(gate).to_le_bytes();
        let (first, second) = match circuit.picks.get(gate) {
            0 => (self.of(x), self.of(y)),
            _ => self.picked(circuit, plan, begins),
        };
        let figure = work_out(code, first, second);
        for place in 0..size {
            self.0.set(member(plan, begins, place), figure);
        }
    }
}

impl Figures {
    /// What picks of both places give. At a place without a pick, where all members have one wire, this is that wire's figure as in
    /// the file as long as a member is needed; where none is, it is 0 here and in the file the wire's figure still. Nothing needs
    /// the group's wire then, so no result shows this.
    #[inline(always)]
    fn picked(&self, circuit: &Planned, plan: &[u8], begins: usize) -> (u32, u32) {
        let mut setting = 0;
        for condition in 0..circuit.conditions_count {
            setting |= (self.of(circuit.conditions[condition & 7]) & 1) << condition;
        }
        let size = usize::from(plan[begins]);
        let (mut first, mut second) = (0, 0);
        for place in 0..size {
            let gate = member(plan, begins, place);
            let [_, x, y, _] = circuit.rows.get(gate).to_le_bytes();
            let guard = mask(bit(circuit.needs.get(gate), setting));
            first |= self.of(x) & guard;
            second |= self.of(y) & guard;
        }
        (first, second)
    }
}
