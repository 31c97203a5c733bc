//! The fused circuit's file: its size is known before, so it is written in one pass, without a test of room.

use crate::law::*;
use crate::needed::{counted, table};
use crate::order::Order;
use crate::plan::{member, Planned, BOTH, FIRST, JOINED};
use crate::reading::Reader;

/// A place of the lent buffer. Every store is of just the bytes that are due, and moves on behind them.
#[derive(Clone, Copy)]
struct Out(*mut u8);

impl Out {
    #[inline(always)]
    unsafe fn byte(&mut self, x: u8) {
        *self.0 = x;
        self.0 = self.0.add(1);
    }

    #[inline(always)]
    unsafe fn two(&mut self, x: u16) {
        self.0.cast::<u16>().write_unaligned(x.to_be());
        self.0 = self.0.add(2);
    }

    #[inline(always)]
    unsafe fn four(&mut self, x: u32) {
        self.0.cast::<u32>().write_unaligned(x.to_be());
        self.0 = self.0.add(4);
    }

    #[inline(always)]
    unsafe fn eight(&mut self, x: u64) {
        self.0.cast::<u64>().write_unaligned(x.to_be());
        self.0 = self.0.add(8);
    }

    /// Two wires in one store.
    #[inline(always)]
    unsafe fn pair(&mut self, first: u16, second: u16) {
        self.four(u32::from(first) << 16 | u32::from(second));
    }

    /// A code and a byte after it in one store.
    #[inline(always)]
    unsafe fn head(&mut self, code: u8, count: usize) {
        self.two(u16::from(code) << 8 | count as u16);
    }
}

/// Writes the file of an accepted plan.
///
/// # Safety
/// `out` has room for the file.
#[inline(always)]
pub unsafe fn write_file(
    circuit: &Planned,
    plan: &[u8],
    order: &Order,
    reader: &Reader,
    out: *mut u8,
) {
    let mut out = Out(out);
    for byte in CIRCUIT_MARK {
        out.byte(byte);
    }
    out.byte(circuit.variables as u8);
    out.two(circuit.wires_count() as u16);
    for variable in 0..circuit.variables {
        let kind = circuit.rows.get(variable) as u8;
        out.head(kind, variable);
    }
    for first in order.groups() {
        if circuit.marks.get(first) & JOINED == 0 {
            put_alone(&mut out, circuit, first);
        } else {
            put_joined(&mut out, circuit, plan, first);
        }
    }
    for (variable, &last) in reader.present[..circuit.variables].iter().enumerate() {
        out.two(match reader.is_result(variable) {
            true => circuit.wires.get(last),
            false => NO_WIRE,
        });
    }
}

#[inline(always)]
unsafe fn put_alone(out: &mut Out, circuit: &Planned, gate: usize) {
    let [code, x, y, z] = circuit.rows.get(gate).to_le_bytes();
    let wire = |gate: u8| circuit.wires.get(gate);
    out.byte(code);
    match code {
        WORD => out.four(circuit.constants.get(gate)),
        BIT => out.byte(circuit.constants.get(gate) as u8),
        NOT => out.two(wire(x)),
        _ => {
            // A choice has one wire more. It is stored after an operation too, rather than asked for: the next
            // record, or the outputs, are written over it.
            out.pair(wire(x), wire(y));
            let mut third = *out;
            third.two(wire(z));
            *out = if code == CHOICE { third } else { *out };
        }
    }
}

#[inline(always)]
unsafe fn put_joined(out: &mut Out, circuit: &Planned, plan: &[u8], first: usize) {
    let [code, x, y, _] = circuit.rows.get(first).to_le_bytes();
    let (mut x, mut y) = (circuit.wires.get(x), circuit.wires.get(y));
    let picks = circuit.picks.get(first);
    // Without a pick the operation is all there is (C-18).
    if picks != 0 {
        let begins = usize::from(circuit.begins.get(first));
        let size = usize::from(plan[begins]);
        for place in 0..size {
            put_guard(out, circuit, member(plan, begins, place));
        }
        let last = circuit.wires.get(first);
        if picks == BOTH {
            (x, y) = (last - 2, last - 1);
            put_both(out, circuit, plan, begins, last - (size + 2) as u16);
        } else {
            *(if picks == FIRST { &mut x } else { &mut y }) = last - 1;
            put_one(out, circuit, plan, begins, last - (size + 1) as u16, picks);
        }
    }
    out.byte(code);
    out.pair(x, y);
}

/// The picks of both places, side by side. `guards` is the first guard's wire.
#[inline(always)]
unsafe fn put_both(out: &mut Out, circuit: &Planned, plan: &[u8], begins: usize, guards: u16) {
    let size = usize::from(plan[begins]);
    let mut second = Out(out.0.add(2 + 4 * size));
    out.head(PICK, size);
    second.head(PICK, size);
    for place in 0..size {
        let gate = member(plan, begins, place);
        let [_, x, y, _] = circuit.rows.get(gate).to_le_bytes();
        let guard = guards + place as u16;
        out.pair(guard, circuit.wires.get(x));
        second.pair(guard, circuit.wires.get(y));
    }
    *out = second;
}

/// The pick of one place, FIRST or SECOND: the row's byte of that number.
#[inline(always)]
unsafe fn put_one(
    out: &mut Out,
    circuit: &Planned,
    plan: &[u8],
    begins: usize,
    guards: u16,
    argument: u8,
) {
    let size = usize::from(plan[begins]);
    let shift = 8 * u32::from(argument);
    out.head(PICK, size);
    for place in 0..size {
        let gate = member(plan, begins, place);
        let value = (circuit.rows.get(gate) >> shift) as u8;
        out.pair(guards + place as u16, circuit.wires.get(value));
    }
}

#[inline(always)]
unsafe fn put_guard(out: &mut Out, circuit: &Planned, gate: usize) {
    let on = circuit.rests.get(gate);
    out.head(GUARD, counted(on));
    let mut left = on;
    while left != 0 {
        let condition = circuit.conditions[(left.trailing_zeros() & 7) as usize];
        out.two(circuit.wires.get(condition));
        left &= left - 1;
    }
    // Big-endian: the lowest setting is the lowest bit of the last byte.
    for word in table(circuit.needs.get(gate), on).into_iter().rev() {
        out.eight(word);
    }
}
