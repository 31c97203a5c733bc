//! Gates as they are made: numbered and counted, and stored or worked out as the const parameter says.

use super::{Reader, MAKE, RUN, SHOW};
use crate::law::*;

/// What a gate adds to the sums: one gate, its cost, and the bytes of its record when alone. They lie in one
/// number, since one addition then serves for all three.
const fn adds(cost: u8, bytes: u64) -> u64 {
    1 | (cost as u64) << 20 | bytes << 42
}

pub const START_ADDS: u64 = adds(0, 2);
pub const WORD_ADDS: u64 = adds(0, 5);
pub const BIT_ADDS: u64 = adds(0, 2);
const NOT_ADDS: u64 = adds(0, 3);
const CHOICE_ADDS: u64 = adds(CHOICE_COST, 7);
/// Of the operations on two arguments, by the lowest three bits of their codes.
const ADDS: [u64; 8] = {
    let mut all = [0; 8];
    let mut code = 0;
    while code < 8 {
        all[code] = adds(COSTS[code], 5);
        code += 1;
    }
    all
};

/// An expression read: its gate in the high half and, when running, its figure in the low half.
#[derive(Clone, Copy)]
pub struct Value(u64);

impl Value {
    #[inline(always)]
    pub fn new(gate: u8, figure: u32) -> Value {
        Value(u64::from(gate) << 32 | u64::from(figure))
    }

    #[inline(always)]
    pub fn gate(self) -> u8 {
        (self.0 >> 32) as u8
    }

    #[inline(always)]
    pub fn figure(self) -> u32 {
        self.0 as u32
    }
}

impl Reader {
    #[inline(always)]
    pub fn gates(&self) -> usize {
        (self.sums & 0xF_FFFF) as usize
    }

    #[inline(always)]
    pub fn cost(&self) -> usize {
        (self.sums >> 20 & 0x3F_FFFF) as usize
    }

    /// The bytes of the records of all gates, each alone.
    #[inline(always)]
    pub fn bytes(&self) -> usize {
        (self.sums >> 42) as usize
    }

    /// What a variable stands for. It is handed on as it lies in a wide load, with other bytes above it.
    #[inline(always)]
    pub fn variable<const DO: u8>(&self, variable: u64) -> Value {
        let variable = (variable & 31) as usize;
        let figure = if DO == RUN {
            self.figures.get(variable)
        } else {
            0
        };
        Value::new(self.present[variable], figure)
    }

    /// Gives a variable its value; the variable, as a set.
    #[inline(always)]
    pub fn assign<const DO: u8>(&mut self, variable: u64, value: Value) -> u32 {
        let variable = (variable & 31) as usize;
        self.present[variable] = value.gate();
        if DO == RUN {
            self.figures.set(variable, value.figure());
        }
        1 << variable
    }

    /// One gate more: its code and up to three arguments. A place that it does not have names gate 0.
    /// Its number is a byte, so that it names one of the 256 rows that there are.
    #[inline(always)]
    pub fn push<const DO: u8>(&mut self, adds: u64, code: u8, [x, y, z]: [u8; 3]) -> u8 {
        let number = self.sums as u8;
        self.sums += adds;
        unsafe {
            if DO == MAKE {
                let row = u32::from_le_bytes([code, x, y, z]);
                *self.rows.add(usize::from(number)) = row;
            }
            if DO == SHOW {
                let row = [code, x, y, z].map(u32::from);
                *self.rows.add(4 * usize::from(number)).cast() = row;
            }
        }
        number
    }

    #[inline(always)]
    pub fn push_constant<const DO: u8>(&mut self, adds: u64, code: u8, figure: u32) -> Value {
        let number = self.push::<DO>(adds, code, [0; 3]);
        unsafe {
            if DO == MAKE {
                *self.constants.add(usize::from(number)) = figure;
            }
            if DO == SHOW {
                *self.rows.add(4 * usize::from(number) + 1) = figure;
            }
        }
        Value::new(number, figure)
    }

    /// An operation on two arguments. It is written without branches: which argument is the lower one is not
    /// foreseen.
    #[inline(always)]
    pub fn push_two<const DO: u8>(&mut self, code: u8, first: Value, second: Value) -> Value {
        let (one, other) = (first.gate(), second.gate());
        let (low, high) = (one.min(other), one.max(other));
        let (x, y) = if lower_first(code) {
            (low, high)
        } else {
            (one, other)
        };
        let number = self.push::<DO>(ADDS[usize::from(code & 7)], code, [x, y, 0]);
        let figure = if DO == RUN {
            work_out(code, first.figure(), second.figure())
        } else {
            0
        };
        Value::new(number, figure)
    }

    /// "Not". A packed row names its argument twice, so that rows of one and of two arguments are read alike.
    #[inline(always)]
    pub fn push_not<const DO: u8>(&mut self, first: Value) -> Value {
        let x = first.gate();
        let again = if DO == SHOW { 0 } else { x };
        let number = self.push::<DO>(NOT_ADDS, NOT, [x, again, 0]);
        Value::new(number, work_out(NOT, first.figure(), 0))
    }

    /// A choice gate for each variable assigned in either block of an if.
    #[inline(always)]
    pub fn choose<const DO: u8>(&mut self, test: u8, assigned: u32, first: &[u8; VARIABLES_MAX]) {
        let word = &mut self.marked[usize::from(test >> 6)];
        let bit = 1 << (test & 63);
        self.conditions += usize::from(*word & bit == 0);
        *word |= bit;
        let mut left = assigned;
        while left != 0 {
            let x = left.trailing_zeros() as usize;
            left &= left - 1;
            let arguments = [test, first[x], self.present[x]];
            self.present[x] = self.push::<DO>(CHOICE_ADDS, CHOICE, arguments);
        }
    }
}
