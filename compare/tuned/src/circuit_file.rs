//! Circuit files from any house (C-11): one pass lays a file out, holds it against row 62 and, if wanted, works its
//! figures out. It stops at the first fault; only then a second pass tells 61 from 62. FF FF is admitted as any
//! variable's output (C-13). Files of both versions are read, each with its own size of guards (C-17).

use crate::law::*;
use crate::places::{byte, eight, four, two, Places};

/// What is known of a wire: its figure in the lower half, and this above it for a bit.
const BIT_KIND: u64 = 1 << 32;

#[inline(always)]
fn is_bit(known: u64) -> bool {
    known >> 32 == 1
}

#[inline(always)]
fn same_kind(one: u64, other: u64) -> bool {
    (one ^ other) >> 32 == 0
}

/// A header that row 60 passes.
#[derive(Clone, Copy)]
pub struct Header {
    pub variables: usize,
    pub wires: usize,
    /// Whether it is of version 2.
    wide: bool,
}

/// A mark and version as the lowest five bytes of a number, at its upper end.
const fn mark([a, b, c, d, e]: [u8; 5]) -> u64 {
    u64::from_le_bytes([a, b, c, d, e, 0, 0, 0]) << 24
}

/// V, the wire count and the version; none by row 60.
#[inline(always)]
pub fn header(file: &[u8]) -> Option<Header> {
    const WIDE: u64 = mark(CIRCUIT_MARK);
    const NARROW: u64 = mark(CIRCUIT_MARK_1);
    if file.len().wrapping_sub(CIRCUIT_BYTES_MIN) > CIRCUIT_BYTES_MAX - CIRCUIT_BYTES_MIN {
        return None;
    }
    let head = eight(file, 0) << 24;
    let variables = usize::from(byte(file, 5));
    let wires = usize::from(two(file, 6));
    let wide = head == WIDE;
    let good =
        (wide || head == NARROW) && variables.wrapping_sub(1) < VARIABLES_MAX && wires <= WIRES_MAX;
    good.then_some(Header {
        variables,
        wires,
        wide,
    })
}

/// A file and what is known of its wires so far; there is a place more than wires can be, for no wire.
pub struct Pass<'a> {
    file: &'a [u8],
    known: Places<u64, { WIRES_MAX + 1 }>,
}

impl<'a> Pass<'a> {
    #[inline(always)]
    pub fn new(file: &'a [u8]) -> Pass<'a> {
        let known = Places::new();
        Pass { file, known }
    }

    /// All of the file, and with RUN its figures; none where it has a fault of row 61 or 62. With RUN there are V
    /// inputs, else none. Says whether a bit's input is above 1.
    #[inline(always)]
    pub fn whole<const RUN: bool>(&mut self, header: Header, inputs: &[u32]) -> Option<bool> {
        let Header {
            variables,
            wires,
            wide,
        } = header;
        // A record that ends at or before this place leaves the outputs, so a byte after its code can be read.
        let end = self.file.len().checked_sub(2 * variables)?;
        let mut at = CIRCUIT_BYTES_MIN + 2 * variables;
        if wires < variables || end < at {
            return None;
        }
        let over = self.inputs(variables, inputs)?;
        for own in variables..wires {
            let (known, size) = self.record::<RUN>(own, at, end - at, wide)?;
            self.known.set(own, known);
            at += size;
        }
        if at != end {
            return None;
        }
        for variable in 0..variables {
            let place = end + 2 * variable;
            // FF FF is asked for only where there is no wire, so it costs an output that is one nothing.
            match self.wire(place, wires) {
                Some(output) if same_kind(output, self.known.get(variable)) => {}
                None if two(self.file, place) == NO_WIRE => {}
                _ => return None,
            }
        }
        Some(over)
    }

    /// The first V records; whether a bit's input is above 1.
    #[inline(always)]
    fn inputs(&mut self, variables: usize, inputs: &[u32]) -> Option<bool> {
        let mut over = false;
        for variable in 0..variables {
            let record = usize::from(two(self.file, CIRCUIT_BYTES_MIN + 2 * variable));
            let kind = record.wrapping_sub(variable);
            if kind & !0x0100 != 0 {
                return None;
            }
            let input = inputs.get(variable).copied().unwrap_or(0);
            over |= kind != 0 && input > 1;
            self.known
                .set(variable, (kind as u64) << 24 | u64::from(input));
        }
        Some(over)
    }

    /// What is known of the wire that is named at a place; none if it is not earlier.
    #[inline(always)]
    fn wire(&self, place: usize, own: usize) -> Option<u64> {
        let wire = usize::from(two(self.file, place));
        (wire < own).then(|| self.known.get(wire))
    }

    /// Of two wires.
    #[inline(always)]
    fn pair(&self, place: usize, own: usize) -> Option<(u64, u64)> {
        let both = four(self.file, place).swap_bytes();
        let (first, second) = ((both >> 16) as usize, (both & 0xFFFF) as usize);
        (first < own && second < own).then(|| (self.known.get(first), self.known.get(second)))
    }

    /// What is known of the record at a place, and its size, which is not above what is left.
    #[inline(always)]
    fn record<const RUN: bool>(
        &self,
        own: usize,
        at: usize,
        left: usize,
        wide: bool,
    ) -> Option<(u64, usize)> {
        let code = byte(self.file, at);
        match code {
            SUM..=OR if left >= 5 => {
                let (first, second) = self.pair(at + 1, own)?;
                Some((operation::<RUN>(code, first, second)?, 5))
            }
            NOT if left >= 3 => {
                let bit = self.wire(at + 1, own)?;
                is_bit(bit).then_some((bit ^ 1, 3))
            }
            CHOICE if left >= 7 => {
                let condition = self.wire(at + 1, own)?;
                let (first, second) = self.pair(at + 3, own)?;
                let good = is_bit(condition) && same_kind(first, second);
                let taken = if condition & 1 == 1 { first } else { second };
                good.then_some((taken, 7))
            }
            PICK => self.pick::<RUN>(own, at, left),
            GUARD if wide => self.wide_guard::<RUN>(own, at, left),
            GUARD => self.guard::<RUN>(own, at, left),
            WORD if left >= 5 => {
                let word = four(self.file, at + 1).swap_bytes();
                Some((u64::from(word), 5))
            }
            BIT if left >= 2 => {
                let bit = byte(self.file, at + 1);
                (bit <= 1).then_some((BIT_KIND | u64::from(bit), 2))
            }
            _ => None,
        }
    }

    #[inline(always)]
    fn pick<const RUN: bool>(&self, own: usize, at: usize, left: usize) -> Option<(u64, usize)> {
        let count = usize::from(byte(self.file, at + 1));
        let size = 2 + 4 * count;
        if count == 0 || left < size {
            return None;
        }
        let (_, model) = self.pair(at + 2, own)?;
        let (mut differ, mut sum) = (0, 0u32);
        for pair in 0..count {
            let (guard, value) = self.pair(at + 2 + 4 * pair, own)?;
            differ |= guard ^ BIT_KIND | value ^ model;
            if RUN {
                sum = sum.wrapping_add(value as u32 & 0u32.wrapping_sub(guard as u32));
            }
        }
        let kind = model & BIT_KIND;
        let sum = if kind == 0 { sum } else { sum & 1 };
        (differ >> 32 == 0).then_some((kind | u64::from(sum), size))
    }

    /// The setting that so many wires give from a place on; none if one is not earlier or no bit.
    #[inline(always)]
    fn setting(&self, own: usize, at: usize, count: usize) -> Option<usize> {
        let (mut differ, mut setting) = (0, 0);
        for place in 0..count {
            let bit = self.wire(at + 2 * place, own)?;
            differ |= bit ^ BIT_KIND;
            setting |= (bit as usize & 1) << place;
        }
        (differ >> 32 == 0).then_some(setting)
    }

    /// A guard of version 2.
    #[inline(always)]
    fn wide_guard<const RUN: bool>(
        &self,
        own: usize,
        at: usize,
        left: usize,
    ) -> Option<(u64, usize)> {
        let count = usize::from(byte(self.file, at + 1));
        let size = 2 + TABLE_BYTES + 2 * count;
        if count > CONDITIONS_MAX || left < size {
            return None;
        }
        let setting = self.setting(own, at + 2, count)?;
        // The words of the table from the lowest up stand from the last down.
        let last = at + size - 8;
        let low = eight(self.file, last).swap_bytes();
        let above = match count {
            8 => 0,
            7 => eight(self.file, last - 16) | eight(self.file, last - 24),
            _ => {
                let high = (1..4).map(|word| eight(self.file, last - 8 * word));
                high.fold(low >> ((1 << count) - 1) >> 1, |all, word| all | word)
            }
        };
        let bit = match RUN {
            true => byte(self.file, last + 7 - setting / 8) >> (setting % 8) & 1,
            false => 0,
        };
        (above == 0).then_some((BIT_KIND | u64::from(bit), size))
    }

    /// A guard of version 1.
    #[inline(always)]
    fn guard<const RUN: bool>(&self, own: usize, at: usize, left: usize) -> Option<(u64, usize)> {
        let count = usize::from(byte(self.file, at + 1));
        let size = 2 + TABLE_BYTES_1 + 2 * count;
        if count > GUARD_WIRES_MAX_1 || left < size {
            return None;
        }
        let setting = self.setting(own, at + 2, count)?;
        let table = eight(self.file, at + 2 + 2 * count).swap_bytes();
        // In two steps, since six wires make it all 64 bits.
        let above = table >> ((1 << count) - 1) >> 1;
        let bit = if RUN { table >> setting & 1 } else { 0 };
        (above == 0).then_some((BIT_KIND | bit, size))
    }

    /// The figures of the outputs, after a pass that ran; 0 for FF FF.
    #[inline(always)]
    pub fn results(&mut self, variables: usize, results: &mut [u32]) {
        self.known.set(WIRES_MAX, 0);
        let end = self.file.len() - 2 * variables;
        for (variable, result) in results[..variables].iter_mut().enumerate() {
            let output = usize::from(two(self.file, end + 2 * variable));
            *result = self.known.get(output.min(WIRES_MAX)) as u32;
        }
    }
}

/// An operation on two wires; none if they are not of the kinds that it takes.
#[inline(always)]
fn operation<const RUN: bool>(code: u8, first: u64, second: u64) -> Option<u64> {
    let figure = |code| {
        let figure = if RUN {
            work_out(code, first as u32, second as u32)
        } else {
            0
        };
        u64::from(figure)
    };
    let words = (first | second) >> 32 == 0;
    match code {
        SUM => words.then(|| figure(SUM)),
        DIFFERENCE => words.then(|| figure(DIFFERENCE)),
        PRODUCT => words.then(|| figure(PRODUCT)),
        LESS => words.then(|| BIT_KIND | figure(LESS)),
        EQUAL => words.then(|| BIT_KIND | figure(EQUAL)),
        AND => is_bit(first & second).then_some(first & second),
        _ => is_bit(first & second).then_some(first | second),
    }
}

/// The size of the record at a place; none for a record that row 61 refuses.
fn size(file: &[u8], at: usize, wide: bool) -> Option<usize> {
    let count = file.get(at + 1).copied().map(usize::from);
    let size = match *file.get(at)? {
        0x00 | 0x01 => 2,
        BIT => count.filter(|&bit| bit <= 1).map(|_| 2)?,
        NOT => 3,
        WORD | SUM..=OR => 5,
        CHOICE => 7,
        PICK => 2 + 4 * count.filter(|&pairs| pairs > 0)?,
        GUARD if wide => 2 + TABLE_BYTES + 2 * count.filter(|&wires| wires <= CONDITIONS_MAX)?,
        GUARD => 2 + TABLE_BYTES_1 + 2 * count.filter(|&wires| wires <= GUARD_WIRES_MAX_1)?,
        _ => return None,
    };
    (at + size <= file.len()).then_some(size)
}

/// Where the record of a wire, or what comes after the last, begins; none by row 61.
fn start(file: &[u8], wire: usize, wide: bool) -> Option<usize> {
    (0..wire).try_fold(CIRCUIT_BYTES_MIN, |at, _| Some(at + size(file, at, wide)?))
}

/// The row of a file that the pass stopped in: 61 if it is not laid out, else 62.
#[cold]
#[inline(never)]
pub fn row(file: &[u8], header: Header) -> u8 {
    match start(file, header.wires, header.wide) {
        Some(outputs) if outputs + 2 * header.variables == file.len() => 62,
        _ => 61,
    }
}

/// The part of an accepted file that holds a wire's record.
pub fn part(file: &[u8], wire: usize) -> &[u8] {
    let wide = file.starts_with(&CIRCUIT_MARK);
    let part = start(file, wire, wide).and_then(|at| file.get(at..at + size(file, at, wide)?));
    part.unwrap_or(&[])
}

/// Rows 40 to 42 of an accepted file, the lowest first; 0 for none.
#[cold]
#[inline(never)]
pub fn inputs_row(file: &[u8], variables: usize, inputs: &[u32], places: usize) -> u8 {
    let over = |(variable, &input): (usize, &u32)| {
        input > 1 && byte(file, CIRCUIT_BYTES_MIN + 2 * variable) == 0x01
    };
    if inputs.len() != variables {
        40
    } else if inputs.iter().enumerate().any(over) {
        41
    } else if places < variables {
        42
    } else {
        0
    }
}
