//! Reading a rule and making its plain circuit in one pass over the bytes (rows 1 to 11).
//!
//! What is done beside reading is a const parameter, so that each operation has code of its own. Numbers of
//! gates are bytes: past 256 gates they wrap, and the rule is refused at its end whatever they are.
//!
//! The forms that rules are mostly made of (an assign of an operation on two variables, an operation on two
//! variables, a variable) are each tested whole, the first two by one wide load; what does not fit such a
//! test is read byte by byte, and only there refusals are told apart.

mod gates;

use crate::answer::Answer;
use crate::law::*;
use crate::places::{byte, eight, four, rising, Places};
use gates::{Value, BIT_ADDS, START_ADDS, WORD_ADDS};
use std::num::NonZeroUsize;

/// Gates are only numbered: rows 10 and 11 ask for no more.
pub const COUNT: u8 = 0;
/// Gates are stored in packed rows.
pub const MAKE: u8 = 1;
/// Gates are stored in rows as operation 06 gives them.
pub const SHOW: u8 = 2;
/// Gates are numbered, and the figures of the direct run worked out on the way.
pub const RUN: u8 = 3;

/// Kinds are sets of one, so that "this kind is wanted and is one" is a single test.
const NO_KIND: u8 = 0;
const WORDS: u8 = 1;
const BITS: u8 = 2;

/// The kind that a code gives; none for a variable's and for what is no expression.
const GIVES: [u8; 256] = {
    let mut all = [NO_KIND; 256];
    all[WORD as usize] = WORDS;
    all[BIT as usize] = BITS;
    let mut code = SUM;
    while code <= NOT {
        all[code as usize] = if code < LESS { WORDS } else { BITS };
        code += 1;
    }
    all
};

/// The kind of both arguments of an operation that has two.
const TAKES: [u8; 256] = {
    let mut all = [NO_KIND; 256];
    let mut code = SUM;
    while code < NOT {
        all[code as usize] = if code < AND { WORDS } else { BITS };
        code += 1;
    }
    all
};

/// The place after what was read, and what it gives; none if it was refused. As a place after something is
/// never 0, both come back in registers.
type Read<T> = Option<(NonZeroUsize, T)>;

#[inline(always)]
fn up_to<T>(end: usize, given: T) -> Read<T> {
    debug_assert!(end > 0);
    Some((unsafe { NonZeroUsize::new_unchecked(end) }, given))
}

pub struct Reader {
    sums: u64,
    pub variables: usize,
    pub conditions: usize,
    /// The present gate of each variable.
    pub present: [u8; VARIABLES_MAX],
    /// The gates standing first in a choice.
    pub marked: [u64; 4],
    rows: *mut u32,
    constants: *mut u32,
    refusal: (u8, usize),
    pub figures: Places<u32, VARIABLES_MAX>,
    /// The kind of each variable, none from V on.
    kinds: [u8; 256],
    /// The working variables, bit x for variable x.
    working: u32,
}

impl Reader {
    /// `rows` takes 256 packed rows (`MAKE`) or 1,024 numbers (`SHOW`), `constants` 256 figures (`MAKE`);
    /// elsewhere nothing is stored and both may be null.
    #[inline(always)]
    pub fn new(rows: *mut u32, constants: *mut u32) -> Reader {
        Reader {
            sums: 0,
            variables: 0,
            conditions: 0,
            present: rising(),
            marked: [0; 4],
            rows,
            constants,
            refusal: (0, 0),
            figures: Places::new(),
            kinds: [NO_KIND; 256],
            working: 0,
        }
    }

    #[cold]
    #[inline(never)]
    fn note(&mut self, number: u8, place: usize) {
        self.refusal = (number, place);
    }

    #[inline(always)]
    fn refuse<T>(&mut self, number: u8, place: usize) -> Option<T> {
        self.note(number, place);
        None
    }

    #[inline(always)]
    pub fn refused(&self) -> Answer {
        Answer::refused(self.refusal.0, self.refusal.1)
    }

    #[inline(always)]
    pub fn accepted(&self) -> Answer {
        Answer {
            gates: self.gates(),
            before: self.cost(),
            ..Answer::default()
        }
    }

    /// Rows 40 to 42, the lowest that is broken, or 0.
    #[inline(always)]
    pub fn inputs_row(&self, inputs: &[u32], room: usize) -> u8 {
        if inputs.len() != self.variables {
            return 40;
        }
        let mut high = false;
        for (variable, &input) in inputs.iter().enumerate() {
            high |= input > 1 && self.kinds[variable & 255] == BITS;
        }
        if high {
            41
        } else if room < self.variables {
            42
        } else {
            0
        }
    }

    /// Whether a variable is a result, and not a working one.
    #[inline(always)]
    pub fn is_result(&self, variable: usize) -> bool {
        self.working >> (variable & 31) & 1 == 0
    }

    /// What a run writes for a variable that ends with this figure.
    #[inline(always)]
    pub fn written(&self, variable: usize, figure: u32) -> u32 {
        match self.is_result(variable) {
            true => figure,
            false => 0,
        }
    }

    /// A variable's kind. It is handed on as it lies in a wide load, with other bytes above it.
    #[inline(always)]
    fn kind(&self, variable: u64) -> u8 {
        self.kinds[(variable & 255) as usize]
    }

    /// The size, the mark and version, V and the kinds. Starting values are gates 0 to V - 1.
    #[inline(always)]
    pub fn header<const DO: u8>(&mut self, rule: &[u8]) -> Option<()> {
        if rule.len() < RULE_BYTES_MIN || rule.len() > RULE_BYTES_MAX {
            return self.refuse(1, 0);
        }
        if rule[..5] != RULE_MARK {
            let place = (0..5).find(|&place| rule[place] != RULE_MARK[place]);
            return self.refuse(2, place.unwrap_or(0));
        }
        let variables = usize::from(rule[5]);
        if variables.wrapping_sub(1) >= VARIABLES_MAX {
            return self.refuse(3, 5);
        }
        let mut working = 0;
        for variable in 0..variables {
            let place = 6 + variable;
            if place >= rule.len() {
                return self.refuse(4, rule.len());
            }
            let kind_byte = byte(rule, place);
            if kind_byte > KIND_MAX {
                return self.refuse(3, place);
            }
            let kind = kind_byte & 1;
            self.kinds[variable] = WORDS + kind;
            working |= u32::from(kind_byte >> 1) << variable;
            self.push::<DO>(START_ADDS, kind, [variable as u8, 0, 0]);
        }
        self.variables = variables;
        self.working = working;
        Some(())
    }

    /// What follows the header.
    #[inline(always)]
    pub fn body<const DO: u8>(&mut self, rule: &[u8]) -> Option<()> {
        let (end, _) = self.block::<DO>(rule, 6 + self.variables, IF_DEPTH_MAX)?;
        if end.get() < rule.len() {
            return self.refuse(9, end.get());
        }
        if self.gates() > GATES_MAX {
            return self.refuse(10, rule.len());
        }
        if self.conditions > CONDITIONS_MAX {
            return self.refuse(11, rule.len());
        }
        Some(())
    }

    /// A block: the variables assigned in it, bit x for variable x.
    #[inline(never)]
    fn block<const DO: u8>(&mut self, rule: &[u8], from: usize, nest: u32) -> Read<u32> {
        let mut place = from;
        let mut assigned = 0;
        loop {
            if let Some(variable) = self.short_assign::<DO>(rule, place) {
                assigned |= variable;
                place += 7;
                continue;
            }
            if place >= rule.len() {
                return self.refuse(4, rule.len());
            }
            let (end, more) = match byte(rule, place) {
                ASSIGN => self.long_assign::<DO>(rule, place)?,
                CLOSE => return up_to(place + 1, assigned),
                IF if nest == 0 => return self.refuse(8, place),
                IF => self.branch::<DO>(rule, place + 1, nest - 1)?,
                SKIP => up_to(place + 1, 0)?,
                _ => return self.refuse(5, place),
            };
            place = end.get();
            assigned |= more;
        }
    }

    /// An assign of an operation on two variables, where one stands: 01 x code 10 a 10 b. Its variable, as a set.
    #[inline(always)]
    fn short_assign<const DO: u8>(&mut self, rule: &[u8], place: usize) -> Option<u32> {
        if place + 8 > rule.len() {
            return None;
        }
        let all = eight(rule, place);
        let (x, code) = (all >> 8, (all >> 16) as u8);
        let (a, b) = (all >> 32, all >> 48);
        if all & 0x0000_FF00_FF00_00FF != 0x0000_1000_1000_0001
            || self.kind(a) & self.kind(b) & TAKES[usize::from(code)] == 0
            || self.kind(x) & GIVES[usize::from(code)] == 0
        {
            return None;
        }
        let value = self.push_two::<DO>(code, self.variable::<DO>(a), self.variable::<DO>(b));
        Some(self.assign::<DO>(x, value))
    }

    /// Any other assign: its variable, as a set.
    #[inline(always)]
    fn long_assign<const DO: u8>(&mut self, rule: &[u8], place: usize) -> Read<u32> {
        if rule.len() - place < 2 {
            return self.refuse(4, rule.len());
        }
        let variable = u64::from(byte(rule, place + 1));
        let want = self.kind(variable);
        if want == NO_KIND {
            return self.refuse(6, place + 1);
        }
        let (end, value) = self.argument::<DO>(rule, place + 2, want, EXPRESSION_DEPTH_MAX)?;
        Some((end, self.assign::<DO>(variable, value)))
    }

    /// What follows an if's code. When running, the block that the bit does not name is only read.
    #[inline(always)]
    fn branch<const DO: u8>(&mut self, rule: &[u8], place: usize, nest: u32) -> Read<u32> {
        let (end, test) = self.argument::<DO>(rule, place, BITS, EXPRESSION_DEPTH_MAX)?;
        let before = self.present;
        let (end, in_first) = if DO == RUN && test.figure() != 1 {
            self.block::<COUNT>(rule, end.get(), nest)?
        } else {
            self.block::<DO>(rule, end.get(), nest)?
        };
        let first = self.present;
        self.present = before;
        let (end, in_second) = if DO == RUN && test.figure() == 1 {
            self.block::<COUNT>(rule, end.get(), nest)?
        } else {
            self.block::<DO>(rule, end.get(), nest)?
        };
        let assigned = in_first | in_second;
        if assigned != 0 {
            self.choose::<DO>(test.gate(), assigned, &first);
        }
        Some((end, assigned))
    }

    /// An expression in its place: a variable here, all else by a call. `depth` is how deep it may be.
    #[inline(always)]
    fn argument<const DO: u8>(
        &mut self,
        rule: &[u8],
        place: usize,
        want: u8,
        depth: u32,
    ) -> Read<Value> {
        if depth > 0 && place + 2 <= rule.len() && byte(rule, place) == VARIABLE {
            let variable = u64::from(byte(rule, place + 1));
            if self.kind(variable) == want {
                return up_to(place + 2, self.variable::<DO>(variable));
            }
        }
        self.expression::<DO>(rule, place, want, depth)
    }

    /// Any expression.
    #[inline(never)]
    fn expression<const DO: u8>(
        &mut self,
        rule: &[u8],
        place: usize,
        want: u8,
        depth: u32,
    ) -> Read<Value> {
        if place >= rule.len() {
            return self.refuse(4, rule.len());
        }
        let code = byte(rule, place);
        if GIVES[usize::from(code)] != want {
            return self.variable_or_refusal::<DO>(rule, place, want, depth);
        }
        if depth == 0 {
            return self.refuse(8, place);
        }
        if code < SUM {
            return self.constant::<DO>(rule, place);
        }
        if depth > 1 {
            if let Some(value) = self.short_operation::<DO>(rule, place) {
                return up_to(place + 5, value);
            }
        }
        if code == NOT {
            let (end, first) = self.argument::<DO>(rule, place + 1, BITS, depth - 1)?;
            return Some((end, self.push_not::<DO>(first)));
        }
        let takes = TAKES[usize::from(code)];
        let (end, first) = self.argument::<DO>(rule, place + 1, takes, depth - 1)?;
        let (end, second) = self.argument::<DO>(rule, end.get(), takes, depth - 1)?;
        Some((end, self.push_two::<DO>(code, first, second)))
    }

    /// An operation on two variables, where one stands: code 10 a 10 b.
    #[inline(always)]
    fn short_operation<const DO: u8>(&mut self, rule: &[u8], place: usize) -> Option<Value> {
        if rule.len() - place < 5 {
            return None;
        }
        let code = byte(rule, place);
        let pair = u64::from(four(rule, place + 1));
        let (a, b) = (pair >> 8, pair >> 24);
        if pair & 0x00FF_00FF != 0x0010_0010
            || self.kind(a) & self.kind(b) & TAKES[usize::from(code)] == 0
        {
            return None;
        }
        Some(self.push_two::<DO>(code, self.variable::<DO>(a), self.variable::<DO>(b)))
    }

    /// A constant whose code fits its place.
    #[inline(always)]
    fn constant<const DO: u8>(&mut self, rule: &[u8], place: usize) -> Read<Value> {
        if byte(rule, place) == WORD {
            if rule.len() - place < 5 {
                return self.refuse(4, rule.len());
            }
            let word = four(rule, place + 1).swap_bytes();
            return up_to(place + 5, self.push_constant::<DO>(WORD_ADDS, WORD, word));
        }
        if rule.len() - place < 2 {
            return self.refuse(4, rule.len());
        }
        let bit = byte(rule, place + 1);
        if bit > 1 {
            return self.refuse(5, place + 1);
        }
        let value = self.push_constant::<DO>(BIT_ADDS, BIT, u32::from(bit));
        up_to(place + 2, value)
    }

    /// A variable, or a code that does not fit its place.
    #[inline(always)]
    fn variable_or_refusal<const DO: u8>(
        &mut self,
        rule: &[u8],
        place: usize,
        want: u8,
        depth: u32,
    ) -> Read<Value> {
        let code = byte(rule, place);
        if code != VARIABLE {
            let known = GIVES[usize::from(code)] != NO_KIND;
            return self.refuse(if known { 7 } else { 5 }, place);
        }
        if depth == 0 {
            return self.refuse(8, place);
        }
        if rule.len() - place < 2 {
            return self.refuse(4, rule.len());
        }
        let variable = u64::from(byte(rule, place + 1));
        let kind = self.kind(variable);
        if kind != want {
            return self.refuse(if kind == NO_KIND { 6 } else { 7 }, place + 1);
        }
        up_to(place + 2, self.variable::<DO>(variable))
    }
}
