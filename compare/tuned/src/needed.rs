//! Needed gates: one backward pass over the gates, in sets of four words that are changed in place.

use crate::law::*;
use crate::places::Places;
use crate::reading::{Reader, SHOW};
use std::ops::Range;

/// A set of settings: 256 bits, bit j for setting j, those from 64 on in the words after the first.
pub type Set = [u64; 4];

const NONE: Set = [0; 4];
const ALL: Set = [u64::MAX; 4];

// Four words at once: the compiler makes two or one of each of these, as the machine has them.

#[inline(always)]
fn or(one: Set, other: Set) -> Set {
    std::array::from_fn(|word| one[word] | other[word])
}

#[inline(always)]
fn and(one: Set, other: Set) -> Set {
    std::array::from_fn(|word| one[word] & other[word])
}

#[inline(always)]
fn without(one: Set, other: Set) -> Set {
    std::array::from_fn(|word| one[word] & !other[word])
}

#[inline(always)]
fn folded(set: Set) -> u64 {
    set[0] | set[1] | set[2] | set[3]
}

/// Whether two sets meet; the second is put into the first.
#[inline(always)]
pub fn meet(seen: &mut Set, set: Set) -> bool {
    let meets = folded(and(*seen, set)) != 0;
    *seen = or(*seen, set);
    meets
}

/// The bit of a setting, which is below 256.
#[inline(always)]
pub fn bit(set: Set, setting: u32) -> u32 {
    (set[(setting >> 6 & 3) as usize] >> (setting & 63)) as u32 & 1
}

/// Conditions that are told apart inside a word.
const IN_A_WORD: usize = 6;

/// The settings that give condition t, one of the first six, the bit 0; every word is the same.
const LACKING_WORD: [u64; IN_A_WORD] = [
    0x5555_5555_5555_5555,
    0x3333_3333_3333_3333,
    0x0F0F_0F0F_0F0F_0F0F,
    0x00FF_00FF_00FF_00FF,
    0x0000_FFFF_0000_FFFF,
    0x0000_0000_FFFF_FFFF,
];

/// The settings that give condition t the bit 0.
const LACKING: [Set; CONDITIONS_MAX] = [
    [LACKING_WORD[0]; 4],
    [LACKING_WORD[1]; 4],
    [LACKING_WORD[2]; 4],
    [LACKING_WORD[3]; 4],
    [LACKING_WORD[4]; 4],
    [LACKING_WORD[5]; 4],
    [u64::MAX, 0, u64::MAX, 0],
    [u64::MAX, u64::MAX, 0, 0],
];

/// The gates of the conditions, rising; zeros after the last. Eight at most, so three bits name one.
pub type Conditions = [u8; 8];

#[inline(always)]
pub fn conditions(marked: &[u64; 4]) -> Conditions {
    let mut gates = [0; 8];
    let mut count = 0;
    for (word, &set) in marked.iter().enumerate() {
        let mut left = set;
        while left != 0 {
            gates[count & 7] = (64 * word) as u8 + left.trailing_zeros() as u8;
            left &= left - 1;
            count += 1;
        }
    }
    gates
}

/// Every gate's precondition.
///
/// # Safety
/// `rows` holds the gates of an accepted rule as reading for `DO`, one of `MAKE` and `SHOW`, stores them;
/// `needs` has room for as many sets.
#[inline(always)]
pub unsafe fn find_needed<const DO: u8>(
    reader: &Reader,
    conditions: &Conditions,
    rows: *const u32,
    needs: *mut Set,
) {
    std::ptr::write_bytes(needs, 0, reader.gates());
    let last = reader.present[..reader.variables].iter().enumerate();
    let wanted = last
        .filter(|&(variable, _)| reader.is_result(variable))
        .map(|(_, &gate)| usize::from(gate));
    let gates = reader.variables..reader.gates();
    let conditions = conditions.get_unchecked(..reader.conditions);
    pass::<DO>(rows, gates, conditions, wanted, needs);
}

/// The backward pass alone, on gates as operation 06 shows them, to be measured beside the proved one: only
/// `compare/pass_alone` calls it. The operations have the same pass within them.
///
/// # Safety
/// `rows` holds the gates of an accepted rule as operation 06 shows them, `gates` are those after its starting values,
/// `conditions` its conditions if it has any, and `wanted` gates of it: no number is tested. `needs`, four words a gate, the
/// lowest first, is clear.
#[inline(never)]
pub unsafe fn pass_alone(
    rows: &[u32; 4 * GATES_MAX],
    gates: Range<usize>,
    conditions: &[u8],
    wanted: &[u16],
    needs: &mut [u64; 4 * GATES_MAX],
) {
    let wanted = wanted.iter().map(|&gate| usize::from(gate));
    let needs = needs.as_mut_ptr().cast::<Set>();
    pass::<SHOW>(rows.as_ptr(), gates, conditions, wanted, needs);
}

/// The backward pass proper, in sets that are clear: each gate once, from the last on, hands its set to its arguments.
///
/// # Safety
/// As `find_needed`; `gates` are those after the starting values, `conditions` those of the rule, if it has any, and
/// `wanted` gates of it. What it is given is not tested: whoever calls it answers for every number.
#[inline(always)]
unsafe fn pass<const DO: u8>(
    rows: *const u32,
    gates: Range<usize>,
    conditions: &[u8],
    wanted: impl Iterator<Item = usize>,
    needs: *mut Set,
) {
    for gate in wanted {
        *needs.add(gate) = ALL;
    }
    match conditions {
        [] => pass_whole::<DO>(rows, gates, needs),
        _ => pass_settings::<DO>(rows, gates, conditions, needs),
    }
}

/// A gate's code and arguments.
#[inline(always)]
unsafe fn row<const DO: u8>(rows: *const u32, gate: usize) -> [u8; 4] {
    if DO == SHOW {
        (*rows.add(4 * gate).cast::<[u32; 4]>()).map(|number| number as u8)
    } else {
        (*rows.add(gate)).to_le_bytes()
    }
}

/// Whether the row of an operation names two arguments; packed rows name that of a not twice.
#[inline(always)]
fn has_two<const DO: u8>(code: u8) -> bool {
    code < NOT || DO != SHOW && code == NOT
}

/// The pass where there is a condition.
#[inline(always)]
unsafe fn pass_settings<const DO: u8>(
    rows: *const u32,
    gates: Range<usize>,
    conditions: &[u8],
    needs: *mut Set,
) {
    let set = |gate: u8| &mut *needs.add(usize::from(gate));
    // By gate, so that a choice finds its condition's at once; only conditions' places are set and read.
    let mut lacking = Places::<Set, GATES_MAX>::new();
    for (&gate, &settings) in conditions.iter().zip(&LACKING) {
        lacking.set(gate, settings);
    }
    for gate in gates.rev() {
        let [code, x, y, z] = row::<DO>(rows, gate);
        if code < SUM {
            continue;
        }
        let needed = *needs.add(gate);
        *set(x) = or(*set(x), needed);
        if has_two::<DO>(code) {
            *set(y) = or(*set(y), needed);
        } else if code == CHOICE {
            let second = lacking.get(x);
            *set(y) = or(*set(y), without(needed, second));
            *set(z) = or(*set(z), and(needed, second));
        }
    }
}

/// The pass where there is no condition, and so no choice: a gate is needed always or never. Sets are stored without
/// being read, so that no gate waits for the store of another.
#[inline(always)]
unsafe fn pass_whole<const DO: u8>(rows: *const u32, gates: Range<usize>, needs: *mut Set) {
    let set = |gate: u8| &mut *needs.add(usize::from(gate));
    for gate in gates.rev() {
        let [code, x, y, _] = row::<DO>(rows, gate);
        if code >= SUM && (*needs.add(gate))[0] != 0 {
            *set(x) = ALL;
            *set(if has_two::<DO>(code) { y } else { x }) = ALL;
        }
    }
}

/// The conditions that a set rests on, bit t for condition t.
#[inline(always)]
fn rests_on(set: Set) -> u8 {
    let mut on = 0;
    for (condition, &lacking) in LACKING_WORD.iter().enumerate() {
        let moves = folded(set.map(|word| word >> (1 << condition) ^ word)) & lacking;
        on |= u8::from(moves != 0) << condition;
    }
    let [a, b, c, d] = set;
    on | u8::from((a ^ b) | (c ^ d) != 0) << 6 | u8::from((a ^ c) | (b ^ d) != 0) << 7
}

/// How many conditions such a byte names: a table, as the instruction that counts is not on every machine.
const COUNTED: [u8; 256] = {
    let mut all = [0; 256];
    let mut on = 0;
    while on < 256 {
        all[on] = on.count_ones() as u8;
        on += 1;
    }
    all
};

#[inline(always)]
pub fn counted(on: u8) -> usize {
    usize::from(COUNTED[usize::from(on)])
}

/// What the last set at the same place of a group rested on: members of one block share their set, and
/// groups mostly hold a member of each of two blocks.
pub struct Rested {
    sets: [Set; 2],
    on: [u8; 2],
}

impl Rested {
    pub const NONE: Rested = Rested {
        sets: [NONE; 2],
        on: [0; 2],
    };

    #[inline(always)]
    pub fn of(&mut self, set: Set, place: usize) -> u8 {
        let place = place & 1;
        if self.sets[place] != set {
            self.sets[place] = set;
            self.on[place] = rests_on(set);
        }
        self.on[place]
    }
}

/// A guard's table: the set with the conditions that it does not rest on taken out.
#[inline(always)]
pub fn table(set: Set, on: u8) -> Set {
    let [a, b, c, d] = set;
    let inside = on & 63;
    // Of two words that a condition tells apart, both stay where the set rests on it, else either.
    match on >> 6 {
        0 => [in_a_word(a, inside), 0, 0, 0],
        1 => joined(in_a_word(a, inside), in_a_word(b, inside), inside),
        2 => joined(in_a_word(a, inside), in_a_word(c, inside), inside),
        _ => all_four([a, b, c, d].map(|word| in_a_word(word, inside)), inside),
    }
}

/// Two tables of a word each, one behind the other.
#[inline(always)]
fn joined(low: u64, high: u64, inside: u8) -> Set {
    match counted(inside) {
        IN_A_WORD => [low, high, 0, 0],
        bits => [low | high << (1 << bits), 0, 0, 0],
    }
}

/// Four, likewise.
#[inline(always)]
fn all_four([a, b, c, d]: Set, inside: u8) -> Set {
    match counted(inside) {
        IN_A_WORD => [a, b, c, d],
        5 => [a | b << 32, c | d << 32, 0, 0],
        bits => {
            let by = 1 << bits;
            [a | b << by | c << (2 * by) | d << (3 * by), 0, 0, 0]
        }
    }
}

/// A word with the conditions inside it that it does not rest on taken out, the highest first.
#[inline(always)]
fn in_a_word(word: u64, on: u8) -> u64 {
    let top = 8 - on.leading_zeros() as usize;
    let mut table = if top < IN_A_WORD {
        word & ((1 << (1 << top)) - 1)
    } else {
        word
    };
    let mut out = !on & ((1u8 << (top & 7)) - 1);
    while out != 0 {
        let condition = 7 - out.leading_zeros() as usize;
        out ^= 1 << condition;
        // That bit of the setting goes: those above it move down by one.
        table &= LACKING_WORD[condition];
        for above in condition..top - 1 {
            table = (table | table >> (1 << above)) & LACKING_WORD[above + 1];
        }
    }
    table
}
