//! The numbers, codes and costs of document 01 and of C-11 to C-13, C-16 and C-17, in one place: later requests move them here.

pub const RULE_MARK: [u8; 5] = *b"RUL\x00\x01";
pub const PLAN_MARK: [u8; 5] = *b"PLN\x00\x01";
/// The mark and version of what is written (C-17), and of files of before, which are read too.
pub const CIRCUIT_MARK: [u8; 5] = *b"CIR\x00\x02";
pub const CIRCUIT_MARK_1: [u8; 5] = *b"CIR\x00\x01";
/// The mark and version of a batch (C-16).
pub const BATCH_MARK: [u8; 5] = *b"BAT\x00\x01";

pub const RULE_BYTES_MIN: usize = 6;
pub const RULE_BYTES_MAX: usize = 4096;
pub const VARIABLES_MAX: usize = 32;
pub const EXPRESSION_DEPTH_MAX: u32 = 8;
pub const IF_DEPTH_MAX: u32 = 8;
pub const GATES_MAX: usize = 256;
pub const CONDITIONS_MAX: usize = 8;
/// A guard's table has a bit for each setting; and in version 1, of six wires at most.
pub const TABLE_BYTES: usize = (1 << CONDITIONS_MAX) / 8;
pub const GUARD_WIRES_MAX_1: usize = 6;
pub const TABLE_BYTES_1: usize = 8;
pub const PLAN_BYTES_MIN: usize = 9;
pub const PLAN_BYTES_MAX: usize = 1024;
pub const WIRES_MAX: usize = 640;
pub const CIRCUIT_BYTES_MIN: usize = 8;
pub const CIRCUIT_BYTES_MAX: usize = 16_384;
/// What a file names as the output of a working variable (C-13).
pub const NO_WIRE: u16 = 0xFFFF;

/// The last kind byte. The lowest bit says whether the variable is a bit, the one above it whether it works (C-13).
pub const KIND_MAX: u8 = 0x03;

pub const CLOSE: u8 = 0x00;
pub const ASSIGN: u8 = 0x01;
pub const SKIP: u8 = 0x02;
pub const IF: u8 = 0x03;

pub const VARIABLE: u8 = 0x10;
pub const WORD: u8 = 0x11;
pub const BIT: u8 = 0x12;

pub const SUM: u8 = 0x20;
pub const DIFFERENCE: u8 = 0x21;
pub const PRODUCT: u8 = 0x22;
pub const LESS: u8 = 0x23;
pub const EQUAL: u8 = 0x24;
pub const AND: u8 = 0x25;
pub const OR: u8 = 0x26;
pub const NOT: u8 = 0x27;

pub const CHOICE: u8 = 0x30;
pub const PICK: u8 = 0x31;
pub const GUARD: u8 = 0x32;

/// Of the operations, by the lowest three bits of their codes.
pub const COSTS: [u8; 8] = [0, 0, 15, 40, 20, 1, 1, 0];
pub const CHOICE_COST: u8 = 3;
pub const PICK_COST_A_PAIR: usize = 2;
pub const GUARD_COST: usize = 1;

/// Operations whose gate takes the lower-numbered argument first (C-12), by the same three bits.
const LOWER_FIRST: u8 = 0b0111_0101;

#[inline(always)]
pub fn lower_first(operation: u8) -> bool {
    LOWER_FIRST >> (operation & 7) & 1 == 1
}

/// Whether a gate's code is that of a costly operation.
#[inline(always)]
pub fn costly(code: u8) -> bool {
    code.wrapping_sub(PRODUCT) <= OR - PRODUCT
}

/// What an operation gives on its arguments' figures; a bit is 0 or 1. "Not" does not look at `second`.
#[inline(always)]
pub fn work_out(code: u8, first: u32, second: u32) -> u32 {
    match code {
        SUM => first.wrapping_add(second),
        DIFFERENCE => first.wrapping_sub(second),
        PRODUCT => first.wrapping_mul(second),
        LESS => u32::from(first < second),
        EQUAL => u32::from(first == second),
        AND => first & second,
        OR => first | second,
        _ => first ^ 1,
    }
}
