//! Rules at the limits of reading, each read, run directly and shown (operations 01, 02, 06).

use crate::examples::R1;
use crate::stream::Case;

/// Mark, version and kinds, then the statements and the closing 00.
fn rule(kinds: &[u8], statements: &[u8]) -> Vec<u8> {
    let mut bytes = vec![0x52, 0x55, 0x4C, 0x00, 0x01, kinds.len() as u8];
    bytes.extend(kinds);
    bytes.extend(statements);
    bytes.push(0x00);
    bytes
}

/// One word and so many gates: each `v0 := v0 + v0` makes one.
pub fn gates(count: usize) -> Vec<u8> {
    rule(
        &[0x00],
        &[0x01, 0x00, 0x20, 0x10, 0x00, 0x10, 0x00].repeat(count - 1),
    )
}

/// One bit and so many conditions: each `if not v0 then v0 := v0` makes one.
pub fn conditions(count: usize) -> Vec<u8> {
    let branch = [0x03, 0x27, 0x10, 0x00, 0x01, 0x00, 0x10, 0x00, 0x00, 0x00];
    rule(&[0x01], &branch.repeat(count))
}

/// So many words, each assigned in both blocks of an if on a bit that comes after them.
fn choices(words: usize) -> Vec<u8> {
    let mut kinds = vec![0x00; words];
    kinds.push(0x01);
    let mut statements = vec![0x03, 0x10, words as u8];
    for block in [0x20, 0x22] {
        for x in 0..words as u8 {
            statements.extend([0x01, x, block, 0x10, x, 0x10, 0x00]);
        }
        statements.push(0x00);
    }
    rule(&kinds, &statements)
}

/// One word and skips up to so many bytes.
pub fn skips(size: usize) -> Vec<u8> {
    rule(&[0x00], &vec![0x02; size - 8])
}

/// `v0 := ` sums of v0, so deep, leaning on the left.
pub fn deep(depth: usize) -> Vec<u8> {
    let mut statements = vec![0x01, 0x00];
    statements.extend(vec![0x20; depth - 1]);
    statements.extend([0x10, 0x00].repeat(depth));
    rule(&[0x00], &statements)
}

/// Ifs on v0, so deep, each in the second block of the one before; the innermost assigns v0.
pub fn nested(depth: usize) -> Vec<u8> {
    let mut statements = [0x03, 0x10, 0x00, 0x00].repeat(depth);
    statements.extend([0x01, 0x00, 0x27, 0x10, 0x00]);
    statements.extend(vec![0x00; depth]);
    rule(&[0x01], &statements)
}

fn rules() -> Vec<Vec<u8>> {
    let mut all = vec![Vec::new(), R1.to_vec()];
    all.extend([1, 2, 255, 256, 257, 400].map(gates));
    all.extend([0, 1, 5, 6, 7].map(conditions));
    all.extend([1, 2, 30, 31].map(choices));
    all.push(rule(&[0x00; 32], &[]));
    all.push(rule(&[0x01; 33], &[]));
    all.extend([8, 9, 4095, 4096, 4097].map(skips));
    all.extend([1, 7, 8, 9].map(deep));
    all.extend([1, 5, 6, 7].map(nested));
    all
}

pub fn cases() -> Vec<Case> {
    let mut all = Vec::new();
    for first in rules() {
        let variables = usize::from(*first.get(5).unwrap_or(&0));
        for (operation, room, count, value) in [
            (0x01, 0, 0, 0),
            (0x02, variables + 1, variables, 1),
            (0x02, variables, variables, 0),
            (0x02, variables, variables, 2),
            (0x02, variables.saturating_sub(1), variables, 1),
            (0x02, variables, variables + 1, 1),
            (0x06, 0, 0, 0),
        ] {
            all.push(Case {
                operation,
                room: room as u16,
                first: first.clone(),
                inputs: vec![value; count],
                ..Case::default()
            });
        }
    }
    all
}
