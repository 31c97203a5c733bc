//! `reading_cases GOOD`: prints what reading answers, by rows 1 to 9, for many rules made by plain
//! loops. A second program in another language prints the same lines by the same loops.

use compare::examples::R1;
use compare::rule::read;
use std::io::{self, BufWriter, Write};

/// Number and place; 0 and 0 when rows 1 to 9 pass.
fn answer(bytes: &[u8]) -> (u8, usize) {
    match read(bytes) {
        Ok(_) => (0, 0),
        Err(refusal) => (refusal.number, refusal.place),
    }
}

/// Mark, version, one variable of the given kind.
fn one_variable(kind: u8) -> Vec<u8> {
    vec![0x52, 0x55, 0x4C, 0x00, 0x01, 0x01, kind]
}

fn main() -> io::Result<()> {
    let path = std::env::args().nth(1).unwrap_or_default();
    let good = std::fs::read(&path)?;
    let mut out = BufWriter::new(io::stdout().lock());

    // a. R1 with one byte changed.
    for i in 0..R1.len() {
        for v in 0..=255u8 {
            if v != R1[i] {
                let mut bytes = R1;
                bytes[i] = v;
                let (number, place) = answer(&bytes);
                writeln!(out, "change {i} {v} {number} {place}")?;
            }
        }
    }

    // b. R1 cut.
    for n in 0..=R1.len() {
        let (number, place) = answer(&R1[..n]);
        writeln!(out, "cut {n} {number} {place}")?;
    }

    // c. The larger good rule cut.
    for n in 0..=good.len() {
        let (number, place) = answer(&good[..n]);
        writeln!(out, "good {n} {number} {place}")?;
    }

    // d. Every length up to 65,535 of a file of skips that is never closed.
    let mut long = one_variable(0x00);
    long.resize(65_535, 0x02);
    let mut counts = [0u64; 10];
    let mut sums = [0u64; 10];
    for n in 0..=long.len() {
        let (number, place) = answer(&long[..n]);
        counts[usize::from(number)] += 1;
        sums[usize::from(number)] += place as u64;
    }
    for k in 0..10 {
        writeln!(out, "lengths {k} {} {}", counts[k], sums[k])?;
    }

    // e. Skips, closed.
    for n in [8, 9, 4095, 4096, 4097] {
        let mut bytes = one_variable(0x00);
        bytes.resize(n - 1, 0x02);
        bytes.push(0x00);
        let (number, place) = answer(&bytes);
        writeln!(out, "skips {n} {number} {place}")?;
    }

    // f. The depth of expressions and of ifs.
    for d in 1..=10 {
        let mut bytes = one_variable(0x00);
        bytes.extend([0x01, 0x00]);
        bytes.extend(vec![0x20; d - 1]);
        bytes.extend([0x10, 0x00]);
        for _ in 1..d {
            bytes.extend([0x10, 0x00]);
        }
        bytes.push(0x00);
        let (number, place) = answer(&bytes);
        writeln!(out, "deep {d} {number} {place}")?;
    }
    for d in 1..=10 {
        let mut bytes = one_variable(0x01);
        for _ in 0..d {
            bytes.extend([0x03, 0x10, 0x00]);
        }
        for _ in 0..d {
            bytes.extend([0x00, 0x00]);
        }
        bytes.push(0x00);
        let (number, place) = answer(&bytes);
        writeln!(out, "nested {d} {number} {place}")?;
    }
    out.flush()
}
