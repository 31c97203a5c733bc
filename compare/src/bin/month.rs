//! `month < BATCH`: what a month saved (C-16): document 01's line for each entry of a batch, then the total. Reads the batch
//! as it comes, in constant memory.

use std::io::{self, BufReader, BufWriter};

/// A read or a write takes so much at once.
const PIECE: usize = 1 << 16;

fn main() -> io::Result<()> {
    let batch = BufReader::with_capacity(PIECE, io::stdin().lock());
    let report = BufWriter::with_capacity(PIECE, io::stdout().lock());
    compare::month::month(batch, report)
}
