//! `batch_cases < CASES`: prints for each case of a stream of batches (C-16) its report and an empty line.

use std::io::{self, BufReader, BufWriter};

fn main() -> io::Result<()> {
    let stream = BufReader::new(io::stdin().lock());
    let reports = BufWriter::new(io::stdout().lock());
    compare::batch_cases::answer_all(stream, reports)
}
