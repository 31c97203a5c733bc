//! `conform < STREAM`: prints one line for each case of a conformance stream.

use std::io::{self, BufWriter, Read, Write};

fn main() -> io::Result<()> {
    let mut stream = Vec::new();
    io::stdin().read_to_end(&mut stream)?;
    let mut out = BufWriter::new(io::stdout().lock());
    let mut done = Ok(());
    compare::stream::lines(&stream, |line| {
        if done.is_ok() {
            done = writeln!(out, "{line}");
        }
    });
    done?;
    out.flush()
}
