//! `make_batches [month]`: writes the stored stream of batches (C-16) to stdout, each with the size of its pieces, and how
//! many of their reports end in a total and how many in 75 to stderr; or, with the word, the one batch that is stored for
//! the program itself.

use compare::batch::{report, REFUSED};
use compare::limits;
use std::io::{self, Write};

fn main() -> io::Result<()> {
    let named: Vec<String> = std::env::args().skip(1).collect();
    let bytes = match named.iter().map(String::as_str).collect::<Vec<_>>()[..] {
        [] => stream(),
        ["month"] => limits::month(),
        _ => {
            eprintln!("make_batches [month]");
            std::process::exit(2);
        }
    };
    io::stdout().write_all(&bytes)
}

fn stream() -> Vec<u8> {
    let mut stream = Vec::new();
    let (mut total, mut refused) = (0, 0);
    for case in limits::batch_cases() {
        case.put(&mut stream);
        match report(&case.batch).ends_with(REFUSED.as_bytes()) {
            true => refused += 1,
            false => total += 1,
        }
    }
    eprintln!("{total} reports end in a total, {refused} in 75");
    stream
}
