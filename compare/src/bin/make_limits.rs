//! `make_limits [circuits | working | ordered | eight | equal | more]`: writes a conformance stream of fixed cases to stdout, those of
//! operations 01 to 06 at the limits of document 01 or, if named, those of circuit files (07 to 09, C-11), those of working
//! variables (01 to 09, C-13), those of the order of groups (nearly all 03 to 05, C-15), those of eight conditions (01 to 09,
//! C-17), those of equal wires (01 to 09, C-18) or those that wrong builds asked for (01 to 09), and how many came to each number,
//! by operation, to stderr. Some of them are stored: see `cases`.

use compare::counts::Counts;
use compare::limits;
use compare::stream::STREAM_MARK;
use std::io::{self, Write};

fn main() -> io::Result<()> {
    let named: Vec<String> = std::env::args().skip(1).collect();
    let cases = match named.iter().map(String::as_str).collect::<Vec<_>>()[..] {
        [] => limits::cases(),
        ["circuits"] => limits::circuit_cases(),
        ["working"] => limits::working_cases(),
        ["ordered"] => limits::ordered_cases(),
        ["eight"] => limits::eight_cases(),
        ["equal"] => limits::equal_cases(),
        ["more"] => limits::more_cases(),
        _ => {
            eprintln!("make_limits [circuits | working | ordered | eight | equal | more]");
            std::process::exit(2);
        }
    };
    let mut bytes = STREAM_MARK.to_vec();
    let mut counts = Counts::default();
    for case in cases {
        case.put(&mut bytes);
        counts.count(&case);
    }
    io::stdout().write_all(&bytes)?;
    counts.print();
    Ok(())
}
