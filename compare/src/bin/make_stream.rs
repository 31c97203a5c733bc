//! `make_stream SEED COUNT [OPERATIONS] [working] [ordered] [eight] [equal]`: writes a conformance stream of COUNT random cases to
//! stdout, over all operations or those named (as `1,2,6`), and how many came to each number, by
//! operation, to stderr. With the word `working` many have working variables (C-13), with the word `ordered` the groups of
//! most plans stand in order (C-15), with the word `eight` many rules have seven, eight or nine conditions or ifs nested as
//! deep, and circuit files are of both versions (C-17), with the word `equal` many groups have members with equal wires, and our
//! own files have no picks between them (C-18); without them a seed makes the cases that it made before there were these.

use compare::counts::Counts;
use compare::generate::cases::case;
use compare::generate::words::Words;
use compare::generate::Random;
use compare::stream::{LAST, STREAM_MARK};
use std::io::{self, BufWriter, Write};

fn main() -> io::Result<()> {
    let mut arguments: Vec<String> = std::env::args().skip(1).collect();
    let mut words = Words::NONE;
    while arguments.last().is_some_and(|last| words.take(last)) {
        arguments.pop();
    }
    let Some((seed, count, operations)) = parsed(&arguments) else {
        eprintln!("make_stream SEED COUNT [OPERATIONS] [working] [ordered] [eight] [equal]");
        std::process::exit(2);
    };
    let mut random = Random::new(seed);
    let mut out = BufWriter::new(io::stdout().lock());
    out.write_all(&STREAM_MARK)?;
    let mut counts = Counts::default();
    for _ in 0..count {
        let case = case(&mut random, &operations, words);
        let mut bytes = Vec::new();
        case.put(&mut bytes);
        out.write_all(&bytes)?;
        counts.count(&case);
    }
    out.flush()?;
    counts.print();
    Ok(())
}

/// Seed, count and the operations, of those named the ones that are built; none if a word is something else.
fn parsed(arguments: &[String]) -> Option<(u64, u64, Vec<u8>)> {
    let (seed, count, named) = match arguments {
        [seed, count] => (seed, count, None),
        [seed, count, named] => (seed, count, Some(named)),
        _ => return None,
    };
    let mut operations: Vec<u8> = (1..=LAST).collect();
    if let Some(named) = named {
        let numbers = named.split(',').filter_map(|text| text.parse::<u8>().ok());
        let named: Vec<u8> = numbers.collect();
        operations.retain(|operation| named.contains(operation));
    }
    let some = !operations.is_empty();
    some.then_some((seed.parse().ok()?, count.parse().ok()?, operations))
}
