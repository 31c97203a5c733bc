//! `compare SEED CASES`: gives random cases to the proved tool and to the implementations in plain and
//! in tuned Rust, and compares every answer, every byte written and all that was to stay untouched.
//! Prints how many cases came to each number, by operation, then how many differ; the first differing
//! ones go to `target/differing.cas`, a conformance stream. The exit status is 0 when none differs.

use compare::counts::ByOperation;
use compare::stream::{LAST, STREAM_MARK};
use harness::cases::{compare, Tally};
use harness::tool::TOOLS;
use std::process::ExitCode;

const STREAM: &str = "target/differing.cas";

fn main() -> ExitCode {
    let mut arguments = std::env::args().skip(1);
    let mut number = || arguments.next().and_then(|text| text.parse::<u64>().ok());
    let (Some(seed), Some(cases)) = (number(), number()) else {
        eprintln!("compare SEED CASES");
        return ExitCode::from(2);
    };
    let tally = compare(&TOOLS, seed, cases);
    print_counts(&tally);
    println!("three tools: proved, plain Rust, tuned Rust (05 in both its ways)");
    println!("{} cases, {} differing", tally.cases, tally.differing);
    if tally.differing == 0 {
        return ExitCode::SUCCESS;
    }
    let mut stream = STREAM_MARK.to_vec();
    for (place, (_, case, text)) in tally.kept.iter().enumerate() {
        case.put(&mut stream);
        println!(
            "\ncase {place} of {STREAM}, operation {:02X}:",
            case.operation
        );
        print!("{text}");
    }
    if let Err(error) = std::fs::write(STREAM, stream) {
        println!("{STREAM} cannot be written: {error}");
    }
    ExitCode::FAILURE
}

fn print_counts(tally: &Tally) {
    print!("number");
    for operation in 1..=LAST {
        print!("        {operation:02}");
    }
    println!("       all");
    let mut sums = ByOperation::default();
    for (number, by) in &tally.counts {
        print_row(&format!("{number:6}"), by);
        for (sum, count) in sums.iter_mut().zip(by) {
            *sum += count;
        }
    }
    print_row("   all", &sums);
}

fn print_row(name: &str, by: &ByOperation) {
    print!("{name}");
    for count in &by[1..] {
        print!("{count:10}");
    }
    println!("{:10}", by.iter().sum::<u64>());
}
