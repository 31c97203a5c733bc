//! `spin OPERATION RULE MILLISECONDS`: calls an operation of the proved library for so long, for a profiler; 7 and 9
//! take the file of the rule's circuit. The rule is `r1`, a ladder by its gates, as `256`, or `mixed`, the first 200
//! of the mixed ones, which are soon made.

use harness::subject::{r1, Subject};
use harness::{calls, ladder, mixed, page};
use std::process::ExitCode;
use std::time::{Duration, Instant};

const MIXED: usize = 200;

fn main() -> ExitCode {
    let arguments: Vec<String> = std::env::args().skip(1).collect();
    let Some((operation, subjects, time)) = parsed(&arguments) else {
        eprintln!("spin OPERATION RULE MILLISECONDS");
        return ExitCode::from(2);
    };
    let mut caller = calls::proved(operation);
    let start = Instant::now();
    while start.elapsed() < time {
        caller(&subjects, 10);
    }
    ExitCode::SUCCESS
}

fn parsed(arguments: &[String]) -> Option<(u8, Vec<Subject>, Duration)> {
    let [operation, rule, time] = arguments else {
        return None;
    };
    let operation = operation.parse().ok()?;
    page::OPERATIONS.iter().find(|(one, _)| *one == operation)?;
    let time = Duration::from_millis(time.parse().ok()?);
    let subjects = match rule.as_str() {
        "r1" => r1().subjects,
        "mixed" => mixed::subjects(MIXED),
        gates => {
            let name = format!("{gates} gates");
            let mut ladders = ladder::ladders().into_iter();
            ladders.find(|row| row.name == name)?.subjects
        }
    };
    Some((operation, subjects, time))
}
