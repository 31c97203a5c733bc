//! `benchmark [TURNS] [--only OPERATION]`: measures the operations of the proved library beside the implementations
//! in plain and in tuned Rust, and prints a Markdown page; of one operation, such as 3, its table and goals alone.

use compare::law::{CIRCUIT_BYTES_MAX, VARIABLES_MAX};
use compare::stream::{Case, WRITE};
use harness::differ::differences;
use harness::subject::{r1, Row, Subject};
use harness::tool::TOOLS;
use harness::{files, ladder, mixed, page};
use std::process::ExitCode;

const TURNS: usize = 501;

fn main() -> ExitCode {
    let Some((turns, only)) = arguments() else {
        eprintln!("benchmark [TURNS] [--only OPERATION]");
        return ExitCode::from(2);
    };
    let (rules, files) = rows();
    if only.is_none() {
        page::print_head(&format!("compare/benchmark {turns}"), turns);
    }
    let mut all = Vec::new();
    for (operation, name) in page::OPERATIONS {
        if only.is_some_and(|only| only != operation) {
            continue;
        }
        let rows = match page::takes_file(operation) {
            true => &files,
            false => &rules,
        };
        let measured: Vec<_> = rows
            .iter()
            .map(|row| {
                row.subjects.iter().for_each(|one| agree(operation, one));
                page::measured(operation, row, turns)
            })
            .collect();
        page::print_operation(name, &measured);
        all.push((name, measured));
    }
    page::print_goals(&all);
    if only.is_none() {
        page::print_rows(&rules);
        page::print_files(&files);
    }
    ExitCode::SUCCESS
}

/// The turns, and the only operation if one is named; none if the arguments are something else.
fn arguments() -> Option<(usize, Option<u8>)> {
    let (mut turns, mut only) = (TURNS, None);
    let mut rest = std::env::args().skip(1);
    while let Some(argument) = rest.next() {
        match argument.as_str() {
            "--only" => {
                let operation = rest.next()?.parse().ok()?;
                page::OPERATIONS.iter().find(|(one, _)| *one == operation)?;
                only = Some(operation);
            }
            text => turns = text.parse().ok().filter(|&turns| turns > 0)?,
        }
    }
    Some((turns, only))
}

/// The rules, and the circuit files.
fn rows() -> (Vec<Row>, Vec<Row>) {
    let mut rules = vec![r1()];
    rules.extend(ladder::ladders());
    rules.extend([ladder::reversed(256), ladder::held_up(256)]);
    rules.extend([128, 256].map(ladder::passed_again));
    rules.push(ladder::in_step(256));
    let mixed = mixed::mixed();
    let mut files = vec![r1()];
    files.extend(files::growing());
    files.extend(files::others());
    files.extend([files::largest(), mixed.clone()]);
    rules.push(mixed);
    (rules, files)
}

/// All tools give the same and accept, or there is nothing to measure.
fn agree(operation: u8, subject: &Subject) {
    let room = match operation {
        WRITE => CIRCUIT_BYTES_MAX,
        _ => VARIABLES_MAX,
    };
    let case = Case {
        operation,
        room: room as u16,
        first: match page::takes_file(operation) {
            true => subject.file.clone(),
            false => subject.rule.clone(),
        },
        second: subject.plan.clone(),
        inputs: subject.inputs.clone(),
        ..Case::default()
    };
    let (answer, differs) = differences(&TOOLS, &case);
    assert_eq!((answer.number, differs), (0, None));
}
