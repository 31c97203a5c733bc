//! `measure_month PINNED FOLDER [TURNS]`: measures C-16's program, proved, in plain and in tuned Rust, on batches that it makes
//! in the folder, and prints a Markdown page. The proved program's path is the environment's MONTH; the others lie beside
//! this one. PINNED is `pinned` where the caller holds all of them to one core.

use harness::months::{batches, measure, print_head, print_page, Program};
use std::io;
use std::path::Path;
use std::process::ExitCode;

const TURNS: usize = 15;

fn main() -> ExitCode {
    let arguments: Vec<String> = std::env::args().skip(1).collect();
    let arguments: Vec<&str> = arguments.iter().map(String::as_str).collect();
    let (pinned, folder, turns) = match arguments[..] {
        [pinned, folder] => (pinned, folder, Some(TURNS)),
        [pinned, folder, turns] => (pinned, folder, turns.parse().ok()),
        _ => ("", "", None),
    };
    let Some(turns) = turns.filter(|&turns| turns > 0) else {
        eprintln!("measure_month PINNED FOLDER [TURNS]");
        return ExitCode::from(2);
    };
    match page(pinned == "pinned", Path::new(folder), turns) {
        Ok(()) => ExitCode::SUCCESS,
        Err(error) => {
            eprintln!("measure_month: {error}");
            ExitCode::FAILURE
        }
    }
}

fn page(pinned: bool, folder: &Path, turns: usize) -> io::Result<()> {
    let programs = programs()?;
    let batches = batches(folder)?;
    print_head(
        &format!("compare/month {turns}"),
        turns,
        pinned,
        &programs[0],
    );
    let mut rows = Vec::new();
    for batch in &batches {
        rows.push((batch, measure(turns, &programs, batch)?));
    }
    print_page(&programs, &rows);
    Ok(())
}

fn programs() -> io::Result<[Program; 3]> {
    let proved = std::env::var("MONTH").map_err(|_| io::Error::other("MONTH names no program"))?;
    let beside = std::env::current_exe()?;
    let program = |name, file| Program {
        name,
        path: beside.with_file_name(file),
    };
    Ok([
        Program {
            name: "proved",
            path: proved.into(),
        },
        program("plain", "month"),
        program("tuned", "tuned_month"),
    ])
}
