//! The page of C-16's program, in Markdown: time, throughput, memory, and whether the goal is met.

use super::{Batch, Program, Taken, ROUNDS};
use crate::machine;
use crate::measure::Times;

/// Entries a second on one core that are to be surpassed.
const GOAL: f64 = 20_000.0;

const HEAD: &str = "\
The program of C-16 reads a batch on standard input and prints a line for each entry, then the total. Here whole processes
are measured, from their start to their end: TURNS times each, PINNED, in turns in one run, so that other work
of the machine falls on all of them. The batch is a file that was read before, the report goes to a file, and in every turn all
reports had the same bytes. Times are medians, in brackets the least; throughput is by the median, in brackets at best.

- proved: the program `PROVED`.
- plain: `compare/src/bin/month.rs`, Rust written to be compared with and not tuned.
- tuned: `compare/tuned/src/bin/tuned_month.rs`, Rust written for speed and proved by nobody: reads of 128 KiB, entries
  worked out where they were read to, nothing allocated for an entry, digits by table.

Batches, with the table at the end: as many entries as a batch can count, each R1 with P1; the 2,000 mixed rules of
`docs/BENCHMARKS.md` with their plans, ROUNDS times; 2,000 rules of 65,535 bytes, which are over their limit and skipped; and
none at all, which shows what a process takes by itself and is in every other time.";

/// One batch, measured: what each program took.
pub type Row<'a> = (&'a Batch, Vec<Taken>);

pub fn print_head(command: &str, turns: usize, pinned: bool, proved: &Program) {
    println!("# What a month saved: the proved program beside plain and tuned Rust\n");
    println!("Command: `{command}`, whose output this page is.");
    println!("{}\n", machine::line());
    let pinned = match pinned {
        true => "all held to one core",
        false => "on any core",
    };
    let head = HEAD
        .replace("TURNS", &turns.to_string())
        .replace("ROUNDS", &ROUNDS.to_string())
        .replace("PINNED", pinned)
        .replace("PROVED", &proved.shown());
    println!("{head}");
}

pub fn print_page(programs: &[Program], rows: &[Row]) {
    let names: Vec<&str> = programs.iter().map(|program| program.name).collect();
    let (none, rows) = rows.split_first().expect("the batch of no entries");
    print_start(&names, none);
    print_entries(rows);
    print_throughput(&names, rows);
    print_bytes(&names, rows);
    print_memory(&names, rows);
    print_goal(rows);
    print_batches(rows);
}

fn table(title: &str, columns: &[String]) {
    println!("\n## {title}\n");
    println!("| {} |", columns.join(" | "));
    println!("|---|{}", "---:|".repeat(columns.len() - 1));
}

/// The first column, and one for each program.
fn columns(first: &str, names: &[&str], unit: &str) -> Vec<String> {
    let each = names.iter().map(|name| format!("{name}{unit}"));
    std::iter::once(first.to_string()).chain(each).collect()
}

fn print_start(names: &[&str], (_, taken): &Row) {
    table("A process by itself", &columns("batch", names, ", µs"));
    let cells = taken.iter().map(|one| one.times.each(1000.0).text(0));
    println!("| no entries | {} |", cells.collect::<Vec<_>>().join(" | "));
}

/// Both ratios, of whole processes.
fn print_entries(rows: &[Row]) {
    let heads = "batch|proved, ns|plain, ns|tuned, ns|proved / plain|proved / tuned";
    let heads: Vec<String> = heads.split('|').map(String::from).collect();
    table("Time an entry", &heads);
    for (batch, taken) in rows {
        let each = |one: &Taken| one.times.each(batch.entries as f64).text(0);
        let [proved, plain, tuned] = &taken[..] else {
            panic!("three programs");
        };
        println!(
            "| {} | {} | {} | {} | {} | {} |",
            batch.name,
            each(proved),
            each(plain),
            each(tuned),
            proved.times.over(&plain.times).text(3),
            proved.times.over(&tuned.times).text(2)
        );
    }
}

/// So many of something a second, by the median and at best.
fn a_second(times: &Times, count: usize) -> Times {
    let nanoseconds = count as f64 * 1e9;
    Times {
        median: nanoseconds / times.median,
        least: nanoseconds / times.least,
    }
}

fn print_throughput(names: &[&str], rows: &[Row]) {
    table("Entries a second", &columns("batch", names, ""));
    for (batch, taken) in rows {
        let cell = |one: &Taken| a_second(&one.times, batch.entries).text(0);
        print_row(batch, taken, cell);
    }
}

fn print_bytes(names: &[&str], rows: &[Row]) {
    table("Batch bytes a second", &columns("batch", names, ", MB/s"));
    for (batch, taken) in rows {
        let cell = |one: &Taken| a_second(&one.times, batch.bytes).each(1e6).text(0);
        print_row(batch, taken, cell);
    }
}

fn print_row(batch: &Batch, taken: &[Taken], cell: impl Fn(&Taken) -> String) {
    let cells: Vec<String> = taken.iter().map(cell).collect();
    println!("| {} | {} |", batch.name, cells.join(" | "));
}

const MEMORY: &str = "
The largest resident memory of a process that has read the whole batch, as Linux has it (VmHWM). That is its ru_maxrss, but
for the pages of whoever started it, which ru_maxrss counts too and this does not.";

fn print_memory(names: &[&str], rows: &[Row]) {
    table("Memory", &columns("batch", names, ", KiB"));
    for (batch, taken) in rows {
        print_row(batch, taken, |one| match one.memory {
            Some(memory) => memory.to_string(),
            None => "?".to_string(),
        });
    }
    println!("{MEMORY}");
}

fn print_goal(rows: &[Row]) {
    println!("\n## Goal: more than 20,000 entries a second on one core, by the median\n");
    println!("| batch | proved, entries a second | |");
    println!("|---|---:|---|");
    for (batch, taken) in rows {
        let median = a_second(&taken[0].times, batch.entries).median;
        let met = match median > GOAL {
            true => "met",
            false => "**not met**",
        };
        println!("| {} | {median:.0} | {met} |", batch.name);
    }
}

fn print_batches(rows: &[Row]) {
    let heads = ["batch", "entries", "bytes", "bytes an entry"].map(String::from);
    table("The batches", &heads);
    for (batch, _) in rows {
        let each = batch.bytes as f64 / batch.entries as f64;
        println!(
            "| {} | {} | {} | {each:.1} |",
            batch.name, batch.entries, batch.bytes
        );
    }
}
