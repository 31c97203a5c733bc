//! The page of measurements, in Markdown: a table an operation, then goals, then what the rules are.

use crate::calls;
use crate::machine;
use crate::measure::{measure, Times};
use crate::mixed;
use crate::subject::{Goal, Row, Subject};
use compare::stream::{CHECK, DIRECT, FUSED, PLAIN, READ, READ_CIRCUIT, RUN_CIRCUIT, WRITE};

/// Operations measured, by number, as the page names them.
pub const OPERATIONS: [(u8, &str); 8] = [
    (READ, "01 read a rule"),
    (DIRECT, "02 direct run"),
    (CHECK, "03 check a plan"),
    (WRITE, "04 write the circuit"),
    (FUSED, "05 run the fused circuit, from the file's bytes"),
    (PLAIN, "06 plain circuit and needed gates"),
    (READ_CIRCUIT, "07 read a circuit file"),
    (RUN_CIRCUIT, "09 run a circuit file"),
];

/// Whether an operation takes a circuit file and no rule.
pub fn takes_file(operation: u8) -> bool {
    matches!(operation, READ_CIRCUIT | RUN_CIRCUIT)
}

const HEAD: &str = "\
Nanoseconds a call: the median of TURNS turns, in brackets the least (of the mixed rules, hundred by hundred over MIXED
turns). The tools are measured in one process, in turns, so that other work of the machine falls on all of them; it
moves the least times least, and the goals at the end speak of these. Turns take 16 places on the stack, since where
its arrays lie moves a call's time by up to a quarter. A call is whole: it begins with the rule's bytes. Buffers are as
the caller lends them, and lent again.

- proved: the library `linnet`. It allocates nothing.
- plain: `compare/`, Rust written to be compared with and not tuned (for needed gates one search for each setting of the
  rule's conditions). It allocates what it holds between, and gives a plain circuit in its own form.
- tuned: `compare/tuned/`, Rust written for speed and proved by nobody: unsafe throughout, no allocation, one pass that
  reads and makes gates, one wide load for statements of the form \"variable := operation on two variables\". The
  ladders are mostly made of these, the rules that are hard to order wholly.

Rules, with the table at the end: R1 of document 01; ladders of nested ifs with products and comparisons in both blocks,
a fifth of the gates joined, up to six ifs and, in the last, eight (C-17); as many joined pairs as fit, each waiting for the one after it (reversed); half of the gates
waiting for all of the other half (held up); a group that waits for each of many such pairs, with as many sums that wait
for it (passed again: the search goes back to that group after every pair, and past the sums, so that this one grows with
the square of the gates); a chain of products in both blocks, joined in step, so that no group has a guard (in step); and COUNT mixed rules, one call each in a row: the first COUNT accepted cases of operation 05
that the generator of `compare/run` makes from seed SEED, groups put in order, used for every operation.

Since C-18 a group has no pick where its members' wires are equal, and no guards without a pick: then fewer records are
written and run than before. The table at the end says how many groups have no guards and how many one pick. Every pair of the
reversed plan has both picks.

Circuit files, for 07 and 09, with a table at the end: that of R1; files that grow, made of turns of a comparison, two
guards of two wires, two picks, a product, a constant, a sum, a choice and an and; the last of these in version 1, and with
guards of eight wires; the largest that there is, the same records with as many pairs in their picks as fill it; and the
files of the mixed rules. All but the one are of version 2, whose guards have tables of 32 bytes.";

/// The mixed rules are so many in a row that fewer turns do.
pub fn mixed_turns(turns: usize) -> usize {
    turns.div_ceil(5)
}

pub fn print_head(command: &str, turns: usize) {
    println!("# The proved library beside plain and tuned Rust\n");
    println!("Command: `{command}`, whose output this page is.");
    println!("{}\n", machine::line());
    let head = HEAD
        .replace("TURNS", &turns.to_string())
        .replace("MIXED", &mixed_turns(turns).to_string())
        .replace("COUNT", "2,000")
        .replace("SEED", &mixed::SEED.to_string());
    println!("{head}");
}

/// One operation on one row.
pub struct Measured<'a> {
    operation: u8,
    row: &'a Row,
    proved: Times,
    plain: Times,
    tuned: Times,
    /// Of the tuned implementation's fused run without a file.
    unwritten: Option<Times>,
}

impl Measured<'_> {
    /// How much longer the proved library takes, by the least times.
    fn ratio(&self) -> f64 {
        self.proved.least / self.tuned.least
    }

    /// What a call's time is divided by: gates of rules, wires of files.
    fn size(&self) -> f64 {
        match takes_file(self.operation) {
            true => self.row.mean(Subject::wires),
            false => self.row.mean(Subject::gates),
        }
    }
}

pub fn measured(operation: u8, row: &Row, turns: usize) -> Measured<'_> {
    let mut callers = vec![
        calls::proved(operation),
        calls::plain(operation),
        calls::tuned(operation),
    ];
    if operation == FUSED {
        callers.push(calls::tuned_unwritten());
    }
    let turns = match row.subjects.len() {
        1 => turns,
        _ => mixed_turns(turns),
    };
    let times = measure(turns, &mut callers, &row.subjects);
    Measured {
        operation,
        row,
        proved: times[0],
        plain: times[1],
        tuned: times[2],
        unwritten: times.get(3).copied(),
    }
}

/// The table of one operation, and for the fused run a line on the tuned implementation's other way.
pub fn print_operation(name: &str, all: &[Measured]) {
    println!("\n## {name}\n");
    let (what, each) = match all.iter().any(|one| takes_file(one.operation)) {
        true => ("file", "wire"),
        false => ("rule", "gate"),
    };
    println!("| {what} | proved, ns | plain, ns | tuned, ns | proved / plain | proved / tuned | proved, ns a {each} |");
    println!("|---|---:|---:|---:|---:|---:|---:|");
    for one in all {
        let size = one.size();
        println!(
            "| {} | {} | {} | {} | {} | {} | {} |",
            one.row.name,
            one.proved.text(0),
            one.plain.text(0),
            one.tuned.text(0),
            one.proved.over(&one.plain).text(2),
            one.proved.over(&one.tuned).text(2),
            one.proved.each(size).text(1)
        );
    }
    if all.iter().all(|one| one.unwritten.is_some()) {
        print_unwritten(all);
    }
}

fn print_unwritten(all: &[Measured]) {
    let text: Vec<String> = all
        .iter()
        .filter_map(|one| {
            let least = one.unwritten?.least;
            let times = one.proved.least / least;
            Some(format!("{} {least:.0} ({times:.2})", one.row.name))
        })
        .collect();
    println!("\nThe tuned implementation can also work the figures out as it orders, and write no file. That takes, by the");
    println!(
        "least times, with the ratio proved / tuned in brackets: {}.",
        text.join("; ")
    );
}

/// Kinds of rules with a goal, as the page names them, and the ratio that is to be reached.
const GOALS: [(Goal, &str, f64); 3] = [
    (Goal::Mixed, "mixed rules", 2.5),
    (Goal::R1, "R1", 4.0),
    (Goal::Ladder, "ladders", 4.0),
];

/// For each operation on rules and kind of rules the greatest ratio, and whether it is low enough. Nobody has set a goal
/// for the operations on circuit files, 07 and on.
pub fn print_goals(all: &[(&str, Vec<Measured>)]) {
    let with_goals: Vec<_> = all.iter().filter(|(name, _)| *name < "07").collect();
    if with_goals.is_empty() {
        return;
    }
    println!("\n## Goals: proved / tuned at most, by the least times\n");
    let heads = GOALS.map(|(_, name, most)| format!(" {name}: {most:.1} |"));
    println!("| operation |{}", heads.concat());
    println!("|---|---|---|---|");
    for (name, measured) in with_goals {
        let cells = GOALS.map(|(goal, _, most)| {
            let of_goal = measured.iter().filter(|one| one.row.goal == goal);
            match of_goal.map(Measured::ratio).reduce(f64::max) {
                Some(worst) if worst <= most => format!(" {worst:.2} met |"),
                Some(worst) => format!(" {worst:.2} **not met** |"),
                None => " |".to_string(),
            }
        });
        println!("| {name} |{}", cells.concat());
    }
}

/// What the rules are; of several in a row, on average.
pub fn print_rows(rows: &[Row]) {
    println!("\n## The rules\n");
    println!("| rule | bytes | gates | conditions | plan, bytes | gates joined | groups | without guards | with one pick |");
    println!("|---|---:|---:|---:|---:|---:|---:|---:|---:|");
    for row in rows {
        let numbers = [
            row.mean(|subject| subject.rule.len()),
            row.mean(|subject| subject.gates()),
            row.mean(|subject| subject.conditions()),
            row.mean(|subject| subject.plan.len()),
            row.mean(|subject| subject.joined()),
            row.mean(|subject| subject.groups()),
            row.mean(|subject| subject.equal()[0]),
            row.mean(|subject| subject.equal()[1]),
        ];
        print_row(row, numbers);
    }
}

/// What the circuit files are; of several in a row, on average.
pub fn print_files(rows: &[Row]) {
    println!("\n## The circuit files\n");
    println!("| file | bytes | wires | variables | guards | pairs of picks |");
    println!("|---|---:|---:|---:|---:|---:|");
    for row in rows {
        let numbers = [
            row.mean(|subject| subject.file.len()),
            row.mean(|subject| subject.wires()),
            row.mean(|subject| subject.inputs.len()),
            row.mean(|subject| subject.guards()),
            row.mean(|subject| subject.pairs()),
        ];
        print_row(row, numbers);
    }
}

fn print_row<const N: usize>(row: &Row, numbers: [f64; N]) {
    let digits = usize::from(row.subjects.len() > 1);
    let cells = numbers.map(|number| format!(" {number:.digits$} |"));
    println!("| {} |{}", row.name, cells.concat());
}
