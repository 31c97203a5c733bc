//! `cases`: writes the stored stream to stdout.
//! `cases list`: prints each family of the stored stream, how many cases of it are stored, and their first and last number.
//! `cases NAME|NUMBER ...`: writes a stream of these cases, and their names and numbers to stderr. A number is the case's in the
//! stored stream, a name that of any fixed case, stored or not.
//! `cases choose SECTION`: prints the lines of a section for `data/stored.txt`, by the rule in `stored`.

use compare::limits::sections;
use compare::stored::{choose, named, stored, stream_of};
use std::io::{self, Write};

fn main() -> io::Result<()> {
    let words: Vec<String> = std::env::args().skip(1).collect();
    let mut out = io::stdout().lock();
    match words.iter().map(String::as_str).collect::<Vec<_>>()[..] {
        [] => out.write_all(&stream_of(stored().iter().map(|one| &one.case))),
        ["list"] => list(&mut out),
        ["choose", wanted] => {
            for (section, made) in sections() {
                if section == wanted {
                    write!(out, "{}", choose(section, &made))?;
                }
            }
            Ok(())
        }
        _ => some(&mut out, &words),
    }
}

fn list(out: &mut impl Write) -> io::Result<()> {
    let stored = stored();
    let family = |place: usize| stored[place].name.rsplit_once('.').expect("a name").0;
    let mut first = 0;
    for next in 1..=stored.len() {
        if next == stored.len() || family(next) != family(first) {
            let count = next - first;
            writeln!(out, "{} {count} {} {next}", family(first), first + 1)?;
            first = next;
        }
    }
    Ok(())
}

fn some(out: &mut impl Write, words: &[String]) -> io::Result<()> {
    let stored = stored();
    let all = named(sections());
    let mut cases = Vec::new();
    for word in words {
        let place = match word.parse::<usize>() {
            Ok(number) => number.checked_sub(1).filter(|&place| place < stored.len()),
            Err(_) => stored.iter().position(|one| one.name == *word),
        };
        match (place, all.get(word)) {
            (Some(place), _) => {
                eprintln!("{} is case {}", stored[place].name, place + 1);
                cases.push(stored[place].case.clone());
            }
            (None, Some(case)) => {
                eprintln!("{word} is not stored");
                cases.push(case.clone());
            }
            _ => {
                eprintln!("cases: no case {word}");
                std::process::exit(2);
            }
        }
    }
    out.write_all(&stream_of(cases.iter()))
}
