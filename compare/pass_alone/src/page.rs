//! The page, in Markdown: times, how much slower sets of four words are, what the rules are.

use crate::given::Given;
use harness::machine;
use harness::measure::Times;

const HEAD: &str = "\
The backward pass finds every gate's precondition, the settings under which it is needed, as 256 bits a gate (C-17), four
words. Before C-17 there were 64 settings, a word a gate. Here it is measured alone, without reading a rule and making its gates.

- before: the proved pass as it was at the commit that `compare/pass` names, the last before C-17, linked as an archive. It
  takes rules of at most six conditions.
- after: the proved pass of this tree, linked in the same way.
- tuned: that of `compare/tuned/`, Rust written for speed and proved by nobody: no number is tested, nothing is
  allocated, one loop backward over the gates on sets of four words, which for a rule without conditions stores whole sets
  and joins none.

Nanoseconds a call: the median of TURNS turns of about 100 µs, in brackets the least. The three are measured in one
process, in turns, so that other work of the machine falls on all of them; it moves the least times least. Turns are
taken in ROUNDS rounds over all rules; the median is that of the rounds' medians. Each pass lies within one page of memory.

Lent to a call, and worked out before: four numbers a gate as operation 06 shows them, the conditions (each gate's number
among them; to the tuned pass their gates in a row, and how many gates are starting values), the last gates of the result
variables, and a clear set a gate. Clearing these is not timed: as many arrays of sets of four words as fill 16 KiB, half of
the first cache (16 for 32 gates, 2 for 256), are cleared, then as many calls are timed in a row, and so on; before gets as many
arrays of sets of one word. After and tuned are lent the same arrays. All three are called through a pointer to a function, and gave operation 06's
preconditions on each rule before anything was measured. The clock's own time, some hundredths of what is timed, is in all of them alike.

Rules, with the table at the end, with six bits, or eight, and two words as variables and every gate needed under some setting:

- no condition: operations on words and bits, one after another.
- six conditions: six ifs within each other, each on a bit of its own, as many operations on words in both blocks as fit;
  in the rest sums.
- choices: if v0 then v6 := v7 else v7 := v6, then the same on v1 and so on, so that every gate but the eight starting
  values is a choice.
- eight conditions, choices of eight: the same with eight bits, for after and tuned alone.";

/// After is to take at most so many times what before takes.
const GOAL: f64 = 4.0;

/// One rule, measured.
pub struct Measured<'a> {
    pub name: &'a str,
    pub given: &'a Given,
    /// None for a rule that it does not take.
    pub before: Option<Before>,
    pub after: Times,
    pub tuned: Times,
}

/// The pass of before.
pub struct Before {
    pub times: Times,
    /// Before over before: how far the times of one pass lie apart.
    pub itself: Times,
}

impl Measured<'_> {
    /// A cell on the pass of before, empty where it takes no such rule.
    fn of_before(&self, text: impl Fn(&Before) -> String) -> String {
        self.before.as_ref().map_or(String::new(), text)
    }
}

pub fn print_head(turns: usize, rounds: usize) {
    println!("# The backward pass alone\n");
    println!("Command: `compare/pass {turns}`, whose output this page is.");
    println!("{}\n", machine::line());
    let head = HEAD
        .replace("TURNS", &turns.to_string())
        .replace("ROUNDS", &rounds.to_string());
    println!("{head}");
}

pub fn print_times(all: &[Measured]) {
    println!("\n## Times\n");
    println!("| rule | before, ns | after, ns | tuned, ns | after / before | after / tuned | after, ns a gate | tuned, ns a gate |");
    println!("|---|---:|---:|---:|---:|---:|---:|---:|");
    for one in all {
        let gates = one.given.count() as f64;
        println!(
            "| {} | {} | {} | {} | {} | {} | {} | {} |",
            one.name,
            one.of_before(|before| before.times.text(1)),
            one.after.text(1),
            one.tuned.text(1),
            one.of_before(|before| one.after.over(&before.times).text(3)),
            one.after.over(&one.tuned).text(2),
            one.after.each(gates).text(2),
            one.tuned.each(gates).text(2)
        );
    }
}

const VERDICT: &str = "\
By the least times. How far those of one pass lie apart in this run, \"before / before\" shows: the same pass measured as if
it were two.
";

/// Whether the pass takes at most as many times what it took as a set has words, on each rule and on all.
pub fn print_verdict(all: &[Measured]) {
    println!("\n## Is after at most four times before?\n");
    println!("{VERDICT}");
    println!("| rule | after / before | before / before | at most {GOAL:.1} |");
    println!("|---|---:|---:|---|");
    let mut ratios = Vec::new();
    for one in all {
        let Some(before) = &one.before else {
            continue;
        };
        let ratio = one.after.over(&before.times).least;
        ratios.push(ratio);
        println!(
            "| {} | {ratio:.3} | {:.3} | {} |",
            one.name,
            before.itself.least,
            if ratio <= GOAL { "yes" } else { "**no**" }
        );
    }
    let yes = ratios.iter().filter(|&&ratio| ratio <= GOAL).count();
    let most = ratios.iter().copied().fold(0.0, f64::max);
    println!(
        "\nAfter is at most four times before on {yes} of {} rules; the greatest ratio after / before is {most:.3}.",
        ratios.len()
    );
}

pub fn print_rules(all: &[Measured]) {
    println!("\n## The rules\n");
    println!("| rule | gates | conditions | choices |");
    println!("|---|---:|---:|---:|");
    for one in all {
        println!(
            "| {} | {} | {} | {} |",
            one.name,
            one.given.count(),
            one.given.conditions().len(),
            one.given.choices()
        );
    }
}
