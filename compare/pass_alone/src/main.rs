//! `pass_alone [TURNS]`: measures the backward pass alone, as it was before, as it is and in tuned Rust, and prints a
//! Markdown page.

mod given;
mod lent;
mod page;
mod passes;
mod rules;

use given::Given;
use harness::measure::{measure, Caller, Times};
use lent::{caller, narrow_caller, Lent};
use page::{Before, Measured};
use passes::{after, before, tuned};
use rules::{Sort, SORTS};
use std::process::ExitCode;

const TURNS: usize = 2001;
/// Turns are taken in so many rounds over all rules, so that other work for a second or two falls on no rule alone.
const ROUNDS: usize = 24;
/// The tools by number, as rounds take them in turn: before, after and tuned in each of their orders. Where the pass of before
/// takes no such rule, it is left out.
const ORDERS: [[usize; 3]; 6] = [
    [0, 1, 2],
    [1, 0, 2],
    [2, 0, 1],
    [0, 2, 1],
    [1, 2, 0],
    [2, 1, 0],
];

fn main() -> ExitCode {
    let Some(turns) = turns() else {
        eprintln!("pass_alone [TURNS]");
        return ExitCode::from(2);
    };
    let rules: Vec<Rule> = SORTS
        .iter()
        .flat_map(|sort| sort.gates().iter().map(|&gates| Rule::of(sort, gates)))
        .collect();
    page::print_head(turns, ROUNDS);
    let measured = measured(&rules, turns);
    page::print_times(&measured);
    page::print_verdict(&measured);
    page::print_rules(&measured);
    ExitCode::SUCCESS
}

/// None if the arguments are something else.
fn turns() -> Option<usize> {
    let mut rest = std::env::args().skip(1);
    let turns = match rest.next() {
        Some(text) => text.parse().ok().filter(|&turns| turns > 0)?,
        None => TURNS,
    };
    rest.next().is_none().then_some(turns)
}

/// A rule as the page names it, with what is lent, and whether the pass of before takes it.
struct Rule {
    name: String,
    lent: Lent,
    was_there: bool,
}

impl Rule {
    fn of(sort: &Sort, gates: usize) -> Rule {
        let lent = Lent::of(Given::of(sort, gates));
        let was_there = sort.was_there();
        if was_there {
            lent.check_narrow(before());
        }
        lent.check(after());
        lent.check(tuned());
        Rule {
            name: format!("{gates} gates, {}", sort.name),
            lent,
            was_there,
        }
    }

    /// The tools in this order; their times by their numbers.
    fn round(&self, order: [usize; 3], turns: usize) -> [Times; 3] {
        let called = order
            .into_iter()
            .filter(|&which| which > 0 || self.was_there);
        let order: Vec<usize> = called.collect();
        let mut callers: Vec<Caller<Lent>> = order.iter().map(|&which| tool(which)).collect();
        let taken = measure(turns, &mut callers, std::slice::from_ref(&self.lent));
        let mut times = [Times::default(); 3];
        for (which, taken) in order.into_iter().zip(taken) {
            times[which] = taken;
        }
        times
    }

    /// Before as if it were two tools.
    fn control(&self, turns: usize) -> [Times; 2] {
        if !self.was_there {
            return [Times::default(); 2];
        }
        let taken = measure(
            turns,
            &mut [tool(0), tool(0)],
            std::slice::from_ref(&self.lent),
        );
        [taken[0], taken[1]]
    }
}

/// The control comes after all of the rounds: what the processor foresees of a pass rests on the rules that it had before,
/// so within a round before would be ahead of after by it, by up to 6 %.
fn measured(rules: &[Rule], turns: usize) -> Vec<Measured<'_>> {
    let turns = turns.div_ceil(ROUNDS);
    let taken = rounds(rules, |rule, round| {
        rule.round(ORDERS[round % ORDERS.len()], turns)
    });
    let controls = rounds(rules, |rule, _| rule.control(turns));
    let all = rules.iter().zip(taken).zip(controls);
    all.map(|((rule, [before, after, tuned]), [one, other])| Measured {
        name: &rule.name,
        given: &rule.lent.given,
        before: rule.was_there.then(|| Before {
            times: before,
            itself: other.over(&one),
        }),
        after,
        tuned,
    })
    .collect()
}

/// Rounds over all rules, put together for each rule.
fn rounds<const N: usize>(
    rules: &[Rule],
    measure: impl Fn(&Rule, usize) -> [Times; N],
) -> Vec<[Times; N]> {
    let mut taken = vec![Vec::new(); rules.len()];
    for round in 0..ROUNDS {
        for (rule, taken) in rules.iter().zip(&mut taken) {
            taken.push(measure(rule, round));
        }
    }
    let of_tool = |rounds: &[[Times; N]], tool: usize| {
        let times: Vec<Times> = rounds.iter().map(|round| round[tool]).collect();
        Times::of_rounds(&times)
    };
    let of_rule = |rounds: Vec<[Times; N]>| std::array::from_fn(|tool| of_tool(&rounds, tool));
    taken.into_iter().map(of_rule).collect()
}

/// Before, after and tuned, by number.
fn tool(which: usize) -> Caller<Lent> {
    match which {
        0 => narrow_caller(before()),
        1 => caller(after()),
        _ => caller(tuned()),
    }
}
