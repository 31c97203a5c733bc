//! Fixed cases at the limits of document 01, of C-11, C-13, C-15, C-17 and C-18: its examples, every refusal, every limit, for every
//! operation. Rules, plans and circuits are put together from their parts. The number that a case must come to is
//! written beside it, from the document, and looked at when the case is added; only the cases of
//! `reading` and the empty plans of refused rules have none. Some of them are stored: see `stored`.

mod arguments;
mod batches;
mod before;
mod circles;
mod circuits;
mod eight;
mod empty;
mod equal;
mod examples;
mod groups;
mod guards;
mod large;
mod layout;
mod more;
mod order;
pub mod parts;
mod reading;
mod rows;
mod turned;
mod working;

use crate::batch_cases;
use crate::circuit::{accept, accept_within};
use crate::generate::group_order::in_order;
use crate::generate::plans::bytes_of;
use crate::generate::words::Words;
use crate::law::*;
use crate::plan::accept_both;
use crate::stream::{Case, CHECK, DIRECT, FUSED, PLAIN, READ, WRITE};
use crate::write::fuse_with;
use std::collections::HashSet;
use std::panic::Location;

/// A fixed case, and what made it.
#[derive(Clone)]
pub struct Made {
    pub case: Case,
    /// The name of its family in its section.
    pub family: &'static str,
    pub sort: Sort,
}

/// Cases of one sort come from one line of `limits`, and where they are changes of one byte, from one byte.
#[derive(Clone, Copy, Debug, PartialEq, Eq, Hash)]
pub struct Sort {
    from: &'static Location<'static>,
    pub byte: Option<usize>,
}

/// The family of those that came before with another room.
pub const MOVED: &str = "moved";

/// All fixed cases, section by section: those of document 01 and of each request that has some.
pub fn sections() -> Vec<(&'static str, Vec<Made>)> {
    vec![
        ("01", of_rules()),
        ("C11", of_circuits()),
        ("C13", of_working()),
        ("C15", of_ordered()),
        ("C17", of_eight()),
        ("C18", of_equal()),
        ("more", of_more()),
    ]
}

fn alone(made: Vec<Made>) -> Vec<Case> {
    made.into_iter().map(|made| made.case).collect()
}

/// The fixed cases of operations 01 to 06, each once.
pub fn cases() -> Vec<Case> {
    alone(of_rules())
}

fn of_rules() -> Vec<Made> {
    each_once(rules().cases)
}

fn rules() -> List {
    let mut list = List::of(Words::BEFORE_EIGHT);
    list.family = "reading";
    reading::cases().into_iter().for_each(|case| list.put(case));
    list.family = "examples";
    examples::add(&mut list);
    list.family = "layout";
    layout::add(&mut list);
    list.family = "rows";
    rows::add(&mut list);
    list.family = "circles";
    circles::add(&mut list);
    list.family = "guards";
    guards::add(&mut list);
    list.family = "large";
    large::add(&mut list);
    list.family = "order";
    order::add(&mut list);
    list.family = "arguments";
    arguments::add(&mut list);
    list.family = "empty";
    empty::add(&mut list);
    list
}

/// The fixed cases of operations 07 to 09, each once.
pub fn circuit_cases() -> Vec<Case> {
    alone(of_circuits())
}

fn of_circuits() -> Vec<Made> {
    each_once(circuits().cases)
}

fn circuits() -> List {
    let mut list = List::of(Words::BEFORE_EIGHT);
    circuits::add(&mut list);
    list
}

/// The fixed cases of C-13, over all operations, each once.
pub fn working_cases() -> Vec<Case> {
    alone(of_working())
}

fn of_working() -> Vec<Made> {
    each_once(working().cases)
}

fn working() -> List {
    let mut list = List::of(Words::BEFORE_EIGHT);
    working::add(&mut list);
    list
}

/// The fixed cases of C-15, and those of before whose groups stood in another order once more with them in order; each
/// once, and none that was there before.
pub fn ordered_cases() -> Vec<Case> {
    alone(of_ordered())
}

fn of_ordered() -> Vec<Made> {
    let mut list = ordered();
    let [mut rules, mut working] = [rules(), working()];
    list.cases.append(&mut rules.in_order);
    list.cases.append(&mut working.in_order);
    behind(&[rules, working], list.cases)
}

fn ordered() -> List {
    let mut list = List::of(Words::BEFORE_EIGHT);
    groups::add(&mut list);
    list
}

/// The fixed cases of C-17, over all operations, and those of writing of before once more with rooms for files of version 2;
/// each once, and none that was there before.
pub fn eight_cases() -> Vec<Case> {
    alone(of_eight())
}

fn of_eight() -> Vec<Made> {
    let mut before = before_eight();
    let list = eight(&mut before);
    behind(&before, list.cases)
}

fn before_eight() -> [List; 4] {
    [rules(), circuits(), working(), ordered()]
}

fn eight(before: &mut [List]) -> List {
    let mut list = List::of(Words::BEFORE_EQUAL);
    eight::add(&mut list);
    list.family = MOVED;
    for (moved, wanted) in before.iter_mut().flat_map(|list| list.moved.drain(..)) {
        list.add_from(moved, wanted);
    }
    list
}

/// The fixed cases of C-18, over all operations, and those of writing of before once more with rooms for files without picks
/// between equal wires; each once, and none that was there before.
pub fn equal_cases() -> Vec<Case> {
    alone(of_equal())
}

fn of_equal() -> Vec<Made> {
    let mut before = before_eight().to_vec();
    let mut eight = eight(&mut before);
    let mut list = List::of(Words::ALL);
    equal::add(&mut list);
    list.family = MOVED;
    for (moved, wanted) in eight.moved.drain(..) {
        list.add_from(moved, wanted);
    }
    equal::add_behind(&mut list);
    before.push(eight);
    behind(&before, list.cases)
}

/// Those that wrong builds asked for, over all operations, each once.
pub fn more_cases() -> Vec<Case> {
    alone(of_more())
}

fn of_more() -> Vec<Made> {
    let mut list = List::of(Words::ALL);
    more::add(&mut list);
    each_once(list.cases)
}

/// The cases that are none of those before, each once.
fn behind(before: &[List], mut cases: Vec<Made>) -> Vec<Made> {
    let before = before.iter().flat_map(|list| list.cases.clone());
    let mut all = each_once(before.collect());
    let count = all.len();
    all.append(&mut cases);
    each_once(all).split_off(count)
}

/// The batches of C-16, fixed and random ones, each with the size of its pieces, in the order of the stored stream.
pub fn batch_cases() -> Vec<batch_cases::Case> {
    batches::cases()
}

/// The one batch of some 300 entries that is stored for the program itself.
pub fn month() -> Vec<u8> {
    batches::month()
}

fn each_once(mut cases: Vec<Made>) -> Vec<Made> {
    let mut seen = HashSet::new();
    cases.retain(|made| {
        let mut bytes = Vec::new();
        made.case.put(&mut bytes);
        seen.insert(bytes)
    });
    cases
}

/// The bytes of a plan with these groups, in this order.
fn plan(gates: usize, groups: &[&[usize]]) -> Vec<u8> {
    let groups = groups.iter().map(|group| group.to_vec()).collect();
    bytes_of(gates, &groups)
}

/// Inputs that an accepted rule takes. A refused rule gets none.
fn inputs(rule: &[u8], turn: usize) -> Vec<u32> {
    let kinds = accept(rule).map_or(Vec::new(), |accepted| accepted.rule.kinds());
    inputs_of(&kinds, turn)
}

/// Bit variables get the bits of `turn`, the first the lowest, word variables figures that differ.
fn inputs_of(kinds: &[Kind], turn: usize) -> Vec<u32> {
    let mut bits = 0;
    let one = |(place, kind): (usize, &Kind)| match kind {
        Kind::Word => 3 + 7 * place as u32 + turn as u32,
        Kind::Bit => {
            bits += 1;
            (turn >> (bits - 1) & 1) as u32
        }
    };
    kinds.iter().enumerate().map(one).collect()
}

#[derive(Clone)]
struct List {
    cases: Vec<Made>,
    /// The family of the cases that are added.
    family: &'static str,
    /// The byte that the cases that are added change.
    byte: Option<usize>,
    /// Whether the cases are those of before C-17, or of before C-18.
    words: Words,
    /// Whether the cases that are added have the groups of their plan in another order.
    turned: bool,
    /// Those cases with the groups in order.
    in_order: Vec<Made>,
    /// Cases of writing with the room that C-17, or C-18 for its cases, moves them to, and their numbers.
    moved: Vec<(Made, u8)>,
}

impl List {
    fn of(words: Words) -> List {
        List {
            cases: Vec::new(),
            family: "",
            byte: None,
            words,
            turned: false,
            in_order: Vec::new(),
            moved: Vec::new(),
        }
    }

    /// A case with what makes it: the line that calls, through all functions that are marked so.
    #[track_caller]
    fn made(&self, case: Case) -> Made {
        let from = Location::caller();
        let byte = self.byte;
        Made {
            case,
            family: self.family,
            sort: Sort { from, byte },
        }
    }

    /// Adds a case that no number stands beside.
    #[track_caller]
    fn put(&mut self, case: Case) {
        let made = self.made(case);
        self.cases.push(made);
    }

    #[track_caller]
    fn add(&mut self, case: Case, wanted: u8) {
        let made = self.made(case);
        self.add_from(made, wanted);
    }

    /// Adds a case of this family that another line made.
    #[track_caller]
    fn add_from(&mut self, made: Made, wanted: u8) {
        let wanted = self.as_it_stands(&made, wanted);
        let (answer, _) = made.case.work().expect("an operation that is built");
        let operation = made.case.operation;
        assert_eq!(answer.number, wanted, "operation {operation:02X}");
        let family = self.family;
        self.cases.push(Made { family, ..made });
    }

    #[track_caller]
    fn read(&mut self, rule: &[u8], wanted: u8) {
        let first = rule.to_vec();
        self.add(
            Case {
                operation: READ,
                first,
                ..Case::default()
            },
            wanted,
        );
    }

    #[track_caller]
    fn shown(&mut self, rule: &[u8], wanted: u8) {
        let first = rule.to_vec();
        self.add(
            Case {
                operation: PLAIN,
                first,
                ..Case::default()
            },
            wanted,
        );
    }

    #[track_caller]
    fn direct(&mut self, rule: &[u8], inputs: &[u32], room: usize, wanted: u8) {
        self.add(
            Case {
                operation: DIRECT,
                room: room as u16,
                first: rule.to_vec(),
                inputs: inputs.to_vec(),
                ..Case::default()
            },
            wanted,
        );
    }

    #[track_caller]
    fn check(&mut self, rule: &[u8], plan: &[u8], wanted: u8) {
        self.add(
            Case {
                operation: CHECK,
                first: rule.to_vec(),
                second: plan.to_vec(),
                ..Case::default()
            },
            wanted,
        );
    }

    #[track_caller]
    fn write(&mut self, rule: &[u8], plan: &[u8], room: usize, wanted: u8) {
        self.add(
            Case {
                operation: WRITE,
                room: room as u16,
                first: rule.to_vec(),
                second: plan.to_vec(),
                ..Case::default()
            },
            wanted,
        );
    }

    #[track_caller]
    fn fused(&mut self, rule: &[u8], plan: &[u8], inputs: &[u32], room: usize, wanted: u8) {
        self.add(
            Case {
                operation: FUSED,
                room: room as u16,
                first: rule.to_vec(),
                second: plan.to_vec(),
                inputs: inputs.to_vec(),
                ..Case::default()
            },
            wanted,
        );
    }

    /// A rule and a plan of which one is refused: checked, written and run.
    #[track_caller]
    fn with_plan(&mut self, rule: &[u8], plan: &[u8], wanted: u8) {
        let accepted = accept_within(rule, self.words.conditions.limits());
        let inputs = accepted.map_or(Vec::new(), |accepted| inputs_of(&accepted.rule.kinds(), 1));
        self.check(rule, plan, wanted);
        self.write(rule, plan, CIRCUIT_BYTES_MAX, wanted);
        self.fused(rule, plan, &inputs, inputs.len() + 1, wanted);
    }

    /// A refused rule by every operation.
    #[track_caller]
    fn refused_rule(&mut self, rule: &[u8], plan: &[u8], wanted: u8) {
        self.read(rule, wanted);
        self.direct(rule, &[1, 6, 7], 3, wanted);
        self.with_plan(rule, plan, wanted);
        self.shown(rule, wanted);
    }

    /// An accepted rule read, shown and run directly.
    #[track_caller]
    fn rule(&mut self, rule: &[u8], turns: &[usize]) {
        self.read(rule, 0);
        self.shown(rule, 0);
        for &turn in turns {
            let inputs = inputs(rule, turn);
            self.direct(rule, &inputs, inputs.len(), 0);
        }
    }

    /// An accepted plan: checked, written into just enough room, one byte less and one more, and run.
    #[track_caller]
    fn accepted(&mut self, rule: &[u8], plan: &[u8], turns: &[usize]) {
        let length = self.length(rule, plan);
        self.check(rule, plan, 0);
        self.write(rule, plan, length, 0);
        self.write(rule, plan, length - 1, 50);
        self.write(rule, plan, length + 1, 0);
        for &turn in turns {
            let inputs = inputs(rule, turn);
            self.fused(rule, plan, &inputs, inputs.len() + turn % 2, 0);
        }
    }

    /// How long the circuit file is, groups in order; 0 for a refused one.
    fn length(&self, rule: &[u8], plan: &[u8]) -> usize {
        self.file(rule, plan).len()
    }

    /// The circuit file, groups in order, empty for a refused one. Before C-17 it was of version 1, before C-18 it had
    /// every pick.
    fn file(&self, rule: &[u8], plan: &[u8]) -> Vec<u8> {
        file_with(rule, plan, self.words)
    }
}

fn file_with(rule: &[u8], plan: &[u8], words: Words) -> Vec<u8> {
    match accept_both(rule, &in_order(plan)) {
        Ok((accepted, plan)) => {
            let fused = fuse_with(&accepted.circuit, &plan, words.picks);
            fused.file_of(words.conditions.written())
        }
        Err(_) => Vec::new(),
    }
}
