//! C-13: rules with working variables, and circuit files whose outputs name no wire. The number beside each case is
//! document 02's, and beside every run stand the figures that it writes.

mod files;
mod kinds;
mod plans;
mod rules;

use super::circuits::run_case;
use super::turned::put_in_order;
use super::{plan, List};
use crate::law::*;
use crate::rule::{bytes_of, read};
use crate::stream::{results_text, Case, DIRECT, FUSED, UNTOUCHED_RESULT};

pub fn add(list: &mut List) {
    list.family = "kinds";
    kinds::add(list);
    list.family = "rules";
    rules::add(list);
    list.family = "plans";
    plans::add(list);
    list.family = "files";
    files::add(list);
}

/// A rule, and for some inputs the figures that its variables end with.
#[derive(Clone)]
struct Subject {
    rule: Vec<u8>,
    runs: Vec<(Vec<u32>, Vec<u32>)>,
}

impl Subject {
    fn new(rule: Vec<u8>, runs: &[(&[u32], &[u32])]) -> Subject {
        let run = |&(inputs, figures): &(&[u32], &[u32])| (inputs.to_vec(), figures.to_vec());
        let runs = runs.iter().map(run).collect();
        Subject { rule, runs }
    }

    /// The same block with other kinds: the variables in the mask are working ones, and 0 is written for them.
    fn working(&self, mask: usize) -> Subject {
        let works = |place: usize| mask >> place & 1 == 1;
        let mut rule = read(&self.rule).expect("a good rule");
        for (place, variable) in rule.variables.iter_mut().enumerate() {
            variable.working = works(place);
        }
        let mut runs = self.runs.clone();
        for (_, figures) in &mut runs {
            for (place, figure) in figures.iter_mut().enumerate() {
                *figure = if works(place) { 0 } else { *figure };
            }
        }
        let rule = bytes_of(&rule);
        Subject { rule, runs }
    }

    /// Every variable is a working one.
    fn all_working(&self) -> Subject {
        self.working(usize::MAX)
    }
}

impl List {
    /// A run that, groups in order, succeeds and writes these figures, and nothing after them.
    #[track_caller]
    pub(super) fn gives(&mut self, case: Case, figures: &[u32]) {
        let mut wanted = figures.to_vec();
        wanted.resize(usize::from(case.room), UNTOUCHED_RESULT);
        let (_, text) = put_in_order(&case)
            .work()
            .expect("an operation that is built");
        assert_eq!(text, results_text(&wanted), "of {:?}", case.inputs);
        self.add(case, 0);
    }

    /// A rule refused with this place too, by every operation.
    #[track_caller]
    fn refused_at(&mut self, rule: &[u8], number: u8, place: usize) {
        assert_eq!(crate::circuit::read_rule(rule).place, place);
        self.refused_rule(rule, &plan(5, &[]), number);
    }

    /// An accepted rule read, shown and run directly.
    #[track_caller]
    fn taken(&mut self, subject: &Subject) {
        self.read(&subject.rule, 0);
        self.shown(&subject.rule, 0);
        for (turn, (inputs, figures)) in subject.runs.iter().enumerate() {
            let case = Case {
                operation: DIRECT,
                room: (inputs.len() + turn % 2) as u16,
                first: subject.rule.clone(),
                inputs: inputs.clone(),
                ..Case::default()
            };
            self.gives(case, figures);
        }
    }

    /// An accepted plan: checked, written into just so many bytes, which are too many for a byte less, and run; the
    /// file then read, shown and run.
    #[track_caller]
    fn taken_with(&mut self, subject: &Subject, plan: &[u8]) {
        let rule = &subject.rule;
        let file = self.file(rule, plan);
        self.check(rule, plan, 0);
        self.write(rule, plan, file.len(), 0);
        self.write(rule, plan, file.len() - 1, 50);
        self.read_circuit(&file, 0);
        self.record(&file, 0, 0);
        self.record(&file, NO_WIRE, 0);
        for (turn, (inputs, figures)) in subject.runs.iter().enumerate() {
            let room = inputs.len() + turn % 2;
            let case = Case {
                operation: FUSED,
                second: plan.to_vec(),
                ..run_case(rule, inputs, room)
            };
            self.gives(case, figures);
            self.gives(run_case(&file, inputs, room), figures);
        }
    }

    /// What the three runs come to on some inputs: directly, fused, and of the file.
    #[track_caller]
    fn runs(&mut self, rule: &[u8], plan: &[u8], inputs: &[u32], room: usize, wanted: u8) {
        let file = self.file(rule, plan);
        self.direct(rule, inputs, room, wanted);
        self.fused(rule, plan, inputs, room, wanted);
        self.run_circuit(&file, inputs, room, wanted);
    }
}
