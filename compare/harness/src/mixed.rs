//! Many rules in a row, each another one, so that a processor foresees less than on one rule again and again.

use crate::subject::{Goal, Row, Subject};
use compare::generate::group_order::in_order;
use compare::generate::words::Words;
use compare::generate::{cases, Random};
use compare::law::VARIABLES_MAX;
use compare::run;
use compare::stream::FUSED;

pub const SEED: u64 = 7;
pub const COUNT: usize = 2000;

pub fn mixed() -> Row {
    Row {
        name: "2,000 mixed rules".into(),
        subjects: subjects(COUNT),
        goal: Goal::Mixed,
    }
}

/// The first accepted cases of operation 05 that the generator makes from the seed: rules of every sort that
/// it knew before C-13, each with a plan and inputs that all operations take. They are those that were measured before C-15,
/// with the groups of their plans put in order, so that times can be held beside those of before; their files are of
/// version 2 (C-17).
pub fn subjects(count: usize) -> Vec<Subject> {
    let mut random = Random::new(SEED);
    std::iter::repeat_with(|| cases::rule_case(&mut random, Words::NONE))
        .filter(|case| case.operation == FUSED)
        .map(|case| Subject::of_rule(case.first, in_order(&case.second), case.inputs))
        .filter(accepted)
        .take(count)
        .collect()
}

fn accepted(subject: &Subject) -> bool {
    let mut results = [0; VARIABLES_MAX];
    run::run(&subject.rule, &subject.plan, &subject.inputs, &mut results).number == 0
}
