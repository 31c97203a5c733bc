//! C-17: eight conditions, ifs nested eight deep, circuit files of version 2, and those of version 1 that are read still.
//! Beside each case stands document 02's number, beside most runs their figures.

mod files;
mod guards;
mod kept;
mod longest;
mod rules;
mod tables;
mod versions;

pub use guards::eight as ladder;

use super::List;
use crate::law::*;
use crate::stream::{Case, DIRECT, FUSED};

pub fn add(list: &mut List) {
    list.family = "rules";
    rules::add(list);
    list.family = "guards";
    guards::add(list);
    list.family = "longest";
    longest::add(list);
    list.family = "versions";
    versions::add(list);
    list.family = "tables";
    tables::add(list);
    list.family = "files";
    files::add(list);
    list.family = "kept";
    kept::add(list);
}

/// Eight bits v0 to v7 and words from v8 on.
fn kinds(words: usize) -> Vec<Kind> {
    let mut kinds = vec![Kind::Bit; LIMITS.conditions];
    kinds.resize(LIMITS.conditions + words, Kind::Word);
    kinds
}

/// The bits of a setting as inputs of so many bits.
fn bits(setting: usize, count: usize) -> Vec<u32> {
    (0..count).map(|t| (setting >> t & 1) as u32).collect()
}

impl List {
    /// A rule run directly and, with a plan, fused: both end with these figures.
    #[track_caller]
    fn both_give(&mut self, rule: &[u8], plan: &[u8], inputs: &[u32], figures: &[u32]) {
        let case = |operation: u8, second: &[u8]| Case {
            operation,
            room: inputs.len() as u16,
            first: rule.to_vec(),
            second: second.to_vec(),
            inputs: inputs.to_vec(),
            ..Case::default()
        };
        self.gives(case(DIRECT, &[]), figures);
        self.gives(case(FUSED, plan), figures);
    }

    /// A rule that is refused at this place, by every operation.
    #[track_caller]
    fn refused_there(&mut self, rule: &[u8], number: u8, place: usize) {
        assert_eq!(crate::circuit::read_rule(rule).place, place);
        self.refused_rule(rule, &crate::examples::P1, number);
    }
}
