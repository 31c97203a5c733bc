//! The words of `make_stream`: what the cases of a seed have that those of before a request had not.

use super::conditions::Conditions;
use super::group_order::GroupOrder;
use super::kinds::{names_working, Kinds};
use crate::answer::Refusal;
use crate::circuit::{accept_within, preconditions, Accepted};
use crate::circuit_file::{self, CircuitFile};
use crate::law::{Picks, PICKS, PICKS_BEFORE};
use crate::plan::check;

#[derive(Clone, Copy, Debug, PartialEq, Eq)]
pub struct Words {
    /// `working`: C-13.
    pub kinds: Kinds,
    /// `ordered`: C-15.
    pub order: GroupOrder,
    /// `eight`: C-17.
    pub conditions: Conditions,
    /// `equal`: C-18.
    pub picks: Picks,
}

impl Words {
    /// No word: a seed makes the cases that it made before there were any.
    pub const NONE: Words = Words {
        kinds: Kinds::Results,
        order: GroupOrder::Any,
        conditions: Conditions::Six,
        picks: PICKS_BEFORE,
    };

    /// Those of before C-17: what the batches of before it are made by.
    pub const BEFORE_EIGHT: Words = Words {
        conditions: Conditions::Six,
        ..Words::BEFORE_EQUAL
    };

    /// Those of before C-18: what the batches of C-17 are made by.
    pub const BEFORE_EQUAL: Words = Words {
        picks: PICKS_BEFORE,
        ..Words::ALL
    };

    pub const ALL: Words = Words {
        kinds: Kinds::Working,
        order: GroupOrder::Rising,
        conditions: Conditions::Eight,
        picks: PICKS,
    };

    /// Adds a word; says whether it is one.
    pub fn take(&mut self, word: &str) -> bool {
        match word {
            "working" => self.kinds = Kinds::Working,
            "ordered" => self.order = GroupOrder::Rising,
            "eight" => self.conditions = Conditions::Eight,
            "equal" => self.picks = PICKS,
            _ => return false,
        }
        true
    }

    /// A rule that reading accepts, by the limits that the generator looks for.
    pub fn accept(self, rule: &[u8]) -> Result<Accepted, Refusal> {
        accept_within(rule, self.conditions.limits())
    }

    /// What reading a rule answers, as the generator looks for it.
    pub fn rule_number(self, rule: &[u8]) -> u8 {
        let number = self.accept(rule).err().map_or(0, |refusal| refusal.number);
        match number {
            number @ (1 | 2) => number,
            _ if self.kinds == Kinds::Results && names_working(rule) => 3,
            number => number,
        }
    }

    /// What checking a rule and a plan answers, as the generator looks for it.
    pub fn number(self, rule: &[u8], plan: &[u8]) -> u8 {
        let checked = self.accept(rule).and_then(|accepted| {
            let needs = preconditions(&accepted.circuit);
            check(&accepted.circuit, needs, plan)
        });
        checked.err().map_or(0, |refusal| refusal.number)
    }

    /// A circuit file that reading accepts, as the generator looks for it.
    pub fn accept_file(self, file: &[u8]) -> Result<CircuitFile<'_>, Refusal> {
        if self.conditions == Conditions::Six && circuit_file::is_version_2(file) {
            return Err(Refusal::nowhere(60));
        }
        let accepted = circuit_file::accept(file)?;
        if self.kinds == Kinds::Results && accepted.circuit.outputs.contains(&None) {
            return Err(Refusal::nowhere(62));
        }
        Ok(accepted)
    }
}
