//! Which variables random cases have. What C-13 newly admits was refused before it, and a seed is to make the cases
//! that it made then: without working variables the generator looks for what it looked for before.

use crate::generate::Random;
use crate::law::*;
use crate::rule::Rule;

#[derive(Clone, Copy, Debug, PartialEq, Eq)]
pub enum Kinds {
    /// Results alone; working kind bytes and outputs that name no wire count as refused.
    Results,
    /// Some or all variables of many rules and files are working ones.
    Working,
}

impl Kinds {
    /// Which of so many variables work: in many cases some, all in some. Results alone take nothing from `random`.
    pub fn working(self, random: &mut Random, count: usize) -> Vec<bool> {
        if self == Kinds::Results || random.chance(60) {
            return vec![false; count];
        }
        match random.below(5) {
            0 => vec![true; count],
            1 => {
                let only = random.below(count);
                (0..count).map(|place| place == only).collect()
            }
            _ => (0..count).map(|_| random.chance(50)).collect(),
        }
    }

    /// The rule with working variables.
    pub fn give(self, random: &mut Random, mut rule: Rule) -> Rule {
        let working = self.working(random, rule.variables.len());
        for (variable, working) in rule.variables.iter_mut().zip(working) {
            variable.working = working;
        }
        rule
    }

    /// Kind bytes that reading refuses, as the generator looks for it.
    pub fn refused_bytes(self) -> &'static [u8] {
        match self {
            Kinds::Results => &[2, 3, 16, 255],
            Kinds::Working => &[4, 4, 5, 6, 7, 16, 128, 255],
        }
    }
}

/// Whether a kind byte of a rule with the right mark is a working one's.
pub(super) fn names_working(rule: &[u8]) -> bool {
    let (head, rest) = rule.split_at(RULE_BYTES_MIN);
    let variables = usize::from(head[RULE_MARK.len()]);
    let mut kind_bytes = rest.iter().take(variables);
    kind_bytes.any(|&byte| Variable::of_byte(byte).is_some_and(|variable| variable.working))
}
