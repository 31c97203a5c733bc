//! How many conditions random rules have, how deep their ifs nest, and of which version circuit files are. C-17 moved all
//! three, and a seed is to make the cases that it made before: with six conditions the generator looks for what it looked
//! for then.

use super::Random;
use crate::law::*;

#[derive(Clone, Copy, Debug, PartialEq, Eq)]
pub enum Conditions {
    /// At most six; a seventh, a seventh nested if and version 2 count as refused. Files are of version 1.
    Six,
    /// Often seven or eight, and nine to be refused. Files are of both versions, our own of version 2.
    Eight,
}

impl Conditions {
    /// What reading a rule is judged by.
    pub fn limits(self) -> Limits {
        match self {
            Conditions::Six => LIMITS_BEFORE,
            Conditions::Eight => LIMITS,
        }
    }

    /// The version in which our writer writes.
    pub fn written(self) -> Version {
        match self {
            Conditions::Six => VERSION_1,
            Conditions::Eight => VERSION_2,
        }
    }

    /// The version of a file from any house. Six conditions take nothing from `random`.
    pub fn version(self, random: &mut Random) -> Version {
        match self {
            Conditions::Eight if random.chance(60) => VERSION_2,
            _ => VERSION_1,
        }
    }

    /// Now and then the cases of before. Six conditions take nothing from `random`.
    pub fn or_six(self, random: &mut Random, percent: usize) -> Conditions {
        match self {
            Conditions::Eight if !random.chance(percent) => Conditions::Eight,
            _ => Conditions::Six,
        }
    }

    /// Whether a rule is to have more conditions or deeper ifs than there were before. Six conditions take nothing from
    /// `random`.
    pub fn more(self, random: &mut Random, percent: usize) -> bool {
        self == Conditions::Eight && random.chance(percent)
    }
}
