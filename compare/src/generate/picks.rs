//! How often members of random groups have equal wires, and which picks our own files have. C-18 moved both, and a seed is to
//! make the cases that it made before: with every pick the generator makes what it made then.

use super::Random;
use crate::law::*;

impl Picks {
    /// Whether members are to be alike. With every pick nothing is taken from `random`.
    pub fn alike(self, random: &mut Random, percent: usize) -> bool {
        self == PICKS && random.chance(percent)
    }

    /// Now and then the files of before. With every pick nothing is taken from `random`.
    pub fn or_before(self, random: &mut Random, percent: usize) -> Picks {
        match self {
            PICKS if !random.chance(percent) => PICKS,
            _ => PICKS_BEFORE,
        }
    }
}
