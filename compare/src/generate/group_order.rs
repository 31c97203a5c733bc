//! In which order the groups of random plans stand. Before C-15 any order was accepted, and a seed is to make the cases
//! that it made then: in any order the generator looks for what it looked for before.

use super::plans::{bytes_of, Groups};
use super::Random;
use crate::law::PLAN_BYTES_MIN;
use crate::plan::lay_out;

#[derive(Clone, Copy, Debug, PartialEq, Eq)]
pub enum GroupOrder {
    /// As they come, mostly shuffled; row 32 is not looked for.
    Any,
    /// In rising order of smallest members, but for a share of the plans.
    Rising,
}

/// One plan in so many has its groups in another order.
pub const SELDOM: usize = 8;
/// The same of plans that break a row before 32, so that it is seen which one decides.
pub const OFTEN: usize = 2;
/// The rows of a plan, 32 as often as three others, since it comes with four of them.
const ROWS: [u8; 14] = [20, 21, 22, 23, 24, 25, 26, 32, 32, 32, 27, 28, 29, 30];

impl GroupOrder {
    /// A number that a plan is to be refused by.
    pub fn wanted(self, random: &mut Random) -> u8 {
        match self {
            GroupOrder::Any => random.among(20, 30) as u8,
            GroupOrder::Rising => random.pick(&ROWS),
        }
    }

    /// The groups in the order in which a plan is to have them, one in so many turned. Any order takes nothing from
    /// `random`.
    pub fn arrange(self, random: &mut Random, groups: &mut Groups, one_in: usize) {
        if self == GroupOrder::Any {
            return;
        }
        sort(groups);
        if random.below(one_in) == 0 {
            turn(random, groups);
        }
    }

    /// The plan whose answer the generator looks at: before C-15 that of the same groups in order, as all orders were
    /// alike.
    pub fn judged(self, plan: &[u8]) -> Vec<u8> {
        match self {
            GroupOrder::Any => in_order(plan),
            GroupOrder::Rising => plan.to_vec(),
        }
    }
}

/// By smallest member, whatever else is wrong with them.
pub fn sort(groups: &mut Groups) {
    groups.sort_by_key(|group| group.iter().min().copied());
}

/// Groups in order, where there are two, put in another one: at the front, at the end, anywhere, everywhere.
pub fn turn(random: &mut Random, groups: &mut Groups) {
    let count = groups.len();
    if count < 2 {
        return;
    }
    match random.below(4) {
        0 => groups.swap(0, 1),
        1 => groups.swap(count - 2, count - 1),
        2 => {
            let one = random.below(count - 1);
            let other = random.among(one + 1, count - 1);
            groups.swap(one, other);
        }
        _ => groups.reverse(),
    }
}

/// The same plan with its groups in order; itself where it is not laid out.
pub fn in_order(plan: &[u8]) -> Vec<u8> {
    let groups = match plan.len() {
        PLAN_BYTES_MIN.. => lay_out(plan),
        _ => None,
    };
    let Some(mut groups) = groups else {
        return plan.to_vec();
    };
    sort(&mut groups);
    let mut bytes = bytes_of(0, &groups);
    bytes[..PLAN_BYTES_MIN].copy_from_slice(&plan[..PLAN_BYTES_MIN]);
    bytes
}
