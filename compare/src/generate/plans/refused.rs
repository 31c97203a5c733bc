//! Plans refused by a wanted number.

use super::super::group_order::{in_order, sort, turn, GroupOrder, OFTEN, SELDOM};
use super::super::{damage, Random};
use super::{all_at_once, any_groups, joins, Ground, Groups};
use crate::law::*;

/// So often a rule's plans are tried before another rule is taken.
const TRIES: usize = 12;

/// A plan refused by the wanted number, 20 to 30 or 32; none if this rule gave none in some tries.
pub fn refused(
    random: &mut Random,
    ground: &Ground,
    order: GroupOrder,
    wanted: u8,
) -> Option<Vec<u8>> {
    if wanted == 32 {
        return turned(random, ground);
    }
    for _ in 0..TRIES {
        let plan = try_refused(random, ground, order, wanted);
        if ground.number(&order.judged(&plan)) == wanted {
            return Some(plan);
        }
    }
    None
}

/// A plan refused by 32 that, in order, would come to a row after it, or to none.
fn turned(random: &mut Random, ground: &Ground) -> Option<Vec<u8>> {
    // Circles and gates that meet are rarer, and looked for more often.
    let behind = random.pick(&[0, 27, 28, 28, 29, 29, 30, 30, 30, 30]);
    for _ in 0..TRIES {
        let mut groups = some_groups(random, ground, behind);
        sort(&mut groups);
        turn(random, &mut groups);
        let plan = ground.bytes(&groups);
        if ground.number(&plan) == 32 && ground.number(&in_order(&plan)) == behind {
            return Some(plan);
        }
    }
    None
}

fn try_refused(random: &mut Random, ground: &Ground, order: GroupOrder, wanted: u8) -> Vec<u8> {
    let mut groups = some_groups(random, ground, wanted);
    spoil_groups(random, ground.circuit.gates.len(), wanted, &mut groups);
    let one_in = match wanted {
        20..=26 => OFTEN,
        // One that is turned would come to 32.
        _ => SELDOM,
    };
    order.arrange(random, &mut groups, one_in);
    let mut plan = ground.bytes(&groups);
    spoil_bytes(random, wanted, &mut plan);
    // Sometimes a second fault behind the mark, so that it is seen which one decides.
    if random.chance(20) {
        damage(random, &mut plan, 5);
    }
    plan
}

/// Groups that often come to the wanted number, 0 for none, or can be spoiled to come to it.
fn some_groups(random: &mut Random, ground: &Ground, wanted: u8) -> Groups {
    let every: Vec<usize> = (0..ground.circuit.gates.len()).collect();
    let groups = match wanted {
        0..=26 if random.chance(70) => joins(random, ground),
        0..=27 => any_groups(random, ground, &every),
        28 | 29 => any_groups(random, ground, &ground.costly),
        _ => all_at_once(random, ground),
    };
    match groups.is_empty() {
        true => any_groups(random, ground, &every),
        false => groups,
    }
}

/// Groups of rows 24 to 26 put in; the other rows want none.
fn spoil_groups(random: &mut Random, count: usize, wanted: u8, groups: &mut Groups) {
    match wanted {
        24 => {
            let short = random.pick(&[0, 1]);
            let group = any_group(random, count, short);
            groups.insert(random.below(groups.len() + 1), group);
        }
        25 => {
            let mut group = any_group(random, count, 2);
            match random.below(4) {
                0 => group[1] = group[0],
                1 => group.swap(0, 1),
                2 => group[1] = count,
                _ => group[1] = random.among(count, 65_535),
            }
            groups.insert(random.below(groups.len() + 1), group);
        }
        // As many pairs as 1,024 bytes hold: more than any circuit has, so some gate comes twice.
        26 if count >= 2 && random.chance(10) => {
            let pairs = (PLAN_BYTES_MAX - PLAN_BYTES_MIN) / 5;
            *groups = (0..pairs)
                .map(|turn| vec![turn % (count - 1), turn % (count - 1) + 1])
                .collect();
        }
        26 => {
            if let Some(again) = groups.last().cloned() {
                let mut other = any_group(random, count, 2);
                other[random.below(2)] = again[random.below(again.len())];
                other.sort();
                groups.insert(0, other);
            }
        }
        _ => {}
    }
}

/// Bytes of rows 20 to 23 changed; the other rows want none.
fn spoil_bytes(random: &mut Random, wanted: u8, plan: &mut Vec<u8>) {
    match wanted {
        20 if random.chance(50) => plan.truncate(random.below(PLAN_BYTES_MIN)),
        20 => plan.resize(random.pick(&[1025, 1025, 1026, 2000]), 0x00),
        21 => plan[random.below(PLAN_MARK.len())] ^= 1 << random.below(8),
        22 => plan[random.among(5, 6)] ^= 1 << random.below(8),
        23 if random.chance(10) => plan.resize(PLAN_BYTES_MAX, 0x00),
        23 => match random.below(4) {
            0 => plan.push(random.any() as u8),
            1 => plan[8] = plan[8].wrapping_add(random.pick(&[1, 255])),
            2 => plan.truncate(random.among(PLAN_BYTES_MIN, plan.len().max(10) - 1)),
            _ => plan[7] = 1,
        },
        _ => {}
    }
}

fn any_group(random: &mut Random, count: usize, size: usize) -> Vec<usize> {
    let mut group: Vec<usize> = (0..size).map(|_| random.below(count)).collect();
    group.sort();
    group
}
