//! Plans for an accepted rule: valid joins found by trying, and plans refused by a wanted number.

mod alike;
mod refused;

pub use refused::refused;

use super::group_order::{sort, GroupOrder, SELDOM};
use super::{damage, Random};
use crate::circuit::{Circuit, Settings};
use crate::law::*;
use crate::plan::check;

pub type Groups = Vec<Vec<usize>>;

/// The circuit that plans are made for, with its preconditions and costly gates.
pub struct Ground<'a> {
    pub circuit: &'a Circuit,
    pub needs: &'a [Settings],
    costly: Vec<usize>,
    /// Whether gates with equal wires are often joined (C-18).
    picks: Picks,
}

impl<'a> Ground<'a> {
    pub fn new(circuit: &'a Circuit, needs: &'a [Settings]) -> Ground<'a> {
        let costly = (0..circuit.gates.len())
            .filter(|&gate| circuit.gates[gate].costly())
            .collect();
        Ground {
            circuit,
            needs,
            costly,
            picks: PICKS_BEFORE,
        }
    }

    pub fn with(self, picks: Picks) -> Ground<'a> {
        Ground { picks, ..self }
    }

    /// The refusal's number of a plan, 0 for none.
    pub fn number(&self, plan: &[u8]) -> u8 {
        match check(self.circuit, self.needs.to_vec(), plan) {
            Ok(_) => 0,
            Err(refusal) => refusal.number,
        }
    }

    /// Whether a plan of these groups, in order, is accepted.
    fn accepts(&self, groups: &Groups) -> bool {
        self.number(&self.in_order(groups)) == 0
    }

    fn joinable(&self, one: usize, other: usize) -> bool {
        one != other
            && self.circuit.gates[one].code() == self.circuit.gates[other].code()
            && !self.needs[one].meets(&self.needs[other])
    }

    fn bytes(&self, groups: &Groups) -> Vec<u8> {
        bytes_of(self.circuit.gates.len(), groups)
    }

    fn in_order(&self, groups: &Groups) -> Vec<u8> {
        let mut groups = groups.clone();
        sort(&mut groups);
        self.bytes(&groups)
    }
}

/// The bytes of a plan; sizes and counts are those of the lists, right or wrong.
pub fn bytes_of(gates: usize, groups: &Groups) -> Vec<u8> {
    let mut bytes = PLAN_MARK.to_vec();
    bytes.extend((gates as u16).to_be_bytes());
    bytes.extend((groups.len() as u16).to_be_bytes());
    for group in groups {
        bytes.push(group.len() as u8);
        for &member in group {
            bytes.extend((member as u16).to_be_bytes());
        }
    }
    bytes
}

/// Valid joins in any order, found by trying one gate more, again and again.
pub fn joins(random: &mut Random, ground: &Ground) -> Groups {
    let mut groups: Groups = Vec::new();
    if ground.costly.is_empty() {
        return groups;
    }
    if ground.picks.alike(random, 65) {
        groups = alike::in_step(random, ground);
        // What is not joined yet is left alone, mostly: any other join may take wires apart.
        if random.chance(70) {
            shuffle(random, &mut groups);
            return groups;
        }
    } else if random.chance(30) {
        groups = all_at_once(random, ground);
        if !ground.accepts(&groups) {
            groups.clear();
        }
    }
    for _ in 0..random.pick(&[10, 30, 60]) {
        let one = random.pick(&ground.costly);
        let other = random.pick(&ground.costly);
        if !ground.joinable(one, other) || groups.iter().any(|g| g.contains(&one)) {
            continue;
        }
        let mut tried = groups.clone();
        match tried.iter_mut().find(|group| group.contains(&other)) {
            Some(group) => group.push(one),
            None => tried.push(vec![other, one]),
        }
        for group in &mut tried {
            group.sort();
        }
        if ground.accepts(&tried) {
            groups = tried;
        }
    }
    shuffle(random, &mut groups);
    groups
}

fn shuffle<T>(random: &mut Random, list: &mut [T]) {
    for last in (1..list.len()).rev() {
        list.swap(last, random.below(last + 1));
    }
}

/// Every costly gate put with the first others that it excludes, waits not looked at: pairs, or
/// groups as large as they come.
fn all_at_once(random: &mut Random, ground: &Ground) -> Groups {
    let most = random.pick(&[2, 2, 3, 255]);
    let mut gates = ground.costly.clone();
    if random.chance(50) {
        shuffle(random, &mut gates);
    }
    let mut groups: Groups = Vec::new();
    for gate in gates {
        let fits = |group: &&mut Vec<usize>| {
            group.len() < most && group.iter().all(|&member| ground.joinable(member, gate))
        };
        match groups.iter_mut().find(fits) {
            Some(group) => group.push(gate),
            None => groups.push(vec![gate]),
        }
    }
    groups.retain(|group| group.len() >= GROUP_SIZE_MIN);
    for group in &mut groups {
        group.sort();
    }
    groups
}

/// Any groups of any gates.
fn any_groups(random: &mut Random, ground: &Ground, from: &[usize]) -> Groups {
    let mut left = from.to_vec();
    shuffle(random, &mut left);
    let mut groups = Vec::new();
    for _ in 0..random.among(1, 3) {
        let size = random.pick(&[2, 2, 2, 3, 4]);
        if left.len() < size {
            break;
        }
        let mut group = left.split_off(left.len() - size);
        group.sort();
        groups.push(group);
    }
    debug_assert!(groups
        .iter()
        .flatten()
        .all(|&g| g < ground.circuit.gates.len()));
    groups
}

/// Any plan: valid, damaged, or of any bytes at all.
pub fn any(random: &mut Random, ground: &Ground, order: GroupOrder) -> Vec<u8> {
    let mut groups = joins(random, ground);
    order.arrange(random, &mut groups, SELDOM);
    let mut plan = ground.bytes(&groups);
    match random.below(4) {
        0 => {}
        1 => plan = (0..random.below(30)).map(|_| random.any() as u8).collect(),
        _ => damage(random, &mut plan, 0),
    }
    plan
}

/// A valid plan, mostly with joins.
pub fn valid(random: &mut Random, ground: &Ground) -> Vec<u8> {
    let groups = valid_groups(random, ground);
    ground.in_order(&groups)
}

/// A plan that would be valid in order, with its groups in the order that is asked for.
pub fn arranged(random: &mut Random, ground: &Ground, order: GroupOrder) -> Vec<u8> {
    let mut groups = valid_groups(random, ground);
    order.arrange(random, &mut groups, SELDOM);
    ground.bytes(&groups)
}

fn valid_groups(random: &mut Random, ground: &Ground) -> Groups {
    if random.chance(10) {
        return Vec::new();
    }
    joins(random, ground)
}
