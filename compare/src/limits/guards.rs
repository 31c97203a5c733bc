//! Guards that rest on none to all of six conditions, near each other and apart.

use super::parts::{rule, set, two, var, when};
use super::{plan, List};
use crate::circuit::{accept, read_rule};
use crate::law::*;
use crate::rule::{Block, Statement};

pub fn add(list: &mut List) {
    for count in 0..=LIMITS_BEFORE.conditions {
        on_first(list, count);
    }
    for set in 0..1 << LIMITS_BEFORE.conditions {
        on_some(list, set);
    }
    one_by_one(list);
}

/// The ifs on these bit variables, each inside both blocks of the one before; at every end the product
/// of v6 and v7, so many times over, each from the one before.
pub fn tree(conditions: &[usize], products: usize) -> Block {
    match conditions {
        [] => vec![set(6, two(PRODUCT, var(6), var(7))); products],
        [t, more @ ..] => vec![when(var(*t), tree(more, products), tree(more, products))],
    }
}

pub const KINDS: [Kind; 8] = [
    Kind::Bit,
    Kind::Bit,
    Kind::Bit,
    Kind::Bit,
    Kind::Bit,
    Kind::Bit,
    Kind::Word,
    Kind::Word,
];

/// The products of a rule, rising.
pub fn products(rule: &[u8]) -> Vec<usize> {
    let circuit = accept(rule).expect("an accepted rule").circuit;
    (0..circuit.gates.len())
        .filter(|&gate| circuit.gates[gate].code() == PRODUCT)
        .collect()
}

/// The first so many bits as conditions, all exclusive products in one group, and in groups of two.
fn on_first(list: &mut List, count: usize) {
    let conditions: Vec<usize> = (0..count).collect();
    let mut block = tree(&conditions, 1);
    if count == 0 {
        // Nothing to exclude: two products that are stored over.
        block = vec![set(6, two(PRODUCT, var(7), var(7))); 2];
        block.push(set(6, var(7)));
    }
    let rule = rule(&KINDS, block);
    let gates = read_rule(&rule).gates;
    let joined = products(&rule);
    let last = (1usize << count) - 1;
    list.rule(&rule, &[0, last]);
    list.accepted(&rule, &plan(gates, &[&joined]), &[0, last]);
    let pairs: Vec<&[usize]> = joined.chunks(2).collect();
    list.accepted(&rule, &plan(gates, &pairs), &[0, last]);
    // The first with the last, the second with the last but one, and so on.
    let half = joined.len() / 2;
    let far: Vec<[usize; 2]> = (0..half)
        .map(|k| [joined[k], joined[joined.len() - 1 - k]])
        .collect();
    let far: Vec<&[usize]> = far.iter().rev().map(|pair| &pair[..]).collect();
    let add = |list: &mut List| list.accepted(&rule, &plan(gates, &far), &[0, last / 2]);
    match far.len() {
        1 => add(list),
        _ => list.turned(add),
    }
    if count > 0 {
        // Every setting once.
        for turn in 0..=last {
            let inputs = super::inputs(&rule, turn);
            list.fused(&rule, &plan(gates, &[&joined]), &inputs, inputs.len(), 0);
        }
    }
}

/// Six conditions, all bits; the products rest on those in the set alone.
fn on_some(list: &mut List, chosen: usize) {
    let mut conditions: Vec<usize> = (0..6).filter(|t| chosen >> t & 1 == 1).collect();
    // From the lowest in or, where condition 1 is among them, from the highest.
    if chosen & 2 != 0 {
        conditions.reverse();
    }
    let mut block: Block = (0..6)
        .map(|t| when(var(t), vec![set(7, var(7))], vec![Statement::Skip]))
        .collect();
    if chosen == 0 {
        block.push(set(6, two(PRODUCT, var(6), var(7))));
        block.push(set(6, two(PRODUCT, var(7), var(7))));
    } else {
        block.extend(tree(&conditions, 1));
    }
    let rule = rule(&KINDS, block);
    let gates = read_rule(&rule).gates;
    let joined = products(&rule);
    let plan = plan(gates, &[&joined]);
    list.shown(&rule, 0);
    list.check(&rule, &plan, 0);
    list.write(&rule, &plan, list.length(&rule, &plan), 0);
    for turn in [chosen, !chosen & 63, 21] {
        let inputs = super::inputs(&rule, turn);
        list.fused(&rule, &plan, &inputs, inputs.len(), 0);
    }
}

/// Six ifs one after the other, each with a product in both blocks. The first block goes on from v6, the
/// second leaves it, so the products of an if rest on its condition and on all after it.
fn one_by_one(list: &mut List) {
    let product = |second| vec![set(6, two(PRODUCT, var(7), var(second)))];
    let block: Block = (0..6)
        .map(|t| when(var(t), product(6), product(7)))
        .collect();
    let rule = rule(&KINDS, block);
    let gates = read_rule(&rule).gates;
    let joined = products(&rule);
    list.rule(&rule, &[0, 63]);
    let pairs: Vec<&[usize]> = joined.chunks(2).collect();
    list.accepted(&rule, &plan(gates, &pairs), &[0, 63, 21, 42]);
    list.accepted(&rule, &plan(gates, &pairs[2..4]), &[0, 63, 21, 42]);
    list.accepted(&rule, &plan(gates, &pairs[5..]), &[0, 63, 21, 42]);
    // Of the last two ifs: the first block of the last reads what the one before gave, the second does
    // not, so the products exclude each other over the ifs too.
    for other in [8, 9] {
        let group = [joined[other], joined[11]];
        list.accepted(&rule, &plan(gates, &[&group]), &[0, 63, 21, 42]);
        let group = [joined[other], joined[10]];
        list.with_plan(&rule, &plan(gates, &[&group]), 29);
    }
}
