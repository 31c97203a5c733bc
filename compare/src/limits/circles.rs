//! Row 30: groups that wait in a circle through arguments and through conditions, and like ones that
//! do not.
//!
//! A joined gate and the conditions that it rests on are needed together, so a circle through a
//! condition alone is refused by row 29 already: it takes a second joined group.

use super::parts::{not, rule, set, two, var, when, word};
use super::{plan, List};
use crate::examples::R2;
use crate::law::*;

pub fn add(list: &mut List) {
    through_arguments(list);
    crossed(list);
    through_conditions(list);
    nothing_needs(list);
}

/// Two words; v1 := v1 x v0 so many times, then v1 := 7: products from gate 2 on, each an argument of
/// the next, that nothing needs.
fn chain(count: usize) -> Vec<u8> {
    let mut block = vec![set(1, two(PRODUCT, var(1), var(0))); count];
    block.push(set(1, word(7)));
    rule(&[Kind::Word; 2], block)
}

fn through_arguments(list: &mut List) {
    let rule = chain(6);
    list.rule(&rule, &[0]);
    // Inside one group, next to each other and far apart.
    for pair in [[2, 3], [2, 7], [6, 7], [4, 6]] {
        list.with_plan(&rule, &plan(9, &[&pair]), 30);
    }
    list.with_plan(&rule, &plan(9, &[&[2, 3, 4, 5, 6, 7]]), 30);
    // Over two groups and over three, in two file orders.
    list.with_plan(&rule, &plan(9, &[&[2, 5], &[3, 4]]), 30);
    list.turned(|list| list.with_plan(&rule, &plan(9, &[&[3, 4], &[2, 5]]), 30));
    list.with_plan(&rule, &plan(9, &[&[2, 7], &[3, 6], &[4, 5]]), 30);
    let turned = plan(9, &[&[4, 5], &[3, 6], &[2, 7]]);
    list.turned(|list| list.with_plan(&rule, &turned, 30));

    // Bits in a chain: every costly operation whose result can be its argument.
    for code in [AND, OR] {
        let one = |_| set(1, two(code, var(1), var(0)));
        let mut block: Vec<_> = (0..3).map(one).collect();
        block.push(set(1, var(0)));
        let bits = super::parts::rule(&[Kind::Bit; 2], block);
        list.with_plan(&bits, &plan(5, &[&[2, 3]]), 30);
        list.with_plan(&bits, &plan(5, &[&[2, 4]]), 30);
        list.with_plan(&bits, &plan(5, &[&[3, 4]]), 30);
    }
    // Through gates of other kinds between them: a sum, and a choice on a comparison.
    let between = super::parts::rule(
        &[Kind::Word; 2],
        vec![
            set(1, two(PRODUCT, var(1), var(0))),
            set(1, two(SUM, var(1), var(0))),
            when(two(LESS, var(1), var(0)), vec![set(1, var(0))], vec![]),
            set(1, two(PRODUCT, var(1), var(0))),
            set(1, word(7)),
        ],
    );
    list.rule(&between, &[0]);
    list.with_plan(&between, &plan(8, &[&[2, 6]]), 30);
}

/// A bit and words; in each block a chain of products through the block's own variable.
fn ladders(steps: usize) -> Vec<u8> {
    let block = |to: usize| vec![set(to, two(PRODUCT, var(to), var(3))); steps];
    rule(
        &[Kind::Bit, Kind::Word, Kind::Word, Kind::Word],
        vec![when(var(0), block(1), block(2))],
    )
}

/// Two chains that exclude each other: joined step by step they wait in order, crossed in a circle.
fn crossed(list: &mut List) {
    for steps in [2, 3, 5] {
        let rule = ladders(steps);
        let gates = 4 + 2 * steps + 2;
        list.rule(&rule, &[0, 1]);
        let step = |one: usize, other: usize| [4 + one, 4 + steps + other];
        let straight: Vec<[usize; 2]> = (0..steps).map(|k| step(k, k)).collect();
        let groups: Vec<&[usize]> = straight.iter().map(|pair| &pair[..]).collect();
        list.accepted(&rule, &plan(gates, &groups), &[0, 1]);
        let turned: Vec<&[usize]> = straight.iter().rev().map(|pair| &pair[..]).collect();
        list.turned(|list| list.accepted(&rule, &plan(gates, &turned), &[0, 1]));
        let across: Vec<[usize; 2]> = (0..steps).map(|k| step(k, steps - 1 - k)).collect();
        let groups: Vec<&[usize]> = across.iter().map(|pair| &pair[..]).collect();
        list.with_plan(&rule, &plan(gates, &groups), 30);
        // One step behind: every group waits for the one before.
        let behind: Vec<[usize; 2]> = (1..steps).map(|k| step(k, k - 1)).collect();
        let groups: Vec<&[usize]> = behind.iter().map(|pair| &pair[..]).collect();
        list.accepted(&rule, &plan(gates, &groups), &[0, 1]);
        // The same and the first of one chain with the last of the other: a circle over all.
        let close = step(0, steps - 1);
        let mut groups = groups;
        groups.push(&close);
        list.turned(|list| list.with_plan(&rule, &plan(gates, &groups), 30));
    }
}

fn through_conditions(list: &mut List) {
    // R2 with gates that cannot be joined between: the inner condition is a not of the comparison.
    // Gates: 0 to 3, product 4, comparison 5, comparison 6, not 7, product 8, choices.
    let kinds = [Kind::Bit, Kind::Word, Kind::Word, Kind::Bit];
    let less = |first| two(LESS, first, var(2));
    let product = || two(PRODUCT, var(1), var(2));
    let with_not = rule(
        &kinds,
        vec![when(
            var(0),
            vec![set(3, less(two(PRODUCT, var(1), var(1))))],
            vec![when(not(less(var(1))), vec![set(1, product())], vec![])],
        )],
    );
    let turns = [0, 1, 2, 3];
    list.rule(&with_not, &turns);
    list.accepted(&with_not, &plan(12, &[&[4, 8]]), &turns);
    list.accepted(&with_not, &plan(12, &[&[5, 6]]), &turns);
    list.with_plan(&with_not, &plan(12, &[&[4, 8], &[5, 6]]), 30);
    list.turned(|list| list.with_plan(&with_not, &plan(12, &[&[5, 6], &[4, 8]]), 30));

    // A joined gate with the condition that it rests on, or with that condition's argument: 29.
    // Gates: 0 and 1, product 2, comparison 3, in the first block comparison 4 and product 5.
    let own = rule(
        &[Kind::Word, Kind::Bit],
        vec![when(
            two(LESS, two(PRODUCT, var(0), var(0)), var(0)),
            vec![
                set(1, two(LESS, var(0), var(0))),
                set(0, two(PRODUCT, var(0), var(0))),
            ],
            vec![],
        )],
    );
    list.rule(&own, &[0, 1]);
    list.with_plan(&own, &plan(8, &[&[3, 4]]), 29);
    list.with_plan(&own, &plan(8, &[&[2, 5]]), 29);

    // R2 with a third group between: accepted two by two.
    list.with_plan(&R2, &plan(11, &[&[4, 7, 8]]), 27);
    list.with_plan(&R2, &plan(11, &[&[4, 5], &[6, 7]]), 28);
    list.with_plan(&R2, &plan(11, &[&[4, 6]]), 28);
    list.with_plan(&R2, &plan(11, &[&[5, 6], &[4, 7], &[5, 6]]), 26);
}

/// Groups that nothing needs: guards over no condition, picks that give 0.
fn nothing_needs(list: &mut List) {
    // Two words and a bit; four products, two comparisons, then all stored over.
    let mut block = vec![set(1, two(PRODUCT, var(0), var(0))); 4];
    block.extend(vec![set(2, two(LESS, var(0), var(0))); 2]);
    block.push(set(1, word(7)));
    block.push(set(2, crate::rule::Expression::Bit(true)));
    let rule = rule(&[Kind::Word, Kind::Word, Kind::Bit], block);
    list.rule(&rule, &[0, 1]);
    for groups in [&[&[3, 4][..]][..], &[&[3, 6], &[4, 5]]] {
        list.accepted(&rule, &plan(11, groups), &[0, 1]);
    }
    let turned = plan(11, &[&[7, 8], &[3, 4, 5, 6]]);
    list.turned(|list| list.accepted(&rule, &turned, &[0, 1]));
    for groups in [&[&[3, 4, 5, 6][..], &[7, 8]][..], &[&[3, 4, 6]]] {
        list.accepted(&rule, &plan(11, groups), &[0, 1]);
    }
    list.with_plan(&rule, &plan(11, &[&[3, 7]]), 28);
    list.with_plan(&rule, &plan(11, &[&[8, 9]]), 27);
}
