//! C-15: groups stand in rising order of their smallest member, so that two accepted plans that form the same groups
//! are the same bytes. 32 comes after 26 and before 27.

use compare::answer::Answer;
use compare::circuit::{accept, preconditions, read_rule};
use compare::examples::{P1, R1, R2, R7};
use compare::generate::group_order::{in_order, turn, GroupOrder};
use compare::generate::words::Words;
use compare::generate::{plans, rules, Random};
use compare::law::*;
use compare::limits::parts::{rule, set, two, var, when};
use compare::plan::{accept_both, check, check_plan};
use compare::run::run;
use compare::write::write;
use std::collections::{BTreeSet, HashMap};

const UNTOUCHED: u32 = 3_735_928_559;

fn plan_of(rule: &[u8], groups: &[&[usize]]) -> Vec<u8> {
    let groups = groups.iter().map(|group| group.to_vec()).collect();
    plans::bytes_of(read_rule(rule).gates, &groups)
}

fn number(rule: &[u8], groups: &[&[usize]]) -> u8 {
    check_plan(rule, &plan_of(rule, groups)).number
}

/// One word and nine comparisons, gates 1 to 9, that nothing needs.
fn nine() -> Vec<u8> {
    let empty = when(two(LESS, var(0), var(0)), vec![], vec![]);
    rule(&[Kind::Word], vec![empty; 9])
}

/// All orders of a list, itself first.
fn orders<T: Clone>(list: &[T]) -> Vec<Vec<T>> {
    let [first, rest @ ..] = list else {
        return vec![Vec::new()];
    };
    let mut all = Vec::new();
    for place in 0..list.len() {
        for mut order in orders(rest) {
            order.insert(place, first.clone());
            all.push(order);
        }
    }
    all
}

/// Refused by 32 with nothing counted or written, by every operation that takes a plan.
#[track_caller]
fn assert_refused(rule: &[u8], plan: &[u8]) {
    let refused = Answer {
        number: 32,
        ..Answer::default()
    };
    assert_eq!(check_plan(rule, plan), refused);
    let mut file = [0xEE; 64];
    assert_eq!(write(rule, plan, &mut file), refused);
    assert_eq!(file, [0xEE; 64]);
    let mut results = [UNTOUCHED; VARIABLES_MAX];
    // 32 before 40.
    assert_eq!(run(rule, plan, &[], &mut results), refused);
    assert_eq!(results, [UNTOUCHED; VARIABLES_MAX]);
}

#[test]
fn no_group_and_one_group_are_in_order() {
    assert_eq!(check_plan(&R1, &P1).number, 0);
    assert_eq!(number(&R1, &[]), 0);
    for group in [&[1, 2][..], &[8, 9], &[1, 9], &[3, 4, 5, 6]] {
        assert_eq!(number(&nine(), &[group]), 0);
    }
}

/// Only the smallest members count, and of all orders one is accepted.
#[test]
fn one_order_is_accepted() {
    for groups in [
        &[&[1, 2][..], &[3, 4]][..],
        &[&[1, 9], &[3, 5]],
        &[&[1, 3], &[2, 4]],
        &[&[1, 9], &[2, 8], &[3, 7]],
        &[&[1, 8, 9], &[2, 6, 7], &[3, 4, 5]],
        &[&[1, 7], &[2, 3, 4, 5, 6], &[8, 9]],
        &[&[1, 2], &[3, 4], &[5, 6], &[7, 8]],
    ] {
        assert_eq!(number(&nine(), groups), 0);
        for order in orders(groups).split_off(1) {
            assert_refused(&nine(), &plan_of(&nine(), &order));
        }
    }
}

/// Example 6's two groups: 30 in order, else 32.
#[test]
fn example_6_in_two_orders() {
    assert_eq!(number(&R2, &[&[4, 7], &[5, 6]]), 30);
    assert_refused(&R2, &plan_of(&R2, &[&[5, 6], &[4, 7]]));
    assert_eq!(number(&R7, &[&[1, 2]]), 30);
}

/// A gate in two groups before, at and after the fall; equal smallest members are one.
#[test]
fn row_26_comes_before() {
    for groups in [
        &[&[1, 2][..], &[2, 3], &[7, 8], &[5, 6]][..],
        &[&[1, 2], &[7, 8], &[5, 7]],
        &[&[3, 4], &[1, 2], &[5, 6], &[6, 7]],
        &[&[1, 2], &[1, 3]],
        &[&[1, 2], &[1, 2]],
        &[&[3, 4], &[1, 2], &[3, 5]],
    ] {
        assert_eq!(number(&nine(), groups), 26);
    }
}

/// R2 has 11 gates: starting values 0 to 3, products 4 and 7, comparisons 5 and 6, choices 8 to 10.
#[test]
fn rows_before_and_after() {
    // Beside a group that is out of order.
    for (groups, in_order, turned) in [
        (&[&[4, 7][..], &[5, 8]][..], 27, 32),
        (&[&[4, 5], &[6, 7]], 28, 32),
        (&[&[4, 7], &[5, 6]], 30, 32),
        (&[&[4, 7], &[5]], 24, 24),
        (&[&[4, 7], &[6, 5]], 25, 25),
        (&[&[4, 7], &[5, 11]], 25, 25),
    ] {
        let back: Vec<&[usize]> = groups.iter().rev().copied().collect();
        assert_eq!(
            (number(&R2, groups), number(&R2, &back)),
            (in_order, turned)
        );
    }
    // Products 2 and 3 are both needed: 29.
    let square = |variable| set(variable, two(PRODUCT, var(variable), var(variable)));
    let both = rule(
        &[Kind::Word; 2],
        vec![square(0), square(1), square(0), square(1)],
    );
    assert_eq!(number(&both, &[&[2, 3], &[4, 5]]), 29);
    assert_refused(&both, &plan_of(&both, &[&[4, 5], &[2, 3]]));
    // 20 to 23, in the bytes of a plan whose groups fall.
    let falls = plan_of(&R2, &[&[5, 6], &[4, 7]]);
    let changed = |place: usize, byte: u8| {
        let mut plan = falls.clone();
        plan[place] = byte;
        plan
    };
    let mut long = falls.clone();
    long.resize(PLAN_BYTES_MAX + 1, 0x00);
    let short = falls[..falls.len() - 1].to_vec();
    for (plan, wanted) in [
        (long, 20),
        (changed(0, 0x51), 21),
        (changed(6, 12), 22),
        (changed(8, 3), 23),
        (short, 23),
    ] {
        assert_eq!(check_plan(&R2, &plan).number, wanted);
    }
}

/// 127 groups: in order, against it, and with two neighbours exchanged at each place.
#[test]
fn the_largest_plan() {
    let empty = when(two(LESS, var(0), var(0)), vec![], vec![]);
    let rule = rule(&[Kind::Word], vec![empty; 255]);
    let every: Vec<usize> = (1..255).collect();
    let mut groups: Vec<&[usize]> = every.chunks(2).collect();
    assert_eq!((groups.len(), number(&rule, &groups)), (127, 0));
    for place in 1..groups.len() {
        groups.swap(place - 1, place);
        assert_eq!(number(&rule, &groups), 32);
        groups.swap(place - 1, place);
    }
    groups.reverse();
    assert_refused(&rule, &plan_of(&rule, &groups));
}

/// An accepted rule and the groups of an accepted plan for it, of two groups or more.
fn grouped(random: &mut Random) -> (Vec<u8>, plans::Groups) {
    loop {
        let bytes = rules::accepted(random, Words::ALL);
        let circuit = accept(&bytes).unwrap().circuit;
        let needs = preconditions(&circuit);
        let plan = plans::valid(random, &plans::Ground::new(&circuit, &needs));
        let plan = check(&circuit, needs, &plan).expect("a valid plan");
        let joined = plan.groups.iter().filter(|group| group.len() > 1);
        let groups: plans::Groups = joined
            .map(|group| group.iter().map(|gate| gate.0).collect())
            .collect();
        if groups.len() > 1 {
            return (bytes, groups);
        }
    }
}

/// For an accepted plan every other order of its groups is 32: all of them where they are few, else some.
#[test]
fn every_other_order_is_refused() {
    let mut random = Random::new(1501);
    let mut refused = 0;
    for _ in 0..400 {
        let (rule, groups) = grouped(&mut random);
        let gates = read_rule(&rule).gates;
        let accepted = plans::bytes_of(gates, &groups);
        assert_eq!(check_plan(&rule, &accepted).number, 0);
        let others = match groups.len() {
            2..=4 => orders(&groups).split_off(1),
            _ => (0..8)
                .map(|_| {
                    let mut other = groups.clone();
                    turn(&mut random, &mut other);
                    other
                })
                .collect(),
        };
        for other in others {
            let other = plans::bytes_of(gates, &other);
            assert_refused(&rule, &other);
            assert_eq!(in_order(&other), accepted);
            refused += 1;
        }
    }
    assert!(refused > 1500, "only {refused}");
}

/// The pairs of gates that a plan joins.
fn joined(rule: &[u8], plan: &[u8]) -> Option<BTreeSet<(usize, usize)>> {
    let (_, plan) = accept_both(rule, plan).ok()?;
    let mut pairs = BTreeSet::new();
    for group in &plan.groups {
        for (place, one) in group.iter().enumerate() {
            pairs.extend(group[place + 1..].iter().map(|other| (one.0, other.0)));
        }
    }
    Some(pairs)
}

/// Two accepted plans for a rule that form the same groups are the same bytes: many plans for rules with few ways to
/// join, in any order and damaged.
#[test]
fn the_same_groups_are_the_same_bytes() {
    let mut random = Random::new(1502);
    let (mut again, mut accepted) = (0, 0);
    for _ in 0..60 {
        let (rule, _) = grouped(&mut random);
        let circuit = accept(&rule).unwrap().circuit;
        let needs = preconditions(&circuit);
        let ground = plans::Ground::new(&circuit, &needs);
        let mut seen = HashMap::new();
        for turn in 0..60 {
            let order = [GroupOrder::Any, GroupOrder::Rising][turn % 2];
            let plan = match turn % 3 {
                0 => plans::any(&mut random, &ground, order),
                _ => plans::arranged(&mut random, &ground, order),
            };
            let Some(pairs) = joined(&rule, &plan) else {
                continue;
            };
            accepted += 1;
            if let Some(before) = seen.insert(pairs, plan.clone()) {
                assert_eq!(before, plan);
                again += 1;
            }
        }
    }
    println!("{accepted} accepted plans, {again} of them of groups that had come before");
    assert!(accepted > 1000 && again > 200, "{accepted}, {again}");
}
