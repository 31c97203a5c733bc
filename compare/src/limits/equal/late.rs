//! Who waits for whom is judged as before: a group without guards waits for the conditions that its members rest on, and is
//! refused by 30 where a circle goes through one.

use super::super::parts::{bytes_with_kinds, not, rule, set, two, var, when, word};
use super::super::List;
use super::{gates_of, plan_of, Counted};
use crate::circuit_file::accept;
use crate::law::*;
use crate::rule::{Block, Expression};

pub fn add(list: &mut List) {
    written_late(list);
    in_whole(list);
    many_conditions(list);
    circles(list);
    no_circle(list);
}

/// Working words v3 and v4 take the operation on v1 and v2; then a condition is made in so many steps, and one of both goes to
/// v1. So the two gates rest on a condition that comes after them.
fn late_rule(steps: usize, first: Expression, second: Expression) -> Vec<u8> {
    let mut block: Block = vec![set(3, first), set(4, second)];
    let mut value = var(2);
    for _ in 0..steps {
        value = two(SUM, value, var(1));
    }
    let condition = two(LESS, value, word(9));
    block.push(when(condition, vec![set(1, var(3))], vec![set(1, var(4))]));
    bytes_with_kinds(&[0x00, 0x00, 0x00, 0x02, 0x02], block)
}

/// The record that the group's operation is.
fn place_of(file: &[u8], code: u8) -> usize {
    let accepted = accept(file).expect("an accepted file");
    let mut parts = accepted.parts.iter();
    parts.position(|part| part[0] == code).expect("a record")
}

/// The product of both comes right behind the condition, and not where its smallest member would be written.
fn written_late(list: &mut List) {
    let product = |one: usize, other: usize| two(PRODUCT, var(one), var(other));
    for steps in [0, 1, 3, 6] {
        for (second, picks) in [
            (product(1, 2), 0),
            (product(2, 1), 0),
            (product(1, 1), 1),
            (product(0, 0), 2),
        ] {
            let made = late_rule(steps, product(1, 2), second);
            let joined = plan_of(&made, &[gates_of(&made, PRODUCT)]);
            // Sums and the constant, then the condition.
            let wanted = Counted::of_variables(5)
                .and(steps + 2, 5, 0)
                .group(PRODUCT, picks, [1, 1].into_iter())
                .choices(1);
            let after = wanted.after + 40;
            list.rule(&made, &[0, 1]);
            let file = list.counts(&made, &joined, Counted { after, ..wanted });
            let guards = if picks == 0 { 0 } else { 2 };
            assert_eq!(place_of(&file, PRODUCT), 7 + steps + guards + picks);
            for inputs in [[4, 2, 3, 0, 0], [4, 2, 30, 0, 0]] {
                list.direct(&made, &inputs, 5, 0);
                list.fused(&made, &joined, &inputs, 5, 0);
                list.run_circuit(&file, &inputs, 6, 0);
            }
            // With no group each is written at once.
            let apart = list.file(&made, &plan_of(&made, &[]));
            assert_eq!(place_of(&apart, PRODUCT), 5);
        }
    }
}

/// The same with its bytes in full: inputs, the constant 9, the condition, the product for both, the choice.
fn in_whole(list: &mut List) {
    let product = || two(PRODUCT, var(1), var(2));
    let made = late_rule(0, product(), product());
    let joined = plan_of(&made, &[vec![5, 6]]);
    let wanted = [
        vec![0x43, 0x49, 0x52, 0, 2, 5, 0, 9],
        vec![0, 0, 0, 1, 0, 2, 0, 3, 0, 4],
        vec![0x11, 0, 0, 0, 9],
        vec![0x23, 0, 2, 0, 5],
        vec![0x22, 0, 1, 0, 2],
        vec![0x30, 0, 6, 0, 7, 0, 7],
        vec![0, 0, 0, 8, 0, 2, 0xFF, 0xFF, 0xFF, 0xFF],
    ]
    .concat();
    assert_eq!(list.file(&made, &joined), wanted);
    list.accepted(&made, &joined, &[0, 1]);
    list.accepted_circuit(&wanted, &[0, 1]);
}

/// Gates that rest on more and more conditions, of which each is made behind them: so many working words, and a ladder of ifs
/// on comparisons that picks one of them. All are alike: joined in one group, the first two, the last two, and by twos.
fn many_conditions(list: &mut List) {
    for ends in [2, 3, 5, 9] {
        let words = 3;
        let product = || two(PRODUCT, var(1), var(2));
        let mut block: Block = (0..ends).map(|end| set(words + end, product())).collect();
        let mut choice: Block = vec![set(0, var(words + ends - 1))];
        for end in (0..ends - 1).rev() {
            let condition = two(EQUAL, var(0), word(end as u32));
            choice = vec![when(condition, vec![set(0, var(words + end))], choice)];
        }
        block.extend(choice);
        let mut kind_bytes = vec![0x00; words];
        kind_bytes.resize(words + ends, 0x02);
        let made = bytes_with_kinds(&kind_bytes, block);
        let products = gates_of(&made, PRODUCT);
        list.rule(&made, &[]);
        let conditions = ends - 1;
        let besides = Counted::of_variables(words + ends)
            .and(conditions, 5, 0)
            .and(conditions, 5, 20)
            .choices(conditions);
        let pairs: Vec<Vec<usize>> = products.chunks(2).map(<[usize]>::to_vec).collect();
        let pairs: Vec<Vec<usize>> = pairs.into_iter().filter(|pair| pair.len() == 2).collect();
        let pairs_alone = ends - pairs.len();
        for (groups, operations) in [
            (vec![products.clone()], 1),
            (vec![products[..2].to_vec()], ends - 1),
            (vec![products[ends - 2..].to_vec()], ends - 1),
            (pairs, pairs_alone),
        ] {
            let joined = plan_of(&made, &groups);
            let file = list.counts(&made, &joined, besides.and(operations, 5, 15));
            for end in 0..ends {
                let mut inputs = vec![0; words + ends];
                inputs[..words].copy_from_slice(&[end as u32, 6, 7]);
                let mut ended = inputs.clone();
                ended[0] = 42;
                list.run_both(&made, &joined, &file, &inputs, &ended);
            }
            if operations == 1 {
                // Behind the last condition, and before the choices.
                assert_eq!(place_of(&file, PRODUCT), words + ends + 2 * conditions);
            }
        }
    }
}

/// Example 6 with a first product that is like the second, so that their group would have no guards: 30 by the condition of
/// the second all the same. Gates: 0 to 3, product 4, comparison 5, comparison 6, product 7.
fn circles(list: &mut List) {
    let kinds = [Kind::Bit, Kind::Word, Kind::Word, Kind::Bit];
    for code in [LESS, EQUAL] {
        for [one, other] in [[1, 2], [2, 1]] {
            let product = |one: usize, other: usize| two(PRODUCT, var(one), var(other));
            let inner = when(
                two(code, var(1), var(2)),
                vec![set(1, product(one, other))],
                vec![],
            );
            let first = vec![set(3, two(code, product(1, 2), var(2)))];
            let made = rule(&kinds, vec![when(var(0), first, vec![inner])]);
            let turns = [0, 1, 2, 3];
            list.rule(&made, &turns);
            let [products, comparisons] = [PRODUCT, code].map(|code| gates_of(&made, code));
            assert_eq!(
                (&products[..], &comparisons[..]),
                (&[4, 7][..], &[5, 6][..])
            );
            for group in [products.clone(), comparisons.clone()] {
                list.accepted(&made, &plan_of(&made, &[group]), &turns);
            }
            list.with_plan(&made, &plan_of(&made, &[products, comparisons]), 30);
        }
    }
    through_others(list);
    both_blocks(list);
}

/// The circle of example 6 by way of a sum, of a not, and of a third group.
fn through_others(list: &mut List) {
    let kinds = [Kind::Bit, Kind::Word, Kind::Word, Kind::Bit];
    let product = || two(PRODUCT, var(1), var(2));
    let inner = |condition: Expression| when(condition, vec![set(1, product())], vec![]);
    let less = |first: Expression| two(LESS, first, var(2));
    for (first, condition) in [
        (less(two(SUM, product(), var(1))), less(var(1))),
        (not(less(product())), less(var(1))),
        (less(product()), not(less(var(1)))),
    ] {
        let made = rule(
            &kinds,
            vec![when(var(0), vec![set(3, first)], vec![inner(condition)])],
        );
        let [products, comparisons] = [PRODUCT, LESS].map(|code| gates_of(&made, code));
        list.accepted(&made, &plan_of(&made, &[products.clone()]), &[0, 1, 2, 3]);
        list.accepted(
            &made,
            &plan_of(&made, &[comparisons.clone()]),
            &[0, 1, 2, 3],
        );
        list.with_plan(&made, &plan_of(&made, &[products, comparisons]), 30);
    }
    // The second group's condition is an and of a comparison that is in the third.
    let and = |first: Expression| two(AND, first, var(3));
    let first = vec![set(3, and(less(product())))];
    let second = vec![inner(and(less(var(1))))];
    let made = rule(&kinds, vec![when(var(0), first, second)]);
    let [products, comparisons, ands] = [PRODUCT, LESS, AND].map(|code| gates_of(&made, code));
    for two in [[&products, &ands], [&comparisons, &ands]] {
        let groups = two.map(Vec::clone);
        let wanted = if two[0] == &products { 30 } else { 0 };
        match wanted {
            0 => list.accepted(&made, &plan_of(&made, &groups), &[0, 1, 2, 3]),
            _ => list.with_plan(&made, &plan_of(&made, &groups), wanted),
        }
    }
    list.with_plan(&made, &plan_of(&made, &[products, comparisons, ands]), 30);
}

/// Three groups, each without guards but the one of the comparisons, which closes the circle: a chain of two products in each
/// block.
fn both_blocks(list: &mut List) {
    let kinds = [Kind::Bit, Kind::Word, Kind::Word, Kind::Bit];
    let squares = || vec![set(1, two(PRODUCT, var(1), var(2))); 2];
    let less = || two(LESS, var(1), var(2));
    let first = [squares(), vec![set(3, less())]].concat();
    let made = rule(
        &kinds,
        vec![when(var(0), first, vec![when(less(), squares(), vec![])])],
    );
    let [products, comparisons] = [PRODUCT, LESS].map(|code| gates_of(&made, code));
    let pairs = |k: usize| vec![products[k], products[k + 2]];
    list.accepted(&made, &plan_of(&made, &[pairs(0), pairs(1)]), &[0, 1, 2, 3]);
    for groups in [
        vec![pairs(0), pairs(1), comparisons.clone()],
        vec![pairs(0), comparisons.clone()],
        vec![pairs(1), comparisons],
    ] {
        list.with_plan(&made, &plan_of(&made, &groups), 30);
    }
}

/// Groups like those of the circles that go the right way: the condition's group is waited for, and waits for none of it.
fn no_circle(list: &mut List) {
    let kinds = [Kind::Bit, Kind::Word, Kind::Word, Kind::Bit];
    let product = || vec![set(1, two(PRODUCT, var(1), var(2)))];
    let less = || two(LESS, var(1), var(2));
    let first = [vec![set(3, less())], product()].concat();
    let made = rule(
        &kinds,
        vec![when(var(0), first, vec![when(less(), product(), vec![])])],
    );
    let [products, comparisons] = [PRODUCT, LESS].map(|code| gates_of(&made, code));
    let joined = plan_of(&made, &[comparisons, products]);
    let wanted = Counted::of_variables(4)
        .and(1, 5, 40)
        .and(1, 5, 15)
        .choices(3);
    let file = list.counts(&made, &joined, wanted);
    for inputs in [[1, 6, 7, 0], [0, 6, 7, 0], [0, 7, 6, 0], [1, 7, 6, 1]] {
        let [bit, one, other, last] = inputs;
        let figure = if bit == 1 || one < other { 42 } else { 7 };
        let bit_of = if bit == 1 {
            u32::from(one < other)
        } else {
            last
        };
        list.run_both(
            &made,
            &joined,
            &file,
            &inputs,
            &[bit, figure, other, bit_of],
        );
    }
}
