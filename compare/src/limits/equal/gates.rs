//! Wires are compared, not gates: gates that were joined have one wire, and gates that look the same have two.

use super::super::parts::{not, rule, set, two, var, when, word};
use super::super::List;
use super::{gates_of, plan_of, Counted};
use crate::law::*;
use crate::rule::{Block, Expression};

pub fn add(list: &mut List) {
    constants(list);
    between(list);
    choices(list);
    joined_before(list);
}

const KINDS: [Kind; 4] = [Kind::Bit, Kind::Word, Kind::Word, Kind::Bit];

/// One if whose blocks end in a gate of the operation each, which are joined: so many picks, so many records besides.
#[track_caller]
fn pair(list: &mut List, code: u8, block: Block, picks: usize, besides: Counted) {
    let made = rule(&KINDS, block);
    let joined = plan_of(&made, &[gates_of(&made, code)]);
    let wanted = besides.group(code, picks, [1, 1].into_iter()).choices(1);
    list.counts(&made, &joined, wanted);
    for turn in [0, 1, 2, 3] {
        let inputs = super::super::inputs(&made, turn);
        list.fused(&made, &joined, &inputs, 4, 0);
        list.direct(&made, &inputs, 4, 0);
    }
}

/// Each written constant is a gate and a wire of its own; one that was assigned before is the same for both.
fn constants(list: &mut List) {
    let inputs = || Counted::of_variables(4);
    let product = |value: Expression| vec![set(1, two(PRODUCT, var(1), value))];
    let fives = when(var(0), product(word(5)), product(word(5)));
    pair(list, PRODUCT, vec![fives], 1, inputs().and(2, 5, 0));
    let of_five = when(var(0), product(var(2)), product(var(2)));
    let assigned = vec![set(2, word(5)), of_five];
    pair(list, PRODUCT, assigned, 0, inputs().and(1, 5, 0));
    // Two constants in each, and the same of a less.
    let both = || vec![set(3, two(LESS, word(5), word(5)))];
    pair(
        list,
        LESS,
        vec![when(var(0), both(), both())],
        2,
        inputs().and(4, 5, 0),
    );
    let bit = |bit: bool| vec![set(3, two(AND, Expression::Bit(bit), var(3)))];
    for second in [true, false] {
        let block = vec![when(var(0), bit(true), bit(second))];
        pair(list, AND, block, 1, inputs().and(2, 2, 0));
    }
    // Assigned twice before: v1 and v2 hold fives that differ in their gates.
    let twice = vec![
        set(1, word(5)),
        set(2, word(5)),
        when(
            var(0),
            vec![set(1, two(PRODUCT, var(1), var(1)))],
            vec![set(1, two(PRODUCT, var(2), var(2)))],
        ),
    ];
    pair(list, PRODUCT, twice, 2, inputs().and(2, 5, 0));
}

/// A sum, a difference or a not that both members read, made once before the if or in each block: those are never joined.
fn between(list: &mut List) {
    let inputs = || Counted::of_variables(4);
    for code in [SUM, DIFFERENCE] {
        let value = || two(code, var(1), var(2));
        let square = |value: Expression| vec![set(1, two(PRODUCT, value, var(2)))];
        let each = vec![when(var(0), square(value()), square(value()))];
        pair(list, PRODUCT, each, 1, inputs().and(2, 5, 0));
        let once = vec![
            set(1, value()),
            when(var(0), square(var(1)), square(var(1))),
        ];
        pair(list, PRODUCT, once, 0, inputs().and(1, 5, 0));
    }
    let or = |value: Expression| vec![set(3, two(OR, value, var(3)))];
    let each = vec![when(var(0), or(not(var(0))), or(not(var(0))))];
    pair(list, OR, each, 1, inputs().and(2, 3, 0));
}

/// A choice before the if that both members read is one gate; so is one that only a variable of its own holds.
fn choices(list: &mut List) {
    let least = || when(two(LESS, var(1), var(2)), vec![set(2, var(1))], vec![]);
    let square = || vec![set(1, two(PRODUCT, var(2), var(2)))];
    let block = vec![least(), when(var(0), square(), square())];
    let inputs = Counted::of_variables(4).and(1, 5, 40).choices(1);
    pair(list, PRODUCT, block, 0, inputs);
    let other = || vec![set(1, two(PRODUCT, var(1), var(2)))];
    let block = vec![least(), when(var(0), square(), other())];
    pair(list, PRODUCT, block, 1, inputs);
}

/// Comparisons of products: where the products are joined the comparisons have equal wires at that place, else not. Products
/// of other words have a pick between them and still one wire.
fn joined_before(list: &mut List) {
    for (second, picks_before) in [(2, 0), (1, 1)] {
        let less = |factor: usize| {
            let product = two(PRODUCT, var(1), var(factor));
            vec![set(3, two(LESS, product, var(2)))]
        };
        let made = rule(&KINDS, vec![when(var(0), less(2), less(second))]);
        let [products, comparisons] = [PRODUCT, LESS].map(|code| gates_of(&made, code));
        let one = || [1, 1].into_iter();
        let inputs = Counted::of_variables(4).choices(1);
        let alone = inputs.and(2, 5, 15).group(LESS, 1, one());
        let both = inputs.group(PRODUCT, picks_before, one());
        let turns = [0, 1, 2, 3];
        list.rule(&made, &turns);
        for (groups, wanted) in [
            (
                vec![products.clone(), comparisons.clone()],
                both.group(LESS, 0, one()),
            ),
            (vec![comparisons], alone),
            (vec![products], both.and(2, 5, 40)),
        ] {
            let joined = plan_of(&made, &groups);
            list.counts(&made, &joined, wanted);
            list.fused_turns(&made, &joined, &turns);
        }
    }
}
