//! C-12: rules that differ only in the order in which an operation's two arguments are written, with the same
//! plan. Sum, product, equal, and, or take the lower-numbered gate first, so their files are the same, unless
//! both arguments make gates (`left_to_right`); those of difference and less than differ.

use super::parts::{not, rule, set, two, var, when, word};
use super::{inputs, plan, List};
use crate::law::*;
use crate::rule::{Block, Expression};
use std::collections::HashSet;

pub fn add(list: &mut List) {
    for row in OPERATIONS.into_iter().filter(|row| row.arguments == 2) {
        alone(list, row);
        joined(list, row);
        everywhere(list, row);
        by_gate(list, row);
        left_to_right(list, row);
        by_wire(list, row);
    }
    circles(list);
}

/// Two arguments as they are written, or the other way round.
fn either(code: u8, around: bool, first: Expression, second: Expression) -> Expression {
    if around {
        two(code, second, first)
    } else {
        two(code, first, second)
    }
}

/// One rule written in several orders, each shown, run directly and, with every plan, checked, written and
/// run. The files with one plan are all the same, or no two of them are.
fn orders(list: &mut List, rules: &[Vec<u8>], plans: &[Vec<u8>], same: bool) {
    for rule in rules {
        list.rule(rule, &[0, 3]);
    }
    for plan in plans {
        let mut files = HashSet::new();
        for rule in rules {
            let file = list.file(rule, plan);
            list.check(rule, plan, 0);
            list.write(rule, plan, file.len(), 0);
            for turn in [0, 3] {
                let inputs = inputs(rule, turn);
                list.fused(rule, plan, &inputs, inputs.len(), 0);
            }
            files.insert(file);
        }
        let wanted = if same { 1 } else { rules.len() };
        assert_eq!(
            files.len(),
            wanted,
            "the files of {rules:02X?} with {plan:02X?}"
        );
    }
}

/// v2 from v0 and v1 in both orders, and from either twice; with refused buffers, inputs and plans too.
fn alone(list: &mut List, row: Operation) {
    let kinds = [row.takes, row.takes, row.gives];
    let of = |first, second| rule(&kinds, vec![set(2, two(row.code, var(first), var(second)))]);
    let rules = [of(0, 1), of(1, 0)];
    orders(list, &rules, &[plan(4, &[])], row.lower_first);
    for rule in rules.iter().chain(&[of(0, 0), of(1, 1)]) {
        list.rule(rule, &[1, 2]);
        list.accepted(rule, &plan(4, &[]), &[1, 2]);
        list.fused(rule, &plan(4, &[]), &inputs(rule, 0)[1..], 3, 40);
        list.with_plan(rule, &plan(5, &[]), 22);
        list.with_plan(rule, &plan(4, &[&[2, 3]]), 27);
    }
}

/// The operation in both blocks of an if, each in either order; its gates 4 and 5 joined where it is costly.
fn joined(list: &mut List, row: Operation) {
    let kinds = [Kind::Bit, row.takes, row.takes, row.gives];
    let of = |around| vec![set(3, either(row.code, around, var(1), var(2)))];
    let both = [false, true];
    let rules =
        both.map(|one| both.map(|other| rule(&kinds, vec![when(var(0), of(one), of(other))])));
    let rules = rules.concat();
    let pair = plan(7, &[&[4, 5]]);
    if row.cost > 0 {
        orders(list, &rules, &[plan(7, &[]), pair], row.lower_first);
    } else {
        orders(list, &rules, &[plan(7, &[])], row.lower_first);
        for rule in &rules {
            list.with_plan(rule, &pair, 27);
        }
    }
}

/// Places of `many`.
const PLACES: usize = 6;

/// The operation on v1 and v2 in a condition, in both blocks of its if, as an argument within an inner if, and
/// twice at the end, where v1 stands for a choice; in the places of the mask the other way round.
fn many(row: Operation, mask: usize) -> Vec<u8> {
    let at = |place: usize| either(row.code, mask >> place & 1 == 1, var(1), var(2));
    let bit = |value: Expression| match row.gives {
        Kind::Bit => not(value),
        Kind::Word => two(LESS, value, var(1)),
    };
    let with_v3 = |value: Expression| match row.gives {
        Kind::Bit => two(AND, value, var(3)),
        Kind::Word => two(SUM, value, var(3)),
    };
    let first = vec![
        set(3, at(1)),
        when(var(0), vec![set(3, with_v3(at(2)))], vec![]),
        set(1, var(2)),
    ];
    let block = vec![
        when(bit(at(0)), first, vec![set(3, at(3))]),
        set(0, bit(at(4))),
        set(3, with_v3(at(5))),
    ];
    rule(&[Kind::Bit, row.takes, row.takes, row.gives], block)
}

/// No place around, each alone, several, and all. Gates: 4 and 5 the condition, 6 in the first block, 7 and 8 in
/// the inner if, 10 in the second block; 17 in all.
fn everywhere(list: &mut List, row: Operation) {
    let mut masks: Vec<usize> = (0..PLACES).map(|place| 1 << place).collect();
    masks.extend([0, 0b01_1010, 0b10_0101, (1 << PLACES) - 1]);
    let rules: Vec<Vec<u8>> = masks.iter().map(|&mask| many(row, mask)).collect();
    let mut plans = vec![plan(17, &[])];
    if row.cost > 0 {
        plans.extend([plan(17, &[&[6, 10]]), plan(17, &[&[7, 10]])]);
    }
    orders(list, &rules, &plans, row.lower_first);
}

/// What makes one gate from v1 that is higher than every variable's.
fn higher(kind: Kind) -> Expression {
    match kind {
        Kind::Word => two(DIFFERENCE, var(1), var(0)),
        Kind::Bit => not(var(1)),
    }
}

/// Two constants that differ.
fn constants(kind: Kind) -> [Expression; 2] {
    match kind {
        Kind::Word => [word(7), word(5)],
        Kind::Bit => [Expression::Bit(true), Expression::Bit(false)],
    }
}

/// The lower gate decides, whatever is written there: an operation or a constant and a variable, and two
/// variables of which v0, assigned before, has the higher gate.
fn by_gate(list: &mut List, row: Operation) {
    let kinds = [row.takes, row.takes, row.gives];
    let written = |before: Block, first: Expression, second: Expression| {
        [false, true].map(|around| {
            let mut block = before.clone();
            block.push(set(
                2,
                either(row.code, around, first.clone(), second.clone()),
            ));
            rule(&kinds, block)
        })
    };
    let [constant, _] = constants(row.takes);
    let empty = [plan(5, &[])];
    for rules in [
        written(vec![], higher(row.takes), var(0)),
        written(vec![], constant, var(0)),
        written(vec![set(0, higher(row.takes))], var(0), var(1)),
    ] {
        orders(list, &rules, &empty, row.lower_first);
    }
}

/// Gates are made left to right as written: two constants, or two operations, are other gates the other
/// way round, whatever the operation.
fn left_to_right(list: &mut List, row: Operation) {
    let other = match row.takes {
        Kind::Word => two(SUM, var(1), var(0)),
        Kind::Bit => two(OR, var(1), var(0)),
    };
    let [seven, five] = constants(row.takes);
    for (first, second) in [(seven, five), (higher(row.takes), other)] {
        let rules = [false, true].map(|around| {
            let value = either(row.code, around, first.clone(), second.clone());
            rule(&[row.takes, row.takes, row.gives], vec![set(2, value)])
        });
        orders(list, &rules, &[plan(6, &[])], false);
    }
}

/// By gate and not by wire. Gate 6, joined with 10, waits for the comparison 9 and is written after gate 7:
/// where gates 6 and 7 are the arguments of gate 8, the lower gate has the higher wire. Gate 12 is its like in
/// the second block, from v2 and a choice; 16 gates in all.
fn by_wire(list: &mut List, row: Operation) {
    let (code, early) = match row.takes {
        Kind::Word => (PRODUCT, two(SUM, var(2), var(2))),
        Kind::Bit => (AND, not(var(2))),
    };
    let written = |one: bool, other: bool| {
        let first = vec![
            set(1, two(code, var(1), var(2))),
            set(2, early.clone()),
            set(3, either(row.code, one, var(1), var(2))),
        ];
        let product = vec![set(1, two(code, var(2), var(2)))];
        let second = vec![
            when(two(LESS, var(4), var(5)), product, vec![]),
            set(3, either(row.code, other, var(1), var(2))),
        ];
        let words = [Kind::Word; 2];
        let kinds = [&[Kind::Bit, row.takes, row.takes, row.gives], &words[..]].concat();
        rule(&kinds, vec![when(var(0), first, second)])
    };
    let both = [false, true];
    let rules = both.map(|one| both.map(|other| written(one, other)));
    let mut plans = vec![plan(16, &[]), plan(16, &[&[6, 10]])];
    if row.cost > 0 {
        plans.push(plan(16, &[&[6, 10], &[8, 12]]));
    }
    orders(list, &rules.concat(), &plans, row.lower_first);
}

/// A circle shows in whichever place the argument was written: chains of gates 2 to 4, stored over.
fn circles(list: &mut List) {
    for (code, kind) in [(PRODUCT, Kind::Word), (AND, Kind::Bit), (OR, Kind::Bit)] {
        for around in [false, true] {
            let mut block = vec![set(1, either(code, around, var(1), var(0))); 3];
            block.push(set(1, var(0)));
            let rule = rule(&[kind; 2], block);
            list.rule(&rule, &[0, 1]);
            for group in [&[2, 3][..], &[3, 4], &[2, 4], &[2, 3, 4]] {
                list.with_plan(&rule, &plan(5, &[group]), 30);
            }
        }
    }
}
