//! Rules whose variables work, all or some: what runs write for them, and what is needed through them.

use super::super::parts::{not, rule, set, two, var, when, word};
use super::super::reading::{conditions, gates};
use super::super::{plan, List};
use super::Subject;
use crate::examples::{P1, R1};
use crate::law::*;
use crate::rule::{Block, Expression};

pub fn add(list: &mut List) {
    one_variable(list);
    many_variables(list);
    with_an_if(list);
    a_bit(list);
    a_word(list);
    only_assigned(list);
    read_later(list);
    stands_for_both(list);
    limits(list);
}

/// One variable, which works, untouched and assigned.
fn one_variable(list: &mut List) {
    let kinds = [Kind::Word];
    for (block, gates, figure) in [
        (vec![], 1, 5),
        (vec![set(0, two(PRODUCT, var(0), var(0)))], 2, 25),
        (vec![set(0, word(7))], 2, 7),
    ] {
        let subject = Subject::new(rule(&kinds, block), &[(&[5], &[figure]), (&[5], &[figure])]);
        for subject in [subject.all_working(), subject] {
            list.taken(&subject);
            list.taken_with(&subject, &plan(gates, &[]));
        }
    }
    for (block, gates, figures) in [
        (vec![], 1, [0, 1]),
        (vec![set(0, not(var(0)))], 2, [1, 0]),
        (vec![when(var(0), vec![set(0, var(0))], vec![])], 2, [0, 1]),
    ] {
        let runs: [(&[u32], &[u32]); 2] = [(&[0], &figures[..1]), (&[1], &figures[1..])];
        let subject = Subject::new(rule(&[Kind::Bit], block), &runs);
        for subject in [subject.all_working(), subject] {
            let empty = plan(gates, &[]);
            list.taken(&subject);
            list.taken_with(&subject, &empty);
            list.runs(&subject.rule, &empty, &[2], 1, 41);
            list.runs(&subject.rule, &empty, &[1], 0, 42);
            list.runs(&subject.rule, &empty, &[], 1, 40);
        }
    }
}

/// 32 variables, each put to a costly operation of its own: all of these joined, if all variables work.
fn many_variables(list: &mut List) {
    for (kind, code, figure) in [(Kind::Word, PRODUCT, 9), (Kind::Bit, AND, 1)] {
        let own = |variable| set(variable, two(code, var(variable), var(variable)));
        let rule = rule(&[kind; 32], (0..32).map(own).collect());
        let input = if kind == Kind::Word { 3 } else { 1 };
        let subject = Subject::new(rule, &[(&[input; 32], &[figure; 32])]);
        let all: Vec<usize> = (32..64).collect();
        let joined = plan(64, &[&all]);
        list.with_plan(&subject.rule, &joined, 29);
        // Two of them that do not work do not exclude each other; a single one excludes all that work.
        for (mask, wanted) in [(!0b11, 29), (0x3FFF_FFFF, 29), (!0b10, 0), (0x7FFF_FFFF, 0)] {
            let some = subject.working(mask);
            list.taken(&some);
            match wanted {
                0 => list.taken_with(&some, &joined),
                _ => list.with_plan(&some.rule, &joined, wanted),
            }
        }
        let none = subject.all_working();
        list.taken(&none);
        list.taken_with(&none, &plan(64, &[]));
        list.taken_with(&none, &joined);
        list.runs(&none.rule, &joined, &[input; 31], 32, 40);
        list.runs(&none.rule, &joined, &[input; 32], 31, 42);
    }
}

/// R1 with every set of working variables. Where v1 works nothing needs the products: their guards have no wire.
fn with_an_if(list: &mut List) {
    let subject = Subject::new(
        R1.to_vec(),
        &[(&[1, 6, 7], &[1, 42, 7]), (&[0, 6, 7], &[0, 49, 7])],
    );
    for mask in 0..8 {
        let subject = subject.working(mask);
        // In version 1; in version 2 there are 48 more.
        let bytes = if mask & 0b010 == 0 { 76 } else { 72 };
        list.taken(&subject);
        list.taken_with(&subject, &plan(6, &[]));
        list.taken_with(&subject, &P1);
        for (room, wanted) in [(bytes, 0), (bytes - 1, 50), (bytes + 1, 0), (0, 50)] {
            list.write(&subject.rule, &P1, room, wanted);
        }
        for (inputs, room, wanted) in [
            (&[2, 6, 7][..], 3, 41),
            (&[1, 6, 7], 2, 42),
            (&[1, 6], 3, 40),
            (&[1, 6, 7, 8], 4, 40),
            (&[2, 6, 7], 2, 41),
        ] {
            list.runs(&subject.rule, &P1, inputs, room, wanted);
        }
        list.with_plan(&subject.rule, &plan(6, &[&[3, 5]]), 27);
        list.with_plan(&subject.rule, &plan(5, &[&[3, 4]]), 22);
    }
}

/// A working bit that an if goes by, and one that is assigned.
fn a_bit(list: &mut List) {
    let block = vec![
        when(var(0), vec![set(1, two(SUM, var(1), word(1)))], vec![]),
        set(0, not(var(0))),
    ];
    let runs: [(&[u32], &[u32]); 2] = [(&[0, 5], &[1, 5]), (&[1, 5], &[0, 6])];
    let subject = Subject::new(rule(&[Kind::Bit, Kind::Word], block), &runs);
    for mask in 0..4 {
        let subject = subject.working(mask);
        let empty = plan(6, &[]);
        list.taken(&subject);
        list.taken_with(&subject, &empty);
        for figure in [2, 3, 256, u32::MAX] {
            list.runs(&subject.rule, &empty, &[figure, 5], 2, 41);
            list.runs(&subject.rule, &empty, &[figure, 5], 1, 41);
        }
    }
}

/// A working word: its figures are kept from statement to statement, and 0 is written at the end.
fn a_word(list: &mut List) {
    let sum = || two(SUM, var(0), var(1));
    let block = vec![
        set(0, two(SUM, var(0), var(0))),
        set(1, var(0)),
        set(0, sum()),
        set(1, sum()),
        set(0, word(u32::MAX)),
    ];
    let runs: [(&[u32], &[u32]); 2] = [
        (&[3, 9], &[u32::MAX, 18]),
        (&[1 << 31, u32::MAX], &[u32::MAX, 0]),
    ];
    let subject = Subject::new(rule(&[Kind::Word; 2], block), &runs);
    for mask in 0..4 {
        let subject = subject.working(mask);
        list.taken(&subject);
        list.taken_with(&subject, &plan(6, &[]));
    }
}

/// Ifs whose only assignment is to v0, on a bit and on a comparison; the condition is one, needed or not.
fn only_assigned(list: &mut List) {
    let products = |condition: Expression| -> Block {
        let first = vec![set(0, two(PRODUCT, var(1), var(1)))];
        let second = vec![set(0, two(PRODUCT, var(2), var(2)))];
        vec![when(condition, first, second)]
    };
    let kinds = [Kind::Word, Kind::Word, Kind::Word, Kind::Bit];
    let inputs: [&[u32]; 2] = [&[1, 3, 5, 0], &[1, 5, 3, 1]];
    for (condition, gates, pair, figures) in [
        (var(3), 7, [4, 5], [25, 25]),
        (two(LESS, var(1), var(2)), 8, [5, 6], [9, 9]),
    ] {
        let runs = [
            (inputs[0], &[figures[0], 3, 5, 0][..]),
            (inputs[1], &[figures[1], 5, 3, 1]),
        ];
        let subject = Subject::new(rule(&kinds, products(condition)), &runs);
        for mask in 0..16 {
            let subject = subject.working(mask);
            list.taken(&subject);
            list.taken_with(&subject, &plan(gates, &[]));
            list.taken_with(&subject, &plan(gates, &[&pair]));
        }
    }
}

/// Working variables that a result reads: in an expression, in a condition, in a block. What they hold is needed
/// through it, so that their products, 3 and 4, do not exclude each other.
fn read_later(list: &mut List) {
    let products = || {
        let square = |variable| set(variable, two(PRODUCT, var(variable), var(variable)));
        vec![square(0), square(1)]
    };
    let sum = vec![set(2, two(SUM, var(0), var(1)))];
    let less = two(LESS, var(0), var(1));
    let choice = vec![when(less, vec![set(2, word(1))], vec![])];
    for (more, gates, figures, apart) in [
        (vec![], 5, [7, 7], 0),
        (vec![set(2, var(1))], 5, [16, 9], 0),
        (sum, 6, [25, 25], 29),
        (choice, 8, [1, 7], 29),
    ] {
        let block = [products(), more].concat();
        let runs: [(&[u32], &[u32]); 2] = [
            (&[3, 4, 7], &[9, 16, figures[0]]),
            (&[4, 3, 7], &[16, 9, figures[1]]),
        ];
        let subject = Subject::new(rule(&[Kind::Word; 3], block), &runs);
        let pair = plan(gates, &[&[3, 4]]);
        list.with_plan(&subject.rule, &pair, 29);
        for (mask, wanted) in [(0b011, apart), (0b111, 0), (0b100, 29)] {
            let subject = subject.working(mask);
            list.taken(&subject);
            list.taken_with(&subject, &plan(gates, &[]));
            match wanted {
                0 => list.taken_with(&subject, &pair),
                _ => list.with_plan(&subject.rule, &pair, wanted),
            }
        }
    }
}

/// v0 and v1 end with the same gate, of which one works: the gate is the other's output.
fn stands_for_both(list: &mut List) {
    let block = vec![set(0, two(PRODUCT, var(0), var(1))), set(1, var(0))];
    let runs: [(&[u32], &[u32]); 1] = [(&[6, 7], &[42, 42])];
    let subject = Subject::new(rule(&[Kind::Word; 2], block), &runs);
    for mask in 0..4 {
        let subject = subject.working(mask);
        list.taken(&subject);
        list.taken_with(&subject, &plan(3, &[]));
    }
}

/// Gates and conditions are counted whether anything needs them or not.
fn limits(list: &mut List) {
    let working = |mut rule: Vec<u8>, kind_byte: u8| {
        rule[RULE_BYTES_MIN] = kind_byte;
        rule
    };
    for (rule, gates) in [
        (working(gates(256), 0x02), 256),
        (working(conditions(6), 0x03), 13),
    ] {
        let subject = Subject::new(rule, &[(&[1], &[0]), (&[0], &[0])]);
        list.taken(&subject);
        list.taken_with(&subject, &plan(gates, &[]));
    }
    let rule = working(gates(257), 0x02);
    list.refused_at(&rule, 10, rule.len());
    // It was 11 before C-17.
    list.no_longer_refused(&working(conditions(7), 0x03), &plan(5, &[]));
}
