//! Conditions that were joined, in a group without guards, and guards of other groups that read their one wire: once, or, where a
//! member rests on both, twice and three times.

use super::super::parts::{bytes_with_kinds, rule, set, two, var, when};
use super::super::List;
use super::{gates_of, plan_of, Counted};
use crate::circuit_file::accept;
use crate::law::*;
use crate::rule::{Block, Expression};

pub fn add(list: &mut List) {
    read_once(list);
    one_condition(list);
    read_twice(list);
    read_thrice(list);
}

/// The wires that each guard of a file names.
fn guards(file: &[u8]) -> Vec<Vec<usize>> {
    let accepted = accept(file).expect("an accepted file");
    let guards = accepted.parts.iter().filter(|part| part[0] == GUARD);
    let wires = |part: &&[u8]| {
        let named = &part[2..2 + 2 * usize::from(part[1])];
        let wires = named.chunks(2);
        wires
            .map(|wire| usize::from(wire[0]) * 256 + usize::from(wire[1]))
            .collect()
    };
    guards.map(wires).collect()
}

/// Words and bits on which a condition of an operation is 0 and 1.
fn told(row: Operation) -> [[u32; 2]; 2] {
    match row.code {
        LESS => [[7, 3], [3, 7]],
        EQUAL => [[7, 3], [7, 7]],
        AND => [[1, 0], [1, 1]],
        _ => [[0, 0], [1, 0]],
    }
}

/// A bit, the two that the condition is of, two words and the result: in both blocks an if on the same condition, each with a
/// product in both of its blocks. The two conditions are joined and have no guards; the products' guards read the bit and their
/// one wire.
fn read_once(list: &mut List) {
    for code in [LESS, EQUAL, AND, OR] {
        let row = operation(code).expect("an operation");
        let kinds = [
            Kind::Bit,
            row.takes,
            row.takes,
            Kind::Word,
            Kind::Word,
            Kind::Word,
        ];
        for turned in [false, true] {
            // Of less the turned ones have two wires, and picks: then all have guards.
            let picks = if turned && !row.lower_first { 2 } else { 0 };
            let product =
                |one: usize, other: usize| vec![set(5, two(PRODUCT, var(one), var(other)))];
            let condition = |turned: bool| match turned {
                true => two(code, var(2), var(1)),
                false => two(code, var(1), var(2)),
            };
            let made = rule(
                &kinds,
                vec![when(
                    var(0),
                    vec![when(condition(false), product(3, 3), product(3, 4))],
                    vec![when(condition(turned), product(4, 4), product(3, 4))],
                )],
            );
            let [conditions, products] = [code, PRODUCT].map(|code| gates_of(&made, code));
            let besides =
                Counted::of_variables(6)
                    .choices(3)
                    .group(code, picks, [1, 1].into_iter());
            let wire = if picks == 0 { 6 } else { 10 };
            list.rule(&made, &[]);
            for (members, product_picks) in [
                (vec![0, 1, 2, 3], 2),
                (vec![0, 2], 2),
                (vec![1, 3], 0),
                (vec![0, 1], 1),
                (vec![2, 3], 1),
            ] {
                let group: Vec<usize> = members.iter().map(|&k| products[k]).collect();
                let size = group.len();
                let joined = plan_of(&made, &[conditions.clone(), group]);
                let wanted = besides.and(4 - size, 5, 15).group(
                    PRODUCT,
                    product_picks,
                    std::iter::repeat_n(2, size),
                );
                let file = list.counts(&made, &joined, wanted);
                let of_products = guards(&file).into_iter().filter(|wires| wires.len() == 2);
                let of_products: Vec<Vec<usize>> = of_products.collect();
                if product_picks == 0 {
                    assert!(of_products.is_empty());
                } else {
                    assert_eq!(of_products, vec![vec![0, wire]; size]);
                }
                for bit in [0, 1] {
                    for [one, other] in told(row) {
                        let held = match (bit, turned) {
                            (0, true) => work_out(code, other, one),
                            _ => work_out(code, one, other),
                        };
                        let figure = match (bit, held) {
                            (_, 0) => 55,
                            (1, _) => 25,
                            _ => 121,
                        };
                        let inputs = [bit, one, other, 5, 11, 1];
                        let ended = [bit, one, other, 5, 11, figure];
                        list.run_both(&made, &joined, &file, &inputs, &ended);
                    }
                }
            }
        }
    }
}

/// The same where only one member of the group without guards is a condition: the other's wire is a result.
fn one_condition(list: &mut List) {
    for code in [LESS, AND] {
        let row = operation(code).expect("an operation");
        let kinds = [
            Kind::Bit,
            row.takes,
            row.takes,
            Kind::Word,
            Kind::Word,
            Kind::Bit,
        ];
        let less = || two(code, var(1), var(2));
        let product = |one: usize, other: usize| vec![set(3, two(PRODUCT, var(one), var(other)))];
        for is_first in [true, false] {
            let inner = vec![when(less(), product(3, 3), product(3, 4))];
            let other: Block = vec![set(5, less())];
            let blocks = if is_first {
                [inner, other]
            } else {
                [other, inner]
            };
            let [first, second] = blocks;
            let made = rule(&kinds, vec![when(var(0), first, second)]);
            let groups = [code, PRODUCT].map(|code| gates_of(&made, code));
            let joined = plan_of(&made, &groups);
            let wanted = Counted::of_variables(6)
                .group(code, 0, [1, 1].into_iter())
                .group(PRODUCT, 1, [2, 2].into_iter())
                .choices(3);
            let file = list.counts(&made, &joined, wanted);
            assert_eq!(guards(&file), [[0, 6], [0, 6]]);
            for bit in [0, 1] {
                for [one, other] in told(row) {
                    let held = work_out(code, one, other);
                    let is_inner = (bit == 1) == is_first;
                    let (figure, last) = match (is_inner, held) {
                        (false, _) => (5, held),
                        (true, 0) => (55, 1),
                        (true, _) => (25, 1),
                    };
                    let inputs = [bit, one, other, 5, 11, 1];
                    let ended = [bit, one, other, figure, 11, last];
                    list.run_both(&made, &joined, &file, &inputs, &ended);
                }
            }
        }
    }
}

/// A bit, four words and the working words v5 := v1 x v1 and v6 := v2 x v2: in the first block an if on v1 < v2 gives v5 or v6 to
/// v3, in the second the same if gives v6 or v5 to v4, or to v3. Gates 7 and 8 are the products, 9 and 11 the comparisons. Both
/// products rest on the bit, on 9 and on 11; joined, these have one wire, so a guard names wire 7 twice.
fn read_twice(list: &mut List) {
    let product = |one: usize, other: usize| two(PRODUCT, var(one), var(other));
    let kinds = [0x01, 0x00, 0x00, 0x00, 0x00, 0x02, 0x02];
    for result in [4, 3] {
        for (second, picks) in [(product(2, 2), 2), (product(1, 2), 1), (product(1, 1), 0)] {
            let figures = |one: u32, other: u32| match picks {
                2 => other * other,
                1 => one * other,
                _ => one * one,
            };
            let less = || two(LESS, var(1), var(2));
            let give = |to: usize, value: usize| vec![set(to, var(value))];
            let made = bytes_with_kinds(
                &kinds,
                vec![
                    set(5, product(1, 1)),
                    set(6, second),
                    when(
                        var(0),
                        vec![when(less(), give(3, 5), give(3, 6))],
                        vec![when(less(), give(result, 6), give(result, 5))],
                    ),
                ],
            );
            assert_eq!(gates_of(&made, PRODUCT), [7, 8]);
            assert_eq!(gates_of(&made, LESS), [9, 11]);
            list.rule(&made, &[]);
            let choices = if result == 4 { 4 } else { 3 };
            let besides = Counted::of_variables(7).choices(choices);
            let all = besides.group(PRODUCT, picks, [3, 3].into_iter()).group(
                LESS,
                0,
                [1, 1].into_iter(),
            );
            let apart = besides
                .group(PRODUCT, picks, [3, 3].into_iter())
                .and(2, 5, 40);
            let comparisons = besides.and(2, 5, 15).and(1, 5, 40);
            for (groups, wanted, wires) in [
                (vec![vec![7, 8], vec![9, 11]], all, [0, 7, 7]),
                (vec![vec![7, 8]], apart, [0, 7, 8]),
                (vec![vec![9, 11]], comparisons, [0; 3]),
            ] {
                let is_joined = groups[0][0] == 7;
                let joined = plan_of(&made, &groups);
                let file = list.counts(&made, &joined, wanted);
                if is_joined && picks > 0 {
                    assert_eq!(guards(&file), [wires, wires]);
                    let written = if groups.len() == 1 { 5 } else { 0 };
                    if [result, picks] == [4, 2] {
                        assert_eq!(file.len(), 174 + written);
                    }
                }
                for bit in [0, 1] {
                    for [one, other] in [[3, 7], [7, 3], [5, 5]] {
                        list.direct(&made, &[bit, one, other, 1, 2, 0, 0], 7, 0);
                        // v5 where the bit is 1 and so is the comparison, or neither.
                        let figure = match (bit == 1) == (one < other) {
                            true => one * one,
                            false => figures(one, other),
                        };
                        let inputs = [bit, one, other, 1, 2, 9, 9];
                        let mut ended = [bit, one, other, 1, 2, 0, 0];
                        ended[if bit == 1 { 3 } else { result }] = figure;
                        list.run_both(&made, &joined, &file, &inputs, &ended);
                    }
                }
                if is_joined && groups.len() == 2 {
                    for wire in 0..wanted.wires {
                        list.record(&file, wire, 0);
                    }
                }
            }
        }
    }
}

/// Three ends over two bits, with the comparison in each: in the first and the last v5 goes to v3 where it is 1, in the middle
/// one where it is 0. A guard over both bits names the one wire of the three comparisons three times; with two of them joined
/// twice.
fn read_thrice(list: &mut List) {
    let kinds = [0x01, 0x01, 0x00, 0x00, 0x00, 0x02, 0x02];
    let product = |one: usize| set(5 + one, two(PRODUCT, var(2 + one), var(2 + one)));
    let less = || -> Expression { two(LESS, var(2), var(3)) };
    let give = |value: usize| vec![set(4, var(value))];
    let end = |values: [usize; 2]| vec![when(less(), give(values[0]), give(values[1]))];
    let ends = vec![end([5, 6]), end([6, 5]), end([5, 6])];
    let mut block = vec![product(0), product(1)];
    block.extend(super::ladder(ends));
    let made = bytes_with_kinds(&kinds, block);
    let [products, comparisons] = [PRODUCT, LESS].map(|code| gates_of(&made, code));
    assert_eq!((products.len(), comparisons.len()), (2, 3));
    list.rule(&made, &[]);
    let besides = Counted::of_variables(7)
        .choices(5)
        .group(PRODUCT, 2, [5, 5].into_iter());
    for (members, wires) in [
        (vec![0, 1, 2], [0, 1, 7, 7, 7]),
        (vec![0, 1], [0, 1, 7, 7, 8]),
        (vec![0, 2], [0, 1, 7, 8, 7]),
        (vec![1, 2], [0, 1, 7, 8, 8]),
    ] {
        let group: Vec<usize> = members.iter().map(|&k| comparisons[k]).collect();
        let joined = plan_of(&made, &[products.clone(), group]);
        let file = list.counts(&made, &joined, besides.and(4 - members.len(), 5, 40));
        assert_eq!(guards(&file), [wires, wires]);
        for setting in 0..4 {
            for [one, other] in [[3, 7], [7, 3]] {
                let bits = super::bits(setting, 2);
                let is_middle = super::reached(setting, 3) == 1;
                let figure = match (one < other) != is_middle {
                    true => one * one,
                    false => other * other,
                };
                let inputs = [&bits[..], &[one, other, 1, 8, 8]].concat();
                let ended = [&bits[..], &[one, other, figure, 0, 0]].concat();
                list.run_both(&made, &joined, &file, &inputs, &ended);
            }
        }
    }
}
