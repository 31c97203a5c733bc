//! Chains of joined groups: each loses its picks since the one before was joined; with one link alone the next has picks.

use super::super::parts::{rule, set, two, var, when};
use super::super::List;
use super::{bits, gates_of, ladder, plan_of, rests, Counted};
use crate::circuit::read_rule;
use crate::law::*;
use crate::rule::{Block, Statement};

pub fn add(list: &mut List) {
    for links in [1, 2, 3, 4, 7, 20, 60, 126] {
        squares(list, links);
    }
    for links in [1, 2, 5, 30] {
        for code in [PRODUCT, AND, OR] {
            with_other(list, code, links);
        }
    }
    for links in [1, 2, 4] {
        three_ends(list, links);
    }
    crossed(list);
    mixed(list);
}

/// A bit and another; in both blocks so many squares, each of the one before. Both places are equal, or neither is.
fn squares(list: &mut List, links: usize) {
    let chain = || vec![set(1, two(PRODUCT, var(1), var(1))); links];
    let made = rule(
        &[Kind::Bit, Kind::Word],
        vec![when(var(0), chain(), chain())],
    );
    let pairs: Vec<Vec<usize>> = (0..links).map(|k| vec![2 + k, 2 + links + k]).collect();
    assert_eq!(read_rule(&made).gates, 3 + 2 * links);
    list.rule(&made, &[0, 1]);
    let wanted = Counted::of_variables(2).choices(1).and(links, 5, 15);
    let joined = plan_of(&made, &pairs);
    let file = list.counts(&made, &joined, wanted);
    for bit in [0, 1] {
        let ended = (0..links).fold(3_u32, |figure, _| figure.wrapping_mul(figure));
        list.run_both(&made, &joined, &file, &[bit, 3], &[bit, ended]);
    }
    // One link alone: two records, and the next group has guards and two picks.
    let mut alone: Vec<usize> = vec![0, 1, links / 2, links - 1];
    alone.dedup();
    for link in alone.into_iter().filter(|&link| link < links) {
        let mut groups = pairs.clone();
        groups.remove(link);
        let inputs = Counted::of_variables(2).choices(1).and(2, 5, 15);
        let wanted = match links - link {
            1 => inputs.and(links - 1, 5, 15),
            _ => inputs
                .and(links - 2, 5, 15)
                .group(PRODUCT, 2, [1, 1].into_iter()),
        };
        let joined = plan_of(&made, &groups);
        list.counts(&made, &joined, wanted);
        list.fused_turns(&made, &joined, &[0, 1]);
    }
}

/// A bit and two arguments, of which one goes through the chain and the other stays: one place differs behind a link alone.
fn with_other(list: &mut List, code: u8, links: usize) {
    let row = operation(code).expect("an operation");
    let kinds = [Kind::Bit, row.takes, row.takes];
    // Written in two orders.
    let chain = |[one, other]: [usize; 2]| vec![set(1, two(code, var(one), var(other))); links];
    let made = rule(&kinds, vec![when(var(0), chain([1, 2]), chain([2, 1]))]);
    let pairs: Vec<Vec<usize>> = (0..links).map(|k| vec![3 + k, 3 + links + k]).collect();
    list.rule(&made, &[0, 1]);
    let inputs = Counted::of_variables(3).choices(1);
    let joined = plan_of(&made, &pairs);
    list.counts(&made, &joined, inputs.and(links, 5, row.cost));
    list.fused_turns(&made, &joined, &[0, 1, 2, 3]);
    for link in 0..links.min(4) {
        let mut groups = pairs.clone();
        groups.remove(link);
        let besides = inputs.and(2, 5, row.cost);
        let wanted = match links - link {
            1 => besides.and(links - 1, 5, row.cost),
            _ => besides
                .and(links - 2, 5, row.cost)
                .group(code, 1, [1, 1].into_iter()),
        };
        let joined = plan_of(&made, &groups);
        list.counts(&made, &joined, wanted);
        list.fused_turns(&made, &joined, &[0, 1]);
    }
}

/// Three ends: where one gate of a link stays alone, the next group has a pick between three wires of which two are the same.
fn three_ends(list: &mut List, links: usize) {
    let chain = || -> Block { vec![set(2, two(PRODUCT, var(2), var(3))); links] };
    let kinds = [Kind::Bit, Kind::Bit, Kind::Word, Kind::Word];
    let made = rule(&kinds, ladder(vec![chain(), chain(), chain()]));
    let threes: Vec<Vec<usize>> = (0..links)
        .map(|k| vec![4 + k, 4 + links + k, 4 + 2 * links + k])
        .collect();
    list.rule(&made, &[0, 1, 2, 3]);
    let inputs = Counted::of_variables(4).choices(2);
    let joined = plan_of(&made, &threes);
    let file = list.counts(&made, &joined, inputs.and(links, 5, 15));
    for setting in 0..4 {
        let inputs = [bits(setting, 2), vec![2, 3]].concat();
        let ended = [bits(setting, 2), vec![2 * 3_u32.pow(links as u32), 3]].concat();
        list.run_both(&made, &joined, &file, &inputs, &ended);
    }
    for link in 0..links {
        for member in 0..3 {
            let mut groups = threes.clone();
            groups[link].remove(member);
            // The pair and the gate alone have equal wires still, or the link before was all joined.
            let alone = inputs.and(2, 5, 15);
            let wanted = match links - link {
                1 => alone.and(links - 1, 5, 15),
                _ => alone.and(links - 2, 5, 15).group(PRODUCT, 1, rests(3)),
            };
            let joined = plan_of(&made, &groups);
            list.counts(&made, &joined, wanted);
            list.fused_turns(&made, &joined, &[0, 1, 2, 3]);
        }
    }
}

/// Chains joined one step behind, and crosswise, which is a circle as before.
fn crossed(list: &mut List) {
    for links in [2, 3, 5] {
        let chain = || vec![set(1, two(PRODUCT, var(1), var(1))); links];
        let made = rule(
            &[Kind::Bit, Kind::Word],
            vec![when(var(0), chain(), chain())],
        );
        let behind: Vec<Vec<usize>> = (1..links).map(|k| vec![2 + k, 1 + links + k]).collect();
        let joined = plan_of(&made, &behind);
        // Only the first of them has picks: its arguments are the first link and the start.
        let wanted = Counted::of_variables(2).choices(1).and(links, 5, 15).group(
            PRODUCT,
            2,
            [1, 1].into_iter(),
        );
        list.counts(&made, &joined, wanted);
        list.fused_turns(&made, &joined, &[0, 1]);
        let across: Vec<Vec<usize>> = (0..links).map(|k| vec![2 + k, 1 + 2 * links - k]).collect();
        list.with_plan(&made, &plan_of(&made, &across), 30);
    }
}

/// A product, a comparison of it, an and and an or of that, all joined: none has a pick. With any one left out the next has
/// one; the last two are a chain of their own.
fn mixed(list: &mut List) {
    let kinds = [Kind::Bit, Kind::Word, Kind::Word, Kind::Bit, Kind::Bit];
    let steps = || -> Vec<Statement> {
        vec![
            set(1, two(PRODUCT, var(1), var(2))),
            set(3, two(LESS, var(1), var(2))),
            set(3, two(AND, var(3), var(4))),
            set(3, two(OR, var(3), var(4))),
            set(3, two(EQUAL, var(1), var(2))),
        ]
    };
    let made = rule(&kinds, vec![when(var(0), steps(), steps())]);
    list.rule(&made, &[0, 1, 2, 3]);
    let codes = [PRODUCT, LESS, AND, OR, EQUAL];
    let all: Vec<Vec<usize>> = codes.iter().map(|&code| gates_of(&made, code)).collect();
    // The first block's value of v3 is the equal's; what was before it is needed by nothing and excludes all.
    let inputs = Counted::of_variables(5).choices(2);
    let each =
        |besides: Counted, code: u8| besides.and(1, 5, operation(code).expect("an operation").cost);
    let joined = plan_of(&made, &all);
    list.counts(&made, &joined, codes.into_iter().fold(inputs, each));
    list.fused_turns(&made, &joined, &[0, 1, 2, 3]);
    for left_out in 0..codes.len() {
        let mut groups = all.clone();
        groups.remove(left_out);
        let joined = plan_of(&made, &groups);
        list.fused_turns(&made, &joined, &[0, 1, 2, 3, 7]);
        // What the one left out gives is read by one group more, the product by two.
        let readers: &[u8] = match codes[left_out] {
            PRODUCT => &[LESS, EQUAL],
            LESS => &[AND],
            AND => &[OR],
            _ => &[],
        };
        let mut wanted = inputs;
        for code in codes {
            let rests = if code == EQUAL { 1 } else { 0 };
            wanted = match (code == codes[left_out], readers.contains(&code)) {
                (true, _) => each(each(wanted, code), code),
                (_, true) => wanted.group(code, 1, [rests, rests].into_iter()),
                _ => each(wanted, code),
            };
        }
        list.counts(&made, &joined, wanted);
    }
}
