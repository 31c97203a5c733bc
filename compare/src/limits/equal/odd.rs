//! Groups of many members, all but one with equal wires: the odd one is the first member, the second, one in the middle and the
//! last, at the first place, at the second and with both arguments turned. One odd wire leaves a pick with a pair for each member.

use super::super::parts::{rule, set, two, var, when};
use super::super::List;
use super::{gates_of, plan_of, Counted};
use crate::law::*;
use crate::rule::Block;

pub fn add(list: &mut List) {
    for code in [PRODUCT, LESS, AND] {
        stored_over(list, code);
    }
    for code in [LESS, EQUAL, OR] {
        no_result(list, code);
    }
    for code in [PRODUCT, LESS, AND] {
        twenty(list, code);
    }
}

fn row_of(code: u8) -> Operation {
    operation(code).expect("an operation")
}

/// The members whose turn it is to be the odd one.
fn places(members: usize) -> [usize; 4] {
    [0, 1, members / 2, members - 1]
}

/// The arguments of the odd one, and how many picks they leave, where all others have v0 and v1: at the first place, at the
/// second, turned; and like the others.
fn odd_ones(row: Operation) -> [([usize; 2], usize); 4] {
    let turned = if row.lower_first { 0 } else { 2 };
    [([1, 1], 1), ([0, 0], 1), ([1, 0], turned), ([0, 1], 0)]
}

/// Two arguments and the result of as many gates as there are, 253, each stored over by the next: only the last is needed.
fn stored_over(list: &mut List, code: u8) {
    let row = row_of(code);
    let members = GATES_MAX - 3;
    for ([first, second], picks) in odd_ones(row) {
        for odd in places(members) {
            if [first, second] == [0, 1] && odd > 0 {
                continue;
            }
            let of = |member: usize| {
                if member == odd {
                    [first, second]
                } else {
                    [0, 1]
                }
            };
            let statement = |member: usize| {
                let [one, other] = of(member).map(var);
                set(2, two(code, one, other))
            };
            let made = rule(
                &[row.takes, row.takes, row.gives],
                (0..members).map(statement).collect(),
            );
            let joined = plan_of(&made, &[gates_of(&made, code)]);
            // Guards over no condition: 1 for the last, else 0.
            let wanted =
                Counted::of_variables(3).group(code, picks, std::iter::repeat_n(0, members));
            let file = list.counts(&made, &joined, wanted);
            let pairs: [[u32; 2]; 2] = match row.takes {
                Kind::Word => [[3, 5], [65_537, 2]],
                Kind::Bit => [[0, 1], [1, 0]],
            };
            for inputs in pairs {
                let [one, other] = of(members - 1).map(|place| inputs[place]);
                let inputs = [inputs[0], inputs[1], 0];
                let ended = [inputs[0], inputs[1], work_out(code, one, other)];
                match odd + 1 == members {
                    true => list.run_both(&made, &joined, &file, &inputs, &ended),
                    false => list.run_fused(&made, &joined, &inputs, &ended),
                }
            }
        }
    }
}

/// The same with 254 members, which are ifs with nothing in them: nothing needs any.
fn no_result(list: &mut List, code: u8) {
    let row = row_of(code);
    let members = GATES_MAX - 2;
    for ([first, second], picks) in odd_ones(row) {
        for odd in places(members) {
            if [first, second] == [0, 1] && odd > 0 {
                continue;
            }
            let statement = |member: usize| {
                let arguments = if member == odd {
                    [first, second]
                } else {
                    [0, 1]
                };
                let [one, other] = arguments.map(var);
                when(two(code, one, other), vec![], vec![])
            };
            let made = rule(&[row.takes; 2], (0..members).map(statement).collect());
            let joined = plan_of(&made, &[gates_of(&made, code)]);
            let wanted =
                Counted::of_variables(2).group(code, picks, std::iter::repeat_n(0, members));
            list.counts(&made, &joined, wanted);
            list.run_fused(&made, &joined, &[1, 0], &[1, 0]);
        }
    }
}

/// Bits on which the ifs of a tree of twenty ends are, one for each depth.
const DEPTH: usize = 5;
const ENDS: usize = 20;

/// A tree of ifs over these ends, halved again and again, the first half in the first block.
fn tree(depth: usize, mut ends: Vec<Block>) -> Block {
    let second = ends.split_off(ends.len() / 2);
    let below = |ends: Vec<Block>| match ends.len() {
        1 => ends.into_iter().next().expect("an end"),
        _ => tree(depth + 1, ends),
    };
    vec![when(var(depth), below(ends), below(second))]
}

/// How many conditions each end rests on.
fn depths(ends: usize) -> Vec<usize> {
    match ends {
        1 => vec![0],
        _ => {
            let halves = [ends / 2, ends - ends / 2].map(depths).concat();
            halves.into_iter().map(|depth| depth + 1).collect()
        }
    }
}

/// The end that these bits come to.
fn end_of(inputs: &[u32]) -> usize {
    let (mut begins, mut ends, mut depth) = (0, ENDS, 0);
    while ends > 1 {
        let first = ends / 2;
        if inputs[depth] == 1 {
            ends = first;
        } else {
            begins += first;
            ends -= first;
        }
        depth += 1;
    }
    begins
}

/// Twenty ends that exclude each other, on v6 and v7 but for one: run to the odd one, to its neighbours and to one far off; where
/// none is odd, and where the one in the middle is, under every setting of the bits.
fn twenty(list: &mut List, code: u8) {
    let row = row_of(code);
    let turned = if row.lower_first { 0 } else { 2 };
    let result = DEPTH + 4;
    let mut kinds = vec![Kind::Bit; DEPTH];
    kinds.resize(result, row.takes);
    kinds.push(row.gives);
    for (other, picks) in [
        ([5, 7], 1),
        ([6, 8], 1),
        ([5, 8], 2),
        ([7, 6], turned),
        ([6, 7], 0),
    ] {
        for odd in places(ENDS) {
            if other == [6, 7] && odd > 0 {
                continue;
            }
            let of = |end: usize| if end == odd { other } else { [6, 7] };
            let end = |end: usize| -> Block {
                let [first, second] = of(end).map(var);
                vec![set(result, two(code, first, second))]
            };
            let made = rule(&kinds, tree(0, (0..ENDS).map(end).collect()));
            let group = gates_of(&made, code);
            assert_eq!(group.len(), ENDS);
            let joined = plan_of(&made, &[group]);
            let wanted = Counted::of_variables(kinds.len())
                .group(code, picks, depths(ENDS).into_iter())
                .choices(ENDS - 1);
            let file = list.counts(&made, &joined, wanted);
            let every = other == [6, 7] || odd == ENDS / 2;
            for setting in 0..1_u32 << DEPTH {
                let bits: Vec<u32> = (0..DEPTH).map(|t| setting >> t & 1).collect();
                let reached = end_of(&bits);
                if !every && reached != 7 && reached.abs_diff(odd) > 1 {
                    continue;
                }
                let pool: [u32; 4] = match row.takes {
                    Kind::Word => [11, 3, 7, 2],
                    Kind::Bit => [0, 1, 1, 0],
                };
                let inputs = [bits, pool.to_vec(), vec![1]].concat();
                let [first, second] = of(reached).map(|place| inputs[place]);
                let mut ended = inputs.clone();
                ended[result] = work_out(code, first, second);
                match reached == odd {
                    true => list.run_both(&made, &joined, &file, &inputs, &ended),
                    false => list.run_fused(&made, &joined, &inputs, &ended),
                }
            }
        }
    }
}
