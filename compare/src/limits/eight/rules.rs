//! Conditions six to nine and ifs nested six to nine deep: which rules are accepted, and where the others are refused.

use super::super::parts::{not, rule, set, two, var, when, word};
use super::super::reading::{conditions, gates, nested};
use super::super::{plan, List};
use super::{bits, kinds};
use crate::circuit::read_rule;
use crate::examples::{P1, R1};
use crate::good::good_bytes;
use crate::law::*;
use crate::rule::{Block, Expression, Statement};

pub fn add(list: &mut List) {
    examples(list);
    example_10(list);
    nested_anywhere(list);
    nested_and_other_rows(list);
    deep_conditions(list);
    counted(list);
    working(list);
    figures(list);
}

fn examples(list: &mut List) {
    list.rule(&R1, &[0, 1]);
    let rooms = [
        (124, 0),
        (123, 50),
        (125, 0),
        (100, 50),
        (CIRCUIT_BYTES_MAX, 0),
    ];
    for (room, wanted) in rooms {
        list.write(&R1, &P1, room, wanted);
    }
    list.rule(&good_bytes(), &[0, 1, 2, 3]);
}

/// Eight conditions accepted, nine 11; ifs eight deep accepted, nine 8.
fn example_10(list: &mut List) {
    for accepted in [6, 7, 8]
        .map(conditions)
        .into_iter()
        .chain([6, 7, 8].map(nested))
    {
        list.rule(&accepted, &[0, 1]);
        let gates = read_rule(&accepted).gates;
        list.accepted(&accepted, &plan(gates, &[]), &[0, 1]);
        list.with_plan(&accepted, &P1, 22);
    }
    for count in [9, 10, 11, 16, 17] {
        let refused = conditions(count);
        list.refused_there(&refused, 11, refused.len());
    }
    // Seven bytes before the first if, four an if.
    for depth in [9, 10, 12, 17] {
        list.refused_there(&nested(depth), 8, 7 + 4 * 8);
    }
}

/// Ifs on v0 so deep; bit t of `second` says whether the if t deep stands in the second block of the one around it.
fn nested_by(depth: usize, second: usize) -> Vec<u8> {
    let mut block: Block = vec![set(0, not(var(0)))];
    for level in (0..depth).rev() {
        block = match second >> (level + 1) & 1 {
            1 => vec![when(var(0), vec![], block)],
            _ => vec![when(var(0), block, vec![])],
        };
    }
    rule(&[Kind::Bit], block)
}

/// In first blocks, in second ones, and in turns.
fn nested_anywhere(list: &mut List) {
    for second in [0, 0b1_1111_1110, 0b1_0101_0100, 0b1010_1010, 0b1_0000_0000] {
        for depth in [6, 7, 8] {
            list.rule(&nested_by(depth, second), &[0, 1]);
        }
        // Three bytes an if, and one more for each empty first block before the ninth code.
        let before = (1..=8).filter(|level| second >> level & 1 == 1).count();
        for depth in [9, 10] {
            let refused = nested_by(depth, second);
            list.refused_there(&refused, 8, 7 + 3 * 8 + before);
        }
    }
}

/// Statements in one if after the other, eight deep and again: only the ninth that is open at once is refused.
fn nested_and_other_rows(list: &mut List) {
    let deep = |depth: usize, inner: Block| {
        (0..depth).fold(inner, |block, _| vec![when(var(0), block, vec![])])
    };
    let inside = || set(0, not(var(0)));
    let twice = [deep(8, vec![inside()]), deep(8, vec![inside()])].concat();
    let accepted = rule(&[Kind::Bit], twice);
    list.rule(&accepted, &[0, 1]);
    // Two ifs eight deep beside each other, and one nine deep behind an accepted one.
    let beside = deep(7, vec![when(var(0), vec![inside()], vec![]); 2]);
    list.rule(&rule(&[Kind::Bit], beside), &[0, 1]);
    let first = deep(8, vec![inside()]);
    let length = rule(&[Kind::Bit], first.clone()).len() - 1;
    let later = rule(&[Kind::Bit], [first, deep(9, vec![inside()])].concat());
    list.refused_there(&later, 8, length + 3 * 8);
    // The ninth code cut off, the last byte, and with a fault behind it; a fault before it goes first.
    let nine = nested_by(9, 0);
    let place = 7 + 3 * 8;
    list.refused_there(&nine[..place], 4, place);
    list.refused_there(&nine[..place + 1], 8, place);
    for (at, byte, number, where_) in [
        (place + 1, 0xFF, 8, place),
        (place + 2, 0x01, 8, place),
        (place, 0x04, 5, place),
        (place - 3, 0x04, 5, place - 3),
        (place - 1, 0x01, 6, place - 1),
        (4, 0x02, 2, 4),
        (6, 0x04, 3, 6),
        (6, 0x00, 7, 9),
    ] {
        let mut changed = nine.clone();
        changed[at] = byte;
        list.refused_there(&changed, number, where_);
    }
    // Nine deep and nine conditions, or 257 gates: rows are looked at byte by byte first.
    let mut both = deep(9, vec![inside()]);
    let ten = when(not(var(0)), vec![inside()], vec![]);
    both.splice(0..0, vec![ten; 9]);
    let both = rule(&[Kind::Bit], both);
    assert_eq!(read_rule(&both).number, 8);
    list.refused_rule(&both, &P1, 8);
}

/// The condition of the innermost if eight deep is an expression, which may be eight deep too.
fn deep_conditions(list: &mut List) {
    for (depth, wanted) in [(7, 0), (8, 0), (9, 8), (10, 8)] {
        let condition = (1..depth).fold(var(0), |inner, _| not(inner));
        let mut block: Block = vec![when(condition, vec![set(0, not(var(0)))], vec![])];
        for _ in 1..8 {
            block = vec![when(var(0), vec![], block)];
        }
        let made = rule(&[Kind::Bit], block);
        match wanted {
            0 => list.rule(&made, &[0, 1]),
            // Four bytes an if, the eighth's code, eight codes of expressions before the ninth.
            _ => list.refused_there(&made, 8, 7 + 4 * 7 + 1 + 8),
        }
    }
}

/// What counts as a condition: a gate once, however many choices it stands in, and only if it stands in one.
fn counted(list: &mut List) {
    let not_v0 = || not(var(0));
    let chosen = |condition: Expression| when(condition, vec![set(0, var(0))], vec![]);
    let empty = |condition: Expression| when(condition, vec![], vec![Statement::Skip]);
    // v0 changes with every if that assigns it, so a bit v1 is what several ifs share.
    let share = |count: usize| vec![when(var(1), vec![set(0, var(0))], vec![]); count];
    let own = |count: usize| vec![chosen(not_v0()); count];
    let two_bits = |block: Block| rule(&[Kind::Bit; 2], block);
    for (block, wanted) in [
        (share(20), 0),
        ([own(7), share(9)].concat(), 0),
        ([share(9), own(8)].concat(), 11),
        (vec![empty(not_v0()); 20], 0),
        ([own(8), vec![empty(not_v0()); 5]].concat(), 0),
        ([vec![empty(not_v0()); 5], own(9)].concat(), 11),
        // A constant each time is a gate each time.
        (vec![chosen(Expression::Bit(true)); 8], 0),
        (vec![chosen(Expression::Bit(true)); 9], 11),
    ] {
        let made = two_bits(block);
        match wanted {
            0 => {
                list.rule(&made, &[0, 3]);
                let gates = read_rule(&made).gates;
                list.accepted(&made, &plan(gates, &[]), &[1, 2]);
            }
            _ => list.refused_there(&made, wanted, made.len()),
        }
    }
    // Nine conditions and 256 gates, and 257: 10 goes before 11.
    for (count, wanted) in [(256, 11), (257, 10)] {
        let mut block: Block = vec![chosen(not_v0()); 9];
        let more = count - read_rule_gates(&two_bits(block.clone()));
        block.extend(vec![set(1, not(var(1))); more]);
        let made = two_bits(block);
        list.refused_there(&made, wanted, made.len());
    }
    let most = gates(GATES_MAX);
    list.rule(&most, &[0]);
}

/// The gates of a rule, whether it is accepted or not.
fn read_rule_gates(bytes: &[u8]) -> usize {
    crate::circuit::make(&crate::rule::read(bytes).expect("a good rule"))
        .gates
        .len()
}

/// Conditions count whether anything needs them or not.
fn working(list: &mut List) {
    for (count, wanted) in [(7, 0), (8, 0), (9, 11)] {
        let mut made = conditions(count);
        made[RULE_BYTES_MIN] = 0x03;
        match wanted {
            0 => {
                list.rule(&made, &[0, 1]);
                let gates = read_rule(&made).gates;
                list.accepted(&made, &plan(gates, &[]), &[0, 1]);
            }
            _ => list.refused_there(&made, wanted, made.len()),
        }
    }
}

/// Eight ifs one after the other, each of which adds its own power of two: the figure tells every setting.
fn figures(list: &mut List) {
    let add = |t: usize| when(var(t), vec![set(8, two(SUM, var(8), word(1 << t)))], vec![]);
    let made = rule(&kinds(1), (0..8).map(add).collect());
    let gates = read_rule(&made).gates;
    list.rule(&made, &[]);
    let none = plan(gates, &[]);
    list.accepted(&made, &none, &[]);
    for setting in 0..SETTINGS {
        let mut inputs = bits(setting, 8);
        inputs.push(1000);
        let mut wanted = inputs.clone();
        wanted[8] = 1000 + setting as u32;
        list.both_give(&made, &none, &inputs, &wanted);
    }
}
