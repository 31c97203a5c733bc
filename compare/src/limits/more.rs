//! What the other sections had too little of, as wrong builds showed (`compare/wrong`). The number beside each case is that of
//! documents 01 and 02.

use super::circuits::{choice, circuit, guard, operation_on, pick, run_case};
use super::parts::{rule, set, two, var, when, word};
use super::{plan, List};
use crate::circuit::read_rule;
use crate::examples::{P1, R1};
use crate::law::*;
use crate::rule::{Block, Expression, Statement};
use crate::write::Record;

pub fn add(list: &mut List) {
    list.family = "rules";
    bit_constants(list);
    bytes_after(list);
    ninth_level(list);
    list.family = "plans";
    alike(list);
    not_neighbours(list);
    later_groups(list);
    higher_wire_first(list);
    list.family = "files";
    kinds(list);
    codes(list);
    versions(list);
    sums(list);
}

/// A rule that is refused at this place, read, run, checked and shown.
#[track_caller]
fn refused(list: &mut List, rule: &[u8], number: u8, place: usize) {
    assert_eq!(read_rule(rule).place, place);
    list.refused_rule(rule, &P1, number);
}

/// A rule of two bits and a word, whose statements are these bytes.
fn of_bytes(statements: &[u8]) -> Vec<u8> {
    [&RULE_MARK[..], &[3, 1, 1, 0], statements].concat()
}

/// A bit constant above 01, assigned, in an operation, and as the condition of an if: 5 on the byte.
fn bit_constants(list: &mut List) {
    for byte in [0x02, 0x10, 0x81, 0xFF] {
        refused(list, &of_bytes(&[ASSIGN, 0, BIT, byte, 0]), 5, 12);
        let and = [ASSIGN, 0, AND, VARIABLE, 1, BIT, byte, 0];
        refused(list, &of_bytes(&and), 5, 15);
        refused(list, &of_bytes(&[IF, BIT, byte, 0, 0, 0]), 5, 11);
    }
}

/// One byte and more behind R1's closing 00: 9 on the first of them.
fn bytes_after(list: &mut List) {
    for more in [
        &[0x00; 2][..],
        &[0x02; 3],
        &[0xFF, 0, 1, 2],
        &R1,
        &[0x00; 40],
    ] {
        refused(list, &[&R1[..], more].concat(), 9, R1.len());
    }
}

/// On the code of an expression 9 deep: 5 and 7 go before 8. A variable of another kind is 8, since 7 would lie on its number.
fn ninth_level(list: &mut List) {
    for (variable, operation, unknown, other) in [
        (2, SUM, [0x00, 0x1F, 0x28, 0xFF], [BIT, LESS, AND, NOT]),
        (
            0,
            AND,
            [0x03, 0x1F, 0x2F, 0x40],
            [WORD, SUM, DIFFERENCE, PRODUCT],
        ),
    ] {
        let mut rule = of_bytes(&[ASSIGN, variable]);
        rule.extend([operation; EXPRESSION_DEPTH_MAX]);
        let place = rule.len();
        let with = |bytes: &[u8]| [&rule[..], bytes, &[0; 40]].concat();
        for code in unknown {
            refused(list, &with(&[code]), 5, place);
        }
        for code in other {
            refused(list, &with(&[code]), 7, place);
        }
        for variable in 0..3 {
            refused(list, &with(&[VARIABLE, variable]), 8, place);
        }
        refused(list, &with(&[operation]), 8, place);
    }
}

/// Ifs with nothing in them on an operation each, of one variable: nothing needs any, and all exclude each other.
fn unneeded(codes: &[u8]) -> Vec<u8> {
    let kind = operation(codes[0]).expect("an operation").takes;
    let one = |&code: &u8| when(two(code, var(0), var(0)), vec![], vec![]);
    rule(&[kind], codes.iter().map(one).collect())
}

/// 28 wherever in its group the other operation stands, and whether it costs the same; none where each group has its own.
fn alike(list: &mut List) {
    for [one, other] in [[LESS, EQUAL], [EQUAL, LESS], [AND, OR], [OR, AND]] {
        let rule = unneeded(&[one, one, one, other, other, other]);
        for groups in [
            &[&[1, 4][..]][..],
            &[&[1, 2, 4]],
            &[&[1, 2, 3, 6]],
            &[&[1, 4, 5]],
            &[&[1, 2], &[3, 6]],
            &[&[1, 2], &[3, 4, 5]],
            &[&[1, 2, 3], &[4, 5]],
        ] {
            let wanted = if groups[groups.len() - 1] == [4, 5] {
                0
            } else {
                28
            };
            match wanted {
                0 => list.accepted(&rule, &plan(7, groups), &[0, 1]),
                _ => list.with_plan(&rule, &plan(7, groups), wanted),
            }
        }
    }
}

/// Two ifs on one bit: operations 6 and 8 are needed where it is 1, 7 and 9 where it is 0. Members next to each other exclude each
/// other, and others do not.
fn not_neighbours(list: &mut List) {
    for code in [PRODUCT, LESS, AND] {
        let row = operation(code).expect("an operation");
        let kinds = [
            Kind::Bit,
            row.takes,
            row.takes,
            row.gives,
            row.gives,
            row.gives,
        ];
        let give =
            |to: usize, [one, other]: [usize; 2]| vec![set(to, two(code, var(one), var(other)))];
        let block = vec![
            when(var(0), give(3, [1, 1]), give(3, [1, 2])),
            when(var(0), give(4, [2, 2]), give(4, [2, 1])),
        ];
        let made = rule(&kinds, block);
        assert_eq!(read_rule(&made).gates, 12);
        // Choices 8 and 11 stand behind their ifs.
        for group in [
            &[6, 7, 9][..],
            &[7, 9, 10],
            &[6, 7, 9, 10],
            &[6, 9],
            &[7, 10],
        ] {
            list.with_plan(&made, &plan(12, &[group]), 29);
        }
        for group in [[6, 7], [6, 10], [7, 9], [9, 10]] {
            list.accepted(&made, &plan(12, &[&group]), &[0, 1, 3]);
        }
    }
}

/// 29 in the second group, and in the third.
fn later_groups(list: &mut List) {
    // Three words; nothing needs gates 3 to 6, and 7 to 9 are needed always.
    let product = |to: usize, one: usize| set(to, two(PRODUCT, var(one), var(one)));
    let mut block: Block = vec![product(0, 1); 4];
    block.extend([product(0, 1), product(1, 2), product(2, 2)]);
    let made = rule(&[Kind::Word; 3], block);
    for (groups, wanted) in [
        (&[&[3, 4][..], &[7, 8]][..], 29),
        (&[&[3, 7], &[8, 9]], 29),
        (&[&[3, 4], &[5, 6], &[7, 9]], 29),
        (&[&[3, 4], &[5, 7], &[8, 9]], 29),
        (&[&[3, 7], &[4, 8], &[5, 9]], 0),
    ] {
        match wanted {
            0 => list.accepted(&made, &plan(10, groups), &[0, 1]),
            _ => list.with_plan(&made, &plan(10, groups), wanted),
        }
    }
}

/// A gate whose first argument has the higher wire, alone and joined. C-12's order is that of gates: operation 5 waits for
/// constant 6, since 8, which it is joined with, reads that; 7 reads 5 and 6.
fn higher_wire_first(list: &mut List) {
    for row in OPERATIONS.into_iter().filter(|row| row.lower_first) {
        // What is joined gives what the operation takes.
        let (code, constant) = match row.takes {
            Kind::Word => (PRODUCT, word(7)),
            Kind::Bit => (AND, Expression::Bit(true)),
        };
        let kinds = [row.takes, row.takes, row.takes, row.takes, row.gives];
        let block = |last: Vec<Statement>| -> Block {
            let mut block = vec![
                set(2, two(code, var(0), var(1))),
                set(3, constant.clone()),
                set(4, two(row.code, var(2), var(3))),
                set(1, two(code, var(0), var(3))),
                set(1, var(0)),
            ];
            block.extend(last);
            block
        };
        let made = rule(&kinds, block(vec![]));
        assert_eq!(read_rule(&made).gates, 9);
        list.accepted(&made, &plan(9, &[&[5, 8]]), &[0, 1, 3]);
        if row.cost > 0 {
            // Operation 9 is like 7, of two variables, and nothing needs it.
            let more = set(4, two(row.code, var(0), var(1)));
            let mut block = block(vec![]);
            block.insert(0, more);
            let made = rule(&kinds, block);
            assert_eq!(read_rule(&made).gates, 10);
            list.accepted(&made, &plan(10, &[&[5, 8], &[6, 9]]), &[0, 1, 3]);
        }
    }
}

/// A record that reads a wire of another kind, or one that is not earlier: 62. Wire 0 is a bit, 1 a word.
fn kinds(list: &mut List) {
    let good = [
        choice(0, 1, 1),
        choice(0, 0, 0),
        pick(&[(0, 1), (0, 1)]),
        pick(&[(0, 0)]),
        guard(&[0, 0], 6),
    ];
    let bad = [
        choice(0, 1, 0),
        choice(0, 0, 1),
        choice(1, 1, 1),
        choice(1, 0, 0),
        choice(0, 2, 2),
        pick(&[(0, 1), (0, 0)]),
        pick(&[(0, 0), (0, 1)]),
        pick(&[(1, 1)]),
        pick(&[(0, 0), (1, 0)]),
        guard(&[1], 1),
        guard(&[0, 1], 1),
        operation_on(NOT, &[1]),
        operation_on(AND, &[0, 1]),
        operation_on(OR, &[1, 0]),
        operation_on(SUM, &[0, 1]),
        operation_on(LESS, &[1, 0]),
        operation_on(EQUAL, &[0, 0]),
        Record::Input(0, Kind::Bit),
        Record::Input(1, Kind::Word),
    ];
    for version in VERSIONS {
        let file = |record: &Record| {
            circuit(&[Kind::Bit, Kind::Word], vec![record.clone()], &[0, 1]).file_of(version)
        };
        for record in &good {
            list.accepted_circuit(&file(record), &[0, 1]);
        }
        for record in &bad {
            list.refused_circuit(&file(record), 62);
        }
    }
}

/// Codes that are none, on a record that would be a not otherwise: 61.
fn codes(list: &mut List) {
    let file = circuit(&[Kind::Bit], vec![operation_on(NOT, &[0])], &[1]).file();
    list.accepted_circuit(&file, &[0, 1]);
    let place = file.iter().position(|&byte| byte == NOT).expect("the not");
    for code in [0x03, 0x10, 0x1F, 0x28, 0x2F, 0x33, 0xFF] {
        let mut changed = file.clone();
        changed[place] = code;
        list.refused_circuit(&changed, 61);
    }
}

/// Files with a guard in versions next to those that there are, with either size of table: 60.
fn versions(list: &mut List) {
    for version in VERSIONS {
        let good = circuit(&[Kind::Bit], vec![guard(&[0], 2)], &[1]).file_of(version);
        for bytes in [[0, 0], [0, 3], [1, 1], [1, 2], [2, 0]] {
            let mut file = good.clone();
            file[3..5].copy_from_slice(&bytes);
            list.refused_circuit(&file, 60);
        }
    }
}

/// Two guards at 1, whose words come to 4,294,967,296 and more.
fn sums(list: &mut List) {
    let kinds = [Kind::Bit, Kind::Bit, Kind::Word, Kind::Word];
    for version in VERSIONS {
        let file = circuit(&kinds, vec![pick(&[(0, 2), (1, 3)])], &[0, 1, 4, 3]).file_of(version);
        for [one, other, sum] in [
            [u32::MAX, 1, 0],
            [1, u32::MAX, 0],
            [1 << 31, 1 << 31, 0],
            [u32::MAX, u32::MAX, u32::MAX - 1],
            [4_000_000_000, 294_967_295, u32::MAX],
        ] {
            list.gives(run_case(&file, &[1, 1, one, other], 4), &[1, 1, sum, other]);
        }
    }
}
