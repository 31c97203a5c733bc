//! Example 10 of document 01, the one larger good rule, and the stream of CONFORMANCE.md.

use compare::answer::Answer;
use compare::circuit::{accept, read_rule};
use compare::examples::{P1, R1};
use compare::good;
use compare::law::*;
use compare::rule::{bytes_of, Expression, Rule, Statement};
use compare::stream::{lines, Case, STREAM_MARK};

fn refused(number: u8, place: usize) -> Answer {
    Answer {
        number,
        place,
        ..Answer::default()
    }
}

#[test]
fn example_10_limits() {
    // Ifs one after the other, each on a comparison of its own.
    let ifs = |count: usize| {
        let less =
            Expression::Operation(LESS, vec![Expression::Variable(0), Expression::Variable(0)]);
        let one = Statement::If(
            less,
            vec![Statement::Assign(0, Expression::Variable(0))],
            vec![],
        );
        bytes_of(&Rule::of_results(&[Kind::Word], vec![one; count]))
    };
    // Eight accepted, nine 11 (C-17).
    for count in [6, 7, 8] {
        let done = Answer::of_plain(1 + 2 * count, count * 43);
        assert_eq!(read_rule(&ifs(count)), done);
    }
    for count in [9, 10, 17] {
        assert_eq!(read_rule(&ifs(count)), refused(11, ifs(count).len()));
    }

    let deep = |depth: usize| {
        let mut value = Expression::Variable(0);
        for _ in 1..depth {
            value = Expression::Operation(SUM, vec![Expression::Variable(0), value]);
        }
        let block = vec![Statement::Assign(0, value)];
        bytes_of(&Rule::of_results(&[Kind::Word], block))
    };
    assert_eq!(read_rule(&deep(8)), Answer::of_plain(8, 0));
    // Header 7, assign 2, seven times code 20 and its first argument (3 bytes), the eighth 20;
    // its first argument stands 9 deep.
    assert_eq!(read_rule(&deep(9)), refused(8, 7 + 2 + 3 * 7 + 1));

    // 256 and 257 gates.
    let constants = |count: usize| {
        let block = vec![Statement::Assign(0, Expression::Bit(true)); count];
        bytes_of(&Rule::of_results(&[Kind::Bit], block))
    };
    assert_eq!(read_rule(&constants(255)), Answer::of_plain(256, 0));
    assert_eq!(
        read_rule(&constants(256)),
        refused(10, constants(256).len())
    );
}

#[test]
fn an_if_that_assigns_nothing_makes_no_choice() {
    let empty = Statement::If(Expression::Variable(0), vec![Statement::Skip], vec![]);
    let bytes = bytes_of(&Rule::of_results(&[Kind::Bit], vec![empty]));
    let circuit = accept(&bytes).ok().unwrap().circuit;
    assert_eq!(circuit.gates.len(), 1);
    assert!(circuit.conditions.is_empty());
}

#[test]
fn the_good_rule_is_what_it_should_be() {
    let bytes = good::good_bytes();
    assert!((150..=400).contains(&bytes.len()));
    assert_eq!(bytes, std::fs::read("data/good.rul").unwrap());
    let accepted = accept(&bytes).ok().unwrap();
    assert_eq!(accepted.circuit.conditions.len(), 6);
    assert!(accepted.rule.variables.len() >= 4);

    fn depth(expression: &Expression, codes: &mut Vec<u8>) -> usize {
        match expression {
            Expression::Variable(_) => codes.push(VARIABLE),
            Expression::Word(_) => codes.push(WORD),
            Expression::Bit(_) => codes.push(BIT),
            Expression::Operation(code, arguments) => {
                codes.push(*code);
                let deepest = arguments.iter().map(|a| depth(a, codes)).max();
                return 1 + deepest.unwrap();
            }
        }
        1
    }
    /// Greatest depth of expressions and of ifs.
    fn depths(block: &[Statement], codes: &mut Vec<u8>) -> (usize, usize) {
        let mut greatest = (0, 0);
        for statement in block {
            let (expression, ifs) = match statement {
                Statement::Assign(_, value) => {
                    codes.push(ASSIGN);
                    (depth(value, codes), 0)
                }
                Statement::Skip => {
                    codes.push(SKIP);
                    (0, 0)
                }
                Statement::If(condition, first, second) => {
                    codes.push(IF);
                    let own = depth(condition, codes);
                    let first = depths(first, codes);
                    let second = depths(second, codes);
                    (own.max(first.0).max(second.0), 1 + first.1.max(second.1))
                }
            };
            greatest = (greatest.0.max(expression), greatest.1.max(ifs));
        }
        greatest
    }
    let mut codes = Vec::new();
    assert_eq!(depths(&accepted.rule.block, &mut codes), (8, 6));
    for code in [1, 2, 3, 0x10, 0x11, 0x12].into_iter().chain(0x20..=0x27) {
        assert!(codes.contains(&code), "{code:02X} is not used");
    }
}

/// A bit and a pick of it: operations 07, 08 for every wire and one more, 09, and a refused file.
fn circuit_stream() -> Vec<u8> {
    let mut file = CIRCUIT_MARK.to_vec();
    file.extend(VERSION_2.bytes);
    file.extend([1, 0, 2, 0x01, 0, 0x31, 1, 0, 0, 0, 0, 0, 1]);
    let mut stream = STREAM_MARK.to_vec();
    for (operation, number, room, length) in [
        (7, 0, 0, 18),
        (8, 0, 0, 18),
        (8, 1, 0, 18),
        (8, 2, 0, 18),
        (9, 0, 2, 18),
        (9, 0, 0, 18),
        (7, 0, 0, 17),
        (8, 0, 0, 17),
        (9, 0, 1, 7),
    ] {
        let case = Case {
            operation,
            number,
            room,
            first: file[..length].to_vec(),
            inputs: vec![1],
            ..Case::default()
        };
        case.put(&mut stream);
    }
    stream
}

fn circuit_lines() -> [&'static str; 9] {
    [
        "0 0 0 2 18 0 0",
        "0 0 0 2 18 0 0 | 0100",
        "0 0 0 2 18 0 0 | 310100000000",
        "0 0 0 2 18 0 0 | -",
        "0 0 0 2 18 0 0 | 1 3735928559",
        "42 0 0 0 0 0 0 |",
        "61 0 0 0 0 0 0",
        "61 0 0 0 0 0 0 | -",
        "60 0 0 0 0 0 0 | 3735928559",
    ]
}

#[test]
fn the_stream_of_conformance() {
    let print = |stream: &[u8]| {
        let mut all = Vec::new();
        lines(stream, |line| all.push(line.to_string()));
        all
    };
    let case = |operation: u8, room: u16| Case {
        operation,
        room,
        first: R1.to_vec(),
        second: P1.to_vec(),
        inputs: vec![1, 6, 7],
        ..Case::default()
    };
    let mut stream = STREAM_MARK.to_vec();
    for (operation, room) in [
        (1, 0),
        (2, 3),
        (2, 2),
        (3, 0),
        (4, 128),
        (4, 113),
        (5, 4),
        (6, 0),
    ] {
        case(operation, room).put(&mut stream);
    }
    let table = "00".repeat(31);
    let [always, first, second] = ["F", "A", "5"].map(|digit| digit.repeat(64));
    let wanted = [
        "0 0 6 0 0 33 0",
        "0 0 6 0 0 33 0 | 1 42 7",
        "42 0 0 0 0 0 0 | 3735928559 3735928559",
        "0 0 6 0 0 33 0",
        &format!(
            "0 0 6 8 114 33 24 | 434952000203000801000001000232010000{table}0232010000{table}01\
             31020003000100040002220005000230000000060006000000070002 14"
        ),
        "50 0 0 0 0 0 0 | - 113",
        "0 0 6 8 114 33 24 | 1 42 7 3735928559",
        &format!(
            "0 0 6 0 0 33 0 | 01.0.0.0.{always} 00.1.0.0.{first} 00.2.0.0.{always} \
             22.1.2.0.{first} 22.2.2.0.{second} 30.0.3.4.{always}"
        ),
    ];
    let wanted = wanted.map(String::from);
    assert_eq!(print(&stream), wanted);
    assert_eq!(print(&circuit_stream()), circuit_lines());
    // Cut inside the last case, and another version.
    let mut cut = wanted.clone();
    *cut.last_mut().unwrap() = "refused".to_string();
    assert_eq!(print(&stream[..stream.len() - 1]), cut);
    stream[4] = 2;
    assert_eq!(print(&stream), ["refused"]);
    assert_eq!(print(&[]), ["refused"]);
    assert_eq!(print(&STREAM_MARK), Vec::<String>::new());
}
