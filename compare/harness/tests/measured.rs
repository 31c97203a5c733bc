//! What is measured is what it is said to be, and is accepted: groups stand in order (C-15), one ladder has eight conditions
//! (C-17), and enough groups have guards and picks (C-18). Needs no archive.

use compare::law::VARIABLES_MAX;
use compare::plan::accept_both;
use harness::subject::{r1, Row, Subject};
use harness::tool::{plain_circuit, Plain, Tool};
use harness::{ladder, mixed};

fn assert_accepted(subject: &Subject) {
    let mut results = [0; VARIABLES_MAX];
    let (rule, plan) = (&subject.rule, &subject.plan);
    let answer = Plain.run_fused(rule, plan, &subject.inputs, &mut results);
    assert_eq!((answer.number, answer.gates), (0, subject.gates()));
}

/// One rule of just so many gates.
fn only(row: &Row, gates: usize) -> &Subject {
    let [subject] = &row.subjects[..] else {
        panic!("{} is not one rule", row.name);
    };
    assert_accepted(subject);
    assert_eq!(subject.gates(), gates);
    subject
}

/// Every gate is needed by some setting, and a fifth is joined.
#[test]
fn ladders_are_what_they_are_said_to_be() {
    assert_eq!(only(&r1(), 6).joined(), 2);
    let ladders = ladder::ladders();
    assert_eq!(ladders.len(), 5);
    let wanted = [(32, 2), (64, 4), (128, 6), (256, 6), (256, 8)];
    for (row, (gates, conditions)) in ladders.iter().zip(wanted) {
        let subject = only(row, gates);
        assert_eq!(subject.conditions(), conditions);
        assert!(subject.joined().abs_diff(gates / 5) <= 1);
        let (_, needs) = plain_circuit(&subject.rule).expect("accepted");
        assert!(needs.iter().all(|needs| needs.words() != [0; 4]));
    }
}

/// Whether the group of one gate waits for that of another.
fn waits(row: &Row, one: usize, other: usize) -> bool {
    let subject = &row.subjects[0];
    let accepted = accept_both(&subject.rule, &subject.plan);
    let (_, plan) = accepted.expect("accepted");
    plan.waits[plan.group_of[one]].contains(&plan.group_of[other])
}

/// Each of 126 pairs waits for the one after it.
#[test]
fn reversed_is_what_it_is_said_to_be() {
    let row = ladder::reversed(256);
    assert_eq!(only(&row, 256).joined(), 252);
    assert!((3..128).all(|first| waits(&row, first, first + 1)));
}

/// The first block's sums, 5 to 128, wait for the pair, and this for a chain of the second's, 129 to 252.
#[test]
fn held_up_is_what_it_is_said_to_be() {
    let row = ladder::held_up(256);
    assert_eq!(only(&row, 256).joined(), 2);
    assert!((5..129).all(|sum| waits(&row, sum, 4)));
    assert!(waits(&row, 4, 252));
    assert!((130..253).all(|sum| waits(&row, sum, sum - 1)));
}

/// The sums, 4 to 102, wait for the first group; that waits for each of 51 pairs, and each pair for the one after it.
#[test]
fn passed_again_is_what_it_is_said_to_be() {
    let row = ladder::passed_again(256);
    assert_eq!(only(&row, 256).joined(), 1 + 3 * 51);
    assert!((4..103).all(|sum| waits(&row, sum, 3)));
    assert!((103..154).all(|pair| waits(&row, 3, pair)));
    assert!((103..153).all(|pair| waits(&row, pair, pair + 1)));
}

/// Many have two groups or more, so that their order counts.
#[test]
fn mixed_rules_are_accepted() {
    let row = mixed::mixed();
    assert_eq!(row.subjects.len(), mixed::COUNT);
    row.subjects.iter().for_each(assert_accepted);
    assert!(row.subjects.iter().all(|one| one.conditions() <= 6));
    let some = row.subjects.iter().filter(|one| one.groups() > 0).count();
    let ordered = row.subjects.iter().filter(|one| one.groups() > 1).count();
    println!("{some} with a group, {ordered} with more");
    assert!(some > 1200 && ordered > 600, "{some}, {ordered}");
}

/// 126 pairs, each waiting for the one before, and none with a guard.
#[test]
fn in_step_is_what_it_is_said_to_be() {
    let row = ladder::in_step(256);
    let subject = only(&row, 256);
    assert_eq!((subject.joined(), subject.groups()), (252, 126));
    assert!((4..129).all(|first| waits(&row, first, first - 1)));
    assert_eq!((subject.equal(), subject.guards()), ([126, 0], 0));
}

/// C-18: groups, of them without guards and with one pick, and guards. Every row of before but R1 still has groups with both
/// picks, and the reversed plan no others.
#[test]
fn equal_wires_are_not_all_there_is() {
    let of = |row: &Row| {
        let sum = |of: fn(&Subject) -> usize| row.subjects.iter().map(of).sum::<usize>();
        let [without, one] = [
            |one: &Subject| one.equal()[0],
            |one: &Subject| one.equal()[1],
        ];
        [
            sum(Subject::groups),
            sum(without),
            sum(one),
            sum(Subject::guards),
        ]
    };
    assert_eq!(of(&r1()), [1, 0, 1, 2]);
    let ladders = ladder::ladders();
    let wanted = [
        [3, 0, 1, 6],
        [6, 1, 2, 10],
        [13, 2, 7, 22],
        [26, 6, 14, 40],
        [26, 6, 16, 40],
    ];
    assert_eq!(ladders.iter().map(of).collect::<Vec<_>>(), wanted);
    assert_eq!(of(&ladder::reversed(256)), [126, 0, 0, 252]);
    assert_eq!(of(&ladder::held_up(256)), [1, 0, 0, 2]);
    assert_eq!(of(&ladder::passed_again(256)), [52, 1, 1, 152]);
    assert_eq!(of(&mixed::mixed()), [7069, 3199, 1109, 8396]);
}
