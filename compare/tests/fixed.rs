//! The fixed cases of `make_limits`: every number comes often enough, and the largest are there.

use compare::counts::Counts;
use compare::law::CIRCUIT_BYTES_MAX;
use compare::limits;
use compare::stream::{
    Case, CHECK, DIRECT, FUSED, LAST, PLAIN, READ, READ_CIRCUIT, RECORD, RUN_CIRCUIT, WRITE,
};

#[test]
fn every_number_comes() {
    let mut counts = Counts::default();
    // Those of 11 among the first are accepted since C-17.
    for case in limits::cases().iter().chain(&limits::eight_cases()) {
        counts.count(case);
    }
    let of = |number: u8, operation: u8| {
        let by = counts.by_number.get(&number);
        by.map_or(0, |by| by[usize::from(operation)])
    };
    for number in (0..=11).chain(20..=30).chain([32]) {
        for operation in [CHECK, WRITE, FUSED] {
            assert!(of(number, operation) >= 5, "{number} by {operation:02X}");
        }
    }
    for number in 40..=42 {
        assert!(of(number, FUSED) >= 5, "{number}");
    }
    assert!(of(50, WRITE) >= 5);
}

#[test]
fn the_largest_come() {
    let cases = [limits::cases(), limits::equal_cases()].concat();
    let written = |case: &&Case| case.operation == WRITE;
    let answers = || cases.iter().filter(written).filter_map(Case::work);
    // A group of two without equal wires makes three wires more than its gates, and 256 gates hold 127 of them.
    let wires = answers().map(|(answer, _)| answer.wires).max();
    assert_eq!(wires, Some(256 + 3 * 127));
    let sizes = cases.iter().filter(|case| case.operation == CHECK);
    let largest = sizes.filter(|case| case.work().is_some_and(|(a, _)| a.number == 0));
    // The size byte of a plan's first group.
    let members = largest.filter_map(|case| case.second.get(9)).max();
    assert_eq!(members, Some(&255));
}

#[test]
fn every_number_of_circuit_files_comes() {
    let mut counts = Counts::default();
    for case in limits::circuit_cases() {
        counts.count(&case);
    }
    let of = |number: u8, operation: u8| counts.by_number[&number][usize::from(operation)];
    for number in [0, 60, 61, 62] {
        for operation in [READ_CIRCUIT, RECORD, RUN_CIRCUIT] {
            assert!(of(number, operation) >= 20, "{number} by {operation:02X}");
        }
    }
    for number in 40..=42 {
        assert!(of(number, RUN_CIRCUIT) >= 5, "{number}");
    }
}

#[test]
fn the_largest_circuit_files_come() {
    let cases = limits::circuit_cases();
    let answers = || {
        cases
            .iter()
            .filter_map(Case::work)
            .map(|(answer, _)| answer)
    };
    assert_eq!(answers().map(|answer| answer.wires).max(), Some(640));
    assert_eq!(answers().map(|answer| answer.bytes).max(), Some(16_384));
    let sizes = || cases.iter().map(|case| case.first.len());
    assert!(sizes().any(|size| size == 16_385) && sizes().any(|size| size == 8));
}

/// Those of C-13 are over all operations, and reach every number that a kind byte or an output FF FF moves.
#[test]
fn every_number_of_working_variables_comes() {
    let mut counts = Counts::default();
    for case in limits::working_cases() {
        counts.count(&case);
    }
    let of = |number: u8, operation: u8| counts.by_number[&number][usize::from(operation)];
    for operation in READ..=LAST {
        assert!(of(0, operation) >= 100, "operation {operation:02X}");
    }
    for operation in READ..=PLAIN {
        assert!(of(3, operation) >= 10 && of(7, operation) >= 10);
    }
    for operation in [CHECK, WRITE, FUSED] {
        // Each of these 15 once: since C-15 another order of their groups is 32.
        assert!(of(29, operation) >= 20 && of(30, operation) >= 15);
    }
    for operation in [DIRECT, FUSED, RUN_CIRCUIT] {
        assert!(of(41, operation) >= 20);
    }
    for operation in [READ_CIRCUIT, RECORD, RUN_CIRCUIT] {
        assert!(of(62, operation) >= 100);
    }
    assert!(of(50, WRITE) >= 100);
}

/// Those of C-17 are over all operations, and reach every number that it moves, and files near the longest.
#[test]
fn every_number_of_eight_conditions_comes() {
    let cases = limits::eight_cases();
    let mut counts = Counts::default();
    for case in &cases {
        counts.count(case);
    }
    let of = |number: u8, operation: u8| counts.by_number[&number][usize::from(operation)];
    for operation in READ..=PLAIN {
        assert!(of(0, operation) >= 40, "operation {operation:02X}");
        assert!(of(8, operation) >= 10 && of(11, operation) >= 10);
    }
    for operation in [READ_CIRCUIT, RECORD, RUN_CIRCUIT] {
        assert!(of(0, operation) >= 500, "operation {operation:02X}");
        assert!([60, 61, 62].iter().all(|&row| of(row, operation) >= 50));
    }
    // Since C-18 most rooms of a byte less are enough; see below.
    assert!(of(50, WRITE) >= 100);
    let sizes = |operation: u8| {
        let of = cases.iter().filter(move |case| case.operation == operation);
        of.filter_map(Case::work).map(|(answer, _)| answer.bytes)
    };
    assert_eq!(sizes(RUN_CIRCUIT).max(), Some(CIRCUIT_BYTES_MAX));
}

/// Those of C-15 reach 32 often, every row beside it, and 26 before it.
#[test]
fn every_number_of_group_orders_comes() {
    let mut counts = Counts::default();
    for case in limits::ordered_cases() {
        counts.count(&case);
    }
    let of = |number: u8, operation: u8| counts.by_number[&number][usize::from(operation)];
    for operation in [CHECK, WRITE, FUSED] {
        assert!(of(32, operation) >= 150 && of(26, operation) >= 30);
        // Rooms for files of version 1 were too short since C-17, and since C-18 nearly all are enough again.
        assert!(of(0, operation) >= 30);
        for row in 20..=30 {
            assert!(of(row, operation) >= 2, "{row} by {operation:02X}");
        }
    }
}

/// Those of C-18 reach the numbers that it moves, 30 that it does not, and files near the longest that are left.
#[test]
fn every_number_of_equal_wires_comes() {
    let cases = limits::equal_cases();
    let mut counts = Counts::default();
    for case in &cases {
        counts.count(case);
    }
    let of = |number: u8, operation: u8| counts.by_number[&number][usize::from(operation)];
    for operation in READ..=LAST {
        assert!(of(0, operation) >= 40, "operation {operation:02X}");
    }
    for operation in [CHECK, WRITE, FUSED] {
        assert!(of(0, operation) >= 400 && of(30, operation) >= 15);
    }
    assert!(of(50, WRITE) >= 1000);
    let written = cases.iter().filter(|case| case.operation == WRITE);
    let bytes = written
        .filter_map(Case::work)
        .map(|(answer, _)| answer.bytes);
    assert_eq!(bytes.max(), Some(14_418));
}
