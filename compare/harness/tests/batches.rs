//! Comparing batches (C-16) finds each of several faults, whichever tool has it, names the first case that shows it, and
//! finds none where there is none. Needs no archive.

use compare::batch::report;
use compare::batch_cases::{answer_all, Case};
use compare::generate::Random;
use harness::batches::{cases, compare as compare_reports, write_all, writes, Tally, TOOLS};

const SEED: u64 = 9;
const BATCHES: u64 = 60;

/// All reports of the random cases, each as the fault makes it of the case and of its true report.
fn reports(fault: impl Fn(&Case, Vec<u8>) -> Vec<u8>) -> Vec<u8> {
    let mut all = Vec::new();
    for case in cases(SEED, BATCHES) {
        let report = report(&case.batch);
        all.extend(fault(&case, report));
        all.push(b'\n');
    }
    all
}

fn compared(reports: &[u8]) -> Tally {
    compare_reports(cases(SEED, BATCHES), &TOOLS, reports).expect("nothing fails in memory")
}

/// The cases that a fault shows in are those found, and the first of them is the one kept.
#[track_caller]
fn found(fault: impl Fn(&Case, Vec<u8>) -> Vec<u8>) {
    let wrong: Vec<(u64, Case)> = (0..)
        .zip(cases(SEED, BATCHES))
        .filter(|(_, case)| {
            let report = report(&case.batch);
            fault(case, report.clone()) != report
        })
        .collect();
    let tally = compared(&reports(fault));
    assert!(!wrong.is_empty());
    assert_eq!(tally.differing, wrong.len() as u64);
    let first = tally.first.expect("something differs");
    assert_eq!((first.place, first.case), wrong[0]);
    assert_eq!(first.who, "the proved program");
}

#[test]
fn finds_nothing_where_nothing_is() {
    let mut stream = Vec::new();
    write_all(cases(SEED, BATCHES), &mut stream).expect("nothing fails in memory");
    let mut reports = Vec::new();
    answer_all(&stream[..], &mut reports).expect("nothing fails in memory");
    let tally = compared(&reports);
    assert_eq!((tally.differing, tally.first), (0, None));
    assert!(tally.totals > 5 && tally.cases > 1000);
}

/// The report with one text in the place of another.
fn instead(report: Vec<u8>, was: &str, becomes: &str) -> Vec<u8> {
    let report = String::from_utf8(report).expect("text");
    report.replace(was, becomes).into_bytes()
}

#[test]
fn finds_another_report() {
    found(|_, report| instead(report, "total", "Total"));
    found(|_, report| instead(report, "refused 75\n", "refused 75 0\n"));
    found(|_, report| instead(report, " -", " "));
    found(|_, report| instead(report, "refused 1 0\n", "refused 1\n"));
    found(|_, report| instead(report, "refused 75\n", "refused 75\ntotal 0 0 0 0 0\n"));
    // A head that is cut prints nothing at all.
    found(|case, report| match case.batch.len() {
        ..7 => Vec::new(),
        _ => report,
    });
    // The size of the pieces shows.
    found(|case, report| match case.size {
        1 => instead(report, "accepted", "refused"),
        _ => report,
    });
}

/// The report of a batch in which the last byte is not looked for is another where that is cut.
#[test]
fn finds_a_cut_that_is_not_seen() {
    found(|case, _| report(&[&case.batch[..], &[0x00]].concat()));
}

#[test]
fn finds_reports_that_end_too_early_or_too_late() {
    let right = reports(|_, report| report);
    for short in [0, 1, 40, right.len() / 2, right.len() - 1] {
        assert_eq!(compared(&right[..short]).differing, 1, "{short}");
    }
    for more in [&b"\n"[..], b"total 0 0 0 0 0\n\n", b"x"] {
        let longer = [&right[..], more].concat();
        assert_eq!(compared(&longer).differing, 1);
    }
}

#[test]
fn finds_a_fault_of_a_tool() {
    let right = reports(|_, report| report);
    let wrong = ("wrong", |case: &Case| match case.size {
        0 => Vec::new(),
        _ => report(&case.batch),
    });
    let tools = [
        TOOLS[0],
        (wrong.0, wrong.1 as fn(&Case) -> Vec<u8>),
        TOOLS[1],
    ];
    let tally = compare_reports(cases(SEED, BATCHES), &tools, &right[..]).expect("no failure");
    let whole = cases(SEED, BATCHES).filter(|case| case.size == 0).count();
    assert_eq!(tally.differing, whole as u64);
    assert_eq!(tally.first.map(|first| first.who), Some("wrong"));
}

/// Writes part a batch and leave nothing out.
#[test]
fn writes_end_with_the_batch() {
    let mut random = Random::new(1);
    for case in cases(2, 100).filter(|case| !case.batch.is_empty()) {
        let ends = writes(&mut random, &case.batch);
        assert_eq!(ends.last(), Some(&case.batch.len()));
        assert!(ends.is_sorted_by(|one, next| one < next), "{ends:?}");
    }
}
