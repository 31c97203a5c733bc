//! The stored stream is what is made here, no stored case moves, and the page for the second house says where cases are.

use compare::counts::Counts;
use compare::stored::{stream_of, Stored};
use compare::stream::lines;
use std::collections::HashSet;
use std::sync::LazyLock;

const STREAM: &str = "../crates/conform/stdin";
const LINES: &str = "../crates/conform/stdout";
const PAGE: &str = "../docs/SECOND-HOUSE.md";

/// They are made once for all tests.
static STORED: LazyLock<Vec<Stored>> = LazyLock::new(compare::stored::stored);

fn bytes_of(stored: &[Stored]) -> Vec<u8> {
    stream_of(stored.iter().map(|one| &one.case))
}

/// `C17.tables` of `C17.tables.49`.
fn family(stored: &Stored) -> &str {
    stored.name.rsplit_once('.').expect("a name").0
}

#[test]
fn the_stream_is_made_here() {
    let made = bytes_of(&STORED);
    let kept = std::fs::read(STREAM).unwrap();
    assert!(
        made == kept,
        "crates/conform/stdin is not what `cases` writes"
    );
    let mut printed = String::new();
    lines(&made, |line| printed += &format!("{line}\n"));
    let kept = std::fs::read_to_string(LINES).unwrap();
    assert!(
        printed == kept,
        "crates/conform/stdout is not what `conform` prints"
    );
    assert!(
        made.len() + printed.len() < 4_000_000,
        "the two files are to be small"
    );
}

/// How many cases there were up to a request, and a number for the bytes of their stream (FNV-1a). A request adds a line.
const SO_FAR: [(&str, usize, u64); 1] = [("C18", 11_911, 0xC1D0_4299_8D2B_800F)];

#[test]
fn no_case_moves() {
    for (request, count, mark) in SO_FAR {
        let bytes = bytes_of(&STORED[..count]);
        let found = bytes.iter().fold(0xCBF2_9CE4_8422_2325, |mark, &byte| {
            (mark ^ u64::from(byte)).wrapping_mul(0x0000_0100_0000_01B3)
        });
        assert_eq!(found, mark, "cases stored up to {request} moved");
    }
}

#[test]
fn names_come_once() {
    let names: HashSet<&str> = STORED.iter().map(|one| &one.name[..]).collect();
    assert_eq!(names.len(), STORED.len());
    // A family's cases stand together.
    let mut families: Vec<&str> = STORED.iter().map(family).collect();
    families.dedup();
    let all = families.len();
    families.sort();
    families.dedup();
    assert_eq!(families.len(), all);
}

#[test]
fn every_number_comes() {
    let mut counts = Counts::default();
    STORED.iter().for_each(|one| counts.count(&one.case));
    let numbers = (0..=11)
        .chain(20..=30)
        .chain([32, 40, 41, 42, 50, 60, 61, 62]);
    for number in numbers {
        let of: u64 = counts.by_number[&number].iter().sum();
        assert!(of >= 30, "{number} comes {of} times");
    }
}

/// The rows of the page that say which cases a family has, and the command for section 01.
#[test]
fn the_page_says_where_cases_are() {
    let page = std::fs::read_to_string(PAGE).unwrap();
    let said = |text: &str| assert!(page.contains(text), "the page does not say {text}");
    let range = |of: &dyn Fn(&Stored) -> bool| {
        let first = STORED.iter().position(of).expect("a case");
        let last = STORED.iter().rposition(of).expect("a case");
        (first + 1, last + 1)
    };
    let families: HashSet<&str> = STORED.iter().map(family).collect();
    for name in families {
        let (first, last) = range(&|one| family(one) == name);
        said(&format!("| {first} to {last} | `{name}` |"));
    }
    let sections: HashSet<&str> = STORED
        .iter()
        .map(|one| one.name.split('.').next().expect("a name"))
        .collect();
    for name in sections {
        let (first, last) = range(&|one| one.name.split('.').next() == Some(name));
        said(&format!("| {name} | {first} to {last} |"));
    }
    let (_, last) = range(&|one| one.name.starts_with("01."));
    let bytes = bytes_of(&STORED[..last]).len();
    said(&format!(
        "head -c {bytes} crates/conform/stdin | your-conform | cmp - <(head -n {last} "
    ));
}
