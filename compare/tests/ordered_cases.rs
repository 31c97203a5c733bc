//! The cases of C-15: those of before stay as they were, and the new ones have what they are made for.

use compare::generate::group_order::{in_order, GroupOrder};
use compare::generate::words::Words;
use compare::generate::{cases, Random};
use compare::limits;
use compare::plan::check_plan;
use compare::stream::{Case, CHECK, FUSED, LAST, STREAM_MARK, WRITE};
use std::collections::HashMap;

/// A number for a stream's bytes (FNV-1a).
fn mark_of(cases: impl Iterator<Item = Case>) -> u64 {
    let mut stream = STREAM_MARK.to_vec();
    cases.for_each(|case| case.put(&mut stream));
    stream.iter().fold(0xCBF2_9CE4_8422_2325, |mark, &byte| {
        (mark ^ u64::from(byte)).wrapping_mul(0x0000_0100_0000_01B3)
    })
}

fn random_cases(seed: u64, order: GroupOrder) -> impl Iterator<Item = Case> {
    let mut random = Random::new(seed);
    let operations: Vec<u8> = (1..=LAST).collect();
    let words = Words {
        order,
        ..Words::BEFORE_EIGHT
    };
    std::iter::repeat_with(move || cases::case(&mut random, &operations, words))
}

/// What C-13 brought is made as it was then; `tests/working.rs` has what was before it.
#[test]
fn cases_stay() {
    let random = random_cases(3, GroupOrder::Any).take(2000);
    assert_eq!(mark_of(random), 0x0C75_5BEF_8BA0_B50A);
    assert_eq!(
        mark_of(limits::working_cases().into_iter()),
        0x6D29_FB61_FB54_2C6B
    );
}

/// The first 2,000 cases of seed 4 by their number with groups in order and as they stand: most are in
/// order, and 32 is met together with every row from 26 on.
#[test]
fn groups_in_order_are_often_made() {
    let mut numbers: HashMap<(u8, u8), usize> = HashMap::new();
    let mut both = 0;
    for case in random_cases(4, GroupOrder::Rising).take(2000) {
        if !matches!(case.operation, CHECK | WRITE | FUSED) {
            continue;
        }
        let sorted = check_plan(&case.first, &in_order(&case.second)).number;
        let stands = check_plan(&case.first, &case.second).number;
        *numbers.entry((sorted, stands)).or_default() += 1;
        both += usize::from(stands == 26 && in_order(&case.second) != case.second);
    }
    println!("{numbers:?}, 26 beside a fall {both} times");
    let of = |sorted: u8, stands: u8| numbers.get(&(sorted, stands)).copied().unwrap_or(0);
    assert!(of(0, 0) > 300 && of(0, 32) > 20 && both >= 5);
    for row in 26..=30 {
        assert!(of(row, row) >= 5, "{row}");
        assert!(row == 26 || of(row, 32) >= 3, "{row} behind 32");
    }
}
