//! How many cases came to each number, by operation, as `make_stream` and `make_limits` print it.

use crate::stream::{Case, LAST};
use std::collections::BTreeMap;

/// How many cases, by operation; place 0 is not used.
pub type ByOperation = [u64; LAST as usize + 1];

#[derive(Default)]
pub struct Counts {
    pub by_number: BTreeMap<u8, ByOperation>,
}

impl Counts {
    /// Works the case and counts its number.
    pub fn count(&mut self, case: &Case) {
        let (answer, _) = case.work().expect("an operation that is built");
        self.by_number.entry(answer.number).or_default()[usize::from(case.operation)] += 1;
    }

    pub fn print(&self) {
        eprint!("number");
        for operation in 1..=LAST {
            eprint!("      {operation:02}");
        }
        eprintln!("     all");
        for (number, by) in &self.by_number {
            let all: u64 = by.iter().sum();
            eprint!("{number:6}");
            for count in &by[1..] {
                eprint!("{count:8}");
            }
            eprintln!("{all:8}");
        }
    }
}
