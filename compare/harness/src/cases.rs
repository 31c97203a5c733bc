//! Many random cases given to several tools, in blocks, each block by whichever thread is free.

use crate::differ::differences;
use crate::tool::Tool;
use compare::counts::ByOperation;
use compare::generate::words::Words;
use compare::generate::{cases, Random};
use compare::stream::{Case, LAST};
use std::collections::BTreeMap;
use std::sync::atomic::{AtomicU64, Ordering};
use std::sync::Mutex;
use std::thread;

/// Cases of one block: they come from one seed, whatever thread works on them.
const BLOCK: u64 = 500;
/// Differing cases that are kept in full.
const KEPT: usize = 10;

/// How many cases came to each number, by operation; what differed.
#[derive(Default)]
pub struct Tally {
    pub counts: BTreeMap<u8, ByOperation>,
    pub cases: u64,
    pub differing: u64,
    /// Block, case and difference, of the blocks with the lowest numbers.
    pub kept: Vec<(u64, Case, String)>,
}

impl Tally {
    fn add(&mut self, other: Tally) {
        for (number, by) in other.counts {
            let counts = self.counts.entry(number).or_default();
            for (count, more) in counts.iter_mut().zip(by) {
                *count += more;
            }
        }
        self.cases += other.cases;
        self.differing += other.differing;
        self.kept.extend(other.kept);
        self.kept.sort_by_key(|(block, _, _)| *block);
        self.kept.truncate(KEPT);
    }
}

/// Gives every tool the cases of a block.
fn block(tools: &[&dyn Tool], seed: u64, block: u64, count: u64) -> Tally {
    let mut random = Random::new(seed.wrapping_mul(0x1_0000_0001).wrapping_add(block));
    let operations: Vec<u8> = (1..=LAST).collect();
    let mut tally = Tally::default();
    for _ in 0..count {
        let case = cases::case(&mut random, &operations, Words::ALL);
        let (answer, differs) = differences(tools, &case);
        let by = tally.counts.entry(answer.number).or_default();
        by[usize::from(case.operation)] += 1;
        tally.cases += 1;
        if let Some(text) = differs {
            tally.differing += 1;
            if tally.kept.len() < KEPT {
                tally.kept.push((block, case, text));
            }
        }
    }
    tally
}

/// Gives every tool so many cases of a seed. The tally does not rest on the number of threads.
pub fn compare(tools: &[&dyn Tool], seed: u64, cases: u64) -> Tally {
    let blocks = cases.div_ceil(BLOCK);
    let next = AtomicU64::new(0);
    let whole = Mutex::new(Tally::default());
    let threads = thread::available_parallelism().map_or(1, |count| count.get());
    thread::scope(|scope| {
        for _ in 0..threads {
            scope.spawn(|| loop {
                let turn = next.fetch_add(1, Ordering::Relaxed);
                if turn >= blocks {
                    return;
                }
                let count = BLOCK.min(cases - turn * BLOCK);
                let tally = block(tools, seed, turn, count);
                whole.lock().expect("no thread panics").add(tally);
            });
        }
    });
    whole.into_inner().expect("no thread panics")
}
