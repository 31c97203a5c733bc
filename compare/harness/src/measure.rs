//! Several callers measured in turns, so that other work of the machine falls on all.

use crate::subject::Subject;
use std::hint::black_box;
use std::time::{Duration, Instant};

/// A turn makes as many calls on one subject as take about so long.
const TURN: Duration = Duration::from_micros(100);
/// Of many subjects in a row so many are timed together: a piece is short enough for one of its times to be
/// free of other work.
const PIECE: usize = 100;

/// Places on the stack that turns take in turn, and the bytes between two of them, no round number of lines or pages.
const PLACES: usize = 16;
const STEP: usize = 1040;

/// Calls one operation of one tool so many times on each subject: how long that took.
pub type Caller<S = Subject> = Box<dyn FnMut(&[S], u32) -> Duration>;

/// The loop is made together with the call, so that nothing but the call lies between two of them.
pub fn caller<T>(mut call: impl FnMut(&Subject) -> T + 'static) -> Caller {
    Box::new(move |subjects, times| {
        let start = Instant::now();
        for _ in 0..times {
            for subject in subjects {
                black_box(call(black_box(subject)));
            }
        }
        start.elapsed()
    })
}

/// Makes the call so many steps further down the stack. Where a call's arrays lie moves its time, by up to a quarter,
/// and differs from process to process; with turns at several places least times agree to some percent.
#[inline(never)]
fn below(steps: usize, call: &mut dyn FnMut() -> Duration) -> Duration {
    let room = [0u8; STEP];
    black_box(&room);
    let took = match steps {
        0 => call(),
        _ => below(steps - 1, call),
    };
    black_box(&room);
    took
}

/// Nanoseconds a call; of several pieces, on average over these.
#[derive(Clone, Copy, Debug, Default)]
pub struct Times {
    pub median: f64,
    pub least: f64,
}

impl Times {
    /// Of several rounds the median of the medians, and the least of all.
    pub fn of_rounds(rounds: &[Times]) -> Times {
        let mut medians: Vec<f64> = rounds.iter().map(|times| times.median).collect();
        medians.sort_by(f64::total_cmp);
        let least = rounds.iter().map(|times| times.least);
        Times {
            median: medians[rounds.len() / 2],
            least: least.fold(f64::INFINITY, f64::min),
        }
    }

    pub fn over(&self, other: &Times) -> Times {
        Times {
            median: self.median / other.median,
            least: self.least / other.least,
        }
    }

    /// For each of so many gates or wires.
    pub fn each(&self, count: f64) -> Times {
        Times {
            median: self.median / count,
            least: self.least / count,
        }
    }

    /// As the pages have it: the median, in brackets the least.
    pub fn text(&self, digits: usize) -> String {
        format!("{:.digits$} ({:.digits$})", self.median, self.least)
    }
}

/// Turn by turn each caller on all subjects in a row; who is first changes with every turn.
pub fn measure<S>(turns: usize, callers: &mut [Caller<S>], subjects: &[S]) -> Vec<Times> {
    let calls: Vec<u32> = callers
        .iter_mut()
        .map(|caller| calls_a_turn(caller, subjects))
        .collect();
    let pieces = subjects.len().div_ceil(PIECE);
    let mut taken = vec![vec![Vec::new(); pieces]; callers.len()];
    for turn in 0..turns {
        for place in 0..callers.len() {
            let which = (turn + place) % callers.len();
            for (piece, taken) in subjects.chunks(PIECE).zip(&mut taken[which]) {
                let took = below(turn % PLACES, &mut || callers[which](piece, calls[which]));
                taken.push(took.as_nanos() as f64 / f64::from(calls[which]));
            }
        }
    }
    let of_all = |taken: Vec<Vec<f64>>| sum(taken, subjects.len() as f64);
    taken.into_iter().map(of_all).collect()
}

fn calls_a_turn<S>(caller: &mut Caller<S>, subjects: &[S]) -> u32 {
    if subjects.len() > 1 {
        return 1;
    }
    caller(subjects, 100);
    let once = caller(subjects, 100) / 100;
    (TURN.as_nanos() / once.as_nanos().max(1)).clamp(1, 100_000) as u32
}

/// The pieces' medians and least times, added up.
fn sum(pieces: Vec<Vec<f64>>, subjects: f64) -> Times {
    let mut sum = Times::default();
    for mut taken in pieces {
        taken.sort_by(f64::total_cmp);
        sum.median += taken[taken.len() / 2] / subjects;
        sum.least += taken[0] / subjects;
    }
    sum
}
