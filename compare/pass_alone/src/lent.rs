//! Calls on sets that are lent clear, with the clearing left out of what is timed.

use crate::given::Given;
use crate::passes::{Narrow, Wide, SET_WORDS};
use compare::law::GATES_MAX;
use harness::measure::Caller;
use std::cell::RefCell;
use std::hint::black_box;
use std::time::{Duration, Instant};

/// The sets of so many calls in a row, four words a gate, are half of a first cache of 32 KiB. As many calls are made in a
/// row on sets of one word, so that the clock's time is a part of both alike.
const BYTES: usize = 16 * 1024;
/// Words that nobody is lent, between sets that are: so that many short ones do not all lie at the same lines of the cache.
const BETWEEN: usize = 32;

#[repr(C, align(64))]
struct Room<const N: usize> {
    sets: [u64; N],
    between: [u64; BETWEEN],
}

/// The sets of as many calls as are made in a row, all lent in turn, so that they lie at the same places for all tools.
struct Rooms<const N: usize>(RefCell<Vec<Room<N>>>);

impl<const N: usize> Rooms<N> {
    fn of(count: usize) -> Rooms<N> {
        let room = || Room {
            sets: [0; N],
            between: [0; BETWEEN],
        };
        let rooms = std::iter::repeat_with(room).take(count).collect();
        Rooms(RefCell::new(rooms))
    }

    /// So many calls, as many in a row as there are sets for.
    fn timed(
        &self,
        given: &Given,
        times: usize,
        pass: &impl Fn(&Given, &mut [u64; N]),
    ) -> Duration {
        let mut rooms = self.0.borrow_mut();
        let mut took = Duration::ZERO;
        let mut left = times;
        while left > 0 {
            let row = left.min(rooms.len());
            clear(&mut rooms[..row], given.count());
            let given = black_box(given);
            let start = Instant::now();
            for room in &mut rooms[..row] {
                pass(given, black_box(&mut room.sets));
            }
            took += start.elapsed();
            left -= row;
        }
        took
    }

    /// The pass gives what operation 06 gives, in each of the sets, or there is nothing to measure.
    fn check(&self, given: &Given, wanted: &[u64; N], pass: impl Fn(&Given, &mut [u64; N])) {
        let times = self.0.borrow().len();
        self.timed(given, times, &pass);
        for room in &*self.0.borrow() {
            assert_eq!(&room.sets, wanted);
        }
    }
}

/// A call writes no set but its gates': the others are clear from the start, and stay so (`check`).
fn clear<const N: usize>(rooms: &mut [Room<N>], gates: usize) {
    for room in rooms {
        black_box(&mut room.sets)[..N / GATES_MAX * gates].fill(0);
    }
}

/// A rule, and the sets that the passes are lent.
pub struct Lent {
    pub given: Given,
    wide: Rooms<{ SET_WORDS * GATES_MAX }>,
    narrow: Rooms<GATES_MAX>,
}

impl Lent {
    pub fn of(given: Given) -> Lent {
        let count = BYTES / (SET_WORDS * size_of::<u64>() * given.count());
        Lent {
            given,
            wide: Rooms::of(count),
            narrow: Rooms::of(count),
        }
    }

    /// A pass of four words a gate.
    pub fn check(&self, pass: impl Fn(&Given, &mut Wide)) {
        self.wide.check(&self.given, &self.given.needs(), pass);
    }

    /// A pass of one word a gate.
    pub fn check_narrow(&self, pass: impl Fn(&Given, &mut Narrow)) {
        let wanted = self.given.narrow_needs();
        self.narrow.check(&self.given, &wanted, pass);
    }
}

pub fn caller(pass: impl Fn(&Given, &mut Wide) + 'static) -> Caller<Lent> {
    Box::new(move |all, times| {
        let timed = |lent: &Lent| lent.wide.timed(&lent.given, times as usize, &pass);
        all.iter().map(timed).sum()
    })
}

pub fn narrow_caller(pass: impl Fn(&Given, &mut Narrow) + 'static) -> Caller<Lent> {
    Box::new(move |all, times| {
        let timed = |lent: &Lent| lent.narrow.timed(&lent.given, times as usize, &pass);
        all.iter().map(timed).sum()
    })
}
