//! Cases that were stored before C-17, or before C-18. They keep their bytes: rooms are those of the files of then, and rules
//! that were refused then have what refused rules have. The number written beside a case of writing is that of then.
//!
//! A room for a file of version 1 is too short since C-17 where the plan joins gates; a byte less than a file with every pick
//! is enough since C-18 where members have equal wires. Such a case comes once more with the room moved, behind the fixed
//! cases of the request that moved it, so that nothing goes untried.

use super::{file_with, List, Made};
use crate::generate::conditions::Conditions;
use crate::generate::words::Words;
use crate::law::*;
use crate::plan::lay_out;
use crate::stream::{Case, WRITE};

/// So much longer is a guard of version 2.
const MORE_A_GUARD: usize = VERSION_2.table_bytes() - VERSION_1.table_bytes();

impl List {
    /// The number of a case today, from that of then.
    pub(super) fn today(&mut self, made: &Made, wanted: u8) -> u8 {
        let wanted = self.since_eight(made, wanted);
        self.since_equal(made, wanted)
    }

    /// The number of a case since C-17, from that of before.
    fn since_eight(&mut self, made: &Made, wanted: u8) -> u8 {
        let case = &made.case;
        if self.words.conditions == Conditions::Eight
            || case.operation != WRITE
            || !matches!(wanted, 0 | 50)
        {
            return wanted;
        }
        let room = usize::from(case.room);
        let length = self.length(&case.first, &case.second);
        let more = MORE_A_GUARD * members(&case.second);
        // Those that are at the file's end, or near it.
        let moved = match wanted {
            0 => room < length + more,
            _ => more > 0 && room + 1 == length,
        };
        if moved {
            self.moved.push((with_room(made, room + more), wanted));
            return 50;
        }
        wanted
    }

    /// The number of a case since C-18, from that of before. Cases of before C-17 have come again with their room moved, and it is
    /// those that are moved once more.
    fn since_equal(&mut self, made: &Made, wanted: u8) -> u8 {
        let case = &made.case;
        if self.words.picks == PICKS || case.operation != WRITE || !matches!(wanted, 0 | 50) {
            return wanted;
        }
        let room = usize::from(case.room);
        let [was, is] = [Words::BEFORE_EQUAL, Words::ALL]
            .map(|words| file_with(&case.first, &case.second, words).len());
        let of_eight = self.words.conditions == Conditions::Eight;
        // Those that are enough now, and those that were just enough.
        if of_eight && is < was && (is..=was).contains(&room) {
            let room = room.saturating_sub(was - is);
            self.moved.push((with_room(made, room), wanted));
        }
        if room >= is {
            0
        } else {
            wanted
        }
    }

    /// A rule that was refused before C-17, by every operation. It is accepted now; the inputs and the plan do not fit.
    #[track_caller]
    pub(super) fn no_longer_refused(&mut self, rule: &[u8], plan: &[u8]) {
        self.read(rule, 0);
        self.direct(rule, &[1, 6, 7], 3, 40);
        self.with_plan(rule, plan, 22);
        self.shown(rule, 0);
    }
}

/// The same case with another room.
fn with_room(made: &Made, room: usize) -> Made {
    let room = room as u16;
    let case = made.case.clone();
    Made {
        case: Case { room, ..case },
        ..*made
    }
}

/// How many members the groups of a plan that is laid out have: each has a guard.
fn members(plan: &[u8]) -> usize {
    let groups = lay_out(plan).expect("an accepted plan");
    groups.iter().map(Vec::len).sum()
}
