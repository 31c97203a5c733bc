//! A plan for a rule's circuit: rows 20 to 29 and 32 in one pass over its bytes, and what joining adds to the counts.

use crate::law::*;
use crate::needed::{counted, meet, Conditions, Rested, Set};
use crate::places::{rising, two, Places};

// What `marks` says of a gate: it is in a joined group; it is not the first there; its group is watched.
pub const JOINED: u8 = 1;
pub const INNER: u8 = 2;
pub const WATCHED: u8 = 4;

// A bit for each row that groups can break, in the order of the rows: 24, 25, 26, 32 (C-15), 27, 28, 29. The lowest bit set
// is the first row broken.
const SMALL: u32 = 24;
const UNKNOWN: u32 = 25;
const TWICE: u32 = 26;
const FALLS: u32 = 27;
const NOT_COSTLY: u32 = 28;
const DIFFERS: u32 = 29;
const MEETS: u32 = 30;

/// The number of a bit's row.
#[inline(always)]
fn row_of(bit: u32) -> u8 {
    match bit {
        ..FALLS => bit as u8,
        FALLS => 32,
        _ => bit as u8 - 1,
    }
}

// At which argument places a joined group has a pick: none where all members have the same wire (C-18).
pub const FIRST: u8 = 1;
pub const SECOND: u8 = 2;
pub const BOTH: u8 = FIRST | SECOND;

/// A rule's circuit and a plan for it. Arrays hold something for each gate, and nothing after the gates.
pub struct Planned {
    pub gates: usize,
    pub variables: usize,
    /// The code in the lowest byte, then up to three argument gates in file order.
    pub rows: Places<u32, GATES_MAX>,
    pub constants: Places<u32, GATES_MAX>,
    pub needs: Places<Set, GATES_MAX>,
    pub conditions: Conditions,
    pub conditions_count: usize,
    /// 0 for a gate alone that nothing watches.
    pub marks: Places<u8, GATES_MAX>,
    /// The first member of each gate's group.
    pub group: Places<u8, GATES_MAX>,
    /// Of a joined first member: where its group begins in the plan.
    pub begins: Places<u16, GATES_MAX>,
    /// Of a joined member: the conditions that it rests on.
    pub rests: Places<u8, GATES_MAX>,
    /// Of a joined first member: the conditions that any member rests on.
    pub group_rests: Places<u8, GATES_MAX>,
    /// Of a joined first member: how many members are known to have arguments with wires.
    pub passed: Places<u8, GATES_MAX>,
    /// Of a joined first member: how many conditions the members' guards would name.
    pub named: Places<u16, GATES_MAX>,
    /// Of a joined first member, once it is written: its picks.
    pub picks: Places<u8, GATES_MAX>,
    /// The wire of each gate's group, once it is written.
    pub wires: Places<u16, GATES_MAX>,
    /// Gates that are joined have one record for all of them: so many wires less.
    pub fewer_wires: usize,
    /// Guards and picks, which are known as groups are written: so many wires more.
    pub more_wires: usize,
    /// What both add to bytes and cost.
    pub more_bytes: isize,
    pub more_cost: isize,
}

/// A member of the group that begins at a place of the plan.
#[inline(always)]
pub fn member(plan: &[u8], begins: usize, place: usize) -> usize {
    usize::from(two(plan, begins + 1 + 2 * place))
}

impl Planned {
    #[inline(always)]
    pub fn new() -> Planned {
        Planned {
            gates: 0,
            variables: 0,
            rows: Places::new(),
            constants: Places::new(),
            needs: Places::new(),
            conditions: [0; 8],
            conditions_count: 0,
            marks: Places::new(),
            group: Places::new(),
            begins: Places::new(),
            rests: Places::new(),
            group_rests: Places::new(),
            passed: Places::new(),
            named: Places::new(),
            picks: Places::new(),
            wires: Places::new(),
            fewer_wires: 0,
            more_wires: 0,
            more_bytes: 0,
            more_cost: 0,
        }
    }

    /// Rows 20 to 29 and 32, after 26: the first that any place of the plan breaks, or 0.
    #[inline(always)]
    pub fn check(&mut self, plan: &[u8]) -> u8 {
        if plan.len() < PLAN_BYTES_MIN || plan.len() > PLAN_BYTES_MAX {
            20
        } else if plan[..5] != PLAN_MARK {
            21
        } else if usize::from(two(plan, 5)) != self.gates {
            22
        } else {
            self.check_groups(plan)
        }
    }

    /// Rows 23 to 29 and 32, likewise.
    #[inline(always)]
    fn check_groups(&mut self, plan: &[u8]) -> u8 {
        self.marks.fill(0, self.gates, 0);
        self.group
            .copy_from(&const { rising::<GATES_MAX>() }, self.gates);
        let groups = usize::from(two(plan, 7));
        let mut broken = 0;
        let mut rested = Rested::NONE;
        let mut place = PLAN_BYTES_MIN;
        let mut least = 0;
        for _ in 0..groups {
            let size = usize::from(*plan.get(place).unwrap_or(&u8::MAX));
            let end = place + 1 + 2 * size;
            if end > plan.len() {
                return 23;
            }
            broken |= if size < 2 {
                1 << SMALL
            } else {
                let first = member(plan, place, 0);
                let falls = u32::from(first < least) << FALLS;
                least = first + 1;
                falls | self.join(plan, place, size, &mut rested)
            };
            place = end;
        }
        if place != plan.len() {
            return 23;
        }
        if broken == 0 {
            0
        } else {
            row_of(broken.trailing_zeros())
        }
    }

    /// One group: the rows that it breaks by itself, a bit each. All are looked for at every member, without a branch
    /// for each.
    #[inline(always)]
    fn join(&mut self, plan: &[u8], begins: usize, size: usize, rested: &mut Rested) -> u32 {
        let first = member(plan, begins, 0);
        if first >= self.gates {
            return 1 << UNKNOWN;
        }
        let code = self.rows.get(first) as u8;
        let mut broken = 0;
        let (mut seen, mut on, mut named) = ([0; 4], 0, 0);
        let (mut least, mut mark) = (0, JOINED);
        for place in 0..size {
            let gate = member(plan, begins, place);
            if gate >= self.gates || gate < least {
                return 1 << UNKNOWN;
            }
            least = gate + 1;
            let needs = self.needs.get(gate);
            let own = self.rows.get(gate) as u8;
            broken |= u32::from(self.marks.get(gate) != 0) << TWICE;
            broken |= u32::from(!costly(own)) << NOT_COSTLY;
            broken |= u32::from(own != code) << DIFFERS;
            broken |= u32::from(meet(&mut seen, needs)) << MEETS;
            let rests = rested.of(needs, place);
            on |= rests;
            named += counted(rests);
            self.marks.set(gate, mark);
            self.group.set(gate, first as u8);
            self.rests.set(gate, rests);
            mark = JOINED | INNER;
        }
        self.begins.set(first, begins as u16);
        self.group_rests.set(first, on);
        self.passed.set(first, 0);
        self.named.set(first, named as u16);
        // The members' records of 5 bytes go, one operation comes.
        self.fewer_wires += size - 1;
        self.more_bytes -= 5 * (size as isize - 1);
        self.more_cost -= isize::from(COSTS[usize::from(code & 7)]) * (size as isize - 1);
        broken
    }

    /// All wires, once every group is written.
    #[inline(always)]
    pub fn wires_count(&self) -> usize {
        self.gates - self.fewer_wires + self.more_wires
    }

    /// A group is written, so that the wires of all arguments are known: which picks it has, and what they and the guards
    /// add. Guards are there only for picks.
    #[inline(always)]
    pub fn count_group(&mut self, plan: &[u8], first: usize, begins: usize, size: usize) {
        let of = |gate: usize| {
            let [_, x, y, _] = self.rows.get(gate).to_le_bytes();
            (self.wires.get(x), self.wires.get(y))
        };
        let (x, y) = of(first);
        let (mut first_differs, mut second_differs) = (0, 0);
        for place in 1..size {
            let (other_x, other_y) = of(member(plan, begins, place));
            first_differs |= x ^ other_x;
            second_differs |= y ^ other_y;
        }
        let picks = u8::from(first_differs != 0) | u8::from(second_differs != 0) << 1;
        self.picks.set(first, picks);
        if picks != 0 {
            let count = usize::from(picks.count_ones() as u8);
            let guards = (2 + TABLE_BYTES) * size + 2 * usize::from(self.named.get(first));
            self.more_wires += size + count;
            self.more_bytes += (guards + count * (2 + 4 * size)) as isize;
            self.more_cost += ((GUARD_COST + count * PICK_COST_A_PAIR) * size) as isize;
        }
    }
}
