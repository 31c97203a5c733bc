//! The three passes, each called through a pointer to a function, so that none becomes a part of the loop that calls it.
//! Before C-17 a pass was lent a word a gate, since then four. What is unsafe stands here alone.

use crate::given::Given;
use compare::law::GATES_MAX;
use std::hint::black_box;
use std::ops::Range;

/// Words of a set.
pub const SET_WORDS: usize = 4;
/// The sets that a pass is lent: gate i's in words 4i to 4i + 3, the lowest first.
pub type Wide = [u64; SET_WORDS * GATES_MAX];
/// Those of before C-17.
pub type Narrow = [u64; GATES_MAX];

/// A slice is a pointer and a count, an array a pointer.
type Function = unsafe extern "C" fn(
    quads: *const u32,
    count: usize,
    ranks: *const u16,
    wanted: *const u16,
    wanted_count: usize,
    sets: *mut u64,
);

#[rustfmt::skip]
extern "C" {
    fn linnet_pass_before(quads: *const u32, count: usize, ranks: *const u16, wanted: *const u16, wanted_count: usize, sets: *mut u64);
    fn linnet_pass_after(quads: *const u32, count: usize, ranks: *const u16, wanted: *const u16, wanted_count: usize, sets: *mut u64);
}

// Each call below is sound: what is given is that of an accepted rule, before C-17's one of at most six conditions, and the
// sets are an array as long as the pass has it that nobody else holds. By the contract of the proved pass they are also
// clear; what it gives rests on that, but not where it writes.

/// The proved pass as it was.
pub fn before() -> impl Fn(&Given, &mut Narrow) {
    proved(linnet_pass_before)
}

/// The proved pass as it is.
pub fn after() -> impl Fn(&Given, &mut Wide) {
    proved(linnet_pass_after)
}

/// The same code calls both, so that only what is called differs, and how much is lent.
fn proved<const N: usize>(function: Function) -> impl Fn(&Given, &mut [u64; N]) {
    let function: Function = black_box(function);
    move |given, sets| unsafe {
        function(
            given.rows().as_ptr(),
            given.count(),
            given.ranks().as_ptr(),
            given.wanted().as_ptr(),
            given.wanted().len(),
            sets.as_mut_ptr(),
        )
    }
}

type Tuned = unsafe fn(&[u32; 4 * GATES_MAX], Range<usize>, &[u8], &[u16], &mut Wide);

pub fn tuned() -> impl Fn(&Given, &mut Wide) {
    let function: Tuned = black_box(tuned::pass_alone);
    move |given, sets| unsafe {
        function(
            given.rows(),
            given.starts()..given.count(),
            given.conditions(),
            given.wanted(),
            sets,
        )
    }
}
