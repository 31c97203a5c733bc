//! Arrays that nothing clears, and numbers at a place of bytes.

use std::mem::MaybeUninit;

/// N places that nothing clears: clearing what is not read would cost more than a small rule does.
/// Whoever reads a place has set it before, and names one of the N; only builds for tests look at the latter.
pub struct Places<T, const N: usize>([MaybeUninit<T>; N]);

impl<T: Copy, const N: usize> Places<T, N> {
    #[inline(always)]
    pub fn new() -> Self {
        Places([MaybeUninit::uninit(); N])
    }

    #[inline(always)]
    pub fn get(&self, place: impl Into<usize>) -> T {
        unsafe { self.0.get_unchecked(place.into()).assume_init() }
    }

    #[inline(always)]
    pub fn set(&mut self, place: impl Into<usize>, to: T) {
        unsafe { self.0.get_unchecked_mut(place.into()).write(to) };
    }

    /// Every byte of some places set to the same; T is an unsigned number.
    #[inline(always)]
    pub fn fill(&mut self, from: usize, end: usize, byte: u8) {
        debug_assert!(from <= end && end <= N);
        unsafe { std::ptr::write_bytes(self.0.as_mut_ptr().add(from), byte, end - from) };
    }

    #[inline(always)]
    pub fn copy_from(&mut self, from: &[T; N], count: usize) {
        debug_assert!(count <= N);
        let to = self.0.as_mut_ptr().cast();
        unsafe { std::ptr::copy_nonoverlapping(from.as_ptr(), to, count) };
    }

    #[inline(always)]
    pub fn as_mut_ptr(&mut self) -> *mut T {
        self.0.as_mut_ptr().cast()
    }
}

/// 0, 1, 2 and so on: each gate's own number, each variable's first gate.
pub const fn rising<const N: usize>() -> [u8; N] {
    let mut all = [0; N];
    let mut place = 0;
    while place < N {
        all[place] = place as u8;
        place += 1;
    }
    all
}

// Reading at a place that is known to lie inside.

#[inline(always)]
pub fn byte(bytes: &[u8], place: usize) -> u8 {
    debug_assert!(place < bytes.len());
    unsafe { *bytes.get_unchecked(place) }
}

/// Two bytes, the first the highest.
#[inline(always)]
pub fn two(bytes: &[u8], place: usize) -> u16 {
    debug_assert!(place + 2 <= bytes.len());
    unsafe { u16::from_be(bytes.as_ptr().add(place).cast::<u16>().read_unaligned()) }
}

/// Four bytes, the first the lowest.
#[inline(always)]
pub fn four(bytes: &[u8], place: usize) -> u32 {
    debug_assert!(place + 4 <= bytes.len());
    unsafe { u32::from_le(bytes.as_ptr().add(place).cast::<u32>().read_unaligned()) }
}

/// Eight bytes, the first the lowest.
#[inline(always)]
pub fn eight(bytes: &[u8], place: usize) -> u64 {
    debug_assert!(place + 8 <= bytes.len());
    unsafe { u64::from_le(bytes.as_ptr().add(place).cast::<u64>().read_unaligned()) }
}
