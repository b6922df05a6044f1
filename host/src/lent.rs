//! Buffers as they are lent to a planner: filled with a pattern that depends on the place, between guards.

/// What a place holds before a call.
pub trait Filled: Copy + PartialEq + std::fmt::Debug {
    fn at(place: usize) -> Self;
}

impl Filled for u64 {
    fn at(place: usize) -> u64 {
        (place as u64 | 1 << 40).wrapping_mul(0xD6E8_FEB8_6659_FD93)
    }
}

impl Filled for u8 {
    fn at(place: usize) -> u8 {
        (place as u8).wrapping_mul(31) ^ 0xA5
    }
}

const GUARD: usize = 16;

/// The room is used again from call to call.
#[derive(Default)]
pub struct Lent<T> {
    room: Vec<T>,
    length: usize,
}

impl<T: Filled> Lent<T> {
    /// Fills the buffer and its guards for the next call.
    pub fn lend(&mut self, length: usize) -> &mut [T] {
        self.length = length;
        self.room.clear();
        self.room.extend((0..length + 2 * GUARD).map(T::at));
        &mut self.room[GUARD..GUARD + length]
    }

    pub fn words(&self) -> &[T] {
        &self.room[GUARD..GUARD + self.length]
    }

    /// The first place, the guards among them, that was written though it lies outside the first `front` ones of the buffer.
    pub fn written_outside(&self, front: usize) -> Option<isize> {
        let kept = |k: &usize| (GUARD..GUARD + front).contains(k) || self.room[*k] == T::at(*k);
        (0..self.room.len()).find(|k| !kept(k)).map(|k| k as isize - GUARD as isize)
    }
}
