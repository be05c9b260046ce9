//! The proved libraries behind their C interface.
#[cfg(feature = "plan_c")]
pub mod plan;
#[cfg(feature = "solver")]
pub mod solver;

/// Entries before and behind a lent area, which nobody may touch.
const GUARD: usize = 64;

/// A lent area between two guards, filled with a pattern that changes from entry to entry.
pub struct Area<T> {
    all: Vec<T>,
}

impl<T: Copy> Area<T> {
    /// `pattern` gives the old contents; entry 0 of the area is number `GUARD` of the pattern.
    pub fn new(length: usize, pattern: impl Fn(usize) -> T) -> Area<T> {
        Area { all: (0..length + 2 * GUARD).map(pattern).collect() }
    }

    pub fn lent(&mut self) -> &mut [T] {
        let end = self.all.len() - GUARD;
        &mut self.all[GUARD..end]
    }

    pub fn entries(&self) -> &[T] {
        &self.all[GUARD..self.all.len() - GUARD]
    }

    /// What the area and its guards ought to hold once `front` is written.
    pub fn with_front(mut self, front: &[T]) -> Vec<T> {
        self.all[GUARD..GUARD + front.len()].copy_from_slice(front);
        self.all
    }

    /// The area with its guards.
    pub fn all(&self) -> &[T] {
        &self.all
    }
}
