//! The proved solver (static library `solver`).
use crate::side::Side;

/// The least lengths of the three lent areas.
pub const TIMES_AREA: usize = 128;
pub const LEVELS_AREA: usize = 256;
pub const CHAIN_AREA: usize = 128;

/// A function that solves: the sides have the same parameters.
macro_rules! solving {
    ($name:ident) => {
        fn $name(
            text: *const u8,
            n: usize,
            times: *mut i64,
            nt: usize,
            levels: *mut u8,
            nl: usize,
            chain: *mut u16,
            nc: usize,
            place: *mut usize,
        ) -> u8;
    };
}

#[link(name = "solver", kind = "static")]
extern "C" {
    solving!(timetable_solve);
    solving!(timetable_solve_earliest);
    fn timetable_ticks_short(text: *const u8, n: usize, chain: *const u16, steps: usize) -> u64;
}

/// The number and the place of the outcome; the rest of it is in the areas.
pub fn solve(side: Side, text: &[u8], times: &mut [i64], levels: &mut [u8], chain: &mut [u16]) -> (u8, usize) {
    let solve = match side {
        Side::Latest => timetable_solve,
        Side::Earliest => timetable_solve_earliest,
    };
    let mut place = usize::MAX;
    let number = unsafe {
        solve(
            text.as_ptr(),
            text.len(),
            times.as_mut_ptr(),
            times.len(),
            levels.as_mut_ptr(),
            levels.len(),
            chain.as_mut_ptr(),
            chain.len(),
            &mut place,
        )
    };
    (number, place)
}

/// By how many ticks the chain falls short; 0 where it is none of this text.
pub fn ticks_short(text: &[u8], chain: &[u16]) -> u64 {
    unsafe { timetable_ticks_short(text.as_ptr(), text.len(), chain.as_ptr(), chain.len()) }
}
