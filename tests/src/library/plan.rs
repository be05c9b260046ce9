//! The proved reader (static library `plan_c`).

/// The least length of the lent levels area.
pub const LEVELS_AREA: usize = 8_192;

#[link(name = "plan_c", kind = "static")]
extern "C" {
    fn plan_number(text: *const u8, n: usize, levels: *mut u8, m: usize) -> u8;
    fn plan_place(text: *const u8, n: usize, levels: *mut u8, m: usize) -> usize;
    fn plan_head(text: *const u8, n: usize, levels: *mut u8, m: usize, which: usize) -> usize;
    fn plan_field(text: *const u8, n: usize, levels: *mut u8, m: usize, record: usize, which: usize) -> i32;
}

/// 0 for a plan, else the number of the refusal.
pub fn number(text: &[u8], levels: &mut [u8]) -> u8 {
    unsafe { plan_number(text.as_ptr(), text.len(), levels.as_mut_ptr(), levels.len()) }
}

/// The line of the refusal.
pub fn place(text: &[u8], levels: &mut [u8]) -> usize {
    unsafe { plan_place(text.as_ptr(), text.len(), levels.as_mut_ptr(), levels.len()) }
}

/// 0 events, 1 horizon, 2 records, 3 levels used.
pub fn head(text: &[u8], levels: &mut [u8], which: usize) -> usize {
    unsafe { plan_head(text.as_ptr(), text.len(), levels.as_mut_ptr(), levels.len(), which) }
}

/// Of one record: 0 a, 1 b, 2 lo, 3 hi, 4 its first level in the area, 5 its count of levels.
pub fn field(text: &[u8], levels: &mut [u8], record: usize, which: usize) -> i32 {
    unsafe { plan_field(text.as_ptr(), text.len(), levels.as_mut_ptr(), levels.len(), record, which) }
}
