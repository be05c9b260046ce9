//! The known plans of document 01, section 7, with their outcomes on both sides, as requests T-02, T-04 and T-10 change them.
use crate::outcome::Outcome;
use crate::side::Sides;

/// A text and its outcomes.
pub type Known = (Vec<u8>, Sides<Outcome>);

/// A plan as the document writes it: spaces for tabs, lines parted by `;`.
fn text(plan: &str) -> Vec<u8> {
    format!("{plan}\n").replace("; ", "\n").replace(' ', "\t").into_bytes()
}

/// One best timetable, so both sides have its times.
fn solved(plan: &str, times: &[i64], levels: &[u8]) -> Known {
    between(plan, times, times, levels)
}

/// Several best timetables, between these times.
fn between(plan: &str, earliest: &[i64], latest: &[i64], levels: &[u8]) -> Known {
    let solved = |times: &[i64]| Outcome::Solved { times: times.to_vec(), levels: levels.to_vec() };
    (text(plan), Sides { latest: solved(latest), earliest: solved(earliest) })
}

fn none(plan: &str, chain: &[u16]) -> Known {
    (text(plan), Sides::alike(Outcome::None { chain: chain.to_vec() }))
}

fn refused(plan: &str, number: u8, place: usize) -> Known {
    (text(plan), Sides::alike(Outcome::Refused { number, place }))
}

/// Cases 1 to 12, then those that T-04, T-10 and T-02 bring. Each of the plans without a timetable has one chain only.
pub fn cases() -> Vec<Known> {
    let second = "events 4 20; rule 0 1 3 3; rule 1 2 0 20; wish 2 3 2 0 1 3 2; wish 0 3 4 3 3 2 2 1 0";
    vec![
        solved("events 1 0", &[0], &[]),
        solved(second, &[0, 3, 3, 7], &[3, 2]),
        none("events 2 1; wish 0 1 0 0 1; wish 0 1 0 1 0", &[2, 1]),
        none("events 2 1; wish 0 1 0 1 0; wish 0 1 0 0 1", &[0, 3]),
        solved("events 2 1; wish 0 1 0 5 1; wish 0 1 0 0 1", &[0, 1], &[1, 1]),
        solved("events 3 10; wish 0 1 0 1; wish 1 2 1 1 2 3", &[0, 0, 3], &[1, 3]),
        none("events 3 10; rule 0 1 4 10; rule 1 2 4 10; rule 0 2 0 7", &[4, 3, 1]),
        solved("events 3 10; rule 0 1 4 10; rule 1 2 4 10; rule 0 2 0 8", &[0, 4, 8], &[]),
        none("events 2 3; rule 0 1 4 10", &[514, 1]),
        solved("events 2 4; rule 0 1 4 10", &[0, 4], &[]),
        refused("events 2 9; wish 0 1 0 2 1 2", 6, 2),
        refused("events 2 9; rule 1 1 5 4", 4, 2),
        refused("events 2 9; rule 1 1 4 5", 5, 2),
        refused("events 2 9; rule 0 1 -0 4", 2, 2),
        refused("events 2 9; rule 0 1 -100001 4", 4, 2),
        // The tie, and its wishes exchanged.
        solved("events 2 1; wish 0 1 0 1 2; wish 0 1 0 2 1", &[0, 1], &[2, 1]),
        solved("events 2 1; wish 0 1 0 2 1; wish 0 1 0 1 2", &[0, 0], &[2, 1]),
        // Case 5 a level higher: were the first wish to climb as far as it can, the levels would be 6, 1.
        solved("events 2 1; wish 0 1 0 6 2; wish 0 1 0 1 2", &[0, 1], &[2, 2]),
        refused("events 2 9; wish 0 1 0 0 0 0", 8, 2),
        refused("events 2 9; wish 1 1 0 0 0 0", 5, 2),
        // As many events as are allowed, and one more; the horizon's codes of event 127.
        solved("events 128 0", &[0; 128], &[]),
        refused("events 129 0", 4, 1),
        none("events 128 0; rule 0 127 1 1", &[766, 1]),
        none("events 128 9; rule 127 0 1 1", &[1, 767]),
        between("events 2 9; rule 0 1 2 5", &[0, 2], &[0, 5], &[]),
        // The timetables with the least and the greatest times of all, 0, 0, 1 and 0, 3, 6, are not best.
        between("events 3 9; wish 0 1 0 1 2 2 1; rule 1 2 1 3", &[0, 1, 2], &[0, 2, 5], &[2]),
    ]
}

/// Case 13: 256 rules are taken; a 257th is 3 at line 258.
pub fn many_rules() -> Vec<Known> {
    let rules = |count| format!("events 2 9{}", "; rule 0 1 2 9".repeat(count));
    vec![between(&rules(256), &[0, 2], &[0, 9], &[]), refused(&rules(257), 3, 258)]
}

/// The whole output that section 7 prints for case 2.
pub const SECOND_PRINTED: &str = "solved\t4\t2\nat\t0\t0\nat\t1\t3\nat\t2\t3\nat\t3\t7\nlevel\t2\t3\nlevel\t3\t2\n";

/// The whole output for case 3: each wish allows one distance, and these are the weights.
pub const THIRD_PRINTED: &str = "none\t2\nstep\t0\t1\t0\t2\nstep\t1\t0\t-1\t1\n";
