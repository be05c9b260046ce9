//! A second solver: every question of the ladder (document 01, section 6) is put by Bellman-Ford afresh. The first grade is part
//! of the plan (request T-04). The times of each side (request T-02) are found from its own end.
use crate::bounds::{bounds, Bound};
use crate::outcome::Outcome;
use crate::plan::{Plan, Record};
use crate::side::Sides;

/// The best timetables with the greatest and with the least times, or none where there is no timetable.
pub fn solve(plan: &Plan) -> Option<Sides<Outcome>> {
    let cut = climbed(plan)?;
    let solved = |times: Vec<i64>| {
        let levels = plan.wishes().map(|(_, wish)| level(wish, &times)).collect();
        Outcome::Solved { times, levels }
    };
    Some(Sides { latest: solved(latest(&cut)?), earliest: solved(earliest(&cut)?) })
}

/// The plan whose timetables are the best ones: each wish is cut to the distances at the highest grade that it reaches.
fn climbed(plan: &Plan) -> Option<Plan> {
    let mut cut = Plan { records: plan.records.iter().map(allowed).collect::<Option<_>>()?, ..*plan };
    earliest(&cut)?;
    for grade in 2..=15 {
        for (number, wish) in plan.wishes() {
            let Some(cut_wish) = at_grade(wish, grade) else { continue };
            let before = std::mem::replace(&mut cut.records[number], cut_wish);
            if earliest(&cut).is_none() {
                cut.records[number] = before;
            }
        }
    }
    Some(cut)
}

/// A record as a rule over the distances that it allows; a wish allows those of level 1 or more.
fn allowed(record: &Record) -> Option<Record> {
    if record.is_wish() {
        at_grade(record, 1)
    } else {
        Some(record.clone())
    }
}

/// A wish as a rule over its distances at this grade or more, where it has some.
fn at_grade(wish: &Record, grade: u8) -> Option<Record> {
    let first = wish.levels().iter().position(|&level| level >= grade)?;
    let last = wish.levels().iter().rposition(|&level| level >= grade)?;
    Some(Record::rule(wish.start, wish.end, wish.low + first as i64, wish.low + last as i64))
}

/// The least time of each event: start at 0 and delay events.
fn earliest(plan: &Plan) -> Option<Vec<i64>> {
    let delay = |bound: &Bound, times: &mut [i64]| times[bound.start] = times[bound.end] - bound.weight;
    settled(plan, vec![0; plan.events], delay)
}

/// The greatest time of each event: start at the horizon, but event 0 at 0, and bring events forward.
fn latest(plan: &Plan) -> Option<Vec<i64>> {
    let mut times = vec![plan.horizon; plan.events];
    times[0] = 0;
    settled(plan, times, |bound, times| times[bound.end] = times[bound.start] + bound.weight)
}

/// The times once every bound holds; where one does not, an event is moved as far as it asks. More rounds than events mean that
/// the bounds chase each other for ever.
fn settled(plan: &Plan, mut times: Vec<i64>, to_hold: impl Fn(&Bound, &mut [i64])) -> Option<Vec<i64>> {
    let bounds = bounds(plan);
    for _ in 0..=plan.events {
        let mut still = true;
        for bound in &bounds {
            if times[bound.end] - times[bound.start] > bound.weight {
                to_hold(bound, &mut times);
                still = false;
            }
        }
        if still {
            return Some(times);
        }
    }
    None
}

fn level(wish: &Record, times: &[i64]) -> u8 {
    wish.levels()[(times[wish.end] - times[wish.start] - wish.low) as usize]
}
