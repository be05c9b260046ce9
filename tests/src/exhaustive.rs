//! Small plans by listing every timetable: sections 1 and 6 and demand 3, word for word, of request T-04 what a timetable is, and
//! of request T-02 the sides. No bounds, no runs.
use crate::plan::{Kind, Plan, Record};
use crate::side::Side;

/// Every row of times that keeps the horizon and all rules, and has level 1 or more at each wish.
pub fn timetables(plan: &Plan) -> Vec<Vec<i64>> {
    let mut rows = vec![vec![0]];
    for _ in 1..plan.events {
        rows = rows.iter().flat_map(|row| (0..=plan.horizon).map(|time| [&row[..], &[time]].concat())).collect();
    }
    rows.retain(|times| plan.records.iter().all(|record| keeps(times, record)));
    rows
}

fn distance(times: &[i64], record: &Record) -> i64 {
    times[record.end] - times[record.start]
}

fn keeps(times: &[i64], record: &Record) -> bool {
    let distance = distance(times, record);
    match &record.kind {
        Kind::Rule { high } => (record.low..=*high).contains(&distance),
        Kind::Wish { levels } => (record.low..).zip(levels).any(|(at, &level)| at == distance && level >= 1),
    }
}

/// The levels of the wishes, in record order.
pub fn levels(plan: &Plan, times: &[i64]) -> Vec<u8> {
    plan.wishes().map(|(_, wish)| wish.levels()[(distance(times, wish) - wish.low) as usize]).collect()
}

/// The replies to the questions of the ladder.
fn replies(levels: &[u8]) -> Vec<bool> {
    (1..=15).flat_map(|grade| levels.iter().map(move |&level| level >= grade)).collect()
}

/// Yes at the first question where the replies differ.
fn better(one: &[u8], other: &[u8]) -> bool {
    replies(one).into_iter().zip(replies(other)).find(|(a, b)| a != b).is_some_and(|(a, _)| a)
}

/// Yes where the time lies further to this side than another.
fn beyond(side: Side, time: i64, other: i64) -> bool {
    match side {
        Side::Latest => time > other,
        Side::Earliest => time < other,
    }
}

/// Holds an outcome to sections 1 and 6: a best timetable, the outermost one on its side, its levels, and fair.
pub fn check_solved(plan: &Plan, side: Side, times: &[i64], given: &[u8]) -> Result<(), String> {
    let all = timetables(plan);
    if !all.iter().any(|row| row == times) {
        return Err(format!("{times:?} is no timetable"));
    }
    if levels(plan, times) != given {
        return Err(format!("the levels are {:?}, not {given:?}", levels(plan, times)));
    }
    for other in &all {
        let theirs = levels(plan, other);
        if better(&theirs, given) {
            return Err(format!("{other:?} with levels {theirs:?} is better than {times:?} with {given:?}"));
        }
        if !better(given, &theirs) && other.iter().zip(times).any(|(&their, &our)| beyond(side, their, our)) {
            return Err(format!("{other:?} is as good as {times:?}, so these are not the {side:?} times"));
        }
        fair(given, &theirs)?;
    }
    Ok(())
}

/// Demand 3: a timetable that lifts a wish lowers another to no more than that wish had. And what follows from it: none has
/// every level as high and one higher, and none has a higher least level.
fn fair(ours: &[u8], theirs: &[u8]) -> Result<(), String> {
    let wishes = 0..ours.len();
    let lifted: Vec<usize> = wishes.clone().filter(|&k| theirs[k] > ours[k]).collect();
    for &k in &lifted {
        if !wishes.clone().any(|j| j != k && theirs[j] < ours[j] && theirs[j] <= ours[k]) {
            return Err(format!("unfair: levels {theirs:?} lift wish {k} of {ours:?} without a loss"));
        }
    }
    if !lifted.is_empty() && wishes.clone().all(|j| theirs[j] >= ours[j]) {
        return Err(format!("levels {theirs:?} are above {ours:?}"));
    }
    if theirs.iter().min() > ours.iter().min() {
        return Err(format!("levels {theirs:?} have a higher least level than {ours:?}"));
    }
    Ok(())
}

/// No row of times is a timetable.
pub fn check_none(plan: &Plan) -> Result<(), String> {
    match timetables(plan).first() {
        None => Ok(()),
        Some(times) => Err(format!("{times:?} is a timetable")),
    }
}
