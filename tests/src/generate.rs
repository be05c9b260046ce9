//! Random plans without fault. Each is made around a hidden row of times, which every record allows unless it is moved or
//! turned round.
use crate::chance::Chance;
use crate::plan::*;

/// What a random plan looks like.
#[derive(Clone, Debug)]
pub struct Shape {
    pub events: usize,
    pub horizon: i64,
    pub records: usize,
    /// How many of a hundred records are wishes.
    pub wishes: usize,
    /// The most levels of one wish, and what the greatest of them may be.
    pub levels: usize,
    pub heights: &'static [i64],
    /// How many of a hundred wishes have zeros typed around the distances that they allow.
    pub bordered: usize,
    /// How far a rule's ends lie from the hidden distance at most.
    pub slack: i64,
    /// How many of a thousand records are moved away from the hidden distance, and how far at most. As many wishes with borders
    /// are turned round: they still reach over the hidden distance, but may have a 0 there.
    pub moved: usize,
    pub moved_by: i64,
}

/// Low, middling and mostly high wishes.
const HEIGHTS: &[i64] = &[1, 2, 5, 15, 15, 15];

/// Plans of every size: many small ones, some at the limits, tight and loose, with and without timetables.
pub fn any_shape(chance: &mut Chance) -> Shape {
    let most_events = *chance.pick(&[2, 4, 8, 16, 64, 128]);
    let most_records = *chance.pick(&[3, 3, 6, 6, 12, 12, 30, 30, 60, 256]);
    Shape {
        events: 1 + chance.below(most_events),
        horizon: any_horizon(chance),
        records: chance.below(most_records + 1),
        wishes: *chance.pick(&[0, 10, 50, 90, 100]),
        levels: *chance.pick(&[1, 2, 4, 8, 32]),
        heights: HEIGHTS,
        bordered: *chance.pick(&[0, 50, 100]),
        slack: *chance.pick(&[0, 1, 5, 100, 100_000]),
        moved: *chance.pick(&[0, 20, 100, 300, 1_000]),
        moved_by: *chance.pick(&[1, 3, 50, 100_000]),
    }
}

/// A plan with as many records as are allowed.
pub fn full_shape(chance: &mut Chance) -> Shape {
    Shape {
        events: 128 - *chance.pick(&[0, 0, 0, 1, 10, 40, 64, 100]),
        horizon: *chance.pick(&[1_000, 10_000, 100_000]),
        records: 256 - *chance.pick(&[0, 0, 0, 1, 50]),
        wishes: *chance.pick(&[0, 20, 50, 100]),
        levels: *chance.pick(&[32, 63, 256]),
        heights: HEIGHTS,
        bordered: *chance.pick(&[0, 50, 100]),
        slack: *chance.pick(&[2, 20, 500, 100_000]),
        moved: *chance.pick(&[0, 0, 4, 20]),
        moved_by: *chance.pick(&[1, 10, 1_000]),
    }
}

/// So small that all its timetables can be listed, with wishes that compete.
pub fn small_shape(chance: &mut Chance) -> Shape {
    Shape {
        events: 1 + chance.below(5),
        horizon: chance.between(0, 6),
        records: chance.below(8),
        wishes: *chance.pick(&[0, 60, 100, 100]),
        levels: *chance.pick(&[1, 3, 6, 12]),
        heights: &[1, 2, 3, 5, 15],
        bordered: *chance.pick(&[0, 50, 100]),
        slack: chance.between(0, 6),
        moved: *chance.pick(&[0, 200, 600]),
        moved_by: chance.between(1, 4),
    }
}

fn any_horizon(chance: &mut Chance) -> i64 {
    let most = *chance.pick(&[0, 1, 9, 100, 5_000, 100_000]);
    if chance.one_in(4) {
        most
    } else {
        chance.between(0, most)
    }
}

pub fn plan(chance: &mut Chance, shape: &Shape) -> Plan {
    let hidden = hidden_times(chance, shape);
    let mut plan = Plan::new(shape.events, shape.horizon);
    let mut room = MOST_LEVELS_TOGETHER;
    // One event alone can have no record: a and b have to differ.
    let records = if shape.events < 2 { 0 } else { shape.records };
    for _ in 0..records {
        let record = record(chance, shape, &hidden, room);
        room -= record.levels().len();
        plan.records.push(record);
    }
    plan
}

/// A path through all events in random order, its steps listed in random order. The horizon leaves `room` ticks more than the
/// least sum of the steps: with one too few, the chain goes through every event.
pub fn path(chance: &mut Chance, events: usize, room: i64) -> Plan {
    let mut order: Vec<usize> = (0..events).collect();
    shuffle(chance, &mut order[1..]);
    let mut sum = 0;
    let mut records = Vec::new();
    for pair in order.windows(2) {
        let step = chance.between(1, 9);
        sum += step;
        records.push(path_step(chance, pair[0], pair[1], step));
    }
    match chance.below(3) {
        0 => records.reverse(),
        1 => shuffle(chance, &mut records),
        _ => {}
    }
    Plan::new(events, sum + room).with(records)
}

/// One step of a path, as a rule or as a wish for more, or as one of these the other way round.
fn path_step(chance: &mut Chance, from: usize, to: usize, step: i64) -> Record {
    let more = chance.between(0, 5);
    let (before, behind) = (chance.below(3), chance.below(3));
    let climb: Vec<u8> = (0..=more as u8).map(|level| (level * 3).max(1)).collect();
    let mut levels = [vec![0; before], climb, vec![0; behind]].concat();
    match chance.below(4) {
        0 => Record::rule(from, to, step, step + more),
        1 => Record::rule(to, from, -step - more, -step),
        2 => Record::wish(from, to, step - before as i64, levels),
        _ => {
            levels.reverse();
            Record::wish(to, from, -step - more - behind as i64, levels)
        }
    }
}

fn shuffle<T>(chance: &mut Chance, things: &mut [T]) {
    for last in (1..things.len()).rev() {
        things.swap(last, chance.below(last + 1));
    }
}

fn hidden_times(chance: &mut Chance, shape: &Shape) -> Vec<i64> {
    let mut times: Vec<i64> = (0..shape.events).map(|_| chance.between(0, shape.horizon)).collect();
    times[0] = 0;
    times
}

fn record(chance: &mut Chance, shape: &Shape, hidden: &[i64], room: usize) -> Record {
    let start = chance.below(shape.events);
    let end = (start + 1 + chance.below(shape.events - 1)) % shape.events;
    let mut distance = hidden[end] - hidden[start];
    if chance.below(1_000) < shape.moved {
        distance += chance.between(-shape.moved_by, shape.moved_by);
    }
    let distance = distance.clamp(-MOST_END, MOST_END);
    if room > 0 && chance.percent(shape.wishes) {
        let count = 1 + chance.below(shape.levels.min(room));
        let low = wish_low(chance, distance, count as i64);
        Record::wish(start, end, low, wish_levels(chance, shape, count, (distance - low) as usize))
    } else {
        let low = (distance - chance.between(0, shape.slack)).max(-MOST_END);
        let high = (distance + chance.between(0, shape.slack)).min(MOST_END);
        Record::rule(start, end, low, high)
    }
}

/// A low end from which `count` distances reach over the hidden one and stay within the limits.
fn wish_low(chance: &mut Chance, distance: i64, count: i64) -> i64 {
    let low = distance - chance.between(0, count - 1);
    low.clamp(-MOST_END, MOST_END - count + 1)
}

/// Single-peaked levels that allow the hidden distance, which stands at `hidden` among them.
fn wish_levels(chance: &mut Chance, shape: &Shape, count: usize, hidden: usize) -> Vec<u8> {
    let mut levels = peaked_levels(chance, count, shape.heights);
    allow(&mut levels, hidden);
    // Without borders no chance is taken, so that the bench's plans do not hang on them.
    if shape.bordered > 0 && chance.percent(shape.bordered) {
        put_borders(chance, &mut levels, hidden);
        if chance.below(1_000) < shape.moved {
            levels.reverse();
        }
    }
    levels
}

/// A level of 1 or more at this place, and all the way to the top, so that the row stays single-peaked.
fn allow(levels: &mut [u8], at: usize) {
    let top = (0..levels.len()).max_by_key(|&place| levels[place]).unwrap_or(at);
    for level in &mut levels[at.min(top)..=at.max(top)] {
        *level = (*level).max(1);
    }
}

/// Zeros everywhere but at this place, or in front, at the end, or both.
fn put_borders(chance: &mut Chance, levels: &mut [u8], at: usize) {
    let first = chance.below(at + 1);
    let last = at + chance.below(levels.len() - at);
    let (first, last) = match chance.below(4) {
        0 => (at, at),
        1 => (first, levels.len() - 1),
        2 => (0, last),
        _ => (first, last),
    };
    levels[..first].fill(0);
    levels[last + 1..].fill(0);
}

/// Single-peaked levels: random heights, sorted up to the top and down from there.
pub fn peaked_levels(chance: &mut Chance, count: usize, heights: &[i64]) -> Vec<u8> {
    let highest = *chance.pick(heights);
    let mut levels: Vec<u8> = (0..count).map(|_| chance.between(0, highest) as u8).collect();
    let top = chance.below(count + 1);
    levels[..top].sort();
    levels[top..].sort_by(|a, b| b.cmp(a));
    levels
}
