//! Two solvers that find the distances afresh for every question of the ladder. Flat arrays, nothing allocated in between.
use outside::plan::{Plan, Record};

/// Whether bounds leave a timetable, for plans of up to so many events. `times` gets the earliest one.
pub trait Question<const MOST: usize> {
    fn put(&mut self, events: usize, bounds: &[Bound], times: &mut [i32; MOST]) -> bool;
}

/// t(end) − t(start) ≤ weight.
#[derive(Clone, Copy)]
pub struct Bound {
    start: u32,
    end: u32,
    weight: i32,
}

pub struct Solved {
    pub times: Vec<i64>,
    pub levels: Vec<u8>,
    pub questions: usize,
}

/// Climbs the ladder, whose first grade is part of the plan. A wish that is stuck is not asked again.
pub fn solve<const MOST: usize>(plan: &Plan, question: &mut impl Question<MOST>) -> Option<Solved> {
    let mut bounds = all_bounds(plan);
    let mut times = [0; MOST];
    let mut questions = 1;
    if !question.put(plan.events, &bounds, &mut times) {
        return None;
    }
    let mut climbing: Vec<(usize, &Record)> = plan.wishes().collect();
    for grade in 2..=15 {
        climbing.retain(|&(record, wish)| {
            let Some((low, high)) = run(wish, grade) else { return false };
            let before = [bounds[2 * record], bounds[2 * record + 1]];
            bounds[2 * record].weight = high;
            bounds[2 * record + 1].weight = -low;
            questions += 1;
            let mut trial = [0; MOST];
            let yes = question.put(plan.events, &bounds, &mut trial);
            if yes {
                times = trial;
            } else {
                bounds[2 * record..2 * record + 2].copy_from_slice(&before);
            }
            yes
        });
    }
    let times: Vec<i64> = times[..plan.events].iter().map(|&time| time.into()).collect();
    let level = |wish: &Record| wish.levels()[(times[wish.end] - times[wish.start] - wish.low) as usize];
    let levels = plan.wishes().map(|(_, wish)| level(wish)).collect();
    Some(Solved { times, levels, questions })
}

/// Two bounds for each record, then two for each event but the origin.
fn all_bounds(plan: &Plan) -> Vec<Bound> {
    let bound = |start: usize, end: usize, weight: i32| Bound { start: start as u32, end: end as u32, weight };
    let of_record = |r: &Record| {
        let (low, high) = ends(r);
        [bound(r.start, r.end, high), bound(r.end, r.start, -low)]
    };
    let of_horizon = |e: usize| [bound(0, e, plan.horizon as i32), bound(e, 0, 0)];
    plan.records.iter().flat_map(of_record).chain((1..plan.events).flat_map(of_horizon)).collect()
}

/// The ends of the distances that a record allows: a wish has a run at grade 1, a rule has its own.
fn ends(record: &Record) -> (i32, i32) {
    run(record, 1).unwrap_or((record.low as i32, record.high() as i32))
}

/// The distances at this grade or more.
fn run(wish: &Record, grade: u8) -> Option<(i32, i32)> {
    let first = wish.levels().iter().position(|&level| level >= grade)?;
    let last = wish.levels().iter().rposition(|&level| level >= grade)?;
    Some((wish.low as i32 + first as i32, wish.low as i32 + last as i32))
}

/// Delays events until all bounds hold, or for more rounds than there are events.
pub struct BellmanFord;

impl<const MOST: usize> Question<MOST> for BellmanFord {
    fn put(&mut self, events: usize, bounds: &[Bound], times: &mut [i32; MOST]) -> bool {
        *times = [0; MOST];
        for _ in 0..=events {
            let mut still = true;
            for bound in bounds {
                let least = times[bound.end as usize % MOST] - bound.weight;
                let time = &mut times[bound.start as usize % MOST];
                if *time < least {
                    *time = least;
                    still = false;
                }
            }
            if still {
                return true;
            }
            // The origin would have to move: no timetable.
            if times[0] > 0 {
                return false;
            }
        }
        false
    }
}

/// Further than any bound reaches, and small enough to be added twice.
const FAR: i32 = 1_000_000_000;

/// All shortest distances between events: three plain loops over a flat matrix.
pub struct FloydWarshall<const MOST: usize> {
    distances: Vec<i32>,
}

/// The same with the row over which the others go held beside the matrix, so that the compiler can take many columns at once.
pub struct FloydWarshallByRows<const MOST: usize> {
    distances: Vec<i32>,
}

impl<const MOST: usize> FloydWarshall<MOST> {
    pub fn new() -> Self {
        FloydWarshall { distances: vec![0; MOST * MOST] }
    }
}

impl<const MOST: usize> FloydWarshallByRows<MOST> {
    pub fn new() -> Self {
        FloydWarshallByRows { distances: vec![0; MOST * MOST] }
    }
}

impl<const MOST: usize> Question<MOST> for FloydWarshall<MOST> {
    fn put(&mut self, events: usize, bounds: &[Bound], times: &mut [i32; MOST]) -> bool {
        let d = &mut self.distances;
        start::<MOST>(d, bounds);
        for over in 0..events {
            for i in 0..events {
                for j in 0..events {
                    d[i * MOST + j] = d[i * MOST + j].min(d[i * MOST + over] + d[over * MOST + j]);
                }
            }
        }
        earliest(d, events, times)
    }
}

impl<const MOST: usize> Question<MOST> for FloydWarshallByRows<MOST> {
    fn put(&mut self, events: usize, bounds: &[Bound], times: &mut [i32; MOST]) -> bool {
        let d = &mut self.distances;
        start::<MOST>(d, bounds);
        let mut onward = [0; MOST];
        for over in 0..events {
            onward.copy_from_slice(&d[over * MOST..(over + 1) * MOST]);
            for row in d.chunks_exact_mut(MOST).take(events) {
                let first = row[over];
                for (entry, second) in row.iter_mut().zip(&onward) {
                    *entry = (*entry).min(first + second);
                }
            }
        }
        earliest(d, events, times)
    }
}

/// The bounds alone.
fn start<const MOST: usize>(d: &mut [i32], bounds: &[Bound]) {
    d.fill(FAR);
    for event in 0..MOST {
        d[event * MOST + event] = 0;
    }
    for bound in bounds {
        let entry = &mut d[bound.start as usize * MOST + bound.end as usize];
        *entry = bound.weight.min(*entry);
    }
}

/// The earliest times, and whether there are any.
fn earliest<const MOST: usize>(d: &[i32], events: usize, times: &mut [i32; MOST]) -> bool {
    for event in 0..events {
        times[event] = -d[event * MOST];
    }
    (0..events).all(|event| d[event * MOST + event] == 0)
}
