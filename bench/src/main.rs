//! Times of the proved libraries beside plain Rust programs, in one run, for plans of 64 and of 128 events. Nothing is asserted
//! about time.
mod afresh;

use afresh::{BellmanFord, FloydWarshall, FloydWarshallByRows};
use outside::chance::Chance;
use outside::generate::{self, Shape};
use outside::library::{plan, solver};
use outside::plan::Plan;
use outside::reader::read;
use outside::side::Side;
use std::hint::black_box;
use std::time::{Duration, Instant};

/// The opponents give the earliest times, so these are asked for.
const SIDE: Side = Side::Earliest;

const PLANS: usize = 200;
/// Floyd-Warshall afresh is slow: it gets fewer plans.
const FEW_PLANS: usize = 3;

/// A figure's name, and what it is for plans of one number of events.
type Figures = Vec<(&'static str, String)>;

fn main() {
    let cores = std::thread::available_parallelism().map_or(0, |cores| cores.get());
    println!("machine: {cores} cores, {}", processor());
    println!("{:44}{:>12}{:>12}", "", "64 events", "128 events");
    println!("a full text: 256 wishes with 32 levels each");
    print(reading::<64>(), reading::<128>());
    println!("{PLANS} plans of 256 wishes, a plan");
    print(climbing::<64>(), climbing::<128>());
    println!("the first {FEW_PLANS} of them, since these opponents are slow");
    print(slow_opponents::<64>(), slow_opponents::<128>());
}

fn processor() -> String {
    let about = std::fs::read_to_string("/proc/cpuinfo").unwrap_or_default();
    let name = about.lines().find_map(|line| line.strip_prefix("model name")?.split_once(": "));
    name.map_or("processor unknown", |(_, name)| name).to_string()
}

/// Side by side.
fn print(of_64: Figures, of_128: Figures) {
    for ((name, one), (_, other)) in of_64.into_iter().zip(of_128) {
        println!("  {name:42}{one:>12}{other:>12}");
    }
}

/// 256 wishes with 32 levels each: as many records and levels as are allowed.
fn full_text(events: usize) -> Vec<u8> {
    let mut chance = Chance::new(31);
    let records = (0..256).map(|k| {
        let levels = generate::peaked_levels(&mut chance, 32, &[15]);
        outside::plan::Record::wish(k % events, (k + 1) % events, chance.between(-100_000, 99_000), levels)
    });
    Plan::new(events, 100_000).with(records.collect::<Vec<_>>()).text()
}

fn reading<const EVENTS: usize>() -> Figures {
    let text = full_text(EVENTS);
    let mut levels = [0; plan::LEVELS_AREA];
    assert!(plan::number(&text, &mut levels) == 0 && read(&text).is_ok(), "both readers take the text");
    let library = least(2_000, || plan::number(black_box(&text), &mut levels));
    let plain = least(2_000, || read(black_box(&text)));
    vec![
        ("bytes", text.len().to_string()),
        ("library, reading", format!("{library:.1?}")),
        ("plain Rust reader", format!("{plain:.1?}")),
        ("the library reads in so much of its time", format!("{:.2}", ratio(library, plain))),
    ]
}

/// Plans with as many records as are allowed, all of them wishes, each with a timetable.
fn plans(events: usize) -> Vec<Plan> {
    let mut chance = Chance::new(32);
    let mut plans = Vec::new();
    for _ in 0..PLANS {
        let shape = Shape {
            events,
            horizon: 100_000,
            records: 256,
            wishes: 100,
            levels: *chance.pick(&[32, 48, 62]),
            heights: &[15],
            bordered: 0,
            slack: 1_000,
            moved: 0,
            moved_by: 0,
        };
        plans.push(generate::plan(&mut chance, &shape));
    }
    plans
}

fn climbing<const EVENTS: usize>() -> Figures {
    let plans = plans(EVENTS);
    let texts: Vec<Vec<u8>> = plans.iter().map(Plan::text).collect();
    let questions: usize = plans.iter().zip(&texts).map(|(plan, text)| agree::<EVENTS>(plan, text)).sum();
    let bytes: usize = texts.iter().map(Vec::len).sum();
    let (reading, climbing) = library_times(&texts);
    let afresh = mean(&plans, 3, |plan| afresh::solve::<EVENTS>(plan, &mut BellmanFord));
    vec![
        ("bytes", (bytes / PLANS).to_string()),
        ("questions", (questions / PLANS).to_string()),
        ("library, reading", format!("{reading:.1?}")),
        ("library, climbing (solving less reading)", format!("{climbing:.1?}")),
        ("Bellman-Ford afresh for each question", format!("{afresh:.1?}")),
        (IN_SO_MUCH, part(climbing, afresh)),
    ]
}

fn slow_opponents<const EVENTS: usize>() -> Figures {
    let plans = &plans(EVENTS)[..FEW_PLANS];
    let texts: Vec<Vec<u8>> = plans.iter().map(Plan::text).collect();
    let climbing = library_times(&texts).1;
    let (mut plain, mut by_rows) = (FloydWarshall::<EVENTS>::new(), FloydWarshallByRows::<EVENTS>::new());
    let plain = mean(plans, 1, |plan| afresh::solve(plan, &mut plain));
    let by_rows = mean(plans, 1, |plan| afresh::solve(plan, &mut by_rows));
    vec![
        ("Floyd-Warshall afresh", format!("{plain:.1?}")),
        (IN_SO_MUCH, part(climbing, plain)),
        ("Floyd-Warshall afresh, by rows", format!("{by_rows:.1?}")),
        (IN_SO_MUCH, part(climbing, by_rows)),
    ]
}

const IN_SO_MUCH: &str = "the library climbs in so much of that";

fn part(library: Duration, opponent: Duration) -> String {
    format!("1/{:.1}", ratio(opponent, library))
}

/// The library and Bellman-Ford give the same; returns the number of questions.
fn agree<const EVENTS: usize>(plan: &Plan, text: &[u8]) -> usize {
    let (mut times, mut levels, mut chain) = areas();
    let (number, place) = solver::solve(SIDE, text, &mut times, &mut levels, &mut chain);
    let wanted = afresh::solve::<EVENTS>(plan, &mut BellmanFord).expect("the plan has a timetable");
    let same = number == 0 && times[..EVENTS] == wanted.times && levels[..place] == wanted.levels;
    assert!(same, "the solvers agree");
    wanted.questions
}

type Areas = ([i64; solver::TIMES_AREA], [u8; solver::LEVELS_AREA], [u16; solver::CHAIN_AREA]);

fn areas() -> Areas {
    ([0; solver::TIMES_AREA], [0; solver::LEVELS_AREA], [0; solver::CHAIN_AREA])
}

/// Reading and climbing, a plan.
fn library_times(texts: &[Vec<u8>]) -> (Duration, Duration) {
    let mut area = [0; plan::LEVELS_AREA];
    let (mut times, mut levels, mut chain) = areas();
    let reading = mean(texts, 9, |text| plan::number(text, &mut area));
    let solving = mean(texts, 9, |text| solver::solve(SIDE, text, &mut times, &mut levels, &mut chain));
    (reading, solving.saturating_sub(reading))
}

/// The mean over things of the least time that the work on one takes.
fn mean<A, B>(things: &[A], rounds: usize, mut work: impl FnMut(&A) -> B) -> Duration {
    let sum: Duration = things.iter().map(|thing| least(rounds, || work(black_box(thing)))).sum();
    sum / things.len() as u32
}

/// The least of several times: whatever else the machine does only adds.
fn least<B>(rounds: usize, mut work: impl FnMut() -> B) -> Duration {
    let once = || {
        let start = Instant::now();
        black_box(work());
        start.elapsed()
    };
    std::iter::repeat_with(once).take(rounds).min().unwrap_or_default()
}

fn ratio(one: Duration, other: Duration) -> f64 {
    one.as_secs_f64() / other.as_secs_f64()
}
