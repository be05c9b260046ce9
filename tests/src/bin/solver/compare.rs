//! One text given to the proved solver on both sides, held to the plain reader and the second solver.
use outside::bounds::check_chain;
use outside::library::{solver as library, Area};
use outside::outcome::Outcome;
use outside::plan::Plan;
use outside::reader::read;
use outside::second;
use outside::side::{Side, Sides};
use outside::tally::{same, same_entries};

/// The lengths of the three lent areas.
#[derive(Clone, Copy)]
pub struct Lengths {
    pub times: usize,
    pub levels: usize,
    pub chain: usize,
}

/// Exactly as long as they have to be.
pub const LEAST: Lengths =
    Lengths { times: library::TIMES_AREA, levels: library::LEVELS_AREA, chain: library::CHAIN_AREA };

impl Lengths {
    fn too_short(&self) -> bool {
        self.times < LEAST.times || self.levels < LEAST.levels || self.chain < LEAST.chain
    }
}

/// What is right of a text: these outcomes, or any true chain of a plan without timetable.
enum Right {
    Outcomes(Sides<Outcome>),
    Chain(Plan),
}

/// What one call gave, and the areas afterwards.
struct Given {
    number: u8,
    place: usize,
    times: Area<i64>,
    levels: Area<u8>,
    chain: Area<u16>,
}

/// The outcomes of the proved solver, once everything about them has been checked.
pub fn compare(text: &[u8]) -> Result<Sides<Outcome>, String> {
    compare_with(text, LEAST)
}

pub fn compare_with(text: &[u8], lengths: Lengths) -> Result<Sides<Outcome>, String> {
    let right = right(text, lengths);
    let outcomes = Sides::made(|side| compare_on(side, text, lengths, &right))?;
    in_order(&outcomes)?;
    Ok(outcomes)
}

fn compare_on(side: Side, text: &[u8], lengths: Lengths, right: &Right) -> Result<Outcome, String> {
    let given = call(side, text, lengths)?;
    let outcome = match right {
        Right::Outcomes(outcomes) => outcomes.on(side).clone(),
        Right::Chain(plan) => true_chain(plan, &given)?,
    };
    same("number", outcome.number(), given.number)?;
    same("place", outcome.place(), given.place)?;
    let (times, levels, chain) = match &outcome {
        Outcome::Solved { times, levels } => (times.clone(), levels.clone(), vec![]),
        Outcome::None { chain } => (vec![], vec![], chain.clone()),
        Outcome::Refused { .. } => (vec![], vec![], vec![]),
    };
    same_entries("times area with its guards", &old_times(lengths).with_front(&times), given.times.all())?;
    same_entries("levels area with its guards", &old_levels(lengths).with_front(&levels), given.levels.all())?;
    same_entries("chain area with its guards", &old_chain(lengths).with_front(&chain), given.chain.all())?;
    // Where no chain is given, both bounds of record 0: they lead round.
    let codes = if chain.is_empty() { vec![0, 1] } else { chain };
    same("ticks short", ticks_short(text, &codes), library::ticks_short(text, &codes))?;
    Ok(outcome)
}

/// The levels are the same on both sides, and no event's earliest time comes after its latest.
fn in_order(outcomes: &Sides<Outcome>) -> Result<(), String> {
    let (Outcome::Solved { times: late, levels }, Outcome::Solved { times: early, levels: others }) =
        (&outcomes.latest, &outcomes.earliest)
    else {
        return Ok(());
    };
    same_entries("levels with the earliest times", levels, others)?;
    match (0..late.len()).find(|&event| early[event] > late[event]) {
        None => Ok(()),
        Some(event) => Err(format!("event {event}: earliest {}, latest {}", early[event], late[event])),
    }
}

/// By how many ticks these codes fall short; 0 where they are no chain.
pub fn ticks_short(text: &[u8], chain: &[u16]) -> u64 {
    read(text).map_or(0, |plan| check_chain(&plan, chain).unwrap_or(0))
}

fn call(side: Side, text: &[u8], lengths: Lengths) -> Result<Given, String> {
    let lent_text = text.to_vec();
    let (mut times, mut levels, mut chain) = (old_times(lengths), old_levels(lengths), old_chain(lengths));
    let (number, place) = library::solve(side, &lent_text, times.lent(), levels.lent(), chain.lent());
    same_entries("text afterwards", text, &lent_text)?;
    Ok(Given { number, place, times, levels, chain })
}

fn right(text: &[u8], lengths: Lengths) -> Right {
    let plan = if lengths.too_short() { Err((7, 0)) } else { read(text) };
    match plan {
        Ok(plan) => second::solve(&plan).map_or(Right::Chain(plan), Right::Outcomes),
        Err((number, place)) => Right::Outcomes(Sides::alike(Outcome::Refused { number, place })),
    }
}

/// The given chain is checked and taken over.
fn true_chain(plan: &Plan, given: &Given) -> Result<Outcome, String> {
    same("number where there is no timetable", 1, given.number)?;
    let written = given.chain.entries().get(..given.place).ok_or(format!("{} chain steps", given.place))?;
    check_chain(plan, written)?;
    Ok(Outcome::None { chain: written.to_vec() })
}

fn old_times(lengths: Lengths) -> Area<i64> {
    Area::new(lengths.times, |entry| i64::MIN + entry as i64)
}

fn old_levels(lengths: Lengths) -> Area<u8> {
    Area::new(lengths.levels, |entry| (entry % 199) as u8 + 50)
}

fn old_chain(lengths: Lengths) -> Area<u16> {
    Area::new(lengths.chain, |entry| 60_000 + entry as u16)
}
