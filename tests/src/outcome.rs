//! The outcomes of document 01, section 3, and the printed form of section 7.
use crate::bounds::{bounds, Bound};
use crate::plan::Plan;
use crate::side::Sides;

#[derive(Clone, Debug, PartialEq, Eq)]
pub enum Outcome {
    Solved { times: Vec<i64>, levels: Vec<u8> },
    None { chain: Vec<u16> },
    Refused { number: u8, place: usize },
}

impl Outcome {
    pub fn number(&self) -> u8 {
        match self {
            Outcome::Solved { .. } => 0,
            Outcome::None { .. } => 1,
            Outcome::Refused { number, .. } => *number,
        }
    }

    /// In a word, for the tally.
    pub fn kind(&self) -> String {
        match self {
            Outcome::Solved { .. } => "solved".into(),
            Outcome::None { .. } => "none".into(),
            Outcome::Refused { number, .. } => format!("refused {number}"),
        }
    }

    pub fn place(&self) -> usize {
        match self {
            Outcome::Solved { levels, .. } => levels.len(),
            Outcome::None { chain } => chain.len(),
            Outcome::Refused { place, .. } => *place,
        }
    }
}

impl Sides<Outcome> {
    /// It does not depend on the side.
    pub fn kind(&self) -> String {
        self.latest.kind()
    }
}

/// What the program prints for a refusal.
pub fn printed_refusal(number: u8, place: usize) -> String {
    format!("refused\t{number}\t{place}\n")
}

/// What the program prints for an outcome of this plan.
pub fn printed(plan: &Plan, outcome: &Outcome) -> String {
    match outcome {
        Outcome::Solved { times, levels } => printed_solved(plan, times, levels),
        Outcome::None { chain } => printed_none(plan, chain),
        Outcome::Refused { number, place } => printed_refusal(*number, *place),
    }
}

fn printed_solved(plan: &Plan, times: &[i64], levels: &[u8]) -> String {
    let mut out = format!("solved\t{}\t{}\n", plan.events, levels.len());
    for (event, time) in times.iter().enumerate() {
        out.push_str(&format!("at\t{event}\t{time}\n"));
    }
    for ((record, _), level) in plan.wishes().zip(levels) {
        out.push_str(&format!("level\t{record}\t{level}\n"));
    }
    out
}

fn printed_none(plan: &Plan, chain: &[u16]) -> String {
    let bounds = bounds(plan);
    let mut out = format!("none\t{}\n", chain.len());
    for code in chain {
        match bounds.iter().find(|bound| bound.code == *code) {
            Some(Bound { start, end, weight, code }) => {
                out.push_str(&format!("step\t{start}\t{end}\t{weight}\t{code}\n"))
            }
            None => out.push_str(&format!("no bound has code {code}\n")),
        }
    }
    out
}
