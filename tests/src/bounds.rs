//! Bounds and chains: document 01, section 5, word for word, with the ends of a wish as request T-04 has them.
use crate::plan::{Kind, Plan, Record};
use std::collections::BTreeSet;

/// t(end) − t(start) ≤ weight.
#[derive(Clone, Debug, PartialEq, Eq)]
pub struct Bound {
    pub start: usize,
    pub end: usize,
    pub weight: i64,
    pub code: u16,
}

/// The bounds of the records, then those of the horizon.
pub fn bounds(plan: &Plan) -> Vec<Bound> {
    let mut bounds = Vec::with_capacity(2 * (plan.records.len() + plan.events));
    for (k, record) in plan.records.iter().enumerate() {
        let (a, b, code) = (record.start, record.end, 2 * k as u16);
        let (low, high) = ends(record);
        bounds.push(Bound { start: a, end: b, weight: high, code });
        bounds.push(Bound { start: b, end: a, weight: -low, code: code + 1 });
    }
    for e in 1..plan.events {
        let code = 512 + 2 * e as u16;
        bounds.push(Bound { start: 0, end: e, weight: plan.horizon, code });
        bounds.push(Bound { start: e, end: 0, weight: 0, code: code + 1 });
    }
    bounds
}

/// A rule's own ends; those of a wish's run at grade 1, which a wish without fault has.
fn ends(record: &Record) -> (i64, i64) {
    match &record.kind {
        Kind::Rule { high } => (record.low, *high),
        Kind::Wish { levels } => {
            let mut run = (record.low..).zip(levels).filter(|(_, &level)| level >= 1).map(|(distance, _)| distance);
            let first = run.next().expect("a wish without fault has a level of 1 or more");
            (first, run.last().unwrap_or(first))
        }
    }
}

/// By how many ticks a chain falls short, or which condition of a chain the codes fail.
pub fn check_chain(plan: &Plan, chain: &[u16]) -> Result<u64, String> {
    let steps = steps(plan, chain)?;
    let fail = |why: String| Err(format!("{why}: chain {chain:?}"));
    let Some(first) = steps.first() else { return fail("no steps".into()) };
    for (step, next) in steps.iter().zip(steps.iter().cycle().skip(1)) {
        if step.end != next.start {
            return fail(format!(
                "code {} ends at {} and code {} begins at {}",
                step.code, step.end, next.code, next.start
            ));
        }
    }
    let entered: BTreeSet<usize> = steps.iter().map(|step| step.end).collect();
    if entered.len() != steps.len() {
        return fail("an event is entered twice".into());
    }
    if !(2..=plan.events).contains(&steps.len()) {
        return fail(format!("{} steps among {} events", steps.len(), plan.events));
    }
    let sum: i64 = steps.iter().map(|step| step.weight).sum();
    if sum >= 0 {
        return fail(format!("the weights sum to {sum}"));
    }
    if Some(&first.start) != entered.first() {
        return fail(format!("the first step leaves {}, not the least event", first.start));
    }
    Ok(sum.unsigned_abs())
}

/// The bounds that have these codes.
fn steps(plan: &Plan, chain: &[u16]) -> Result<Vec<Bound>, String> {
    let bounds = bounds(plan);
    let find = |code: &u16| bounds.iter().find(|bound| bound.code == *code).cloned();
    chain.iter().map(|code| find(code).ok_or(format!("no bound has code {code}: chain {chain:?}"))).collect()
}
