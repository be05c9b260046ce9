//! Codes that are a chain, and codes that are nearly one: by how many ticks they fall short is 0 unless each condition of a chain
//! holds.
use crate::compare::ticks_short;
use outside::bounds::bounds;
use outside::chance::Chance;
use outside::library::solver as library;
use outside::plan::Plan;
use outside::reader::read;
use outside::side::{Side, BOTH};
use outside::tally::{same, Group};
use outside::{generate, known};

/// More codes than any chain has.
const MANY: usize = 200;

pub fn changed_chains(group: &mut Group, count: usize) {
    let mut chance = Chance::new(16);
    for turn in 0..count {
        let plan = if turn % 2 == 0 {
            generate::path(&mut chance, 2 + turn % 127, -3)
        } else {
            let shape = generate::any_shape(&mut chance);
            generate::plan(&mut chance, &shape)
        };
        let text = plan.text();
        for side in BOTH {
            for codes in rows_of_codes(&mut chance, &plan, &given_chain(side, &text)) {
                group.case(&text, case(&text, &codes));
            }
        }
    }
}

/// Every row of up to three codes of the small known plans, and of codes that no bound of theirs has.
pub fn every_short_row(group: &mut Group) {
    for (text, _) in known::cases() {
        let Ok(plan) = read(&text) else { continue };
        if plan.events > 4 {
            continue;
        }
        let unknown = [2 * plan.records.len() as u16, 511, 512, 513, 512 + 2 * plan.events as u16];
        let codes: Vec<u16> = bounds(&plan).iter().map(|bound| bound.code).chain(unknown).collect();
        for row in rows(&codes, 3) {
            group.case(&text, case(&text, &row));
        }
    }
}

/// All rows of up to so many of these.
fn rows(codes: &[u16], longest: usize) -> Vec<Vec<u16>> {
    let mut all = vec![vec![]];
    let mut first = 0;
    for _ in 0..longest {
        let last = all.len();
        for row in first..last {
            all.extend(codes.iter().map(|&code| [&all[row][..], &[code]].concat()).collect::<Vec<_>>());
        }
        first = last;
    }
    all
}

/// The chain of a plan that has no timetable, else no codes.
fn given_chain(side: Side, text: &[u8]) -> Vec<u16> {
    let (mut times, mut levels) = ([0; library::TIMES_AREA], [0; library::LEVELS_AREA]);
    let mut chain = vec![0; library::CHAIN_AREA];
    let (number, place) = library::solve(side, text, &mut times, &mut levels, &mut chain);
    chain.truncate(if number == 1 { place } else { 0 });
    chain
}

fn case(text: &[u8], codes: &[u16]) -> Result<String, String> {
    let wanted = ticks_short(text, codes);
    same(&format!("ticks short of codes {codes:?}"), wanted, library::ticks_short(text, codes))?;
    Ok(if wanted == 0 { "no chain".into() } else { "chain".into() })
}

/// The chain, and what is left of it when it is changed in one place or as a whole.
fn rows_of_codes(chance: &mut Chance, plan: &Plan, chain: &[u16]) -> Vec<Vec<u16>> {
    let some = some_code(chance, plan);
    let mut rows = vec![chain.to_vec(), [chain, &[some]].concat(), [chain, chain].concat(), vec![some, some ^ 1]];
    rows.push(chain.iter().rev().copied().collect());
    rows.push(chain.iter().map(|code| code ^ 1).rev().collect());
    rows.push(chain.iter().cycle().take(MANY).copied().collect());
    rows.push((0..chance.below(5)).map(|_| some_code(chance, plan)).collect());
    if !chain.is_empty() {
        let (at, other) = (chance.below(chain.len()), chance.below(chain.len()));
        let changed = |change: &dyn Fn(&mut Vec<u16>)| {
            let mut row = chain.to_vec();
            change(&mut row);
            row
        };
        rows.push(changed(&|row| row[at] = some));
        rows.push(changed(&|row| row[at] ^= 1));
        rows.push([&chain[..at], &chain[at + 1..]].concat());
        rows.push(changed(&|row| row.insert(at, chain[other])));
        rows.push(changed(&|row| row.swap(at, other)));
        rows.push(changed(&|row| row.rotate_left(at)));
        rows.push(changed(&|row| row.truncate(at)));
    }
    rows
}

/// Most are codes of the plan; some are those of no bound: at and past the limits.
fn some_code(chance: &mut Chance, plan: &Plan) -> u16 {
    let known: Vec<u16> = bounds(plan).iter().map(|bound| bound.code).collect();
    if known.is_empty() || chance.one_in(4) {
        let records = 2 * plan.records.len() as u16;
        let events = 512 + 2 * plan.events as u16;
        *chance.pick(&[records, records + 1, 510, 511, 512, 513, events, events + 1, 767, 768, 769, 32_768, u16::MAX])
    } else {
        *chance.pick(&known)
    }
}
