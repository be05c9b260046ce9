//! The proved solver, the program `timetable` and the C example against the plain reader, the second solver and exhaustive
//! search.
mod chains;
mod compare;
mod example;
mod input;
mod output;
mod process;
mod program;
mod reads;
mod script;
mod stack;

use compare::{compare, compare_with, Lengths, LEAST};
use outside::chance::Chance;
use outside::generate::{self, Shape};
use outside::known::{self, Known};
use outside::limits::{self, Stated};
use outside::outcome::Outcome;
use outside::plan::Plan;
use outside::reader::{read, Refusal};
use outside::side::{Sides, BOTH};
use outside::tally::{same, Group, Tally};
use outside::{damage, enumerate, exhaustive};
use program::Program;
use std::process::ExitCode;

fn main() -> ExitCode {
    if let Some((kind, kilobytes, side)) = stack::asked() {
        return stack::solve(&kind, kilobytes, side);
    }
    let mut tally = Tally::default();
    tally.group("known plans", |group| known_plans(group, known::cases()));
    tally.group("256 and 257 rules", |group| known_plans(group, known::many_rules()));
    tally.group("texts at the limits", |group| stated_cases(group, limits_of_section_1()));
    tally.group("order of faults", |group| stated_cases(group, limits::orders()));
    tally.group("areas too short, exact and longer", areas);
    tally.group("small plans by exhaustive search", |group| small_plans(group, 6_000));
    tally.group("all short rows of levels, by exhaustive search", enumerated_plans);
    tally.group("random plans", |group| random_plans(group, 6_000));
    tally.group("random full plans", |group| full_plans(group, 150));
    tally.group("paths through all events", paths);
    tally.group("chains, changed and whole", |group| chains::changed_chains(group, 2_000));
    tally.group("all short rows of codes", chains::every_short_row);
    tally.group("damaged texts", |group| damaged_texts(group, 8_000));
    tally.group("full plans in a thread with a stack of 128 KB", stack::small_stack);
    the_program(&mut tally);
    the_example(&mut tally);
    tally.group("the script examples/run", script::script);
    tally.finish()
}

fn the_program(tally: &mut Tally) {
    let program = Program::timetable();
    on_both(tally, &program, "the program timetable", program::printed_forms);
    tally.group("the program's words", |group| program::words(group, &program));
    tally.group("the program's longest word", |group| program::longest_word(group, &program));
    on_both(tally, &program, "the program's input", input::inputs);
    on_both(tally, &program, "the program's reads, interrupted and failing", reads::answered);
    on_both(tally, &program, "the program's output", output::outputs);
}

fn the_example(tally: &mut Tally) {
    let program = match example::c_program() {
        Ok(program) => program,
        Err(why) => return tally.group("the C example", |group| group.case(b"", Err(why))),
    };
    on_both(tally, &program, "the C example", example::plans);
    on_both(tally, &program, "the C example's printed forms", program::printed_forms);
    on_both(tally, &program, "the C example's input", input::inputs);
    on_both(tally, &program, "the C example's output", output::outputs);
}

/// The cases of one group, first without a word, then with the one that asks for the earliest times.
fn on_both(tally: &mut Tally, program: &Program, name: &str, cases: fn(&mut Group, &Program)) {
    tally.group(name, |group| BOTH.into_iter().for_each(|side| cases(group, &program.on(side))));
}

fn known_plans(group: &mut Group, cases: Vec<Known>) {
    for (text, outcomes) in cases {
        group.case(&text, compare(&text).and_then(|given| same("outcomes", &outcomes, &given).map(|()| given.kind())));
    }
}

fn limits_of_section_1() -> Vec<Stated> {
    let zeros = [limits::zeros(), limits::single_distances()].concat();
    [limits::numbers(), limits::counts(), limits::lengths(), limits::forms(), zeros].concat()
}

fn stated_cases(group: &mut Group, cases: Vec<Stated>) {
    for (text, refusal) in cases {
        group.case(&text, compare(&text).and_then(|given| same_refusal(refusal, given)));
    }
}

/// The sides are refused alike (`compare` has seen to it), so one of them is looked at.
fn same_refusal(stated: Option<Refusal>, given: Sides<Outcome>) -> Result<String, String> {
    let refusal = match given.latest {
        Outcome::Refused { number, place } => Some((number, place)),
        _ => None,
    };
    same("refusal", stated, refusal).map(|()| given.kind())
}

/// Each area one entry short, exactly long enough, and longer; for a solved plan, one without a timetable, and a refusal.
fn areas(group: &mut Group) {
    let known = known::cases().into_iter().map(|(text, _)| text);
    for text in known.chain([vec![b'\n'; 60_001], full_plan()]) {
        for lengths in all_lengths() {
            group.case(&text, compare_with(&text, lengths).map(|given| given.kind()));
        }
    }
}

fn all_lengths() -> Vec<Lengths> {
    let mut all = Vec::new();
    let around = |least: usize| [0, 1, least - 1, least, least + 1, least + 300];
    for times in around(LEAST.times) {
        for levels in around(LEAST.levels) {
            for chain in around(LEAST.chain) {
                all.push(Lengths { times, levels, chain });
            }
        }
    }
    all
}

/// 128 events, 256 records, nearly all of them wishes; `moved` of a thousand are out of place.
fn full_plan_with(moved: usize) -> Vec<u8> {
    let shape = Shape {
        events: 128,
        horizon: 5_000,
        records: 256,
        wishes: 95,
        levels: 60,
        heights: &[15],
        bordered: 50,
        slack: 500,
        moved,
        moved_by: 1_000,
    };
    generate::plan(&mut Chance::new(64), &shape).text()
}

fn full_plan() -> Vec<u8> {
    full_plan_with(0)
}

fn full_plan_without_timetable() -> Vec<u8> {
    full_plan_with(20)
}

fn small_plans(group: &mut Group, count: usize) {
    let mut chance = Chance::new(11);
    for _ in 0..count {
        let shape = generate::small_shape(&mut chance);
        exhaustive_case(group, &generate::plan(&mut chance, &shape));
    }
}

fn enumerated_plans(group: &mut Group) {
    enumerate::two_wishes(|plan| exhaustive_case(group, &plan));
    enumerate::three_wishes(|plan| exhaustive_case(group, &plan));
    enumerate::rounds(|plan| exhaustive_case(group, &plan));
    enumerate::wishes_and_rules(|plan| exhaustive_case(group, &plan));
}

fn exhaustive_case(group: &mut Group, plan: &Plan) {
    let text = plan.text();
    group.case(&text, compare(&text).and_then(|given| by_exhaustive_search(plan, &given).map(|()| given.kind())));
}

fn by_exhaustive_search(plan: &Plan, given: &Sides<Outcome>) -> Result<(), String> {
    BOTH.into_iter().try_for_each(|side| match given.on(side) {
        Outcome::Solved { times, levels } => exhaustive::check_solved(plan, side, times, levels),
        Outcome::None { .. } => exhaustive::check_none(plan),
        Outcome::Refused { number, place } => Err(format!("refused {number} {place}")),
    })
}

fn random_plans(group: &mut Group, count: usize) {
    let mut chance = Chance::new(12);
    for _ in 0..count {
        let shape = generate::any_shape(&mut chance);
        plan_case(group, &generate::plan(&mut chance, &shape));
    }
}

fn full_plans(group: &mut Group, count: usize) {
    let mut chance = Chance::new(13);
    for _ in 0..count {
        let shape = generate::full_shape(&mut chance);
        plan_case(group, &generate::plan(&mut chance, &shape));
    }
}

/// The longest chains and the slowest spreading of delays: one tick too few, just enough, some to share out.
fn paths(group: &mut Group) {
    let mut chance = Chance::new(15);
    for events in 2..=128 {
        for room in [-1, -1, 0, 0, 5, 40] {
            plan_case(group, &generate::path(&mut chance, events, room));
        }
    }
}

/// A plan's text is read as that plan, and solved as the second solver does.
fn plan_case(group: &mut Group, plan: &Plan) {
    let text = plan.text();
    let plain = same("the plain reader's plan", Ok(plan), read(&text).as_ref());
    group.case(&text, plain.and_then(|()| compare(&text)).map(|given| given.kind()));
}

fn damaged_texts(group: &mut Group, count: usize) {
    let mut chance = Chance::new(14);
    for _ in 0..count {
        let shape = generate::any_shape(&mut chance);
        let text = generate::plan(&mut chance, &shape).text();
        let text = damage::at_random(&mut chance, &text);
        group.case(&text, compare(&text).map(|given| given.kind()));
    }
}
