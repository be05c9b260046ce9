//! The proved reader against the plain one: number, place, head, every record, every level, and what stands past them.
use outside::chance::Chance;
use outside::damage;
use outside::generate;
use outside::library::plan as library;
use outside::library::Area;
use outside::limits::{self, Stated};
use outside::plan::{Plan, Record};
use outside::reader::{read, Refusal};
use outside::tally::{same, same_entries, Group, Tally};
use std::process::ExitCode;

fn main() -> ExitCode {
    let mut tally = Tally::default();
    tally.group("numbers at and past their limits", |group| stated_cases(group, limits::numbers()));
    tally.group("records and levels at and past their limits", |group| stated_cases(group, limits::counts()));
    tally.group("lengths of the text", |group| stated_cases(group, limits::lengths()));
    tally.group("right and wrong forms", |group| stated_cases(group, limits::forms()));
    tally.group("wishes of zeros", |group| stated_cases(group, limits::zeros()));
    tally.group("wishes that allow one distance", |group| stated_cases(group, limits::single_distances()));
    tally.group("order of faults", |group| stated_cases(group, limits::orders()));
    tally.group("single-peaked rows of levels", level_rows);
    tally.group("every field damaged", |group| all(group, to_damage().iter().flat_map(|t| damage::every_field(t))));
    tally.group("every line damaged", |group| all(group, to_damage().iter().flat_map(|t| damage::every_line(t))));
    tally.group("every byte damaged", |group| all(group, two_levels().into_iter().flat_map(damage::every_byte)));
    tally.group("random plans", |group| all(group, random_plans(4_000)));
    tally.group("random full plans", |group| all(group, random_full_plans(60)));
    tally.group("random damaged texts", |group| all(group, damaged_plans(16_000)));
    tally.group("levels areas too short, exact and longer", areas);
    tally.finish()
}

fn all(group: &mut Group, texts: impl IntoIterator<Item = Vec<u8>>) {
    for text in texts {
        group.case(&text, compare(&text));
    }
}

/// Both readers are held to the stated refusal.
fn stated_cases(group: &mut Group, cases: Vec<Stated>) {
    for (text, refusal) in cases {
        let plain = same("the plain reader's refusal", refusal, read(&text).err());
        group.case(&text, plain.and_then(|()| compare(&text)));
    }
}

fn level_rows(group: &mut Group) {
    for (levels, fault) in limits::level_rows(6, 3) {
        let text = Plan::new(2, 9).with([Record::wish(0, 1, 0, levels)]).text();
        let plain = same("the plain reader's refusal", fault.map(|number| (number, 2)), read(&text).err());
        group.case(&text, plain.and_then(|()| compare(&text)));
    }
}

fn small_texts() -> Vec<Vec<u8>> {
    let records = [
        Record::rule(0, 1, 3, 3),
        Record::rule(2, 1, -100_000, 100_000),
        Record::wish(2, 3, -2, vec![0, 1, 3, 2]),
        Record::wish(0, 3, 4, vec![15]),
    ];
    vec![
        Plan::new(1, 0).text(),
        Plan::new(4, 20).with(records.clone()).text(),
        Plan::new(128, 100_000).with(records[2..].to_vec()).text(),
        Plan::new(5, 9).with([Record::wish(1, 0, 99_990, vec![7; 11]), Record::rule(4, 3, -1, 0)]).text(),
    ]
}

/// The small texts; and each of them with zeros for the levels of each of its wishes, so that other faults meet that one.
fn to_damage() -> Vec<Vec<u8>> {
    small_texts().into_iter().flat_map(|text| [damage::every_wish(&text), vec![text]].concat()).collect()
}

/// Texts of two levels. In the second, another byte for the last level makes both of them 0.
fn two_levels() -> [&'static [u8]; 2] {
    [b"events\t9\t80\nwish\t7\t0\t-5\t0\t15\n", b"events\t9\t80\nwish\t7\t0\t-5\t0\t1\n"]
}

fn random_plans(count: usize) -> impl Iterator<Item = Vec<u8>> {
    let mut chance = Chance::new(1);
    (0..count).map(move |_| {
        let shape = generate::any_shape(&mut chance);
        generate::plan(&mut chance, &shape).text()
    })
}

fn random_full_plans(count: usize) -> impl Iterator<Item = Vec<u8>> {
    let mut chance = Chance::new(2);
    (0..count).map(move |_| {
        let shape = generate::full_shape(&mut chance);
        generate::plan(&mut chance, &shape).text()
    })
}

fn damaged_plans(count: usize) -> impl Iterator<Item = Vec<u8>> {
    let mut chance = Chance::new(3);
    (0..count).map(move |turn| {
        let shape = if turn % 100 == 0 { generate::full_shape(&mut chance) } else { generate::any_shape(&mut chance) };
        let text = generate::plan(&mut chance, &shape).text();
        damage::at_random(&mut chance, &text)
    })
}

/// An area one entry short is refused with 7 at 0 before all else; entries past the 8,192nd are kept.
fn areas(group: &mut Group) {
    let texts = small_texts().into_iter().chain([
        b"".to_vec(),
        b"events\t2\t9\nrule\t0\t0\t1\t2\n".to_vec(),
        b"events\t2\t9\nwish\t0\t1\t0\t0\t0\n".to_vec(),
        vec![b'\n'; 60_001],
    ]);
    for text in texts {
        for length in [0, 1, 64, 4_096, 8_191, 8_192, 8_193, 10_000, 100_000] {
            group.case(&text, compare_with(&text, length));
        }
    }
}

fn compare(text: &[u8]) -> Result<String, String> {
    compare_with(text, library::LEVELS_AREA + 100)
}

/// Everything that the proved reader gives, against what the plain one gives. Returns the kind of the case.
fn compare_with(text: &[u8], area: usize) -> Result<String, String> {
    let wanted = if area < library::LEVELS_AREA { Err((7, 0)) } else { read(text) };
    let mut lent = Lent { text: text.to_vec(), area: old_contents(area) };
    let refusal = wanted.as_ref().err().copied();
    same("number and place", refusal.unwrap_or((0, 0)), (lent.number(), lent.place()))?;
    same_entries("text afterwards", text, &lent.text)?;
    same_entries("levels area with its guards", &area_after(&wanted, area), lent.area.all())?;
    lent.area = old_contents(area);
    compare_plan(&wanted.unwrap_or(Plan::new(0, 0)), &mut lent)?;
    Ok(refusal.map_or("plan".into(), |(number, _)| format!("refused {number}")))
}

fn compare_plan(plan: &Plan, lent: &mut Lent) -> Result<(), String> {
    let head = [plan.events, plan.horizon as usize, plan.records.len(), plan.levels_together()];
    same("events, horizon, records, levels", head, [0, 1, 2, 3].map(|which| lent.head(which)))?;
    let mut first = 0;
    for (number, record) in plan.records.iter().enumerate() {
        let count = record.levels().len();
        let numbers = [record.start, record.end, first, count].map(|number| number as i32);
        let wanted = [numbers[0], numbers[1], record.low as i32, record.high() as i32, numbers[2], numbers[3]];
        same(&format!("record {number}"), wanted, lent.record(number))?;
        first += count;
    }
    for past in [plan.records.len(), plan.records.len() + 1, 254, 255, 256, usize::MAX] {
        if past >= plan.records.len() {
            same(&format!("record {past}, past the last"), [0; 6], lent.record(past))?;
        }
    }
    Ok(())
}

/// The levels one wish after another, zeros up to 8,192, then the old contents; zeros after a refusal, nothing after 7.
fn area_after(wanted: &Result<Plan, Refusal>, length: usize) -> Vec<u8> {
    let mut levels = match wanted {
        Err((7, _)) => return old_contents(length).all().to_vec(),
        Err(_) => Vec::new(),
        Ok(plan) => plan.records.iter().flat_map(|record| record.levels().to_vec()).collect(),
    };
    levels.resize(library::LEVELS_AREA, 0);
    old_contents(length).with_front(&levels)
}

fn old_contents(length: usize) -> Area<u8> {
    Area::new(length, |entry| (entry % 251) as u8 + 1)
}

/// What is lent to the proved reader.
struct Lent {
    text: Vec<u8>,
    area: Area<u8>,
}

impl Lent {
    fn number(&mut self) -> u8 {
        library::number(&self.text, self.area.lent())
    }

    fn place(&mut self) -> usize {
        library::place(&self.text, self.area.lent())
    }

    fn head(&mut self, which: usize) -> usize {
        library::head(&self.text, self.area.lent(), which)
    }

    fn record(&mut self, number: usize) -> [i32; 6] {
        [0, 1, 2, 3, 4, 5].map(|which| library::field(&self.text, self.area.lent(), number, which))
    }
}
