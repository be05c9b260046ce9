//! Every plan of four small families. Their wishes have all short rows of low levels, so zeros stand in every place.
use crate::limits::level_rows;
use crate::plan::{Plan, Record};

/// The rows without fault of up to three levels from 0 to 2.
fn rows() -> Vec<Vec<u8>> {
    level_rows(3, 2).into_iter().filter(|(_, fault)| fault.is_none()).map(|(row, _)| row).collect()
}

/// Every pair of rows.
fn pairs() -> Vec<(Vec<u8>, Vec<u8>)> {
    rows().iter().flat_map(|one| rows().into_iter().map(|other| (one.clone(), other))).collect()
}

/// Two wishes for the distance of two events, each way round, that begin below, at and above each other.
pub fn two_wishes(mut case: impl FnMut(Plan)) {
    let ways = [(0, 1), (1, 0)].into_iter().flat_map(|way| [-2, -1, 0].map(|low| (way, low)));
    for (one, other) in pairs() {
        for ((a, b), low) in ways.clone() {
            for ((c, d), other_low) in ways.clone() {
                let wishes = [Record::wish(a, b, low, one.clone()), Record::wish(c, d, other_low, other.clone())];
                case(Plan::new(2, 2).with(wishes));
            }
        }
    }
}

/// Three wishes that compete for the distance of two events.
pub fn three_wishes(mut case: impl FnMut(Plan)) {
    for (one, other) in pairs() {
        for third in rows() {
            let wishes = [one.clone(), other.clone(), third].map(|row| Record::wish(0, 1, 0, row));
            case(Plan::new(2, 2).with(wishes));
        }
    }
}

/// Three wishes that lead round three events.
pub fn rounds(mut case: impl FnMut(Plan)) {
    for (one, other) in pairs() {
        for third in rows() {
            let (one, other) = (Record::wish(0, 1, 0, one.clone()), Record::wish(1, 2, 0, other.clone()));
            case(Plan::new(3, 3).with([one, other, Record::wish(2, 0, -3, third)]));
        }
    }
}

/// Two wishes that meet at an event, and a rule between their other ends.
pub fn wishes_and_rules(mut case: impl FnMut(Plan)) {
    let rules = (0..=2).flat_map(|low| (low..=2).map(move |high| Record::rule(0, 2, low, high)));
    for (one, other) in pairs() {
        for rule in rules.clone() {
            for low in [-1, 0] {
                let wishes = [Record::wish(0, 1, 0, one.clone()), Record::wish(2, 1, low, other.clone())];
                case(Plan::new(3, 2).with([rule.clone()]).with(wishes));
            }
        }
    }
}
