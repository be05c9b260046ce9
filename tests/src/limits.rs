//! Texts at the limits of document 01, one past them, and with several faults, each with the refusal that sections 1 to 4 and
//! requests T-04 and T-10 state.
use crate::plan::*;
use crate::reader::Refusal;

/// A text, and its refusal; `None` for a plan without fault.
pub type Stated = (Vec<u8>, Option<Refusal>);

/// A text with spaces for tabs and `;` for line feeds.
fn stated(text: &str, refusal: Option<Refusal>) -> Stated {
    (text.replace(' ', "\t").replace(';', "\n").into_bytes(), refusal)
}

fn ranged(before: &str, after: &str, line: usize, allowed: &[i64], beyond: &[i64]) -> Vec<Stated> {
    let good = allowed.iter().map(|number| stated(&format!("{before}{number}{after}"), None));
    let bad = beyond.iter().map(|number| stated(&format!("{before}{number}{after}"), Some((4, line))));
    good.chain(bad).collect()
}

/// Every number of every line at its least and greatest value, and beyond.
pub fn numbers() -> Vec<Stated> {
    let far = [-9_999_999, -100_001, 100_001, 9_999_999];
    let ends = [-100_000, -99_999, -1, 0, 1, 99_999, 100_000];
    [
        ranged("events ", " 9;", 1, &[1, 2, 64, 65, 127, 128], &[0, -1, 129, 130, 256, 9_999_999, -9_999_999]),
        ranged("events 2 ", ";", 1, &[0, 1, 99_999, 100_000], &[-1, 100_001, 9_999_999, -9_999_999]),
        ranged("events 5 9;rule ", " 0 0 1;", 2, &[1, 4], &[-1, 5, 6, 64, 128, 9_999_999]),
        ranged("events 5 9;rule 0 ", " 0 1;", 2, &[1, 4], &[-1, 5, 6, 64, 128, 9_999_999]),
        ranged("events 64 9;rule ", " 0 0 1;", 2, &[1, 62, 63], &[64, 65]),
        ranged("events 128 9;rule ", " 0 0 1;", 2, &[1, 63, 64, 65, 126, 127], &[128, 129, 256]),
        ranged("events 128 9;wish 0 ", " 0 1;", 2, &[1, 63, 64, 65, 126, 127], &[128, 129, 256, -1]),
        ranged("events 2 9;rule 0 1 ", " 100000;", 2, &ends, &far),
        ranged("events 2 9;rule 0 1 -100000 ", ";", 2, &ends, &far),
        ranged("events 2 9;rule 0 1 5 ", ";", 2, &[5, 6], &[4, -5]),
        ranged("events 2 9;rule 0 1 ", " -5;", 2, &[-5, -6], &[-4, 5]),
        ranged("events 5 9;wish ", " 0 0 1;", 2, &[1, 4], &[-1, 5, 6, 9_999_999]),
        ranged("events 2 9;wish 0 1 ", " 7;", 2, &ends, &far),
        // A wish of three levels ends two ticks after its lo.
        ranged("events 2 9;wish 0 1 ", " 1 2 3;", 2, &[-100_000, 99_998], &[-100_001, 99_999, 100_000]),
        ranged("events 2 9;wish 0 1 0 ", ";", 2, &[1, 2, 14, 15], &[-1, 16, 17, 9_999_999, -9_999_999]),
        ranged("events 2 9;wish 0 1 0 3 ", ";", 2, &[0, 1, 14, 15], &[-1, 16, 17]),
        ranged("events 2 9;wish 0 1 0 3 ", " 3;", 2, &[3, 4, 15], &[-1, 16, 255, 256]),
    ]
    .concat()
}

fn rules(count: usize) -> Vec<Record> {
    (0..count).map(|k| Record::rule(k % 127, 127, -(k as i64), 100_000 - k as i64)).collect()
}

/// Wishes with as many levels as the list says, up to 15.
fn wishes(counts: &[usize]) -> Vec<Record> {
    let levels = |count: usize| (1..=count).map(|i| (i * 15 / count) as u8).collect();
    counts.iter().enumerate().map(|(k, &count)| Record::wish(127, k % 127, -(k as i64), levels(count))).collect()
}

/// Records, levels in one wish and levels together, at the limit and one past it.
pub fn counts() -> Vec<Stated> {
    let plan = |records: Vec<Record>, refusal| (Plan::new(128, 100_000).with(records).text(), refusal);
    let mixed = |count: usize| [rules(count / 2), wishes(&vec![3; count - count / 2])].concat();
    vec![
        plan(rules(255), None),
        plan(rules(256), None),
        plan(rules(257), Some((3, 258))),
        plan(rules(300), Some((3, 258))),
        plan(wishes(&[1; 256]), None),
        plan(wishes(&[1; 257]), Some((3, 258))),
        plan(mixed(256), None),
        plan(mixed(257), Some((3, 258))),
        plan(wishes(&[255]), None),
        plan(wishes(&[256]), None),
        plan(wishes(&[257]), Some((3, 2))),
        plan(wishes(&[1, 256, 257]), Some((3, 4))),
        plan(wishes(&[256; 32]), None),
        plan(wishes(&[32; 256]), None),
        plan(wishes(&[&[256; 32][..], &[1]].concat()), Some((3, 34))),
        plan(wishes(&[&[256; 31][..], &[255, 1]].concat()), None),
        plan(wishes(&[&[256; 31][..], &[255, 2]].concat()), Some((3, 34))),
        plan(wishes(&[&[256; 31][..], &[255, 1, 1]].concat()), Some((3, 35))),
        plan(wishes(&[&[32; 255][..], &[33]].concat()), Some((3, 257))),
        plan([wishes(&[256; 32]), rules(224)].concat(), None),
        plan([wishes(&[256; 32]), rules(225)].concat(), Some((3, 258))),
    ]
}

/// Texts of a given length: none so long is without fault; up to 60,000 bytes the fault is one further down.
pub fn lengths() -> Vec<Stated> {
    let mut texts = Vec::new();
    for length in [59_999, 60_000, 60_001, 60_002, 100_000, 1_000_000] {
        let refusal = |number, line| Some(if length > MOST_BYTES { (3, 0) } else { (number, line) });
        texts.push((filled("events\t2\t", "0", length), refusal(2, 1)));
        texts.push((filled("", "\n", length), refusal(2, 1)));
        texts.push((filled("events\t2\t9\n", "rule\t0\t1\t0\t5\n", length), refusal(3, 258)));
        // Two bytes a level: the length of lo makes the rest even.
        let low = if length % 2 == 0 { "-10" } else { "10" };
        let levels = filled(&format!("events\t2\t9\nwish\t0\t1\t{low}"), "\t1", length - 1);
        texts.push((levels.iter().chain(b"1").copied().collect(), refusal(2, 2)));
        texts.push((levels.iter().chain(b"\n").copied().collect(), refusal(3, 2)));
    }
    texts
}

/// `front`, then `piece` again and again, up to `length` bytes; the last piece may be cut.
fn filled(front: &str, piece: &str, length: usize) -> Vec<u8> {
    front.bytes().chain(piece.bytes().cycle()).take(length).collect()
}

/// Forms that are and are not those of section 2.
pub fn forms() -> Vec<Stated> {
    let right =
        ["events 1 0;", "events 2 9;rule 0 1 -5 0;", "events 2 9;wish 1 0 -3 1;", "events 2 9;wish 0 1 0 0 1 0;"];
    let wrong_first = [
        "", ";", ";;", "events 2 9", "events;", "events 2;", "events 2 9 9;", "events 2 9 ;", "events  2 9;",
        " events 2 9;", "rule 0 1 0 5;", "wish 0 1 0 5;", "Events 2 9;", "EVENTS 2 9;", "event 2 9;", "eventss 2 9;",
        "events 02 9;", "events +2 9;", "events 2 -0;", "events 2 00;", "events 2 9\r;", "events 00000002 9;",
        "events 2 10000000;", "events two 9;", "events 2 9\0;", "\0events 2 9;", "events 2 9.;", "events - 9;",
        "events -- 9;", "x", "events",
    ];
    let wrong_later = [
        ";", "events 2 9;", "rule;", "rule 0 1 0;", "rule 0 1 0 5 5;", "rule 0 1 0 5 ;", "rule 0 1  5;",
        " rule 0 1 0 5;", "Rule 0 1 0 5;", "RULE 0 1 0 5;", "rules 0 1 0 5;", "rul 0 1 0 5;", "rule 0 1 0 5",
        "rule 0 1 0 5\r;", "rule 0 1 -0 5;", "rule 0 1 +0 5;", "rule 0 1 0 05;", "rule 0 01 0 5;",
        "rule 0 1 0 12345678;", "rule 0 1 -12345678 5;", "rule 0 1 0 5x;", "rule 0 1 0 x5;", "rule 0 1 - 5;",
        "rule 0 1 0 5-;", "wish;", "wish 0 1;", "wish 0 1 0;", "wish 0 1 0 ;", "wish 0 1 0 1 ;", "wish 0 1 0  1;",
        "Wish 0 1 0 1;", "WISH 0 1 0 1;", "wish 0 1 0 1", "wish 0 1 0 01;", "wish 0 1 0 -0;", "wish 0 1 0 +1;",
        "wish 0 1 0 1\r;", "wish 0 1 0 1 x;", "curve 0 1 0 1;", "#;", "rule", "\0;", "x",
    ];
    let right = right.iter().map(|text| stated(text, None));
    let first = wrong_first.iter().map(|text| stated(text, Some((2, 1))));
    let later = wrong_later.iter().flat_map(|line| {
        let second = stated(&format!("events 2 9;{line}"), Some((2, 2)));
        let third = stated(&format!("events 2 9;rule 0 1 0 5;{line}"), Some((2, 3)));
        // A fault further down changes nothing.
        let doubled = line.ends_with(';').then(|| stated(&format!("events 2 9;{line}wish 0 0 0 2 1 2;"), Some((2, 2))));
        [Some(second), Some(third), doubled].into_iter().flatten()
    });
    right.chain(first).chain(later).collect()
}

/// A wish line with any of the faults 2 to 5 and one of 6 and 8 at once: bit f of `faults` asks for fault f.
fn faulty_wish(faults: u32) -> String {
    let has = |fault: u32| faults & (1 << fault) != 0;
    let mut levels = match (has(6), has(8)) {
        (true, _) => vec!["2", "1", "2"],
        (_, true) => vec!["0", "0", "0"],
        _ => vec!["1", "2", "2", "1"],
    };
    if has(3) {
        levels.resize(257, if has(8) { "0" } else { "1" });
    }
    if has(2) {
        levels.push("x");
    }
    let end = if has(5) { 0 } else { 1 };
    let low = if has(4) { 100_001 } else { -7 };
    format!("wish 0 {end} {low} {};", levels.join(" "))
}

/// Two lines with every set of faults each: the first line at fault is reported, and in it the first fault in order.
pub fn orders() -> Vec<Stated> {
    let first_fault = |faults: u32, line| (faults != 0).then(|| (faults.trailing_zeros() as u8, line));
    // Levels that are not single-peaked are not all 0.
    let sets: Vec<u32> = (0..16).flat_map(|set| [0, 1 << 6, 1 << 8].map(|last| set << 2 | last)).collect();
    let mut texts = Vec::new();
    for &upper in &sets {
        for &lower in &sets {
            let text = format!("events 2 9;{}{}", faulty_wish(upper), faulty_wish(lower));
            texts.push(stated(&text, first_fault(upper, 2).or(first_fault(lower, 3))));
        }
    }
    texts.extend([
        stated("events 2 9;rule 1 1 5 4;", Some((4, 2))),
        stated("events 2 9;rule 1 1 4 5;", Some((5, 2))),
        stated("events 1 9;rule 0 0 4 5;", Some((5, 2))),
        stated("events 1 9;rule 0 1 4 5;", Some((4, 2))),
        stated("events 129 9;rule 1 1 4 5;", Some((4, 1))),
        stated("events 129 9;rule 1 1 4", Some((4, 1))),
    ]);
    texts.extend(past_the_records());
    texts
}

/// Wishes of zeros, at the limits and with other faults, which come first.
pub fn zeros() -> Vec<Stated> {
    [zeros_in_range(), zeros_counted()].concat()
}

/// At the limits of lo and of the last distance, and past them; with other faults of the line.
fn zeros_in_range() -> Vec<Stated> {
    let lines = [
        ("0 1 0 0", 8),
        ("1 0 0 0 0 0", 8),
        ("0 1 100000 0", 8),
        ("0 1 100001 0", 4),
        ("0 1 99998 0 0 0", 8),
        ("0 1 99999 0 0 0", 4),
        ("0 1 -100000 0", 8),
        ("0 1 -100000 0 0", 8),
        ("0 1 -100001 0 0", 4),
        ("0 2 0 0", 4),
        ("-1 1 0 0", 4),
        ("0 1 0 0 -1 0", 4),
        ("0 1 0 0 16 0", 4),
        ("1 1 0 0", 5),
        ("2 2 0 0", 4),
        ("0 1 0 00", 2),
        ("0 1 0 0 -0", 2),
        ("0 1 0 0 ", 2),
    ];
    lines.map(|(fields, number)| stated(&format!("events 2 9;wish {fields};"), Some((number, 2)))).into()
}

/// At the limits of levels and of records, and past them; with another line at fault.
fn zeros_counted() -> Vec<Stated> {
    let plan = |records: Vec<Record>, refusal| (Plan::new(128, 100_000).with(records).text(), Some(refusal));
    let zeros = |count: usize| vec![Record::wish(0, 1, 0, vec![0; count])];
    let room_for_one = || wishes(&[&[256; 31][..], &[255]].concat());
    vec![
        plan(zeros(256), (8, 2)),
        plan(zeros(257), (3, 2)),
        plan([wishes(&[256; 31]), zeros(256)].concat(), (8, 33)),
        plan([wishes(&[256; 31]), zeros(256), zeros(1)].concat(), (8, 33)),
        plan([wishes(&[256; 32]), zeros(1)].concat(), (3, 34)),
        plan([room_for_one(), zeros(1)].concat(), (8, 34)),
        plan([room_for_one(), zeros(2)].concat(), (3, 34)),
        plan([rules(255), zeros(1)].concat(), (8, 257)),
        plan([rules(255), zeros(256)].concat(), (8, 257)),
        plan([rules(256), zeros(1)].concat(), (3, 258)),
        plan([zeros(3), vec![Record::rule(0, 0, 1, 2)]].concat(), (8, 2)),
        plan([vec![Record::rule(0, 0, 1, 2)], zeros(3)].concat(), (5, 2)),
        plan([vec![Record::wish(0, 1, 0, vec![2, 1, 2])], zeros(3)].concat(), (6, 2)),
    ]
}

/// Wishes that allow one distance, the first, one between or the last, at the limits of their ends. None is refused.
pub fn single_distances() -> Vec<Stated> {
    let mut texts = Vec::new();
    for count in [1, 2, 3, 255, 256] {
        for low in [-MOST_END, 0, MOST_END - count as i64 + 1] {
            for at in [0, count / 2, count - 1] {
                let mut levels = vec![0; count];
                levels[at] = 1;
                for (start, end) in [(0, 1), (1, 0)] {
                    let wish = Record::wish(start, end, low, levels.clone());
                    texts.push((Plan::new(2, MOST_HORIZON).with([wish]).text(), None));
                }
            }
        }
    }
    texts
}

/// A 257th line: its form comes before its being one too many, and that before its other faults.
fn past_the_records() -> Vec<Stated> {
    let full = Plan::new(128, 9).with(rules(256)).text();
    let with = |line: &str, refusal| ([full.clone(), stated(line, None).0].concat(), Some(refusal));
    vec![
        with("rule 0 1 5 4;", (3, 258)),
        with("rule 0 0 4 5;", (3, 258)),
        with("rule 0 1 0 1;", (3, 258)),
        with("rule 0 1 0 1", (2, 258)),
        with("rule 0 1 0;", (2, 258)),
        with("wish 0 1 0 2 1 2;", (3, 258)),
        with("wish 0 1 0 0 0;", (3, 258)),
        with("wish 0 1 0;", (2, 258)),
        with("events 2 9;", (2, 258)),
        with(";", (2, 258)),
        with("x", (2, 258)),
    ]
}

/// Every row of up to so many levels, none above `highest`, with its fault: 6 by the words of section 4, 8 by those of T-04.
pub fn level_rows(longest: usize, highest: u8) -> Vec<(Vec<u8>, Option<u8>)> {
    let mut rows: Vec<Vec<u8>> = vec![vec![]];
    let mut first = 0;
    for _ in 0..longest {
        let last = rows.len();
        for row in first..last {
            rows.extend((0..=highest).map(|level| [&rows[row][..], &[level]].concat()).collect::<Vec<_>>());
        }
        first = last;
    }
    rows[1..].iter().map(|row| (row.clone(), row_fault(row))).collect()
}

fn row_fault(levels: &[u8]) -> Option<u8> {
    let peaked = (1..=15).all(|grade| one_run(levels, grade));
    let nothing_allowed = levels.iter().all(|&level| level == 0);
    if !peaked {
        Some(6)
    } else if nothing_allowed {
        Some(8)
    } else {
        None
    }
}

/// The distances at this grade or more are one unbroken run, or none.
fn one_run(levels: &[u8], grade: u8) -> bool {
    let at: Vec<usize> = (0..levels.len()).filter(|&i| levels[i] >= grade).collect();
    at.windows(2).all(|pair| pair[0] + 1 == pair[1])
}
