//! Damaged texts: fields, lines and bytes that are changed, deleted, doubled or put in, and wishes that allow nothing.
use crate::chance::Chance;

/// What a field is replaced by: numbers at and past the limits, and things that are no numbers.
pub const FIGURES: &[&str] = &[
    "", "-", "--1", "-0", "-00", "0", "00", "01", "-01", "007", "+0", "+1", "1-", "1x", "x1", "x", "0x1", "1.0", "1e3",
    " 1", "1 ", "1 2", "1,2", "\r", "1\r", "\0", "1\0", "é", "½", "1", "2", "15", "16", "17", "64", "127", "128",
    "129", "-1", "-2", "255", "256", "257", "99999", "100000", "100001", "-99999", "-100000", "-100001", "999999",
    "1000000", "9999999", "-9999999", "10000000", "12345678", "-12345678", "00000001", "99999999999999999999999999",
    "/", ":",
];

/// What a word is replaced by.
pub const WORDS: &[&str] = &[
    "", "events", "rule", "wish", "Events", "EVENTS", "Rule", "RULE", "rulE", "Wish", "WISH", "event", "eventss",
    "rul", "rules", "wis", "wishe", " rule", "rule ", "rule\r", "wish\0", "wish0", "rule4", "curve", "now", "seen",
    "#", "0",
];

/// A text as lines of fields. Joining gives the text again.
pub fn fields_of(text: &[u8]) -> Vec<Vec<Vec<u8>>> {
    let lines = text.strip_suffix(b"\n").unwrap_or(text).split(|&byte| byte == b'\n');
    lines.map(|line| line.split(|&byte| byte == b'\t').map(<[u8]>::to_vec).collect()).collect()
}

pub fn join(lines: &[Vec<Vec<u8>>]) -> Vec<u8> {
    lines.iter().flat_map(|line| [line.join(&b'\t'), b"\n".to_vec()].concat()).collect()
}

/// Every field of every line in turn: replaced by each figure and word, deleted, doubled, blanked at its end.
pub fn every_field(text: &[u8]) -> Vec<Vec<u8>> {
    let lines = fields_of(text);
    let mut texts = Vec::new();
    for (row, line) in lines.iter().enumerate() {
        for column in 0..line.len() {
            for put in FIGURES.iter().chain(WORDS) {
                texts.push(changed(&lines, row, |line| line[column] = put.as_bytes().to_vec()));
            }
            texts.push(changed(&lines, row, |line| drop(line.remove(column))));
            texts.push(changed(&lines, row, |line| line.insert(column, line[column].clone())));
            texts.push(changed(&lines, row, |line| line.insert(column, Vec::new())));
            texts.push(changed(&lines, row, |line| line.truncate(column)));
        }
        texts.push(changed(&lines, row, |line| line.push(Vec::new())));
        texts.push(changed(&lines, row, |line| line.push(b"0".to_vec())));
    }
    texts
}

/// Every wish in turn with zeros for its levels.
pub fn every_wish(text: &[u8]) -> Vec<Vec<u8>> {
    let lines = fields_of(text);
    let wishes = (0..lines.len()).filter(|&row| lines[row][0] == b"wish");
    wishes.map(|row| changed(&lines, row, |line| put_zeros(line))).collect()
}

/// A wish of zeros. Another line is left alone.
fn put_zeros(line: &mut [Vec<u8>]) {
    if line[0] == b"wish" {
        line.iter_mut().skip(4).for_each(|level| *level = b"0".to_vec());
    }
}

fn changed(lines: &[Vec<Vec<u8>>], row: usize, change: impl FnOnce(&mut Vec<Vec<u8>>)) -> Vec<u8> {
    let mut lines = lines.to_vec();
    change(&mut lines[row]);
    join(&lines)
}

/// Every line in turn: deleted, doubled, blanked, exchanged with the next; odd lines put before it; its line feed changed.
pub fn every_line(text: &[u8]) -> Vec<Vec<u8>> {
    let lines: Vec<&[u8]> = text.split_inclusive(|&byte| byte == b'\n').collect();
    let mut texts = Vec::new();
    for row in 0..lines.len() {
        let [before, line, after] = [&lines[..row], &lines[row..=row], &lines[row + 1..]].map(<[&[u8]]>::concat);
        let bare = line.strip_suffix(b"\n").unwrap_or(&line).to_vec();
        texts.push([&before[..], &after].concat());
        texts.push([&before[..], &after, &line].concat());
        for put in ["\n", "\r\n", " \n", "\t\n", "#\n", "events\t2\t9\n", "\n\n"] {
            texts.push([&before[..], put.as_bytes(), &line, &after].concat());
            texts.push([&before[..], put.as_bytes(), &after].concat());
        }
        texts.push([&before[..], &line, &line, &after].concat());
        for end in ["", "\r", "\r\n", "\n\n", "\t\n", " \n", "\0\n"] {
            texts.push([&before[..], &bare, end.as_bytes(), &after].concat());
        }
    }
    texts
}

/// Every byte in turn: replaced by and put behind each of the 256 bytes, deleted; and every front of the text.
pub fn every_byte(text: &[u8]) -> Vec<Vec<u8>> {
    let mut texts = Vec::new();
    for at in 0..=text.len() {
        let (front, back) = text.split_at(at);
        texts.push(front.to_vec());
        for byte in 0..=255 {
            texts.push([front, &[byte], back].concat());
            if let [_, rest @ ..] = back {
                texts.push([front, &[byte], rest].concat());
            }
        }
        if let [_, rest @ ..] = back {
            texts.push([front, rest].concat());
        }
    }
    texts
}

/// One to three random changes.
pub fn at_random(chance: &mut Chance, text: &[u8]) -> Vec<u8> {
    let mut text = text.to_vec();
    for _ in 0..=chance.below(3) {
        if text.is_empty() {
            break;
        }
        text = if chance.percent(60) { random_field(chance, &text) } else { random_byte(chance, text) };
    }
    text
}

fn random_field(chance: &mut Chance, text: &[u8]) -> Vec<u8> {
    let mut lines = fields_of(text);
    let row = chance.below(lines.len());
    let line = &mut lines[row];
    let column = chance.below(line.len());
    match chance.below(11) {
        0 => drop(line.remove(column)),
        1 => line.insert(column, line[column].clone()),
        2 => line[column] = chance.pick(WORDS).as_bytes().to_vec(),
        3 => line[column] = chance.pick(FIGURES).as_bytes().to_vec(),
        4 => drop(lines.remove(row)),
        5 => lines.insert(row, lines[row].clone()),
        6 => put_zeros(line),
        _ => line[column] = random_number(chance).to_string().into_bytes(),
    }
    join(&lines)
}

/// Often a level or an event, else an end; some are just past the limits.
fn random_number(chance: &mut Chance) -> i64 {
    if chance.one_in(4) {
        chance.between(-100_100, 100_100)
    } else {
        chance.between(-1, 17)
    }
}

fn random_byte(chance: &mut Chance, mut text: Vec<u8>) -> Vec<u8> {
    let at = chance.below(text.len());
    let byte = if chance.one_in(3) { chance.below(256) as u8 } else { *chance.pick(b"\t\n0123456789-r w") };
    match chance.below(5) {
        0 => drop(text.remove(at)),
        1 => text.insert(at, byte),
        2 if chance.one_in(3) => text.truncate(at),
        _ => text[at] = byte,
    }
    text
}
