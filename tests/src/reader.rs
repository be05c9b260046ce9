//! A plain reader of plan texts: document 01, sections 1 to 4, with refusal 8 of request T-04. It stands beside the proved one in
//! the tests and in the bench.
use crate::plan::*;

/// The number of the first fault, and its line; line 0 for the length of the text.
pub type Refusal = (u8, usize);

pub fn read(text: &[u8]) -> Result<Plan, Refusal> {
    if text.len() > MOST_BYTES {
        return Err((3, 0));
    }
    let mut lines: Vec<&[u8]> = text.split(|&byte| byte == b'\n').collect();
    // What follows the last line feed is no line, and has to be empty.
    let rest = lines.pop().unwrap_or_default();
    let mut plan = Plan::new(0, 0);
    let mut levels_before = 0;
    for (above, line) in lines.iter().enumerate() {
        let number = above + 1;
        if number == 1 {
            plan = first_line(line).map_err(|fault| (fault, number))?;
        } else {
            let record = later_line(line, &plan, levels_before).map_err(|fault| (fault, number))?;
            levels_before += record.levels().len();
            plan.records.push(record);
        }
    }
    if lines.is_empty() || !rest.is_empty() {
        return Err((2, lines.len() + 1));
    }
    Ok(plan)
}

fn first_line(line: &[u8]) -> Result<Plan, u8> {
    let (word, numbers) = fields(line).ok_or(2)?;
    let &[events, horizon] = numbers.as_slice() else { return Err(2) };
    if word != b"events" {
        return Err(2);
    }
    if !(1..=MOST_EVENTS).contains(&events) || !(0..=MOST_HORIZON).contains(&horizon) {
        return Err(4);
    }
    Ok(Plan::new(events as usize, horizon))
}

/// The record of a line, or its first fault in the order 2, 3, 4, 5, 6, 8.
fn later_line(line: &[u8], plan: &Plan, levels_before: usize) -> Result<Record, u8> {
    let (word, numbers) = fields(line).ok_or(2)?;
    match (word, numbers.as_slice()) {
        (b"rule", &[a, b, low, high]) => rule(plan, a, b, low, high),
        (b"wish", [a, b, low, levels @ ..]) if !levels.is_empty() => wish(plan, levels_before, *a, *b, *low, levels),
        _ => Err(2),
    }
}

fn rule(plan: &Plan, a: i64, b: i64, low: i64, high: i64) -> Result<Record, u8> {
    if plan.records.len() == MOST_RECORDS {
        return Err(3);
    }
    if !in_range(plan, a, b, low, high) || low > high {
        return Err(4);
    }
    if a == b {
        return Err(5);
    }
    Ok(Record::rule(a as usize, b as usize, low, high))
}

fn wish(plan: &Plan, levels_before: usize, a: i64, b: i64, low: i64, levels: &[i64]) -> Result<Record, u8> {
    let count = levels.len();
    if plan.records.len() == MOST_RECORDS || count > MOST_LEVELS || levels_before + count > MOST_LEVELS_TOGETHER {
        return Err(3);
    }
    let high = low + count as i64 - 1;
    if !in_range(plan, a, b, low, high) || !levels.iter().all(|level| (0..=TOP_LEVEL).contains(level)) {
        return Err(4);
    }
    if a == b {
        return Err(5);
    }
    let levels: Vec<u8> = levels.iter().map(|&level| level as u8).collect();
    if !single_peaked(&levels) {
        return Err(6);
    }
    if levels.iter().all(|&level| level == 0) {
        return Err(8);
    }
    Ok(Record::wish(a as usize, b as usize, low, levels))
}

fn in_range(plan: &Plan, a: i64, b: i64, low: i64, high: i64) -> bool {
    let events = 0..plan.events as i64;
    let ends = -MOST_END..=MOST_END;
    events.contains(&a) && events.contains(&b) && ends.contains(&low) && ends.contains(&high)
}

/// Up to a top, then down; equal neighbours are allowed.
pub fn single_peaked(levels: &[u8]) -> bool {
    let top = (1..levels.len()).find(|&i| levels[i] < levels[i - 1]).unwrap_or(levels.len());
    levels[top..].windows(2).all(|pair| pair[0] >= pair[1])
}

/// The first field of a line, and the others, which have to be numbers.
fn fields(line: &[u8]) -> Option<(&[u8], Vec<i64>)> {
    let mut fields = line.split(|&byte| byte == b'\t');
    let word = fields.next()?;
    let numbers = fields.map(number).collect::<Option<Vec<i64>>>()?;
    Some((word, numbers))
}

/// An optional minus and 1 to 7 decimal digits; no leading zero except in 0 itself, no −0.
fn number(field: &[u8]) -> Option<i64> {
    let (negative, digits) = match field {
        [b'-', digits @ ..] => (true, digits),
        digits => (false, digits),
    };
    if !(1..=7).contains(&digits.len()) || !digits.iter().all(u8::is_ascii_digit) {
        return None;
    }
    if digits[0] == b'0' && (digits.len() > 1 || negative) {
        return None;
    }
    let value = digits.iter().fold(0, |value, digit| value * 10 + i64::from(digit - b'0'));
    Some(if negative { -value } else { value })
}
