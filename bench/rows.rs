//! The rows of sensor files.
use crate::program::{not_taken, Kind, Outcome, Program};

#[derive(Clone, Copy)]
pub struct Row {
    pub time: u64,
    pub seen: u64,
    pub value: i64,
}

/// Takes a whole number of decimal digits from the front of a text. Fields in quotes, which few files have, are none.
fn take_number(text: &mut &[u8]) -> Option<i64> {
    let whole = *text;
    let (digits, sign) = whole.strip_prefix(b"-").map_or((whole, 1), |digits| (digits, -1));
    let (mut count, mut number) = (0, 0i64);
    while let Some(digit) = digits.get(count).map(|byte| byte.wrapping_sub(b'0')).filter(|digit| *digit < 10) {
        number = number.wrapping_mul(10).wrapping_add(digit.into());
        count += 1;
    }
    *text = &digits[count..];
    match count {
        0 => None,
        1..=18 => Some(sign * number),
        // These may not fit.
        _ => std::str::from_utf8(&whole[..whole.len() - text.len()]).ok()?.parse().ok(),
    }
}

fn take_comma(text: &mut &[u8]) -> Option<()> {
    *text = text.strip_prefix(b",")?;
    Some(())
}

/// Takes a row from the front of a text, up to the end of its line.
fn take_row(text: &mut &[u8]) -> Option<Row> {
    let time = take_number(text)?.try_into().ok()?;
    take_comma(text)?;
    let seen = take_number(text)?.try_into().ok()?;
    take_comma(text)?;
    let value = take_number(text)?;
    matches!(text, [] | [b'\n' | b'\r', ..]).then_some(Row { time, seen, value })
}

/// Takes ends of lines from the front of a text.
fn take_ends(text: &mut &[u8]) {
    while let [b'\n' | b'\r', rest @ ..] = text {
        *text = rest;
    }
}

impl Program {
    /// The rows of an actor up to the horizon; of one that is no sensor, none. Records end at a line feed, at a carriage return, or at
    /// both, and blank ones don't count.
    pub fn rows(&self, actor: usize) -> Outcome<Vec<Row>> {
        let Kind::Sensor { file, .. } = &self.actors[actor].kind else { return Ok(Vec::new()) };
        let text = std::fs::read(file).unwrap();
        let mut rest = &text[..];
        take_ends(&mut rest);
        let head = rest.iter().position(|byte| matches!(byte, b'\n' | b'\r')).unwrap_or(rest.len());
        rest = &rest[head..];
        take_ends(&mut rest);
        let (mut rows, mut number) = (Vec::new(), 0);
        while !rest.is_empty() {
            number += 1;
            let Some(row) = take_row(&mut rest) else {
                return not_taken(format_args!("row {number} of sensor {}", self.actors[actor].name));
            };
            if row.time <= self.until {
                rows.push(row);
            }
            take_ends(&mut rest);
        }
        Ok(rows)
    }
}
