//! The plain program that `run.sh` compares with the line `measure` of `pt_cases`: the same text, numbers and firings, with no proof.

use std::time::Instant;

/// The rows and the firings of one part; the argument says how many parts there are, 1 to 100.
const ROWS: u64 = 1_000;
const FIRINGS: u64 = 10_000;
const READINGS: u32 = 5;

struct Row {
    time: u64,
    seen: u64,
    value: i64,
}

fn text(rows: u64) -> Vec<u8> {
    let mut text = String::from("time,seen,value\n");
    for i in 1..rows + 1 {
        text += &format!("00000{:015},0000{:016},-{:020}\n", i * 1_000_000_000, i * 10_000_000_000, i);
    }
    text.into_bytes()
}

fn number(field: &[u8]) -> Option<u64> {
    if field.is_empty() || field.len() > 20 {
        return None;
    }
    let mut value = 0u64;
    for b in field {
        if !b.is_ascii_digit() {
            return None;
        }
        value = value.checked_mul(10)?.checked_add(u64::from(b - b'0'))?;
    }
    Some(value)
}

fn signed(field: &[u8]) -> Option<i64> {
    match field {
        [b'-', digits @ ..] => i64::try_from(-i128::from(number(digits)?)).ok(),
        _ => i64::try_from(number(field)?).ok(),
    }
}

/// The rows of a text without quotes, with the same checks of each row.
fn read(text: &[u8]) -> Option<Vec<Row>> {
    let mut rows: Vec<Row> = Vec::new();
    for (i, line) in text.split(|b| *b == b'\n').enumerate() {
        if i == 0 || line.is_empty() {
            continue;
        }
        let mut fields = line.split(|b| *b == b',');
        let row = Row {
            time: number(fields.next()?).filter(|n| *n <= 1_000_000_000_000_000)?,
            seen: number(fields.next()?).filter(|n| *n <= 10_000_000_000_000_000)?,
            value: signed(fields.next()?)?,
        };
        if fields.next().is_some() || row.seen < row.time {
            return None;
        }
        if let Some(before) = rows.last() {
            if row.time <= before.time || row.seen < before.seen {
                return None;
            }
        }
        rows.push(row);
    }
    Some(rows)
}

#[derive(Clone, Copy)]
enum Kind {
    Scale { num: i64, den: i64 },
    Add,
    Sum,
    Merge,
    Delay,
    Mean { num: i64, den: i64 },
}

fn nearest(x: i128) -> i64 {
    x.clamp(i128::from(i64::MIN), i128::from(i64::MAX)) as i64
}

#[inline(never)]
fn fire(kind: &Kind, state: i64, inputs: &[Option<i64>; 8]) -> (i64, [Option<i64>; 8]) {
    let a = inputs[0].unwrap_or(0);
    let b = inputs[1].unwrap_or(0);
    let gives = |state, value| (state, [value, None, None, None, None, None, None, None]);
    match *kind {
        Kind::Scale { num, den } => {
            let scaled = |a| nearest(i128::from(a) * i128::from(num) / i128::from(den));
            gives(state, inputs[0].map(scaled))
        }
        Kind::Add => gives(state, Some(a.saturating_add(b))),
        Kind::Sum => gives(state.saturating_add(a), Some(state.saturating_add(a))),
        Kind::Merge => gives(state, inputs.iter().flatten().next().copied()),
        Kind::Delay => gives(state, inputs[0]),
        Kind::Mean { num, den } => {
            let total = i128::from(a) * i128::from(num) + i128::from(b) * i128::from(den - num);
            gives(state, Some((total / i128::from(den)) as i64))
        }
    }
}

fn measure(name: &str, kind: &Kind, firings: u64) {
    let start = Instant::now();
    let mut state = 0;
    let mut total = 0i64;
    for i in 0..firings {
        let inputs = [Some((i % 1000) as i64), Some(state), None, None, None, None, None, None];
        let (next, outputs) = fire(kind, state, &inputs);
        state = next;
        total = total.wrapping_add(outputs[0].unwrap_or(0));
    }
    eprintln!("{name} {}", start.elapsed().as_micros());
    println!("{name} {total}");
}

fn main() {
    let parts = std::env::args().nth(1).and_then(|word| word.parse().ok()).unwrap_or(100);
    let text = text(parts * ROWS);
    let firings = parts * FIRINGS;
    let start = Instant::now();
    let mut count = 0;
    for _ in 0..READINGS {
        count = read(&text).map_or(0, |rows| rows.len());
    }
    eprintln!("rows {}", start.elapsed().as_micros());
    println!("rows {count}");
    measure("scale", &Kind::Scale { num: 3, den: 2 }, firings);
    measure("add", &Kind::Add, firings);
    measure("sum", &Kind::Sum, firings);
    measure("merge", &Kind::Merge, firings);
    measure("delay", &Kind::Delay, firings);
    measure("block", &Kind::Mean { num: 1, den: 2 }, firings);
}
