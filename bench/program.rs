//! What the plain programs share: a graph of version 1 without faults, and what its actors do.
use crate::json::Json;
use std::collections::HashMap;

/// Why a plain program doesn't run a graph, as one line, and the status with which it then ends: those of `ptides` where it refuses
/// the same, and 1 for what only the plain program doesn't take.
pub struct Refusal {
    pub status: u8,
    pub line: String,
}

pub type Outcome<T> = Result<T, Refusal>;

/// Gives the status of a program, and writes the line of a refusal.
pub fn ended(result: Outcome<u8>) -> std::process::ExitCode {
    result
        .unwrap_or_else(|refusal| {
            eprintln!("{}", refusal.line);
            refusal.status
        })
        .into()
}

pub fn not_taken<T>(what: impl std::fmt::Display) -> Outcome<T> {
    Err(Refusal { status: 1, line: format!("not taken: {what}") })
}

/// A time in microseconds and a step.
#[derive(Clone, Copy, PartialEq, Eq, PartialOrd, Ord)]
pub struct Tag {
    pub time: u64,
    pub step: u64,
}

impl Tag {
    pub fn at(time: u64) -> Tag {
        Tag { time, step: 0 }
    }

    pub fn plus(self, delay: Tag) -> Tag {
        Tag { time: self.time + delay.time, step: self.step + delay.step }
    }
}

#[derive(Clone)]
pub struct MachineRow {
    state: i64,
    low: i64,
    high: i64,
    next: i64,
    emit: Option<(usize, i64)>,
}

#[derive(Clone)]
pub enum Kind {
    Sensor { file: String, bound: u64 },
    Receive,
    Send { slack: u64 },
    Actuator { slack: u64 },
    Scale { num: i64, den: i64 },
    Shift { by: i64 },
    Add,
    Sub,
    Above { limit: i64 },
    Merge,
    Delay { d: u64 },
    Count,
    Sum,
    Latch,
    Machine { start: i64, rows: Vec<MachineRow> },
    Every { start: u64, period: u64 },
    Block(fn(i64, i64) -> i64),
}

pub struct Actor {
    pub name: String,
    pub platform: usize,
    pub kind: Kind,
    pub inputs: usize,
    pub outputs: usize,
}

/// A wire or a link: from an actor's output to an actor's input.
#[derive(Clone, Copy)]
pub struct Edge {
    pub from: usize,
    pub output: usize,
    pub to: usize,
    pub input: usize,
}

pub struct Link {
    pub edge: Edge,
    pub delay: u64,
}

/// A graph. The hidden wire of an `every`, from its output 1 to its input 0, is among the wires.
pub struct Program {
    pub until: u64,
    pub clock_error: u64,
    pub platforms: Vec<String>,
    pub actors: Vec<Actor>,
    pub wires: Vec<Edge>,
    pub links: Vec<Link>,
}

/// The values at the inputs of a firing, and which of them are there.
#[derive(Clone, Copy, Default)]
pub struct Inputs {
    values: [i64; 8],
    present: u8,
}

impl Inputs {
    /// Forgets all values.
    pub fn clear(&mut self) {
        self.present = 0;
    }

    pub fn set(&mut self, input: usize, value: i64) {
        self.values[input] = value;
        self.present |= 1 << input;
    }

    pub fn first(&self) -> i64 {
        self.values[0]
    }

    /// A bit for each input that has a value.
    pub fn present(&self) -> u8 {
        self.present
    }

    pub fn get(&self, input: usize) -> Option<i64> {
        (self.present >> input & 1 == 1).then_some(self.values[input])
    }

    fn or_zero(&self, input: usize) -> i64 {
        self.get(input).unwrap_or(0)
    }

    fn lowest(&self) -> i64 {
        self.values[self.present.trailing_zeros() as usize]
    }
}

fn nearest(value: i128) -> i64 {
    value.clamp(i128::from(i64::MIN), i128::from(i64::MAX)) as i64
}

/// a * num / den. The product nearly always fits 64 bits, and then no division of 128 bits is needed.
fn scaled(a: i64, num: i64, den: i64) -> i64 {
    match a.checked_mul(num) {
        Some(product) => product / den,
        None => nearest(i128::from(a) * i128::from(num) / i128::from(den)),
    }
}

fn block(name: &str) -> Outcome<fn(i64, i64) -> i64> {
    Ok(match name {
        "least" => |a, b| a.min(b),
        "greatest" => |a, b| a.max(b),
        "clip100" => |a, _| a.clamp(-100, 100),
        "dead5" => |a, b| if a.abs_diff(b) <= 5 { 0 } else { a.saturating_sub(b) },
        "mean" => |a, b| nearest((i128::from(a) + i128::from(b)) / 2),
        _ => return not_taken(format_args!("block {name}")),
    })
}

impl Kind {
    /// Fires with a state and inputs; each output goes to `gives` with its number.
    #[inline]
    pub fn fire(&self, state: &mut i64, inputs: &Inputs, mut gives: impl FnMut(usize, i64)) {
        let a = inputs.first();
        match self {
            Kind::Sensor { .. } | Kind::Receive | Kind::Send { .. } | Kind::Delay { .. } => gives(0, a),
            Kind::Actuator { .. } => {}
            Kind::Scale { num, den } => gives(0, scaled(a, *num, *den)),
            Kind::Shift { by } => gives(0, a.saturating_add(*by)),
            Kind::Add => gives(0, inputs.or_zero(0).saturating_add(inputs.or_zero(1))),
            Kind::Sub => gives(0, inputs.or_zero(0).saturating_sub(inputs.or_zero(1))),
            Kind::Above { limit } => {
                if a > *limit {
                    gives(0, a);
                }
            }
            Kind::Merge => gives(0, inputs.lowest()),
            Kind::Count => {
                *state = state.saturating_add(1);
                gives(0, *state);
            }
            Kind::Sum => {
                *state = state.saturating_add(a);
                gives(0, *state);
            }
            Kind::Latch => {
                *state = inputs.get(0).unwrap_or(*state);
                if inputs.get(1).is_some() {
                    gives(0, *state);
                }
            }
            Kind::Machine { rows, .. } => {
                if let Some(row) = rows.iter().find(|row| row.state == *state && row.low <= a && a <= row.high) {
                    *state = row.next;
                    if let Some((output, value)) = row.emit {
                        gives(output, value);
                    }
                }
            }
            Kind::Every { .. } => {
                gives(0, *state);
                gives(1, 0);
                *state = state.saturating_add(1);
            }
            Kind::Block(value) => gives(0, value(inputs.or_zero(0), inputs.or_zero(1))),
        }
    }

    pub fn is_actuator(&self) -> bool {
        matches!(self, Kind::Actuator { .. })
    }

    /// How long after its time a sender or an actuator may act, in microseconds.
    pub fn slack(&self) -> u64 {
        match self {
            Kind::Send { slack } | Kind::Actuator { slack } => *slack,
            _ => 0,
        }
    }

    pub fn has_state(&self) -> bool {
        matches!(self, Kind::Count | Kind::Sum | Kind::Latch | Kind::Machine { .. } | Kind::Every { .. })
    }

    pub fn start(&self) -> i64 {
        match self {
            Kind::Machine { start, .. } => *start,
            _ => 0,
        }
    }
}

/// Refuses an object that has other members than these, so that none is read past.
fn has_only(value: &Json, known: &[&str]) -> Outcome<()> {
    value.names().find(|name| !known.contains(name)).map_or(Ok(()), |name| not_taken(format_args!("member {name}")))
}

fn machine_row(row: &Json) -> Outcome<MachineRow> {
    has_only(row, &["state", "low", "high", "next", "emit"])?;
    let emit = match row.get("emit") {
        Json::List(emit) => Some((emit[0].number() as usize, emit[1].number())),
        _ => None,
    };
    let number = |member| row.get(member).number();
    Ok(MachineRow { state: number("state"), low: number("low"), high: number("high"), next: number("next"), emit })
}

/// The kind of an actor with its numbers of inputs and outputs.
fn kind(actor: &Json) -> Outcome<(Kind, usize, usize)> {
    let number = |member| actor.get(member).number();
    let time = |member| actor.get(member).time();
    Ok(match actor.get("kind").text() {
        "sensor" => (Kind::Sensor { file: actor.get("file").text().to_owned(), bound: time("bound") }, 1, 1),
        "receive" => (Kind::Receive, 1, 1),
        "send" => (Kind::Send { slack: time("slack") }, 1, 1),
        "actuator" => (Kind::Actuator { slack: time("slack") }, 1, 0),
        "scale" => (Kind::Scale { num: number("num"), den: number("den") }, 1, 1),
        "shift" => (Kind::Shift { by: number("by") }, 1, 1),
        "add" => (Kind::Add, 2, 1),
        "sub" => (Kind::Sub, 2, 1),
        "above" => (Kind::Above { limit: number("limit") }, 1, 1),
        "merge" => (Kind::Merge, number("n") as usize, 1),
        "delay" => (Kind::Delay { d: time("d") }, 1, 1),
        "count" => (Kind::Count, 1, 1),
        "sum" => (Kind::Sum, 1, 1),
        "latch" => (Kind::Latch, 2, 1),
        "machine" => {
            let rows = actor.get("rows").list().iter().map(machine_row).collect::<Outcome<_>>()?;
            (Kind::Machine { start: number("start"), rows }, 1, number("outputs") as usize)
        }
        "every" => (Kind::Every { start: time("start"), period: time("period") }, 1, 2),
        "block" => (Kind::Block(block(actor.get("block").text())?), 2, 1),
        other => return not_taken(format_args!("kind {other}")),
    })
}

impl Program {
    pub fn read(path: &str) -> Outcome<Program> {
        let graph = Json::read(path);
        if graph.get("ptides").number() != 1 {
            return not_taken(format_args!("version {}", graph.get("ptides").number()));
        }
        has_only(&graph, &["ptides", "until", "clock_error", "platforms", "actors", "wires", "links"])?;
        let names = |list: &[Json]| -> HashMap<String, usize> {
            list.iter().enumerate().map(|(number, name)| (name.text().to_owned(), number)).collect()
        };
        let platforms = names(graph.get("platforms").list());
        let mut actors = Vec::new();
        let mut numbers = HashMap::new();
        let mut wires = Vec::new();
        for actor in graph.get("actors").list() {
            let name = actor.get("name").text().to_owned();
            let (kind, inputs, outputs) = kind(actor)?;
            let number = actors.len();
            if matches!(kind, Kind::Every { .. }) {
                wires.push(Edge { from: number, output: 1, to: number, input: 0 });
            }
            numbers.insert(name.clone(), number);
            actors.push(Actor { name, platform: platforms[actor.get("platform").text()], kind, inputs, outputs });
        }
        let number = |name: &Json| numbers[name.text()];
        for wire in graph.get("wires").list() {
            let wire = wire.list();
            let (output, input) = (wire[1].number() as usize, wire[3].number() as usize);
            wires.push(Edge { from: number(&wire[0]), output, to: number(&wire[2]), input });
        }
        let links = graph.get("links").list().iter().map(|link| {
            let edge = Edge { from: number(link.get("from")), output: 0, to: number(link.get("to")), input: 0 };
            Link { edge, delay: link.get("delay").time() }
        });
        Ok(Program {
            until: graph.get("until").time(),
            clock_error: graph.get("clock_error").time(),
            platforms: graph.get("platforms").list().iter().map(|name| name.text().to_owned()).collect(),
            links: links.collect(),
            actors,
            wires,
        })
    }

    /// What an output adds to a tag.
    pub fn delay(&self, actor: usize, output: usize) -> Tag {
        match self.actors[actor].kind {
            Kind::Delay { d: 0 } => Tag { time: 0, step: 1 },
            Kind::Delay { d } => Tag::at(d),
            Kind::Every { period, .. } if output == 1 => Tag::at(period),
            _ => Tag::at(0),
        }
    }

    pub fn start_states(&self) -> Vec<i64> {
        self.actors.iter().map(|actor| actor.kind.start()).collect()
    }

    /// The time of an actor's starting event.
    pub fn starts_at(&self, actor: usize) -> Option<u64> {
        match self.actors[actor].kind {
            Kind::Every { start, .. } if start <= self.until => Some(start),
            _ => None,
        }
    }

    /// The number of edges on the longest path without delay that ends at each actor.
    pub fn ranks(&self) -> Vec<u32> {
        let free = |edge: &&Edge| self.delay(edge.from, edge.output) == Tag::at(0);
        let edges: Vec<Edge> = self.wires.iter().chain(self.links.iter().map(|link| &link.edge)).filter(free).copied().collect();
        let mut ranks = vec![0; self.actors.len()];
        let mut waiting = vec![0; self.actors.len()];
        let mut leaving = vec![Vec::new(); self.actors.len()];
        for edge in &edges {
            waiting[edge.to] += 1;
            leaving[edge.from].push(edge.to);
        }
        let mut ready: Vec<usize> = (0..self.actors.len()).filter(|actor| waiting[*actor] == 0).collect();
        while let Some(actor) = ready.pop() {
            for &to in &leaving[actor] {
                ranks[to] = ranks[to].max(ranks[actor] + 1);
                waiting[to] -= 1;
                if waiting[to] == 0 {
                    ready.push(to);
                }
            }
        }
        ranks
    }
}
