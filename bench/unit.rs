//! A unit of a plain paced engine, which is an actor on its platform, with the events that wait for it.
use crate::places::Places;
use crate::plan::{Parts, Plan, NEVER};
use crate::program::{Inputs, Kind, Tag};
use crate::rows::Row;
use std::collections::VecDeque;

/// The events that wait at an input. The first one stands apart; if there is none, its tag is NEVER.
pub struct Input {
    tag: Tag,
    value: i64,
    later: VecDeque<(Tag, i64)>,
}

impl Input {
    pub fn new() -> Input {
        Input { tag: NEVER, value: 0, later: VecDeque::new() }
    }

    pub fn push(&mut self, tag: Tag, value: i64) {
        if self.tag.is_never() {
            (self.tag, self.value) = (tag, value);
        } else {
            self.later.push_back((tag, value));
        }
    }

    /// Takes the first event.
    fn take(&mut self) -> i64 {
        let value = self.value;
        match self.later.pop_front() {
            Some(event) => (self.tag, self.value) = event,
            None => self.tag = NEVER,
        }
        value
    }
}

/// What posting a result does.
pub enum Role {
    /// Its outputs go over wires.
    Inner,
    Sender {
        link: usize,
    },
    Actuator {
        slack: u64,
    },
}

/// A claim with its result: which outputs have a value, and where these values begin in the list of all values.
#[derive(Clone, Copy)]
pub struct Open {
    pub tag: Tag,
    pub outputs: u8,
    pub values: u32,
}

pub struct Unit<const WORDS: usize> {
    /// The tag of its first event.
    pub first: Tag,
    /// How long after the time of its first event it may fire.
    pace: i64,
    /// From which units a path leads to this one, and which units this one holds up.
    pub before: Places<WORDS>,
    pub holds: Places<WORDS>,
    /// The numbers of its inputs and wires, each from the first to that past the last.
    inputs: (u16, u16),
    pub wires: (u16, u16),
    pub kind: Kind,
    pub state: i64,
    pub has_state: bool,
    pub actor: u16,
    /// Its number among the sensors.
    pub sensor: Option<u16>,
    pub role: Role,
    /// Its last claim.
    pub open: Open,
}

impl<const WORDS: usize> Unit<WORDS> {
    pub fn new(plan: &Plan, parts: &Parts, place: usize) -> Self {
        let unit = &parts.units[place];
        let kind = plan.program.actors[unit.actor].kind.clone();
        let count = parts.units.len();
        let mut before = Places::NONE;
        for other in (0..count).filter(|other| *other != place && !parts.delays[place * count + other].is_never()) {
            before.put(other);
        }
        let role = match kind {
            Kind::Send { .. } => {
                Role::Sender { link: plan.program.links.iter().position(|link| link.edge.from == unit.actor).unwrap() }
            }
            Kind::Actuator { slack } => Role::Actuator { slack },
            _ => Role::Inner,
        };
        Unit {
            first: NEVER,
            // If no sensor or receiver leads to it, it may fire at once.
            pace: unit.offset.map_or(i64::MIN / 2, |offset| offset + 1),
            before,
            holds: Places::NONE,
            inputs: (unit.inputs.start as u16, unit.inputs.end as u16),
            wires: (unit.wires.start as u16, unit.wires.end as u16),
            state: kind.start(),
            has_state: kind.has_state(),
            kind,
            actor: unit.actor as u16,
            sensor: parts.sensors.iter().position(|sensor| *sensor == place).map(|number| number as u16),
            role,
            open: Open { tag: NEVER, outputs: 0, values: 0 },
        }
    }

    /// The reading from which on it may fire.
    pub fn due(&self) -> u64 {
        (self.first.time as i64 + self.pace).max(0) as u64
    }

    /// Takes all events of the first tag from the sensors or inputs of its platform, and adds their values to a list.
    pub fn take(&mut self, sensors: &mut [Sensor], inputs: &mut [Input], taken: &mut Inputs, values: &mut Vec<i64>) {
        taken.clear();
        let inputs = &mut inputs[self.inputs.0.into()..self.inputs.1.into()];
        if let Some(number) = self.sensor {
            self.first = sensors[usize::from(number)].take(taken, values);
        } else if let [input] = inputs {
            let value = input.take();
            taken.set(0, value);
            values.push(value);
            self.first = input.tag;
        } else {
            self.take_of_many(inputs, taken, values);
        }
    }

    /// Lets go of the units that it holds up.
    pub fn release(&mut self, held_up: &mut Places<WORDS>) {
        if !self.holds.is_empty() {
            held_up.remove_all(&self.holds);
            self.holds = Places::NONE;
        }
    }

    fn take_of_many(&mut self, inputs: &mut [Input], taken: &mut Inputs, values: &mut Vec<i64>) {
        let mut first = NEVER;
        for (number, input) in inputs.iter_mut().enumerate() {
            if input.tag == self.first {
                let value = input.take();
                taken.set(number, value);
                values.push(value);
            }
            first = first.min(input.tag);
        }
        self.first = first;
    }
}

/// A sensor: its rows, how many of them were entered and claimed, and when the next one is seen.
pub struct Sensor {
    pub place: usize,
    pub rows: Vec<Row>,
    entered: usize,
    claimed: usize,
    pub next_seen: u64,
}

impl Sensor {
    pub fn new(place: usize, rows: Vec<Row>) -> Sensor {
        let next_seen = rows.first().map_or(u64::MAX, |row| row.seen);
        Sensor { place, rows, entered: 0, claimed: 0, next_seen }
    }

    /// Enters the next row.
    pub fn enter(&mut self) {
        self.entered += 1;
        self.next_seen = self.rows.get(self.entered).map_or(u64::MAX, |row| row.seen);
    }

    /// The tag of the first row that waits.
    pub fn first(&self) -> Tag {
        self.rows[self.claimed..self.entered].first().map_or(NEVER, |row| Tag::at(row.time))
    }

    /// Takes the first row that waits, adds its value to a list, and gives the tag of the next one.
    pub fn take(&mut self, taken: &mut Inputs, values: &mut Vec<i64>) -> Tag {
        let value = self.rows[self.claimed].value;
        taken.set(0, value);
        values.push(value);
        self.claimed += 1;
        self.first()
    }
}
