//! A platform of a plain paced engine: what waits on it, and what it does in a turn.
//!
//! A unit that waits is looked at in each turn, unless it is known that another one holds it up: until that one is claimed, or until an
//! earlier event comes. A claim is fired at once, and its result is posted in the next turn.
use crate::history::{History, Message};
use crate::places::{Places, Word};
use crate::plan::{Parts, Plan, NEVER};
use crate::program::{Inputs, Tag};
use crate::records::Records;
use crate::rows::Row;
use crate::tables::Tables;
use crate::unit::{Input, Open, Role, Sensor, Unit};

/// How many units a turn claims, and how many messages a link holds.
const MOST: usize = 64;
/// How many units a platform claims.
const LIMIT: usize = 200_000;

/// All messages of a link, and how many of them were sent and taken.
#[derive(Default)]
pub struct Traffic {
    pub messages: Vec<Message>,
    sent: usize,
    taken: usize,
}

/// What the platforms share.
pub struct Shared<'a> {
    pub links: Vec<Traffic>,
    pub tables: Tables<'a>,
    /// For each platform the reading from which on it may have something to do.
    pub wakes: Vec<u64>,
}

pub struct Platform<'a, const WORDS: usize> {
    plan: &'a Plan<'a>,
    parts: &'a Parts,
    number: usize,
    units: Vec<Unit<WORDS>>,
    /// The inputs of all units.
    inputs: Vec<Input>,
    sensors: Vec<Sensor>,
    /// The units that have events, and those of them that are known to be held up.
    waiting: Places<WORDS>,
    held_up: Places<WORDS>,
    /// The places of the safe units, and then of those of them that are claimed, in the order of tag and actor.
    claimed: Vec<u16>,
    /// Room for the values at the inputs of a claim.
    taken: Inputs,
    /// When the next row is seen, and when the next unit is due that isn't known to be held up.
    next_row: u64,
    next_due: u64,
    /// How many messages wait to be sent.
    unsent: usize,
    ends_taken: usize,
    is_closed: bool,
    pub missed: u64,
    pub history: History,
    records: Option<Records>,
}

impl<'a, const WORDS: usize> Platform<'a, WORDS> {
    pub fn new(plan: &'a Plan<'a>, number: usize, rows: &mut [Vec<Row>], records: bool) -> Platform<'a, WORDS> {
        let parts = &plan.platforms[number];
        let sensor = |place: &usize| Sensor::new(*place, std::mem::take(&mut rows[parts.units[*place].actor]));
        let mut platform = Platform {
            plan,
            parts,
            number,
            units: (0..parts.units.len()).map(|place| Unit::new(plan, parts, place)).collect(),
            inputs: parts.units.iter().flat_map(|unit| unit.inputs.clone()).map(|_| Input::new()).collect(),
            sensors: parts.sensors.iter().map(sensor).collect(),
            waiting: Places::NONE,
            held_up: Places::NONE,
            claimed: Vec::new(),
            taken: Inputs::default(),
            next_row: u64::MAX,
            next_due: u64::MAX,
            unsent: 0,
            ends_taken: 0,
            is_closed: false,
            missed: 0,
            history: History::default(),
            records: records.then(Records::default),
        };
        for (place, unit) in parts.units.iter().enumerate() {
            if let Some(start) = plan.program.starts_at(unit.actor) {
                platform.insert(place, unit.inputs.start, Tag::at(start), 0);
                platform.next_due = platform.next_due.min(platform.units[place].due());
            }
        }
        platform.find_next_row();
        platform
    }

    /// The actors that are sensors, with their rows.
    pub fn rows(&self) -> impl Iterator<Item = (usize, &[Row])> {
        self.sensors.iter().map(|sensor| (self.parts.units[sensor.place].actor, &sensor.rows[..]))
    }

    pub fn is_finished(&self) -> bool {
        self.is_closed && self.unsent == 0 && self.ends_taken == self.parts.incoming.len()
    }

    /// The reading from which on it has something to do, if no message comes before.
    pub fn wakes(&self) -> u64 {
        if !self.claimed.is_empty() || self.unsent > 0 {
            0
        } else if self.is_closed {
            u64::MAX
        } else {
            self.parts.closing.min(self.next_row).min(self.next_due)
        }
    }

    /// Makes a turn, and says whether anything happened. Gives nothing if the platform claims too much. As a function of its own it has
    /// more registers.
    #[inline(never)]
    pub fn turn(&mut self, reading: u64, shared: &mut Shared) -> Option<bool> {
        let posts = self.post(reading, shared);
        let rows = self.enter(reading);
        let takes = self.take(shared);
        let claims = self.claim(reading, shared)?;
        let closes = self.close(reading, shared);
        let sent = self.send(reading, shared);
        shared.wakes[self.number] = self.wakes();
        if posts + rows + takes + claims + sent > 0 {
            self.history.add_busy(reading, [rows, takes, claims, sent]);
            Some(true)
        } else {
            self.history.add_quiet(reading);
            Some(closes)
        }
    }

    #[inline(always)]
    fn insert(&mut self, place: usize, input: usize, tag: Tag, value: i64) {
        self.inputs[input].push(tag, value);
        self.wait(place, tag);
    }

    /// From now on an event of this tag waits for a unit.
    fn wait(&mut self, place: usize, tag: Tag) {
        let unit = &mut self.units[place];
        if tag < unit.first {
            unit.first = tag;
            self.waiting.put(place);
            self.held_up.remove(place);
        }
    }

    /// Posts the results of the last turn.
    fn post(&mut self, reading: u64, shared: &mut Shared) -> usize {
        for number in 0..self.claimed.len() {
            let unit = &self.units[usize::from(self.claimed[number])];
            let open = unit.open;
            match unit.role {
                Role::Inner => self.give(unit.wires, open),
                Role::Actuator { slack } => self.missed += u64::from(reading > open.tag.time + slack),
                Role::Sender { link } => {
                    let value = self.history.values[open.values as usize];
                    shared.links[link].messages.push(Message { tag: open.tag, value });
                    self.unsent += 1;
                }
            }
        }
        self.claimed.len()
    }

    /// Puts the outputs of a result where these wires lead.
    fn give(&mut self, wires: (u16, u16), open: Open) {
        for wire in &self.parts.wires[wires.0.into()..wires.1.into()] {
            let tag = open.tag.plus(wire.delay);
            if open.outputs >> wire.output & 1 == 1 && tag.time <= self.plan.program.until {
                // Mostly there is one output, so that the branch is quicker than the count.
                let before = open.outputs & ((1 << wire.output) - 1);
                let number = if before == 0 { 0 } else { before.count_ones() };
                let value = self.history.values[(open.values + number) as usize];
                self.insert(wire.place.into(), wire.input.into(), tag, value);
            }
        }
    }

    /// Enters the rows that are seen by now.
    fn enter(&mut self, reading: u64) -> usize {
        if reading < self.next_row {
            return 0;
        }
        let before = self.history.rows.len();
        for number in 0..self.sensors.len() {
            if self.sensors[number].next_seen <= reading {
                self.enter_rows(number, reading);
            }
        }
        self.find_next_row();
        self.history.rows.len() - before
    }

    fn find_next_row(&mut self) {
        self.next_row = self.sensors.iter().map(|sensor| sensor.next_seen).min().unwrap_or(u64::MAX);
    }

    fn enter_rows(&mut self, number: usize, reading: u64) {
        let sensor = &mut self.sensors[number];
        let place = sensor.place;
        while sensor.next_seen <= reading {
            sensor.enter();
            self.history.rows.push(self.units[place].actor);
        }
        let first = sensor.first();
        self.wait(place, first);
    }

    /// Takes the messages that were sent to the platform.
    fn take(&mut self, shared: &mut Shared) -> usize {
        let before = self.history.takes.len();
        for &link in &self.parts.incoming {
            let traffic = &mut shared.links[link];
            if traffic.taken < traffic.sent {
                self.take_all(link, traffic);
            }
        }
        self.history.takes.len() - before
    }

    fn take_all(&mut self, link: usize, traffic: &mut Traffic) {
        let place = self.plan.places[self.plan.program.links[link].edge.to];
        let input = self.parts.units[place].inputs.start;
        for message in &traffic.messages[traffic.taken..traffic.sent] {
            self.history.takes.push(link as u16);
            if message.tag.is_never() {
                self.ends_taken += 1;
            } else {
                self.insert(place, input, message.tag, message.value);
            }
        }
        traffic.taken = traffic.sent;
    }

    /// The last unit that holds up this one: whose first event may lead to one that belongs before the first event of this one, or with it.
    fn holder(&self, place: usize) -> Option<usize> {
        (0..WORDS).rev().find_map(|word| self.holder_in(word, place))
    }

    fn holder_in(&self, word: usize, place: usize) -> Option<usize> {
        let unit = &self.units[place];
        let first_delay = place * self.units.len();
        let mut others = self.waiting.with(&unit.before, word);
        while let Some(other) = others.take_last() {
            if self.units[other].first.plus(self.parts.delays[first_delay + other]) <= unit.first {
                return Some(other);
            }
        }
        None
    }

    /// Lists all safe units, and finds out when the next one is due.
    fn find_safe(&mut self, reading: u64) {
        self.claimed.clear();
        self.next_due = u64::MAX;
        for word in 0..WORDS {
            let left = self.waiting.without(&self.held_up, word);
            if !left.is_empty() {
                self.find_safe_in(left, reading);
            }
        }
    }

    fn find_safe_in(&mut self, mut left: Word, reading: u64) {
        while let Some(place) = left.take_first() {
            let unit = &self.units[place];
            if unit.due() > reading {
                self.next_due = self.next_due.min(unit.due());
            } else if let Some(holder) = self.holder(place) {
                self.units[holder].holds.put(place);
                self.held_up.put(place);
            } else {
                self.claimed.push(place as u16);
            }
        }
    }

    /// Claims safe units in the order of tag and actor, and fires them.
    fn claim(&mut self, reading: u64, shared: &mut Shared) -> Option<usize> {
        self.find_safe(reading);
        if self.claimed.is_empty() {
            return Some(0);
        }
        let left = LIMIT - self.history.claims.len();
        if left == 0 {
            return None;
        }
        if self.claimed.len() > 1 {
            self.sort_claimed();
            self.claimed.truncate(MOST.min(left));
        }
        for number in 0..self.claimed.len() {
            self.fire(self.claimed[number].into(), reading, &mut shared.tables);
        }
        Some(self.claimed.len())
    }

    /// Sorts the safe units by tag and actor. Mostly they are in this order already.
    fn sort_claimed(&mut self) {
        let key = |place: &u16| (self.units[usize::from(*place)].first, *place);
        if !self.claimed.is_sorted_by_key(key) {
            self.claimed.sort_unstable_by_key(key);
        }
    }

    /// Claims a unit and fires it.
    fn fire(&mut self, place: usize, reading: u64, tables: &mut Tables) {
        let (unit, taken, values) = (&mut self.units[place], &mut self.taken, &mut self.history.values);
        let (tag, first) = (unit.first, values.len());
        unit.take(&mut self.sensors, &mut self.inputs, taken, values);
        unit.release(&mut self.held_up);
        if unit.first.is_never() {
            self.waiting.remove(place);
        }
        if let Role::Actuator { .. } = unit.role {
            tables.add(unit.actor.into(), tag, taken.first());
        }
        if unit.has_state {
            values.push(unit.state);
        }
        unit.open = Open { tag, outputs: 0, values: values.len() as u32 };
        let mut outputs = 0;
        unit.kind.fire(&mut unit.state, taken, |output, value| {
            outputs |= 1 << output;
            values.push(value);
        });
        unit.open.outputs = outputs;
        if unit.has_state {
            values.push(unit.state);
        }
        self.history.add_claim(reading, tag, unit.actor, taken.present(), outputs);
        if let Some(records) = &mut self.records {
            let claim = &self.history.claims[self.history.claims.len() - 1];
            records.add(tag, claim, unit.has_state, &self.history.values[first..]);
        }
    }

    /// Closes the platform, if nothing waits on it and no row or message can come any more.
    fn close(&mut self, reading: u64, shared: &mut Shared) -> bool {
        let may_close = reading >= self.parts.closing && !self.is_closed;
        if !may_close || !self.waiting.is_empty() || !self.claimed.is_empty() || self.unsent > 0 {
            return false;
        }
        self.is_closed = true;
        self.unsent = self.parts.outgoing.len();
        for &link in &self.parts.outgoing {
            shared.links[link].messages.push(Message { tag: NEVER, value: 0 });
        }
        true
    }

    /// Sends what waits, as far as the links have room.
    fn send(&mut self, reading: u64, shared: &mut Shared) -> usize {
        if self.unsent == 0 {
            return 0;
        }
        let before = self.unsent;
        for &link in &self.parts.outgoing {
            self.send_over(link, reading, shared);
        }
        before - self.unsent
    }

    fn send_over(&mut self, link: usize, reading: u64, shared: &mut Shared) {
        let edge = self.plan.program.links[link].edge;
        let actors = &self.plan.program.actors;
        let slack = actors[edge.from].kind.slack();
        let traffic = &mut shared.links[link];
        let count = (MOST - (traffic.sent - traffic.taken)).min(traffic.messages.len() - traffic.sent);
        for message in &traffic.messages[traffic.sent..traffic.sent + count] {
            self.history.sent.push(link as u16);
            self.missed += u64::from(!message.tag.is_never() && reading > message.tag.time + slack);
        }
        traffic.sent += count;
        self.unsent -= count;
        if count > 0 {
            shared.wakes[actors[edge.to].platform] = 0;
        }
    }
}
