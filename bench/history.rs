//! What a plain paced engine stores of its turns, in little memory, and the log of it.
use crate::program::{Program, Tag};
use crate::rows::Row;
use std::io::{Result, Write};
use std::ops::Range;
use std::slice::Iter;

/// What is sent over a link. The last message of a link has the tag NEVER: no more comes.
#[derive(Clone, Copy)]
pub struct Message {
    pub tag: Tag,
    pub value: i64,
}

/// A claim with its result: which inputs and outputs have a value. The time of its tag is that of the turn and `relative`, and the step
/// is 0; if `relative` is OTHER the tag is the next one of `History::tags`.
#[derive(Clone, Copy)]
pub struct Claim {
    relative: i32,
    pub actor: u16,
    pub inputs: u8,
    pub outputs: u8,
}

const OTHER: i32 = i32::MAX;

/// How many rows a turn enters, messages it takes, claims it makes and messages it sends. It posts the results of all claims of the turn
/// before it.
pub type Counts = [usize; 4];

/// A turn in which something happened, or a run of quiet turns. `later` is its first reading less the last one of the turn before it.
#[derive(Clone, Copy)]
enum Turn {
    Busy {
        later: u16,
        counts: [u8; 4],
    },
    Quiet {
        later: u16,
        lasts: u16,
        turns: u16,
    },
    /// One whose numbers are too large for this has a place in a list of its own.
    Large(u32),
}

#[derive(Clone, Copy)]
struct LargeTurn {
    first: u64,
    last: u64,
    turns: u64,
    counts: Counts,
}

/// Quiet turns at the end that aren't stored yet, with their first, last but one and last reading.
#[derive(Default)]
struct Quiet {
    turns: u64,
    first: u64,
    before_last: u64,
    last: u64,
}

#[derive(Default)]
pub struct History {
    turns: Vec<Turn>,
    large: Vec<LargeTurn>,
    quiet: Quiet,
    /// The last reading of the last stored turn.
    last: u64,
    /// The actors whose rows were entered, one for each row.
    pub rows: Vec<u16>,
    /// The links from which messages were taken, and over which they were sent, one for each message.
    pub takes: Vec<u16>,
    pub sent: Vec<u16>,
    pub claims: Vec<Claim>,
    tags: Vec<Tag>,
    /// The values of one claim after another: of its inputs, the state before, of its outputs and the state after, as far as it has them.
    pub values: Vec<i64>,
}

impl History {
    /// Stores a turn in which something happened.
    #[inline(always)]
    pub fn add_busy(&mut self, reading: u64, counts: Counts) {
        if self.quiet.turns > 0 {
            self.add_run(self.quiet.first, self.quiet.last, self.quiet.turns);
            self.quiet.turns = 0;
        }
        let later = reading - self.last;
        let all_bits = counts.iter().fold(0, |bits, count| bits | count);
        if later <= u64::from(u16::MAX) && all_bits <= usize::from(u8::MAX) {
            self.turns.push(Turn::Busy { later: later as u16, counts: counts.map(|count| count as u8) });
            self.last = reading;
        } else {
            self.add_large(LargeTurn { first: reading, last: reading, turns: 1, counts });
        }
    }

    /// Stores a turn in which nothing happened.
    pub fn add_quiet(&mut self, reading: u64) {
        if self.quiet.turns == 0 {
            self.quiet.first = reading;
        }
        self.quiet.turns += 1;
        self.quiet.before_last = self.quiet.last;
        self.quiet.last = reading;
    }

    /// Stores the quiet turns at the end. The last one stays apart.
    pub fn end(&mut self) {
        let Quiet { turns, before_last, first, last } = self.quiet;
        if turns > 1 {
            self.add_run(first, before_last, turns - 1);
        }
        if turns > 0 {
            self.add_run(last, last, 1);
        }
    }

    fn add_run(&mut self, first: u64, last: u64, turns: u64) {
        let (later, lasts) = (first - self.last, last - first);
        if later.max(lasts).max(turns) <= u64::from(u16::MAX) {
            self.turns.push(Turn::Quiet { later: later as u16, lasts: lasts as u16, turns: turns as u16 });
            self.last = last;
        } else {
            self.add_large(LargeTurn { first, last, turns, counts: Counts::default() });
        }
    }

    fn add_large(&mut self, turn: LargeTurn) {
        self.turns.push(Turn::Large(self.large.len() as u32));
        self.large.push(turn);
        self.last = turn.last;
    }

    /// Stores a claim that is made at a reading.
    #[inline(always)]
    pub fn add_claim(&mut self, reading: u64, tag: Tag, actor: u16, inputs: u8, outputs: u8) {
        let relative = i32::try_from(tag.time as i64 - reading as i64).unwrap_or(OTHER);
        let relative = if tag.step == 0 { relative } else { OTHER };
        if relative == OTHER {
            self.tags.push(tag);
        }
        self.claims.push(Claim { relative, actor, inputs, outputs });
    }

    /// All numbers of a stored turn, if the one before it has this last reading.
    fn whole(&self, turn: Turn, before: u64) -> LargeTurn {
        match turn {
            Turn::Busy { later, counts } => {
                let reading = before + u64::from(later);
                LargeTurn { first: reading, last: reading, turns: 1, counts: counts.map(usize::from) }
            }
            Turn::Quiet { later, lasts, turns } => {
                let first = before + u64::from(later);
                LargeTurn { first, last: first + u64::from(lasts), turns: turns.into(), counts: Counts::default() }
            }
            Turn::Large(number) => self.large[number as usize],
        }
    }
}

/// Writes the log of one platform after another.
pub struct Log<'a> {
    pub text: Vec<u8>,
    program: &'a Program,
    /// The rows of each actor that aren't written yet, and so the messages of each link.
    rows: Vec<Iter<'a, Row>>,
    taken: Vec<Iter<'a, Message>>,
    sent: Vec<Iter<'a, Message>>,
    /// How many tags of the list of the platform were used.
    tags: usize,
}

impl<'a> Log<'a> {
    pub fn new(program: &'a Program, rows: Vec<Iter<'a, Row>>, messages: Vec<Iter<'a, Message>>) -> Log<'a> {
        Log { text: b"log\n".to_vec(), program, rows, taken: messages.clone(), sent: messages, tags: 0 }
    }

    pub fn add(&mut self, platform: usize, history: &History) -> Result<()> {
        let (mut before, mut posted, mut from) = (0, 0, Counts::default());
        self.tags = 0;
        for turn in &history.turns {
            let LargeTurn { first, last, turns, counts } = history.whole(*turn, before);
            let to: Counts = std::array::from_fn(|list| from[list] + counts[list]);
            writeln!(self.text, "turn,{},{first},{last},{turns}", self.program.platforms[platform])?;
            self.add_posts(posted..from[2])?;
            self.add_rows(&history.rows[from[0]..to[0]])?;
            self.add_takes(&history.takes[from[1]..to[1]])?;
            self.add_claims(history, from[2]..to[2], first)?;
            self.add_sent(&history.sent[from[3]..to[3]])?;
            (before, posted, from) = (last, from[2], to);
        }
        Ok(())
    }

    fn name(&self, actor: usize) -> &'a str {
        &self.program.actors[actor].name
    }

    fn add_posts(&mut self, numbers: Range<usize>) -> Result<()> {
        for number in numbers {
            writeln!(self.text, "post,{number}")?;
        }
        Ok(())
    }

    fn add_rows(&mut self, sensors: &[u16]) -> Result<()> {
        for &sensor in sensors {
            let row = self.rows[usize::from(sensor)].next().unwrap();
            writeln!(self.text, "row,{},{},{},{}", self.name(sensor.into()), row.time, row.seen, row.value)?;
        }
        Ok(())
    }

    fn add_takes(&mut self, links: &[u16]) -> Result<()> {
        for &link in links {
            let message = self.taken[usize::from(link)].next().unwrap();
            self.add_message("take", self.program.links[usize::from(link)].edge.to, message)?;
        }
        Ok(())
    }

    fn add_claims(&mut self, history: &History, numbers: Range<usize>, reading: u64) -> Result<()> {
        for number in numbers {
            let Claim { relative, actor, .. } = history.claims[number];
            let tag = if relative == OTHER {
                self.tags += 1;
                history.tags[self.tags - 1]
            } else {
                Tag::at(reading.wrapping_add_signed(relative.into()))
            };
            writeln!(self.text, "claim,{number},{},{},{}", self.name(actor.into()), tag.time, tag.step)?;
        }
        Ok(())
    }

    fn add_sent(&mut self, links: &[u16]) -> Result<()> {
        for &link in links {
            let message = self.sent[usize::from(link)].next().unwrap();
            self.add_message("sent", self.program.links[usize::from(link)].edge.from, message)?;
        }
        Ok(())
    }

    fn add_message(&mut self, what: &str, actor: usize, message: &Message) -> Result<()> {
        let (name, Message { tag, value }) = (self.name(actor), message);
        if tag.is_never() {
            writeln!(self.text, "{what},{name},end")
        } else {
            writeln!(self.text, "{what},{name},{},{},{value}", tag.time, tag.step)
        }
    }
}
