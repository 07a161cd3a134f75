//! What `ptides run` computes, as a plain program: platforms that go on in rounds at one common reading, with turns, claims, links
//! and stored turns. It reads graphs of version 1 without faults, keeps to one thread, and proves nothing. Graphs of version 2 and fields
//! in quotes are refused by name; senders that can't send in time, late rows and runs that are too long with the line of `ptides`.
//!
//!     paced_engine GRAPH [--records] [--log]
//!
//! It stores turns, claims and results flat: some bytes for each, and their values one after another. With `--records` it also stores
//! each claim and each result as a record of its own, with all its inputs and outputs. `--log` writes the log after the tables.
mod history;
mod json;
mod places;
mod plan;
mod platform;
mod program;
mod records;
mod rows;
mod tables;
mod unit;

use history::Log;
use plan::Plan;
use platform::{Platform, Shared, Traffic};
use program::{Kind, Outcome, Program, Refusal};
use rows::Row;
use std::process::ExitCode;
use tables::Tables;

struct Engine<'a, const WORDS: usize> {
    program: &'a Program,
    platforms: Vec<Platform<'a, WORDS>>,
    shared: Shared<'a>,
    /// How many platforms aren't finished.
    running: usize,
}

impl<'a, const WORDS: usize> Engine<'a, WORDS> {
    fn new(plan: &'a Plan<'a>, mut rows: Vec<Vec<Row>>, records: bool) -> Engine<'a, WORDS> {
        let program = plan.program;
        let count = program.platforms.len();
        let platforms: Vec<Platform<WORDS>> = (0..count).map(|number| Platform::new(plan, number, &mut rows, records)).collect();
        let shared = Shared {
            links: program.links.iter().map(|_| Traffic::default()).collect(),
            tables: Tables::new(program),
            wakes: platforms.iter().map(Platform::wakes).collect(),
        };
        Engine { program, platforms, shared, running: count }
    }

    /// Makes rounds until all platforms are finished. After a round in which nothing happened, the reading is the next one of them.
    fn run(&mut self) -> Outcome<()> {
        let mut moved = false;
        let mut reading = 0;
        while self.running > 0 {
            if !moved {
                reading = *self.shared.wakes.iter().min().unwrap();
            }
            moved = self.round(reading)?;
        }
        self.platforms.iter_mut().for_each(|platform| platform.history.end());
        Ok(())
    }

    /// Makes a turn on each platform that isn't finished, and says whether anything happened.
    fn round(&mut self, reading: u64) -> Outcome<bool> {
        let mut moved = false;
        for (number, platform) in self.platforms.iter_mut().enumerate() {
            if self.shared.wakes[number] <= reading {
                moved |= platform.turn(reading, &mut self.shared).ok_or_else(|| long(self.program, number))?;
                self.running -= usize::from(platform.is_finished());
            } else if !platform.is_finished() {
                platform.history.add_quiet(reading);
            }
        }
        Ok(moved)
    }

    fn missed(&self) -> u64 {
        self.platforms.iter().map(|platform| platform.missed).sum()
    }

    fn log(&self) -> Vec<u8> {
        let mut rows = vec![Default::default(); self.program.actors.len()];
        self.platforms.iter().flat_map(Platform::rows).for_each(|(actor, list)| rows[actor] = list.iter());
        let mut log = Log::new(self.program, rows, self.shared.links.iter().map(|traffic| traffic.messages.iter()).collect());
        for (number, platform) in self.platforms.iter().enumerate() {
            log.add(number, &platform.history).unwrap();
        }
        log.text
    }
}

/// Says that a platform claims too much.
fn long(program: &Program, platform: usize) -> Refusal {
    Refusal { status: 6, line: format!("long {}", program.platforms[platform]) }
}

/// The rows of an actor, if each is seen within the bound.
fn rows_in_time(program: &Program, actor: usize) -> Outcome<Vec<Row>> {
    let rows = program.rows(actor)?;
    if let Kind::Sensor { bound, .. } = program.actors[actor].kind {
        if let Some((row, number)) = rows.iter().zip(1..).find(|(row, _)| row.seen > row.time + bound) {
            let name = &program.actors[actor].name;
            let line = format!("late {name} row {number}, seen {} past {}", row.seen, row.time + bound);
            return Err(Refusal { status: 4, line });
        }
    }
    Ok(rows)
}

/// Runs a graph, and gives the status. Sets of places have as many words as the largest platform needs.
fn run_graph<const WORDS: usize>(plan: &Plan, rows: Vec<Vec<Row>>, words: &[String]) -> Outcome<u8> {
    let has = |option: &str| words.iter().any(|word| word == option);
    let mut engine: Engine<WORDS> = Engine::new(plan, rows, has("--records"));
    engine.run()?;
    tables::write(&engine.shared.tables.text());
    if has("--log") {
        tables::write(&engine.log());
    }
    Ok(if engine.missed() > 0 { 5 } else { 0 })
}

fn run() -> Outcome<u8> {
    let words: Vec<String> = std::env::args().skip(1).collect();
    let program = Program::read(words.iter().find(|word| !word.starts_with('-')).expect("paced_engine GRAPH"))?;
    let plan = Plan::new(&program)?;
    let rows: Vec<_> = (0..program.actors.len()).map(|actor| rows_in_time(&program, actor)).collect::<Outcome<_>>()?;
    if plan.platforms.iter().all(|parts| parts.units.len() <= 64) {
        run_graph::<1>(&plan, rows, &words)
    } else {
        run_graph::<4>(&plan, rows, &words)
    }
}

fn main() -> ExitCode {
    program::ended(run())
}
