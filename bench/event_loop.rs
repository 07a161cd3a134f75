//! What `ptides meaning` computes, as one would first write it: one heap of all events, of which the least by tag, rank and actor
//! fires next. It reads graphs of version 1 without faults, refuses version 2 and fields in quotes by name, and proves nothing.
mod json;
mod program;
mod rows;
mod tables;

use program::{Inputs, Outcome, Program, Refusal, Tag};
use std::cmp::Reverse;
use std::collections::BinaryHeap;
use std::process::ExitCode;
use tables::Tables;

/// How many firings there may be for each platform.
const LIMIT: usize = 200_000;

#[derive(PartialEq, Eq, PartialOrd, Ord)]
struct Event {
    tag: Tag,
    rank: u32,
    actor: usize,
    input: usize,
    value: i64,
}

fn run() -> Outcome<u8> {
    let program = Program::read(&std::env::args().nth(1).expect("event_loop GRAPH"))?;
    let ranks = program.ranks();
    let event = |tag, actor: usize, input, value| Reverse(Event { tag, rank: ranks[actor], actor, input, value });
    let mut targets: Vec<Vec<Vec<(usize, usize)>>> = program.actors.iter().map(|a| vec![Vec::new(); a.outputs]).collect();
    for edge in program.wires.iter().chain(program.links.iter().map(|link| &link.edge)) {
        targets[edge.from][edge.output].push((edge.to, edge.input));
    }
    let mut heap = BinaryHeap::new();
    for actor in 0..program.actors.len() {
        heap.extend(program.rows(actor)?.iter().map(|row| event(Tag::at(row.time), actor, 0, row.value)));
        heap.extend(program.starts_at(actor).map(|start| event(Tag::at(start), actor, 0, 0)));
    }
    let mut states = program.start_states();
    let mut tables = Tables::new(&program);
    let mut firings = 0;
    while let Some(Reverse(first)) = heap.pop() {
        firings += 1;
        if firings > LIMIT * program.platforms.len() {
            return Err(Refusal { status: 6, line: "long meaning".to_owned() });
        }
        let mut inputs = Inputs::default();
        inputs.set(first.input, first.value);
        while let Some(Reverse(next)) = heap.peek() {
            if (next.tag, next.actor) != (first.tag, first.actor) {
                break;
            }
            inputs.set(next.input, next.value);
            heap.pop();
        }
        let kind = &program.actors[first.actor].kind;
        if kind.is_actuator() {
            tables.add(first.actor, first.tag, inputs.first());
        }
        kind.fire(&mut states[first.actor], &inputs, |output, value| {
            let tag = first.tag.plus(program.delay(first.actor, output));
            if tag.time <= program.until {
                for &(actor, input) in &targets[first.actor][output] {
                    heap.push(event(tag, actor, input, value));
                }
            }
        });
    }
    tables::write(&tables.text());
    Ok(0)
}

fn main() -> ExitCode {
    program::ended(run())
}
