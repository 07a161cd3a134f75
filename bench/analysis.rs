//! What `ptides check` computes, as a plain program would: it reads a graph on one platform that has no fault, and writes the
//! margins. Ranks by counting incoming edges, least delays by Dijkstra's search from each unit, all over plain vectors.
mod json;

use json::Json;
use std::cmp::Reverse;
use std::collections::{BinaryHeap, HashMap};
use std::fmt::Write;

/// An actor: its first unit, the ends of its cells, what its output adds, its bound and its slack.
struct Actor {
    name: String,
    first: usize,
    cells: Vec<usize>,
    weight: (u64, u64),
    bound: Option<i64>,
    slack: Option<i64>,
}

fn actor(value: &Json, first: usize) -> Actor {
    let kind = value.get("kind").text();
    let mut cells = vec![usize::MAX];
    if kind == "lanes" {
        let mut end = 0;
        cells = value.get("cells").list().iter().map(|c| { end += c.number() as usize; end }).collect();
    }
    let weight = match kind {
        "delay" => match value.get("d").number() { 0 => (0, 1), d => (d as u64, 0) },
        _ => (0, 0),
    };
    Actor {
        name: value.get("name").text().to_owned(),
        first,
        cells,
        weight,
        bound: (kind == "sensor").then(|| value.get("bound").number()),
        slack: (kind == "actuator").then(|| value.get("slack").number()),
    }
}

fn has_free_cycle(count: usize, edges: &[(usize, usize, u64)]) -> bool {
    let mut left = vec![0; count];
    let mut next = vec![Vec::new(); count];
    for &(from, to, time) in edges {
        if time == 0 {
            left[to] += 1;
            next[from].push(to);
        }
    }
    let mut ready: Vec<usize> = (0..count).filter(|a| left[*a] == 0).collect();
    let mut done = 0;
    while let Some(a) = ready.pop() {
        done += 1;
        for &b in &next[a] {
            left[b] -= 1;
            if left[b] == 0 {
                ready.push(b);
            }
        }
    }
    done < count
}

fn row(units: usize, leaving: &[Vec<(usize, (u64, u64))>], from: usize) -> Vec<(u64, u64)> {
    let none = (u64::MAX, u64::MAX);
    let mut least = vec![none; units];
    let mut heap = BinaryHeap::new();
    least[from] = (0, 0);
    heap.push(Reverse(((0, 0), from)));
    while let Some(Reverse((delay, unit))) = heap.pop() {
        if delay > least[unit] {
            continue;
        }
        for &(to, weight) in &leaving[unit] {
            let sum = (delay.0 + weight.0, delay.1 + weight.1);
            if sum < least[to] {
                least[to] = sum;
                heap.push(Reverse((sum, to)));
            }
        }
    }
    least
}

fn main() {
    let value = Json::read(&std::env::args().nth(1).unwrap());
    let mut actors: Vec<Actor> = Vec::new();
    let mut numbers = HashMap::new();
    let mut units = 0;
    for each in value.get("actors").list() {
        let next = actor(each, units);
        units += next.cells.len();
        numbers.insert(next.name.clone(), actors.len());
        actors.push(next);
    }
    let mut leaving = vec![Vec::new(); units];
    let mut edges = Vec::new();
    for wire in value.get("wires").list() {
        let wire = wire.list();
        let (from, to) = (numbers[wire[0].text()], numbers[wire[2].text()]);
        let (output, input) = (wire[1].number() as usize, wire[3].number() as usize);
        let source = actors[from].first + if actors[from].cells.len() > 1 { output } else { 0 };
        let cell = actors[to].cells.iter().position(|end| input < *end).unwrap();
        leaving[source].push((actors[to].first + cell, actors[from].weight));
        edges.push((from, to, actors[from].weight.0));
    }
    assert!(!has_free_cycle(actors.len(), &edges));
    let table: Vec<Vec<(u64, u64)>> = (0..units).map(|unit| row(units, &leaving, unit)).collect();
    let sources: Vec<(usize, i64)> = actors.iter().filter_map(|a| a.bound.map(|b| (a.first, b))).collect();
    let mut text = String::from("actor,offset,margin\n");
    for a in &actors {
        let offset = (a.first..a.first + a.cells.len())
            .flat_map(|unit| sources.iter().map(move |s| (s, unit)))
            .filter(|((source, _), unit)| table[*source][*unit].0 != u64::MAX)
            .map(|((source, bound), unit)| bound - table[*source][unit].0 as i64)
            .max();
        let cell = |number: Option<i64>| number.map_or("-".to_owned(), |n| n.to_string());
        let margin = offset.and_then(|o| a.slack.map(|s| s - (o + 1)));
        writeln!(text, "{},{},{}", a.name, cell(offset), cell(margin)).unwrap();
    }
    print!("{text}");
}
