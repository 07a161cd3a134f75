//! What a plain paced engine knows of a graph before it runs: bounds, offsets, least delays and the parts of each platform.
use crate::program::{Edge, Kind, Outcome, Program, Refusal, Tag};
use std::ops::Range;

/// A tag after all others.
pub const NEVER: Tag = Tag { time: u64::MAX, step: u64::MAX };

impl Tag {
    pub fn is_never(self) -> bool {
        self.time == NEVER.time
    }
}

/// From which output of its unit a wire leads to which place and input, and what it adds to a tag. Inputs are numbered over all units of
/// a platform.
pub struct Wire {
    pub delay: Tag,
    pub output: u8,
    pub place: u16,
    pub input: u16,
}

/// An actor on its platform.
pub struct Unit {
    pub actor: usize,
    /// The numbers of its inputs and wires.
    pub inputs: Range<usize>,
    pub wires: Range<usize>,
    /// The greatest bound less delay of all sensors and receivers that lead to it.
    pub offset: Option<i64>,
}

/// The units, wires and link ends of a platform, and the reading from which on it may close.
pub struct Parts {
    /// In the order of the graph. The place of a unit is its number in this list.
    pub units: Vec<Unit>,
    /// The wires of one unit after another.
    pub wires: Vec<Wire>,
    /// For each unit and each other one the least delay over all paths of wires from the other one, or NEVER.
    pub delays: Vec<Tag>,
    /// The places of the sensors.
    pub sensors: Vec<usize>,
    pub incoming: Vec<usize>,
    pub outgoing: Vec<usize>,
    pub closing: u64,
}

pub struct Plan<'a> {
    pub program: &'a Program,
    pub platforms: Vec<Parts>,
    /// The place of each actor on its platform.
    pub places: Vec<usize>,
}

/// What feeds a unit over wires, with what is added to a tag.
type Feeds = Vec<(usize, Tag)>;

/// Least delays to a place from all others, going back along the wires until nothing changes.
fn least_delays(feeds: &[Feeds], to: usize) -> Vec<Tag> {
    let mut least = vec![NEVER; feeds.len()];
    least[to] = Tag::at(0);
    let mut todo = vec![to];
    while let Some(place) = todo.pop() {
        for &(from, delay) in &feeds[place] {
            let sum = least[place].plus(delay);
            if sum < least[from] {
                least[from] = sum;
                todo.push(from);
            }
        }
    }
    least
}

/// The bounds of sensors and receivers, in microseconds.
fn bounds(program: &Program) -> Vec<Option<u64>> {
    let mut bounds: Vec<Option<u64>> = Vec::new();
    for actor in &program.actors {
        bounds.push(match actor.kind {
            Kind::Sensor { bound, .. } => Some(bound),
            _ => None,
        });
    }
    for link in &program.links {
        let slack = program.actors[link.edge.from].kind.slack();
        bounds[link.edge.to] = Some(slack + link.delay + program.clock_error);
    }
    bounds
}

/// The offset of a unit to which these delays lead from the actors of its platform.
fn offset(actors: &[usize], bounds: &[Option<u64>], delays: &[Tag]) -> Option<i64> {
    let reach = actors.iter().zip(delays).filter(|(_, delay)| !delay.is_never());
    reach.filter_map(|(from, delay)| bounds[*from].map(|bound| bound as i64 - delay.time as i64)).max()
}

impl Plan<'_> {
    pub fn new(program: &Program) -> Outcome<Plan<'_>> {
        let mut platforms = vec![Vec::new(); program.platforms.len()];
        let mut places = vec![0; program.actors.len()];
        for (number, actor) in program.actors.iter().enumerate() {
            let actors: &mut Vec<usize> = &mut platforms[actor.platform];
            places[number] = actors.len();
            actors.push(number);
        }
        let bounds = bounds(program);
        let platforms = platforms.iter().map(|actors| Parts::new(program, &places, &bounds, actors)).collect();
        let plan = Plan { program, platforms, places };
        plan.can_send()?;
        Ok(plan)
    }

    /// Refuses the first sender that can't send in time.
    fn can_send(&self) -> Outcome<()> {
        for (actor, place) in self.program.actors.iter().zip(&self.places) {
            let offset = self.platforms[actor.platform].units[*place].offset;
            if let (Kind::Send { slack }, Some(offset)) = (&actor.kind, offset) {
                if offset >= *slack as i64 {
                    let line = format!("graph: infeasible {}, offset {offset}, slack {slack}", actor.name);
                    return Err(Refusal { status: 2, line });
                }
            }
        }
        Ok(())
    }
}

impl Parts {
    /// The parts of the platform with these actors.
    fn new(program: &Program, places: &[usize], bounds: &[Option<u64>], actors: &[usize]) -> Parts {
        let is_here = |actor: usize| actors.get(places[actor]) == Some(&actor);
        let links = |end: fn(&Edge) -> usize| -> Vec<usize> {
            (0..program.links.len()).filter(|link| is_here(end(&program.links[*link].edge))).collect()
        };
        let is_sensor = |place: &usize| matches!(program.actors[actors[*place]].kind, Kind::Sensor { .. });
        let mut parts = Parts {
            units: Vec::new(),
            wires: Vec::new(),
            delays: Vec::new(),
            sensors: (0..actors.len()).filter(is_sensor).collect(),
            incoming: links(|edge| edge.to),
            outgoing: links(|edge| edge.from),
            closing: actors.iter().filter_map(|actor| bounds[*actor]).map(|bound| program.until + bound + 1).max().unwrap_or(0),
        };
        let mut feeds: Vec<Feeds> = vec![Vec::new(); actors.len()];
        for wire in program.wires.iter().filter(|wire| is_here(wire.to)) {
            feeds[places[wire.to]].push((places[wire.from], program.delay(wire.from, wire.output)));
        }
        parts.add_units(program, bounds, actors, &feeds);
        parts.add_wires(program, places);
        parts
    }

    fn add_units(&mut self, program: &Program, bounds: &[Option<u64>], actors: &[usize], feeds: &[Feeds]) {
        let mut input = 0;
        for (place, &actor) in actors.iter().enumerate() {
            let inputs = input..input + program.actors[actor].inputs;
            input = inputs.end;
            let delays = least_delays(feeds, place);
            self.units.push(Unit { actor, inputs, wires: 0..0, offset: offset(actors, bounds, &delays) });
            self.delays.extend_from_slice(&delays);
        }
    }

    fn add_wires(&mut self, program: &Program, places: &[usize]) {
        for place in 0..self.units.len() {
            let (actor, first) = (self.units[place].actor, self.wires.len());
            self.wires.extend(program.wires.iter().filter(|wire| wire.from == actor).map(|wire| Wire {
                delay: program.delay(actor, wire.output),
                output: wire.output as u8,
                place: places[wire.to] as u16,
                input: (self.units[places[wire.to]].inputs.start + wire.input) as u16,
            }));
            self.units[place].wires = first..self.wires.len();
        }
    }
}
