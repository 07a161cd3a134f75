//! Each claim and each result as a whole record, with a place for each input and output that an actor can have.
use crate::history::Claim;
use crate::program::Tag;

#[derive(Clone)]
#[allow(dead_code)]
struct Task {
    number: usize,
    actor: usize,
    tag: Tag,
    inputs: [Option<i64>; 8],
    state: i64,
}

#[allow(dead_code)]
struct Done {
    task: Task,
    state: i64,
    outputs: [Option<i64>; 8],
}

#[derive(Default)]
pub struct Records {
    tasks: Vec<Task>,
    results: Vec<Done>,
}

/// The values of ports, of which the bits say which have one of these.
fn ports(bits: u8, values: &mut impl Iterator<Item = i64>) -> [Option<i64>; 8] {
    std::array::from_fn(|port| if bits >> port & 1 == 1 { values.next() } else { None })
}

impl Records {
    /// Stores a claim and its result, whose values are those of a history.
    pub fn add(&mut self, tag: Tag, claim: &Claim, has_state: bool, values: &[i64]) {
        let (number, actor, mut values) = (self.tasks.len(), claim.actor.into(), values.iter().copied());
        let inputs = ports(claim.inputs, &mut values);
        let state = if has_state { values.next().unwrap() } else { 0 };
        let task = Task { number, actor, tag, inputs, state };
        let outputs = ports(claim.outputs, &mut values);
        let state = if has_state { values.next().unwrap() } else { 0 };
        self.results.push(Done { task: task.clone(), state, outputs });
        self.tasks.push(task);
    }
}
