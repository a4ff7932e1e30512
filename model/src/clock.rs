//! Document 01, "Clocks and steps": the clock of a node.

use crate::line::Origin;
use crate::plan::Plan;

/// "A node has a time (0 at first) and a clock: its time, for each parent the
/// last time taken from it, for each parent's parent the greatest time heard
/// through that parent." A tree: the node's time at its root, below it a part
/// for each parent, parents rising; the third layer has no parts.
#[derive(Clone, Debug, PartialEq, Eq)]
pub struct Clock {
    pub node: usize,
    pub time: u32,
    pub parents: Vec<Clock>,
}

impl Clock {
    pub const LAYERS: usize = 3;

    /// Every time in it is 0.
    pub fn empty(plan: &Plan, node: usize) -> Clock {
        Clock::with_layers(plan, node, Clock::LAYERS)
    }

    fn with_layers(plan: &Plan, node: usize, layers: usize) -> Clock {
        let parents = if layers == 1 {
            Vec::new()
        } else {
            plan.parents(node)
                .map(|parent| Clock::with_layers(plan, parent, layers - 1))
                .collect()
        };
        Clock {
            node,
            time: 0,
            parents,
        }
    }

    pub fn part(&self, parent: usize) -> Option<&Clock> {
        self.parents.iter().find(|part| part.node == parent)
    }

    pub fn part_mut(&mut self, parent: usize) -> Option<&mut Clock> {
        self.parents.iter_mut().find(|part| part.node == parent)
    }

    /// The paper's entry for a parent: the last time taken from it.
    pub fn taken(&self, parent: usize) -> u32 {
        self.part(parent).expect("a parent").time
    }

    /// The greatest time of a parent's parent heard through the parent.
    pub fn heard(&self, parent: usize, before: usize) -> u32 {
        let part = self.part(parent).expect("a parent");
        part.part(before).expect("a parent's parent").time
    }

    /// Raises the entry for a parent.
    pub fn raise_taken(&mut self, parent: usize, time: u32) {
        let part = self.part_mut(parent).expect("a parent");
        part.time = part.time.max(time);
    }

    /// Raises what is heard through a parent of the parent's parent.
    pub fn raise_heard(&mut self, parent: usize, before: usize, time: u32) {
        let part = self.part_mut(parent).expect("a parent");
        part.raise_taken(before, time);
    }

    /// Raises the entries by an input and by what that was made from.
    pub fn raise_by(&mut self, input: Origin, input_made_from: Option<Origin>) {
        self.raise_taken(input.sender, input.time);
        if let Some(origin) = input_made_from {
            self.raise_heard(input.sender, origin.sender, origin.time);
        }
    }

    /// Whether no entry is above the other clock's in the same place.
    pub fn is_within(&self, other: &Clock) -> bool {
        let mut parts = self.parents.iter().zip(&other.parents);
        self.time <= other.time && parts.all(|(part, other)| part.is_within(other))
    }

    /// Lowers, by the numbers of the nodes, what is above a time held for them.
    pub fn lower(&self, times: &mut [u32]) {
        times[self.node] = self.time.min(times[self.node]);
        for part in &self.parents {
            part.lower(times);
        }
    }

    /// The clock's times, layer within layer.
    pub fn times(&self) -> Vec<u32> {
        let mut times = vec![self.time];
        for part in &self.parents {
            times.extend(part.times());
        }
        times
    }
}
