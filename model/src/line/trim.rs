//! Request 2026-04: kind 6, Trim.

use super::{Entry, Line, Status};
use crate::answer::SOME_NOT_UP;

impl Line {
    /// "Trim drops the longest leading run of the named node's log in which every
    /// entry's own time is at most that node's floor time and its sender's time, if
    /// it has a sender, at most the sender's floor time. Dropped entries are kept as
    /// the node's low clock."
    pub(super) fn trim(&self, node: usize) -> Result<Line, u32> {
        self.check_node(node)?;
        if self.nodes.iter().any(|each| each.status != Status::Up) {
            return Err(SOME_NOT_UP);
        }
        let floors = self.floor_times();
        let may_go = |entry: &&Entry| {
            let sender = entry.message.made_from;
            entry.message.time <= floors[node]
                && sender.is_none_or(|sender| sender.time <= floors[sender.sender])
        };
        let mut next = self.clone();
        let trimmed = &mut next.nodes[node];
        let run = trimmed.log.iter().take_while(may_go).count();
        for entry in trimmed.log.drain(..run) {
            if let Some(input) = entry.message.made_from {
                trimmed.low_clock.raise_by(input, entry.input_made_from);
            }
        }
        Ok(next)
    }

    /// "For each node, its floor time is the least time that any clock in the line
    /// holds for it, in whatever layer, low clocks aside."
    pub fn floor_times(&self) -> Vec<u32> {
        let mut floors = vec![u32::MAX; self.nodes.len()];
        for node in &self.nodes {
            node.clock.lower(&mut floors);
        }
        floors
    }
}
