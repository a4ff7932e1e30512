//! What is asked of records that get no time of their own.

use super::*;

impl Stepped<'_> {
    /// The node of a Feed or Take, up, that makes such a record.
    pub(super) fn without_time(&self) -> Option<usize> {
        let (node, _, made) = self.made()?;
        let is_up = self.before.nodes[node].status == Status::Up;
        (is_up && !self.before.plan.is_timed(node, &made)).then_some(node)
    }

    /// The same of an accepted one, with the node before it.
    pub(super) fn lacks_time(&self, is_such: fn(&Node) -> bool) -> bool {
        let node = self.without_time().filter(|_| self.after.is_ok());
        node.is_some_and(|node| is_such(&self.before.nodes[node]))
    }

    /// An accepted Take of a record that leaves, where the log's last entry does not.
    pub(super) fn has_time_after_none(&self) -> bool {
        let (Some(node), Ok(after)) = (self.receiver(Status::Up), self.after) else {
            return false;
        };
        let last = self.before.nodes[node].log.last();
        last.is_some_and(|last| is_silent(self.before, node, last))
            && after.nodes[node].time() > self.before.nodes[node].time()
    }

    /// Of an accepted Feed or Take, whether a channel would take the record before the
    /// node's rule, and after it.
    pub(super) fn leaves(&self) -> Option<(bool, bool)> {
        let (node, came, made) = self.made().filter(|_| self.after.is_ok())?;
        let plan = &self.before.plan;
        Some((plan.passes_on(node, &came), plan.passes_on(node, &made)))
    }

    /// Whether Recover of the node would be told otherwise without such entries.
    pub(super) fn is_told_by_silent(&self, node: Option<usize>) -> bool {
        let mut line = self.before.clone();
        for (number, node) in line.nodes.iter_mut().enumerate() {
            let log = self.before.nodes[number].log.iter();
            let others = log.filter(|entry| !is_silent(self.before, number, entry));
            node.log = others.copied().collect();
        }
        node.is_some_and(|node| restart(&line, node) != restart(self.before, node))
    }
}

pub(super) fn is_silent(line: &Line, node: usize, entry: &Entry) -> bool {
    line.plan.may_repeat(node, &entry.message.record)
}

/// Whether such an entry goes with so many of the log, its time being such.
pub(super) fn drops(line: &Line, node: usize, run: usize, is_such: fn(u32) -> bool) -> bool {
    let mut dropped = line.nodes[node].log[..run].iter();
    dropped.any(|entry| is_silent(line, node, entry) && is_such(entry.message.time))
}
