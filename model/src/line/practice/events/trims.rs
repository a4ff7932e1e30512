//! What is asked of Trims and of what they leave.

use super::*;
use crate::clock::Clock;

impl Stepped<'_> {
    /// What Recover would be told if no log had been trimmed.
    pub(super) fn told_by_logs(&self) -> Option<Restart> {
        let mut line = self.before.clone();
        for (number, node) in line.nodes.iter_mut().enumerate() {
            node.low_clock = Clock::empty(&line.plan, number);
        }
        Some(restart(&line, self.to_recover()?))
    }

    pub(super) fn is_told_by_low_clocks(&self) -> bool {
        let told = self.to_recover().map(|node| restart(self.before, node));
        told != self.told_by_logs()
    }

    pub(super) fn to_trim(&self) -> Option<usize> {
        match self.frame {
            Frame::Trim { node } => Some(node.into()),
            _ => None,
        }
    }

    /// An accepted Trim: the line before it, the node, and how many entries go.
    pub(super) fn trims(&self, is_such: fn(&Line, usize, usize) -> bool) -> bool {
        match (self.to_trim(), self.after) {
            (Some(node), Ok(after)) => {
                let [entries, left] = [self.before, after].map(|line| line.nodes[node].log.len());
                is_such(self.before, node, entries - left)
            }
            _ => false,
        }
    }

    /// Whether the first entry that an accepted Trim leaves is past the node's
    /// floor time, and past its sender's.
    pub(super) fn stopped(&self) -> Option<(bool, bool)> {
        let node = self.to_trim()?;
        let first = self.after.ok()?.nodes[node].log.first()?;
        Some(past(&self.before.floor_times(), node, first))
    }

    /// 26 for such a node, which is the named one, or for such nodes only, of which
    /// that is none.
    pub(super) fn is_not_up(&self, status: Status, is_named: bool) -> bool {
        let Some(named) = self.to_trim() else {
            return false;
        };
        let named = self.before.nodes.get(named).map(|node| node.status);
        let mut others = self.before.nodes.iter().map(|node| node.status);
        let is_such = match is_named {
            true => named == Some(status),
            false => {
                named == Some(Status::Up)
                    && others.all(|other| [Status::Up, status].contains(&other))
            }
        };
        self.after == Err(SOME_NOT_UP) && is_such
    }
}

/// Whether the entry is past the node's floor time, and past its sender's.
pub(super) fn past(floors: &[u32], node: usize, entry: &Entry) -> (bool, bool) {
    let sender = entry.message.made_from;
    (
        entry.message.time > floors[node],
        sender.is_some_and(|sender| sender.time > floors[sender.sender]),
    )
}
