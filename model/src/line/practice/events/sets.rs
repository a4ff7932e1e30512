//! What is asked of the sets that steps write.

use super::*;
use crate::plan::practice::is_partial;

impl Stepped<'_> {
    /// An accepted Feed, or Take of a node that is up: the plan, the node and the set
    /// of what it makes.
    pub(super) fn makes(&self, is_such: fn(&Plan, usize, u8) -> bool) -> bool {
        let plan = &self.before.plan;
        let is_up = self.feeds() || self.receiver(Status::Up).is_some();
        let made = self.made().filter(|_| is_up && self.after.is_ok());
        made.is_some_and(|(node, _, made)| is_such(plan, node, plan.set_of(node, &made)))
    }

    pub(super) fn feeds(&self) -> bool {
        matches!(self.frame, Frame::Feed { .. })
    }

    /// A Send that passes over an entry with such a set.
    pub(super) fn passes_over_set(&self, is_such: fn(u8) -> bool) -> bool {
        let (Frame::Send { channel }, Ok(_)) = (self.frame, self.after) else {
            return false;
        };
        let (line, number) = (self.before, usize::from(channel));
        let sent = line.next_to_send(number).expect("it is sent");
        let passed = line.queues[number].mark + 1..sent.time;
        let mut log = line.nodes[line.plan.channels[number].sender].log.iter();
        log.any(|entry| passed.contains(&entry.message.time) && is_such(entry.set))
    }
}

/// Whether an entry of the log has some channels, and not all.
pub(super) fn has_partial(plan: &Plan, number: usize, log: &[Entry]) -> bool {
    log.iter().any(|entry| is_partial(plan, number, entry.set))
}
