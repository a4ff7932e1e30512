//! What is asked of ticks on their way.

use std::ops::Range;

use super::*;
use crate::answer::WRONG_RECORD;
use crate::line::practice::is_tick_but_for;

impl Stepped<'_> {
    pub(super) fn feeds_tick(&self) -> bool {
        let tick = Record::TICK.write();
        matches!(self.frame, Frame::Feed { record, .. } if record == tick)
    }

    /// 17 for a record that is a tick but for the field.
    pub(super) fn is_refused_for(&self, field: &Range<usize>) -> bool {
        match self.frame {
            Frame::Feed { record, .. } => {
                self.after == Err(WRONG_RECORD) && is_tick_but_for(field.clone(), record)
            }
            _ => false,
        }
    }

    /// The receiver of an accepted Take of a tick, if it was such.
    pub(super) fn takes_tick(&self, status: Status) -> Option<usize> {
        let node = self.receiver(status)?;
        let (record, _) = self.taken()?;
        (self.after.is_ok() && record.is_tick()).then_some(node)
    }

    /// Whether no leaving channel would take piece 0 of mass 0, were it of a material.
    pub(super) fn passes_on_nothing_else(&self, node: usize) -> bool {
        (0..MATERIALS).all(|material| {
            let other = Record {
                material,
                ..Record::TICK
            };
            !self.before.plan.passes_on(node, &other)
        })
    }

    /// A replay that has a tick, held or to be taken, which is no target.
    pub(super) fn has_free_tick(&self) -> bool {
        let Some(number) = self.receiver(Status::Replaying) else {
            return false;
        };
        let node = &self.before.nodes[number];
        let held = node
            .buffered
            .iter()
            .map(|held| (held.record, held.made_from));
        let mut ticks = held
            .chain(self.taken())
            .filter(|(record, _)| record.is_tick());
        ticks.any(|(_, tick)| node.targets.iter().all(|target| input(target) != tick))
    }
}

pub(super) fn is_tick(entry: &Entry) -> bool {
    entry.message.record.is_tick()
}

/// Whether a record goes that some child has not reached but by ticks: of all that
/// its channel takes, the child has nothing else as late.
pub(super) fn lets_go_by_ticks(line: &Line, node: usize, run: usize) -> bool {
    let log = &line.nodes[node].log;
    let Some(last) = log[..run].iter().rfind(|entry| !is_tick(entry)) else {
        return false;
    };
    let mut leaving = line.plan.leaving(node);
    leaving.any(|number| {
        let channel = &line.plan.channels[number];
        let taken = line.nodes[channel.receiver].clock.taken(node);
        let times = last.message.time..=taken;
        let came: Vec<&Entry> = log
            .iter()
            .filter(|entry| times.contains(&entry.message.time))
            .filter(|entry| channel.takes(&entry.message.record))
            .collect();
        !came.is_empty() && came.into_iter().all(is_tick)
    })
}
