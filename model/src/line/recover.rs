//! Document 01, "Clocks and steps", kind 5, and request 2026-04: what Recover works
//! out from the children, and what it leaves.

use std::collections::BTreeSet;

use super::replay::chosen;
use super::{Line, Origin, Status, Target};
use crate::answer::{NO_REPLAY, NO_SPACE, WRONG_STATUS};
use crate::clock::Clock;

/// What the children's logs, clocks and low clocks tell node B.
#[derive(Clone, Debug, PartialEq, Eq)]
pub struct Restart {
    pub low: u32,
    pub high: u32,
    /// A parent and its restored entry, parents rising.
    pub restored: Vec<Origin>,
    /// Rising.
    pub targets: Vec<Target>,
}

/// The node has leaving channels; the line is undamaged, what is kept for the
/// node itself aside: that is not looked at.
pub fn restart(line: &Line, node: usize) -> Restart {
    // "Low is the least and high the greatest clock entry for B among its
    // children."
    let low = line.taken_by_children(node).min().expect("a child");
    let high = line.taken_by_children(node).max().expect("a child");
    let triples: BTreeSet<Target> = line
        .plan
        .children(node)
        .flat_map(|child| triples_in_log(line, child, node))
        .collect();
    // "For each parent A, the restored entry is the greatest A-time in
    // children's log entries made from B's messages with B-time at most low, 0
    // if none." "Recover starts the restored entries from the children's low
    // clocks."
    let restored_entry = |parent| {
        let children = line.plan.children(node);
        let trimmed = children.map(|child| line.nodes[child].low_clock.heard(node, parent));
        triples
            .iter()
            .filter(|triple| triple.parent == parent && triple.time <= low)
            .map(|triple| triple.parent_time)
            .chain(trimmed)
            .max()
            .unwrap_or(0)
    };
    let restored = line.plan.parents(node).map(|parent| Origin {
        sender: parent,
        time: restored_entry(parent),
    });
    // "Targets are the distinct triples (B-time, A, A-time) with B-time above
    // low, over all children."
    let targets = triples.iter().filter(|triple| triple.time > low);
    Restart {
        low,
        high,
        restored: restored.collect(),
        targets: targets.copied().collect(),
    }
}

/// The triples of the child's log entries that are made from the node's
/// messages.
fn triples_in_log(line: &Line, child: usize, node: usize) -> impl Iterator<Item = Target> + '_ {
    line.nodes[child].log.iter().filter_map(move |entry| {
        let input = entry.message.made_from?;
        let origin = entry.input_made_from?;
        (input.sender == node).then_some(Target {
            time: input.time,
            parent: origin.sender,
            parent_time: origin.time,
        })
    })
}

impl Restart {
    /// 21 and 24, in rising order, as far as the targets by themselves tell.
    pub fn check_targets(&self) -> Result<(), u32> {
        if self.targets.len() > Line::MOST_TARGETS {
            return Err(NO_SPACE);
        }
        if !self.targets_agree() {
            return Err(NO_REPLAY);
        }
        Ok(())
    }

    /// Whether the restored entries complete all rows at once.
    pub fn is_complete(&self) -> bool {
        self.restored.iter().all(|restored| {
            let mut targets = self.targets.iter();
            targets.all(|target| {
                target.parent != restored.sender || restored.time >= target.parent_time
            })
        })
    }

    /// Not: "targets give one time two inputs or one input two times".
    fn targets_agree(&self) -> bool {
        let times: BTreeSet<u32> = self.targets.iter().map(|target| target.time).collect();
        let inputs: BTreeSet<(usize, u32)> = self
            .targets
            .iter()
            .map(|target| (target.parent, target.parent_time))
            .collect();
        times.len() == self.targets.len() && inputs.len() == self.targets.len()
    }
}

impl Line {
    pub(super) fn recover(&self, node: usize) -> Result<Line, u32> {
        self.check_down(node)?;
        let restart = restart(self, node);
        restart.check_targets()?;
        let mut next = self.restarted(node, &restart);
        if next.nodes[node].status == Status::Replaying {
            next.end_replay_if_complete(node, &mut chosen)?;
        }
        Ok(next)
    }

    /// Whether Recover of the node is accepted, the counts of steps aside.
    pub fn recovers(&self, node: usize) -> bool {
        self.recover(node).is_ok()
    }

    /// 13 to 15 of a node that is to restart.
    pub(super) fn check_down(&self, node: usize) -> Result<(), u32> {
        self.check_router(node)?;
        if !self.is_down(node) {
            return Err(WRONG_STATUS);
        }
        Ok(())
    }

    /// The line with the node as it is restarted. "No targets: B is up. Else it replays."
    /// No answer is kept.
    pub(super) fn restarted(&self, node: usize, restart: &Restart) -> Line {
        let mut next = self.clone();
        next.restore(node, restart);
        let restarted = &mut next.nodes[node];
        restarted.status = match restart.targets.is_empty() {
            true => Status::Up,
            false => Status::Replaying,
        };
        restarted.targets = restart.targets.clone();
        restarted.kept = None;
        next
    }

    /// "Parents' parents get 0. B's time is low; each leaving belt's mark is the
    /// child's entry for B, each entering belt's mark the restored entry."
    fn restore(&mut self, node: usize, restart: &Restart) {
        let mut clock = Clock::empty(&self.plan, node);
        clock.time = restart.low;
        for restored in &restart.restored {
            clock.raise_taken(restored.sender, restored.time);
        }
        for channel in self.plan.entering(node) {
            self.queues[channel].mark = clock.taken(self.plan.channels[channel].sender);
        }
        for channel in self.plan.leaving(node) {
            let child = &self.nodes[self.plan.channels[channel].receiver];
            self.queues[channel].mark = child.clock.taken(node);
        }
        self.nodes[node].clock = clock;
    }
}
