//! Document 01, "The line" and "Clocks and steps": the state of a line and its
//! load. The steps stand in the modules below, one for a paragraph or a request.

mod ask;
mod damaged;
mod frame;
pub mod practice;
mod recover;
mod replay;
mod step;
#[cfg(test)]
mod tests;
mod trim;

pub use damaged::damaged;
pub use frame::{Caller, Frame};
pub use recover::{restart, Restart};
pub use replay::Propose;
pub use step::{step, stepped, stepped_with};

use crate::clock::Clock;
use crate::plan::Plan;
use crate::record::Record;

#[derive(Clone, Copy, Debug, PartialEq, Eq)]
pub enum Status {
    Up,
    Down,
    Replaying,
}

/// "The sender and time that it was itself made from."
#[derive(Clone, Copy, Debug, PartialEq, Eq)]
pub struct Origin {
    pub sender: usize,
    pub time: u32,
}

/// "A message is a record, its sender's time, and the sender and time that it
/// was itself made from (none at an infeed)."
#[derive(Clone, Copy, Debug, PartialEq, Eq)]
pub struct Message {
    pub record: Record,
    pub time: u32,
    pub made_from: Option<Origin>,
}

/// "Each log entry is such a message, made by this node, and keeps also the
/// sender and time that its input was made from, if any."
#[derive(Clone, Copy, Debug, PartialEq, Eq)]
pub struct Entry {
    pub message: Message,
    pub input_made_from: Option<Origin>,
    /// "The set of belts that take" it, as `Plan::set_of` gives it.
    pub set: u8,
}

/// "The distinct triples (B-time, A, A-time)", ordered as they are stored.
#[derive(Clone, Copy, Debug, PartialEq, Eq, PartialOrd, Ord)]
pub struct Target {
    pub time: u32,
    pub parent: usize,
    pub parent_time: u32,
}

/// The paper's held record: what the node would log, its own time aside.
#[derive(Clone, Copy, Debug, PartialEq, Eq)]
pub struct Buffered {
    pub record: Record,
    pub made_from: Origin,
    pub input_made_from: Option<Origin>,
}

#[derive(Clone, Debug, PartialEq, Eq)]
pub struct Node {
    pub status: Status,
    /// "Crash-marked for good."
    pub crash_marked: bool,
    /// The node's time is the clock's root.
    pub clock: Clock,
    /// What Trim has dropped: "the greatest time for each parent and, through it,
    /// for each of its parents". Its root stays 0.
    pub low_clock: Clock,
    pub log: Vec<Entry>,
    /// Rising.
    pub targets: Vec<Target>,
    /// The paper's held list, in order of arrival.
    pub buffered: Vec<Buffered>,
    /// What Ask "keeps with the down node", its targets included.
    pub kept: Option<Restart>,
}

impl Node {
    /// Up, all of it 0.
    fn empty(plan: &Plan, number: usize) -> Node {
        Node {
            status: Status::Up,
            crash_marked: false,
            clock: Clock::empty(plan, number),
            low_clock: Clock::empty(plan, number),
            log: Vec::new(),
            targets: Vec::new(),
            buffered: Vec::new(),
            kept: None,
        }
    }

    pub fn time(&self) -> u32 {
        self.clock.time
    }
}

/// What lies on a channel (the paper's belt), and the channel's mark.
#[derive(Clone, Debug, Default, PartialEq, Eq)]
pub struct Queue {
    pub mark: u32,
    pub messages: Vec<Message>,
}

#[derive(Clone, Debug, PartialEq, Eq)]
pub struct Line {
    pub plan: Plan,
    /// Accepted steps of each console.
    pub steps: [u32; Line::CONSOLES],
    pub nodes: Vec<Node>,
    /// One a channel.
    pub queues: Vec<Queue>,
}

impl From<Plan> for Line {
    fn from(plan: Plan) -> Line {
        Line::of(plan)
    }
}

impl Line {
    /// "The limits belong to the line itself: 64 log entries a node, 8 messages
    /// on a belt, 64 held records a node, 64 targets a node, 1,000,000 accepted
    /// steps", those of each console: "each console has its own count to
    /// 1,000,000".
    pub const MOST_ENTRIES: usize = 64;
    pub const MOST_MESSAGES: usize = 8;
    pub const MOST_BUFFERED: usize = 64;
    pub const MOST_TARGETS: usize = 64;
    pub const CONSOLES: usize = 4;
    pub const MOST_STEPS: u32 = 1_000_000;

    /// Checks 1 to 7; a refused plan gives its number.
    pub fn load(plan: &[u8]) -> Result<Line, u32> {
        Ok(Line::of(Plan::read(plan)?))
    }

    /// The line of an accepted plan before any step.
    pub fn of(plan: Plan) -> Line {
        let nodes = (0..plan.node_count())
            .map(|node| Node::empty(&plan, node))
            .collect();
        let queues = vec![Queue::default(); plan.channels.len()];
        Line {
            plan,
            steps: [0; Line::CONSOLES],
            nodes,
            queues,
        }
    }

    /// "A time is now bounded by the sum of the four." No count is above its
    /// limit.
    pub fn accepted_steps(&self) -> u32 {
        self.steps.iter().sum()
    }

    /// The paper's entries of the children for the node: the last time that
    /// each has taken from it, children rising.
    fn taken_by_children(&self, node: usize) -> impl Iterator<Item = u32> + '_ {
        self.plan
            .children(node)
            .map(move |child| self.nodes[child].clock.taken(node))
    }
}
