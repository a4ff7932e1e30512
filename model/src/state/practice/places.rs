//! The bytes of a line's state from first to last, by what they hold.

use std::ops::Range;

use crate::line::{Line, Node, Origin, Queue, Restart};
use crate::plan::{Plan, Version};
use crate::record::Record;

#[derive(Clone, Copy, Debug)]
pub struct Place {
    pub name: &'static str,
    pub at: usize,
    pub width: usize,
    /// Unused bytes are 0.
    pub is_used: bool,
}

impl Place {
    pub fn range(&self) -> Range<usize> {
        self.at..self.at + self.width
    }
}

/// One a console.
const STEPS: [&str; Line::CONSOLES] = [
    "steps: console 0",
    "steps: console 1",
    "steps: console 2",
    "steps: console 3",
];

pub const LOW_OF_NONE: &str = "low clock for parents that a sender lacks";
pub const KEPT_OF_NONE: &str = "kept entries of parents that a node lacks";

const TARGET: [&str; 3] = ["target: time", "target: parent's time", "target: parent"];
const KEPT_TARGET: [&str; 3] = [
    "kept target: time",
    "kept target: parent's time",
    "kept target: parent",
];

pub fn places(line: &Line) -> Vec<Place> {
    let mut walk = Walk {
        at: 0,
        places: Vec::new(),
    };
    walk.head(line);
    for number in 0..Plan::MOST_NODES {
        match line.nodes.get(number) {
            Some(node) => walk.node(node),
            None => walk.unused("nodes that the plan lacks", 4096),
        }
    }
    for number in 0..Plan::MOST_CHANNELS {
        match line.queues.get(number) {
            Some(queue) => {
                let sender = line.plan.channels[number].sender;
                walk.channel(queue, line.plan.parents(sender).count());
            }
            None => walk.unused("channels that the plan lacks", 320),
        }
    }
    walk.unused("after the channels", 512);
    walk.places
}

/// Every place stands right after the one before it.
struct Walk {
    at: usize,
    places: Vec<Place>,
}

impl Walk {
    fn add(&mut self, name: &'static str, width: usize, is_used: bool) {
        self.places.push(Place {
            name,
            at: self.at,
            width,
            is_used,
        });
        self.at += width;
    }

    fn used(&mut self, name: &'static str, width: usize) {
        self.add(name, width, true);
    }

    fn unused(&mut self, name: &'static str, width: usize) {
        self.add(name, width, false);
    }

    fn head(&mut self, line: &Line) {
        self.used("plan: length", 2);
        self.used("plan: version", 1);
        self.used("plan: nodes", 1);
        self.used("plan: channels", 1);
        for _ in &line.plan.rules {
            self.used("rule: kind", 1);
            self.used("rule: p", 1);
            self.used("rule: q", 2);
        }
        for _ in &line.plan.channels {
            self.used("channel: sender", 1);
            self.used("channel: receiver", 1);
            self.used("channel: mask", 2);
            self.used("channel: modulus", 1);
            self.used("channel: remainder", 1);
            if line.plan.version == Version::Second {
                self.used("channel: least mass", 2);
                self.used("channel: greatest mass", 2);
            }
        }
        self.unused("after the plan", 512 - self.at);
        for console in STEPS {
            self.used(console, 4);
        }
        self.unused("after the steps", 4096 - self.at);
    }

    fn node(&mut self, node: &Node) {
        self.used("node: status", 1);
        self.used("node: crash mark", 1);
        self.unused("before a node's time", 2);
        self.used("node: time", 4);
        self.used("log: count", 4);
        for entry in &node.log {
            self.record(&["entry: piece", "entry: material", "entry: mass"]);
            self.used("entry: time", 4);
            let names = ["entry: sender", "entry: sender's time"];
            self.origin(names, entry.message.made_from);
            let names = ["entry: input's sender", "entry: input's sender's time"];
            self.origin(names, entry.input_made_from);
            self.used("entry: set", 1);
            self.unused("after an entry", 1);
        }
        self.unused("free entries", 24 * (64 - node.log.len()));
        self.used("held: count", 4);
        for held in &node.buffered {
            self.record(&["held: piece", "held: material", "held: mass"]);
            self.used("held: sender", 1);
            self.used("held: time", 4);
            let names = ["held: input's sender", "held: input's sender's time"];
            self.origin(names, held.input_made_from);
            self.unused("after a held record", 2);
        }
        self.unused("free held records", 20 * (64 - node.buffered.len()));
        self.used("targets: count", 4);
        let (targets, names) = match &node.kept {
            None => (&node.targets, TARGET),
            Some(kept) => (&kept.targets, KEPT_TARGET),
        };
        for _ in targets {
            self.used(names[0], 4);
            self.used(names[1], 4);
            self.used(names[2], 1);
            self.unused("after a target", 3);
        }
        self.unused("free targets", 12 * (64 - targets.len()));
        self.used("kept: count", 4);
        match &node.kept {
            None => self.unused("no kept answer", 24),
            Some(kept) => self.kept(kept),
        }
        self.unused("after a node's kept answer", 464);
    }

    fn kept(&mut self, kept: &Restart) {
        self.used("kept: low", 4);
        self.used("kept: high", 4);
        for _ in &kept.restored {
            self.used("kept: restored entry", 4);
        }
        self.unused(KEPT_OF_NONE, 4 * (4 - kept.restored.len()));
    }

    fn channel(&mut self, queue: &Queue, senders_parents: usize) {
        self.used("mark", 4);
        let names = ["taken", "heard", "heard of parents that a sender lacks"];
        self.part(names, senders_parents);
        self.used("queue: count", 4);
        for message in &queue.messages {
            self.record(&["message: piece", "message: material", "message: mass"]);
            self.used("message: time", 4);
            let names = ["message: sender", "message: sender's time"];
            self.origin(names, message.made_from);
            self.unused("after a message", 3);
        }
        self.unused("free messages", 20 * (8 - queue.messages.len()));
        let names = ["low: taken", "low: heard", LOW_OF_NONE];
        self.part(names, senders_parents);
        self.unused("after a channel's low clock", 112);
    }

    /// What a clock holds for a sender and its parents.
    fn part(&mut self, names: [&'static str; 3], senders_parents: usize) {
        self.used(names[0], 4);
        for _ in 0..senders_parents {
            self.used(names[1], 4);
        }
        self.unused(names[2], 4 * (4 - senders_parents));
    }

    fn record(&mut self, names: &[&'static str; 3]) {
        let start = self.at;
        self.used(names[0], 4);
        self.used(names[1], 1);
        self.unused("within a record", 1);
        self.used(names[2], 2);
        assert_eq!(self.at, start + Record::LENGTH);
    }

    fn origin(&mut self, names: [&'static str; 2], origin: Option<Origin>) {
        self.used(names[0], 1);
        if origin.is_some() {
            self.used(names[1], 4);
        } else {
            self.unused("time of no sender", 4);
        }
    }
}
