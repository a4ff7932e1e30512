//! Document 01, "The plain line": unlimited queues, feeds and takes. No clocks,
//! logs or crashes.

use std::collections::VecDeque;

use crate::plan::Plan;
use crate::record::Record;

#[derive(Clone, Copy, Debug, PartialEq, Eq)]
pub enum Act {
    Feed { node: usize, record: Record },
    Take { channel: usize },
}

/// What a node receives: "the record with the belt's sender".
#[derive(Clone, Copy, Debug, PartialEq, Eq)]
pub struct Receipt {
    pub record: Record,
    pub sender: usize,
}

pub struct PlainLine<'plan> {
    plan: &'plan Plan,
    /// "Each belt is an unlimited queue, empty at first."
    queues: Vec<VecDeque<Record>>,
    received: Vec<Vec<Receipt>>,
}

impl PlainLine<'_> {
    pub fn new(plan: &Plan) -> PlainLine<'_> {
        PlainLine {
            plan,
            queues: vec![VecDeque::new(); plan.channels.len()],
            received: vec![Vec::new(); plan.node_count()],
        }
    }

    pub fn run(&mut self, acts: &[Act]) {
        for act in acts {
            match *act {
                Act::Feed { node, record } => self.feed(node, record),
                Act::Take { channel } => self.take(channel),
            }
        }
    }

    /// "The record, after its node's rule, joins each leaving belt that takes
    /// it."
    fn feed(&mut self, node: usize, record: Record) {
        let record = self.plan.rules[node].apply(record);
        for channel in self.plan.leaving(node) {
            if self.plan.channels[channel].takes(&record) {
                self.queues[channel].push_back(record);
            }
        }
    }

    /// "A belt's first record leaves it; the receiver receives it with the
    /// belt's sender, then does as in Feed. A take on an empty belt does
    /// nothing."
    fn take(&mut self, channel: usize) {
        let Some(record) = self.queues[channel].pop_front() else {
            return;
        };
        let ends = &self.plan.channels[channel];
        self.received[ends.receiver].push(Receipt {
            record,
            sender: ends.sender,
        });
        self.feed(ends.receiver, record);
    }

    pub fn received(&self, node: usize) -> &[Receipt] {
        &self.received[node]
    }

    /// "At rest every belt is empty."
    pub fn is_at_rest(&self) -> bool {
        self.queues.iter().all(VecDeque::is_empty)
    }
}
