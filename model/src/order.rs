//! Demand 3: what the nodes received in a run of the line, and a run of the
//! plain line that gives the nodes that no Crash named exactly that.
//!
//! The run is found through histories: for each node the list of its inputs in
//! an order that explains all that its children have. A node that was never
//! crashed has taken its history; a crashed node's is mended when it is up
//! again, where its replay may have put records in another order than before.

#[cfg(test)]
mod tests;

use crate::line::{restart, Frame, Line, Message, Status};
use crate::plain::{Act, PlainLine, Receipt};
use crate::plan::Plan;
use crate::record::Record;

/// One input of a node.
#[derive(Clone, Copy, Debug)]
struct Event {
    /// The parent and its time; none at a source.
    input: Option<(usize, u32)>,
    /// As it came, before the node's rule.
    record: Record,
    /// The node's own, if a channel takes what it makes of it; 0 for one that a replay
    /// dropped.
    time: u32,
}

#[derive(Clone, Debug)]
pub struct Order {
    /// The accepted Feeds, in order.
    feeds: Vec<Act>,
    /// "Each Take answered 0 gives the receiver the first record on the belt in
    /// the state passed, with the belt's sender."
    received: Vec<Vec<Receipt>>,
    /// The nodes that an accepted Crash named.
    crashed: Vec<bool>,
    histories: Vec<Vec<Event>>,
}

impl Order {
    pub fn new(plan: &Plan) -> Order {
        let node_count = plan.node_count();
        Order {
            feeds: Vec::new(),
            received: vec![Vec::new(); node_count],
            crashed: vec![false; node_count],
            histories: vec![Vec::new(); node_count],
        }
    }

    /// To be told of each accepted step, with the line before and after it.
    pub fn follow(&mut self, before: &Line, frame: &[u8], after: &Line) {
        let (_, frame) = Frame::read(frame).expect("an accepted frame");
        match frame {
            Frame::Feed { node, record } => {
                let node = usize::from(node);
                let record = Record::read(record).expect("an accepted record");
                self.feeds.push(Act::Feed { node, record });
                self.histories[node].push(Event {
                    input: None,
                    record,
                    time: after.nodes[node].time(),
                });
            }
            Frame::Send { .. } | Frame::Trim { .. } | Frame::Ask { .. } => {}
            Frame::Take { channel } => {
                let message = before.queues[usize::from(channel)].messages[0];
                let channel = &before.plan.channels[usize::from(channel)];
                self.follow_take(before, channel.sender, channel.receiver, message, after);
            }
            Frame::Crash { node } => self.crashed[usize::from(node)] = true,
            Frame::Recover { node } | Frame::Commit { node } => {
                let node = usize::from(node);
                if after.nodes[node].status == Status::Up {
                    self.keep_restored(before, node);
                }
            }
        }
    }

    fn follow_take(
        &mut self,
        before: &Line,
        sender: usize,
        receiver: usize,
        message: Message,
        after: &Line,
    ) {
        let record = message.record;
        self.received[receiver].push(Receipt { record, sender });
        if before.nodes[receiver].status == Status::Up {
            self.histories[receiver].push(Event {
                input: Some((sender, message.time)),
                record,
                time: after.nodes[receiver].time(),
            });
        } else if after.nodes[receiver].status == Status::Up {
            self.keep_restored(before, receiver);
            self.add_placed(after, receiver);
        }
    }

    /// Of the node's history, the inputs that its restored clock has heard of.
    fn keep_restored(&mut self, line: &Line, node: usize) {
        let restored = restart(line, node).restored;
        self.histories[node].retain(|event| {
            restored.iter().any(|entry| {
                event
                    .input
                    .is_some_and(|(sender, time)| sender == entry.sender && time <= entry.time)
            })
        });
    }

    /// The placed records in order of column, each after the dropped ones of
    /// its row that lie before it.
    fn add_placed(&mut self, line: &Line, node: usize) {
        for entry in &line.nodes[node].log {
            let input = entry.message.made_from.expect("a router's input");
            loop {
                let next = self
                    .next_input(line, node, input.sender)
                    .expect("a placed record came from its parent");
                let is_placed = next.input == Some((input.sender, input.time));
                self.histories[node].push(Event {
                    time: if is_placed { entry.message.time } else { 0 },
                    ..next
                });
                if is_placed {
                    break;
                }
            }
        }
    }

    /// What the node would take next from the parent, by their histories.
    fn next_input(&self, line: &Line, node: usize, parent: usize) -> Option<Event> {
        let plan = &line.plan;
        let taken = self.histories[node]
            .iter()
            .filter(|event| event.input.is_some_and(|(sender, _)| sender == parent))
            .count();
        let channel = plan
            .entering(node)
            .map(|channel| &plan.channels[channel])
            .find(|channel| channel.sender == parent)?;
        self.histories[parent]
            .iter()
            .map(|event| (event.time, plan.rules[parent].apply(event.record)))
            .filter(|(_, record)| channel.takes(record))
            .nth(taken)
            .map(|(time, record)| Event {
                input: Some((parent, time)),
                record,
                time: 0,
            })
    }

    /// All feeds in order, then the nodes in rising number, each taking on the
    /// channels that its history names.
    pub fn run(&self, plan: &Plan) -> Vec<Act> {
        let mut acts = self.feeds.clone();
        for (node, history) in self.histories.iter().enumerate() {
            for (sender, _) in history.iter().filter_map(|event| event.input) {
                let channel = plan
                    .entering(node)
                    .find(|&channel| plan.channels[channel].sender == sender)
                    .expect("from a parent");
                acts.push(Act::Take { channel });
            }
        }
        acts
    }

    /// Demand 3 at the end of the frames told of: whether the run gives every
    /// node that no accepted Crash named what it has received, and is at rest
    /// if the line is quiet.
    pub fn holds(&self, line: &Line) -> bool {
        let run = self.run(&line.plan);
        let mut plain = PlainLine::new(&line.plan);
        plain.run(&run);
        let feeds = run.iter().filter(|act| matches!(act, Act::Feed { .. }));
        feeds.eq(&self.feeds)
            && (0..line.nodes.len())
                .filter(|&node| !self.crashed[node])
                .all(|node| plain.received(node) == self.received[node])
            && (!is_quiet(line) || plain.is_at_rest())
    }
}

/// "No belt has anything to send or take and no node is down or replaying."
pub fn is_quiet(line: &Line) -> bool {
    line.nodes.iter().all(|node| node.status == Status::Up)
        && line.queues.iter().enumerate().all(|(channel, queue)| {
            queue.messages.is_empty() && line.next_to_send(channel).is_none()
        })
}
