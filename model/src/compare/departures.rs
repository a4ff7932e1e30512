//! Request 2026-08, "the published method counts outgoing messages": of each node that no
//! accepted Crash has named, how many of the records that it was fed or has taken some
//! leaving channel takes; of a sink how many there are.

use crate::line::{Frame, Line};
use crate::record::Record;

#[derive(Clone)]
pub struct Departures {
    /// None of a node that a Crash has named.
    counts: Vec<Option<u32>>,
}

impl Departures {
    /// From the times that the line has.
    pub fn new(line: &Line) -> Departures {
        let nodes = line.nodes.iter();
        let counts = nodes.map(|node| (!node.crash_marked).then_some(node.time()));
        Departures {
            counts: counts.collect(),
        }
    }

    /// To be told of each accepted step, with the line before it.
    pub fn follow(&mut self, before: &Line, frame: &[u8]) {
        let plan = &before.plan;
        let (_, frame) = Frame::read(frame).expect("an accepted frame");
        let (node, came) = match frame {
            Frame::Feed { node, record } => {
                let record = Record::read(record).expect("an accepted record");
                (usize::from(node), record)
            }
            Frame::Take { channel } => {
                let first = before.queues[usize::from(channel)].messages[0];
                (plan.channels[usize::from(channel)].receiver, first.record)
            }
            Frame::Crash { node } => {
                self.counts[usize::from(node)] = None;
                return;
            }
            _ => return,
        };
        let made = plan.rules[node].apply(came);
        let mut leaving = plan
            .channels
            .iter()
            .filter(|channel| channel.sender == node);
        let is_sink = leaving.clone().next().is_none();
        if is_sink || leaving.any(|channel| channel.takes(&made)) {
            self.counts[node] = self.counts[node].map(|count| count + 1);
        }
    }

    /// A node whose time is not the count.
    pub fn wrong(&self, line: &Line) -> Option<usize> {
        let mut counts = self.counts.iter().enumerate();
        let wrong = counts
            .find(|(node, count)| count.is_some_and(|count| line.nodes[*node].time() != count));
        wrong.map(|(node, _)| node)
    }

    /// How many nodes have a count.
    pub fn counted(&self) -> usize {
        self.counts.iter().flatten().count()
    }
}
