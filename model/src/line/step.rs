//! Document 01, "Clocks and steps", and request 2026-08: the step and its kinds Feed,
//! Send, Take and Crash. Recover stands in `recover`, what Take does to a replay in
//! `replay`, Trim in `trim`, Ask and Commit in `ask`.

use super::replay::{chosen, Propose};
use super::{Entry, Frame, Line, Message, Node, Origin, Queue, Status};
use crate::answer::{
    ACCEPTED, CHANNEL_FULL, CRASHED_NEIGHBOUR, NOTHING_THERE, NO_SPACE, NO_SUCH_PLACE,
    ROW_COMPLETE, STEPS_USED_UP, WRONG_PLACE, WRONG_RECORD, WRONG_STATUS,
};
use crate::record::Record;

/// The answer. A refusal leaves the line as it was.
pub fn step(line: &mut Line, frame: &[u8]) -> u32 {
    match stepped(line, frame) {
        Ok(next) => {
            *line = next;
            ACCEPTED
        }
        Err(refusal) => refusal,
    }
}

/// The line after the step, or the refusal. Checks 9 to 11, 25, 12, 13, 26, 14 to 16, 27,
/// 17 to 21 and then 24; 8 is seen to before: the line is undamaged.
pub fn stepped(line: &Line, frame: &[u8]) -> Result<Line, u32> {
    stepped_with(line, frame, &mut chosen)
}

/// The same where somebody proposes the columns of a replay that the step ends. Only a Take
/// ends one: nothing is held at a Recover.
pub fn stepped_with(line: &Line, frame: &[u8], propose: Propose) -> Result<Line, u32> {
    let (caller, frame) = Frame::read(frame)?;
    // "Refusal 12 looks only at the caller's."
    if line.steps[caller.console()] >= Line::MOST_STEPS {
        return Err(STEPS_USED_UP);
    }
    let mut next = match frame {
        Frame::Feed { node, record } => line.feed(node.into(), record),
        Frame::Send { channel } => line.send(channel.into()),
        Frame::Take { channel } => line.take(channel.into(), propose),
        Frame::Crash { node } => line.crash(node.into()),
        Frame::Recover { node } => line.recover(node.into()),
        Frame::Trim { node } => line.trim(node.into()),
        Frame::Ask { node } => line.ask(node.into()),
        Frame::Commit { node } => line.commit(node.into()),
    }?;
    next.steps[caller.console()] += 1;
    Ok(next)
}

/// Each kind gives the line after it, the counts of steps aside, or the refusal.
impl Line {
    /// "An infeed applies its rule, its time rises by 1, the message is logged." "On an
    /// infeed with leaving belts, a Feed that none of them takes leaves nothing but the
    /// step count, and 21 is not looked at for it."
    fn feed(&self, node: usize, record: [u8; Record::LENGTH]) -> Result<Line, u32> {
        self.check_node(node)?;
        if !self.plan.is_source(node) {
            return Err(WRONG_PLACE);
        }
        let record = Record::read(record).ok_or(WRONG_RECORD)?;
        let record = self.plan.rules[node].apply(record);
        let mut next = self.clone();
        if self.plan.is_timed(node, &record) {
            next.log(node, record, None, None)?;
        }
        Ok(next)
    }

    /// "The first logged message later than the belt's mark that the belt takes
    /// goes on the belt; the mark becomes its time. Until then it waits in the
    /// log."
    fn send(&self, channel: usize) -> Result<Line, u32> {
        self.check_channel(channel)?;
        let message = self.next_to_send(channel).ok_or(NOTHING_THERE)?;
        if self.queues[channel].messages.len() >= Line::MOST_MESSAGES {
            return Err(CHANNEL_FULL);
        }
        let mut next = self.clone();
        next.queues[channel].messages.push(message);
        next.queues[channel].mark = message.time;
        Ok(next)
    }

    /// "The receiver removes the belt's first message, raises its clock by it,
    /// applies its rule, raises its time by 1 and logs. A record that no belt
    /// takes is logged too." While the receiver replays, "Take raises the clock
    /// only".
    fn take(&self, channel: usize, propose: Propose) -> Result<Line, u32> {
        self.check_channel(channel)?;
        let (sender, receiver) = self.ends(channel);
        let message = *self.queues[channel].messages.first().ok_or(NOTHING_THERE)?;
        let replaying = self.nodes[receiver].status == Status::Replaying;
        if replaying && self.is_row_complete(receiver, sender) {
            return Err(ROW_COMPLETE);
        }
        let mut next = self.clone();
        next.queues[channel].messages.remove(0);
        let record = self.plan.rules[receiver].apply(message.record);
        let made_from = Origin {
            sender,
            time: message.time,
        };
        let clock = &mut next.nodes[receiver].clock;
        clock.raise_by(made_from, message.made_from);
        if replaying {
            next.buffer(receiver, record, made_from, message.made_from)?;
            next.end_replay_if_complete(receiver, propose)?;
        } else {
            next.log(receiver, record, Some(made_from), message.made_from)?;
        }
        Ok(next)
    }

    /// "The node is down and crash-marked for good; its log, clock, time,
    /// targets and held records, and its belts' messages and marks, are emptied
    /// to 0." Of its low clock: "Crash empties it".
    fn crash(&self, node: usize) -> Result<Line, u32> {
        self.check_router(node)?;
        if self.is_down(node) {
            return Err(WRONG_STATUS);
        }
        let mut joined = self.plan.parents(node).chain(self.plan.children(node));
        if joined.any(|other| self.nodes[other].crash_marked) {
            return Err(CRASHED_NEIGHBOUR);
        }
        let mut next = self.clone();
        next.nodes[node] = Node {
            status: Status::Down,
            crash_marked: true,
            ..Node::empty(&self.plan, node)
        };
        for channel in self.plan.entering(node).chain(self.plan.leaving(node)) {
            next.queues[channel] = Queue::default();
        }
        Ok(next)
    }

    /// 13 of a node.
    pub(super) fn check_node(&self, node: usize) -> Result<(), u32> {
        if node < self.nodes.len() {
            Ok(())
        } else {
            Err(NO_SUCH_PLACE)
        }
    }

    /// 13 and 14 of a node that is to crash or recover.
    pub(super) fn check_router(&self, node: usize) -> Result<(), u32> {
        self.check_node(node)?;
        if self.plan.is_source(node) || self.plan.is_sink(node) {
            return Err(WRONG_PLACE);
        }
        Ok(())
    }

    /// 13 and 15 of a channel that is to be sent or taken on.
    fn check_channel(&self, channel: usize) -> Result<(), u32> {
        if channel >= self.queues.len() {
            return Err(NO_SUCH_PLACE);
        }
        let (sender, receiver) = self.ends(channel);
        if self.is_down(sender) || self.is_down(receiver) {
            return Err(WRONG_STATUS);
        }
        Ok(())
    }

    fn ends(&self, channel: usize) -> (usize, usize) {
        let channel = &self.plan.channels[channel];
        (channel.sender, channel.receiver)
    }

    pub(super) fn is_down(&self, node: usize) -> bool {
        self.nodes[node].status == Status::Down
    }

    /// What Send would put on the channel.
    pub fn next_to_send(&self, channel: usize) -> Option<Message> {
        let wanted = &self.plan.channels[channel];
        let mark = self.queues[channel].mark;
        let log = &self.nodes[wanted.sender].log;
        log.iter()
            .map(|entry| entry.message)
            .find(|message| message.time > mark && wanted.takes(&message.record))
    }

    /// Raises the node's time by 1, unless the record "gets no time of its own", and logs it:
    /// such an entry "carries the node's present time". The node's rule has been applied. The
    /// set is written "when the entry is made".
    fn log(
        &mut self,
        node: usize,
        record: Record,
        made_from: Option<Origin>,
        input_made_from: Option<Origin>,
    ) -> Result<(), u32> {
        let set = self.plan.set_of(node, &record);
        let is_timed = self.plan.is_timed(node, &record);
        let node = &mut self.nodes[node];
        if node.log.len() >= Line::MOST_ENTRIES {
            return Err(NO_SPACE);
        }
        if is_timed {
            node.clock.time += 1;
        }
        node.log.push(Entry {
            message: Message {
                record,
                time: node.clock.time,
                made_from,
            },
            input_made_from,
            set,
        });
        Ok(())
    }
}
