//! The step straight on the bytes of a state, written in place with nothing
//! allocated: what the engine's step is timed beside. All is looked at before
//! anything is written, so a refusal leaves the bytes as they came.

mod recover;
mod take;
mod trim;

use super::super::layout::*;
use super::is_undamaged;
use super::sets::Sets;
use crate::answer::{
    ACCEPTED, CHANNEL_FULL, CRASHED_NEIGHBOUR, NOTHING_KEPT, NOTHING_THERE, NO_REPLAY, NO_SPACE,
    NO_SUCH_PLACE, ROW_COMPLETE, SOME_NOT_UP, STATE, STEPS_USED_UP, WRONG_PLACE, WRONG_RECORD,
    WRONG_STATUS,
};
use crate::line::{Frame, Line};
use crate::plan::{Channel, Plan, Version};
use crate::record::Record;
use crate::rule::Rule;

/// "Step 8 to 21 and then 24", with 25 after 11, 26 after 13 and 27 after 16.
pub fn step(state: &mut [u8], frame: &[u8]) -> u32 {
    match <&mut [u8; LENGTH]>::try_from(state) {
        Ok(state) if is_undamaged(state) => step_unchecked(state, frame),
        _ => STATE,
    }
}

/// The step without the check: the state is undamaged.
pub fn step_unchecked(state: &mut [u8; LENGTH], frame: &[u8]) -> u32 {
    let mut line = InPlace {
        version: Version::read(state[PLAN + 2]).expect("an accepted plan"),
        node_count: usize::from(state[PLAN + 3]),
        channel_count: usize::from(state[PLAN + 4]),
        state,
    };
    line.step(frame).err().unwrap_or(ACCEPTED)
}

/// An undamaged state. Blocks are named by the number of their node or channel,
/// slots are the bytes of one slot.
struct InPlace<'a> {
    state: &'a mut [u8; LENGTH],
    version: Version,
    node_count: usize,
    channel_count: usize,
}

impl InPlace<'_> {
    fn step(&mut self, frame: &[u8]) -> Result<(), u32> {
        let (caller, frame) = Frame::read(frame)?;
        let count = steps(caller.console());
        let accepted = number_at(self.state, count);
        if accepted >= Line::MOST_STEPS {
            return Err(STEPS_USED_UP);
        }
        match frame {
            Frame::Feed { node, record } => self.feed(node.into(), record),
            Frame::Send { channel } => self.send(channel.into()),
            Frame::Take { channel } => self.take(channel.into()),
            Frame::Crash { node } => self.crash(node.into()),
            Frame::Recover { node } => self.recover(node.into()),
            Frame::Trim { node } => self.trim(node.into()),
            Frame::Ask { node } => self.ask(node.into()),
            Frame::Commit { node } => self.commit(node.into()),
        }?;
        put_number(self.state, count, accepted + 1);
        Ok(())
    }

    fn feed(&mut self, node: usize, record: [u8; Record::LENGTH]) -> Result<(), u32> {
        self.check_node(node)?;
        if self.entering(node).next().is_some() {
            return Err(WRONG_PLACE);
        }
        let record = Record::read(record).ok_or(WRONG_RECORD)?;
        let record = self.worked(node, record);
        let set = self.sets(node).of(&record);
        if !self.is_timed(node, set) {
            return Ok(());
        }
        self.log(node, &record, set, &[0; 2 * ORIGIN])
    }

    fn send(&mut self, channel: usize) -> Result<(), u32> {
        let (sender, _) = self.check_channel(channel)?;
        let mark = number_at(self.channel(channel), MARK);
        let bit = self.bit(channel, sender);
        let mut log = slots(self.node(sender), LOG);
        let message = log
            .find(|slot| number_at(slot, MESSAGE_TIME) > mark && slot[ENTRY_SET] & bit != 0)
            .ok_or(NOTHING_THERE)?;
        // A log entry begins with the message.
        let message: [u8; MESSAGE_USED] = part(message, 0);
        let block = self.channel_mut(channel);
        let slot = free_slot(block, QUEUE).ok_or(CHANNEL_FULL)?;
        put(slot, 0, &message);
        put_number(block, MARK, number_at(&message, MESSAGE_TIME));
        Ok(())
    }

    fn crash(&mut self, node: usize) -> Result<(), u32> {
        self.check_router(node)?;
        if self.status(node) == DOWN {
            return Err(WRONG_STATUS);
        }
        let is_marked = |other: usize| self.node(other)[CRASH_MARK] == 1;
        if self.parents(node).any(is_marked) || self.children(node).any(is_marked) {
            return Err(CRASHED_NEIGHBOUR);
        }
        let block = self.node_mut(node);
        block.fill(0);
        block[STATUS] = DOWN;
        block[CRASH_MARK] = 1;
        for channel in 0..self.channel_count {
            let (sender, receiver) = self.ends(channel);
            let block = self.channel_mut(channel);
            if sender == node || receiver == node {
                put_number(block, MARK, 0);
                block[QUEUE.count..LOW].fill(0);
            }
            // The entries stand with the receiver's channels, its low clock's too.
            if receiver == node {
                block.fill(0);
            }
        }
        Ok(())
    }

    /// Logs a record that such channels take, and raises the node's time by 1 if it gets
    /// one of its own. The origins are what it and its input were made from.
    fn log(&mut self, node: usize, record: &[u8], set: u8, origins: &[u8]) -> Result<(), u32> {
        let time = number_at(self.node(node), TIME) + u32::from(self.is_timed(node, set));
        let block = self.node_mut(node);
        let slot = free_slot(block, LOG).ok_or(NO_SPACE)?;
        put(slot, RECORD, record);
        put_number(slot, MESSAGE_TIME, time);
        put(slot, MADE_FROM, origins);
        slot[ENTRY_SET] = set;
        put_number(block, TIME, time);
        Ok(())
    }

    /// Whether what such channels take gets a time of its own.
    fn is_timed(&self, node: usize, set: u8) -> bool {
        set != 0 || self.leaving(node).next().is_none()
    }

    fn check_node(&self, node: usize) -> Result<(), u32> {
        if node >= self.node_count {
            return Err(NO_SUCH_PLACE);
        }
        Ok(())
    }

    /// 13 and 14 of a node that is to crash or recover.
    fn check_router(&self, node: usize) -> Result<(), u32> {
        self.check_node(node)?;
        if self.entering(node).next().is_none() || self.leaving(node).next().is_none() {
            return Err(WRONG_PLACE);
        }
        Ok(())
    }

    /// 13 and 15 of a channel. Its ends.
    fn check_channel(&self, channel: usize) -> Result<(usize, usize), u32> {
        if channel >= self.channel_count {
            return Err(NO_SUCH_PLACE);
        }
        let (sender, receiver) = self.ends(channel);
        if self.status(sender) == DOWN || self.status(receiver) == DOWN {
            return Err(WRONG_STATUS);
        }
        Ok((sender, receiver))
    }

    fn node(&self, number: usize) -> &[u8] {
        &self.state[node(number)..][..NODE_LENGTH]
    }

    fn node_mut(&mut self, number: usize) -> &mut [u8] {
        &mut self.state[node(number)..][..NODE_LENGTH]
    }

    fn channel(&self, number: usize) -> &[u8] {
        &self.state[channel(number)..][..CHANNEL_LENGTH]
    }

    fn channel_mut(&mut self, number: usize) -> &mut [u8] {
        &mut self.state[channel(number)..][..CHANNEL_LENGTH]
    }

    fn status(&self, node: usize) -> u8 {
        self.node(node)[STATUS]
    }

    fn taken(&self, channel: usize) -> u32 {
        number_at(self.channel(channel), TAKEN)
    }

    /// The channel's bytes in the plan.
    fn planned(&self, channel: usize) -> &[u8] {
        let channels = PLAN + Plan::HEADER + Rule::LENGTH * self.node_count;
        let length = self.version.channel_length();
        &self.state[channels + length * channel..][..length]
    }

    fn ends(&self, channel: usize) -> (usize, usize) {
        let planned = self.planned(channel);
        (planned[0].into(), planned[1].into())
    }

    fn sets(&self, node: usize) -> Sets {
        let leaving = self.leaving(node);
        Sets::new(leaving.map(|channel| Channel::spelled(self.version, self.planned(channel))))
    }

    /// The channel's bit in the sets of its sender: as many channels leave that before
    /// it, and they stand right before it.
    fn bit(&self, channel: usize, sender: usize) -> u8 {
        let before = (0..channel).rev();
        1 << before
            .take_while(|&other| self.ends(other).0 == sender)
            .count()
    }

    fn entering(&self, node: usize) -> impl Iterator<Item = usize> + '_ {
        (0..self.channel_count).filter(move |&channel| self.ends(channel).1 == node)
    }

    fn leaving(&self, node: usize) -> impl Iterator<Item = usize> + '_ {
        (0..self.channel_count).filter(move |&channel| self.ends(channel).0 == node)
    }

    fn parents(&self, node: usize) -> impl Iterator<Item = usize> + '_ {
        self.entering(node).map(|channel| self.ends(channel).0)
    }

    fn children(&self, node: usize) -> impl Iterator<Item = usize> + '_ {
        self.leaving(node).map(|channel| self.ends(channel).1)
    }

    /// The record after the node's rule.
    fn worked(&self, node: usize, record: Record) -> [u8; Record::LENGTH] {
        let rule = part(self.state, PLAN + Plan::HEADER + Rule::LENGTH * node);
        let rule = Rule::read(rule).expect("an accepted plan");
        rule.apply(record).write()
    }
}

fn part<const LENGTH: usize>(bytes: &[u8], at: usize) -> [u8; LENGTH] {
    bytes[at..at + LENGTH].try_into().expect("its length")
}

/// The used slots of a list.
fn slots(block: &[u8], list: Slots) -> std::slice::ChunksExact<'_, u8> {
    let count = number_at(block, list.count) as usize;
    block[list.slot(0)..list.slot(count)].chunks_exact(list.length)
}

/// The first free slot of a list, counted as used; it is all 0.
fn free_slot(block: &mut [u8], list: Slots) -> Option<&mut [u8]> {
    let count = number_at(block, list.count) as usize;
    if count >= list.most {
        return None;
    }
    put_number(block, list.count, count as u32 + 1);
    Some(&mut block[list.slot(count)..list.slot(count + 1)])
}

fn raise(block: &mut [u8], at: usize, time: u32) {
    put_number(block, at, number_at(block, at).max(time));
}
