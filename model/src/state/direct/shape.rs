//! A plan read from its bytes into tables of fixed size.

use super::sets::Sets;
use crate::plan::{length_field, Channel, Plan, Version};
use crate::rule::Rule;

const NO_CHANNEL: u8 = u8::MAX;

pub struct Shape {
    pub length: usize,
    pub node_count: usize,
    pub channel_count: usize,
    pub channels: [Channel; Plan::MOST_CHANNELS],
    /// The channel's place among those that enter its receiver.
    pub row: [usize; Plan::MOST_CHANNELS],
    pub parent_count: [usize; Plan::MOST_NODES],
    /// A bit for each node.
    pub sources: u32,
    pub sinks: u32,
    /// By node, then by its parent's number and 1.
    from: [[u8; Plan::MOST_NODES + 1]; Plan::MOST_NODES],
    leaving: [[usize; Plan::MOST_AT_A_NODE]; Plan::MOST_NODES],
    child_count: [usize; Plan::MOST_NODES],
}

impl Shape {
    /// The plan at the start of the bytes, if it would be accepted.
    pub fn read(bytes: &[u8]) -> Option<Shape> {
        let version = Version::read(bytes[2])?;
        let (node_count, channel_count) = (usize::from(bytes[3]), usize::from(bytes[4]));
        let length = version.plan_length(node_count, channel_count);
        let is_head_sound = (Plan::LEAST_NODES..=Plan::MOST_NODES).contains(&node_count)
            && (Plan::LEAST_CHANNELS..=Plan::MOST_CHANNELS).contains(&channel_count)
            && length_field(bytes) == length;
        if !is_head_sound {
            return None;
        }
        let (rules, channels) = bytes[Plan::HEADER..length].split_at(Rule::LENGTH * node_count);
        let mut rules = rules.chunks_exact(Rule::LENGTH);
        if !rules.all(|rule| Rule::read(rule.try_into().expect("its length")).is_some()) {
            return None;
        }
        let mut shape = Shape::without_channels(length, node_count);
        let mut last = (0, 0);
        for bytes in channels.chunks_exact(version.channel_length()) {
            let channel = Channel::spelled(version, bytes);
            let ends = (channel.sender, channel.receiver);
            if ends <= last || !channel.is_sound(node_count) || !shape.add(channel) {
                return None;
            }
            last = ends;
        }
        Some(shape)
    }

    fn without_channels(length: usize, node_count: usize) -> Shape {
        let all = (1 << node_count) - 1;
        Shape {
            length,
            node_count,
            channel_count: 0,
            channels: [Channel::between(0, 0); Plan::MOST_CHANNELS],
            row: [0; Plan::MOST_CHANNELS],
            parent_count: [0; Plan::MOST_NODES],
            sources: all,
            sinks: all,
            from: [[NO_CHANNEL; Plan::MOST_NODES + 1]; Plan::MOST_NODES],
            leaving: [[0; Plan::MOST_AT_A_NODE]; Plan::MOST_NODES],
            child_count: [0; Plan::MOST_NODES],
        }
    }

    /// False where one of its ends has no room for it.
    fn add(&mut self, channel: Channel) -> bool {
        let Channel {
            sender, receiver, ..
        } = channel;
        let row = self.parent_count[receiver];
        let child = self.child_count[sender];
        if row >= Plan::MOST_AT_A_NODE || child >= Plan::MOST_AT_A_NODE {
            return false;
        }
        let number = self.channel_count;
        self.channels[number] = channel;
        self.row[number] = row;
        self.from[receiver][sender + 1] = number as u8;
        self.leaving[sender][child] = number;
        self.parent_count[receiver] += 1;
        self.child_count[sender] += 1;
        self.sources &= !(1 << receiver);
        self.sinks &= !(1 << sender);
        self.channel_count += 1;
        true
    }

    /// The channel into the node that an origin's first byte names.
    pub fn entering(&self, node: usize, origin: u8) -> Option<usize> {
        match self.from[node].get(usize::from(origin)) {
            None | Some(&NO_CHANNEL) => None,
            Some(&number) => Some(usize::from(number)),
        }
    }

    pub fn leaving(&self, node: usize) -> &[usize] {
        &self.leaving[node][..self.child_count[node]]
    }

    pub fn sets(&self, node: usize) -> Sets {
        let leaving = self.leaving(node).iter();
        Sets::new(leaving.map(|&number| self.channels[number]))
    }
}
