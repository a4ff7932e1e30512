//! Document 01, "The line", and requests 2026-02, 2026-05, 2026-06 and 2026-08: the plan,
//! read and written by one layout, and which channels take a record.

pub mod practice;

use crate::answer::{
    PLAN_CHANNEL, PLAN_COUNTS, PLAN_DEGREE, PLAN_LENGTH, PLAN_RULE, PLAN_SIZE, PLAN_VERSION,
};
use crate::record::Record;
use crate::rule::Rule;

/// "A plan of version 2 gives each belt a least and a greatest mass."
#[derive(Clone, Copy, Debug, PartialEq, Eq)]
pub enum Version {
    First = 1,
    Second = 2,
}

impl Version {
    pub const ALL: [Version; 2] = [Version::First, Version::Second];

    pub fn read(byte: u8) -> Option<Version> {
        match byte {
            1 => Some(Version::First),
            2 => Some(Version::Second),
            _ => None,
        }
    }

    /// "M belts of 6"; in version 2 "a belt is 10 bytes".
    pub fn channel_length(self) -> usize {
        match self {
            Version::First => 6,
            Version::Second => 10,
        }
    }

    /// 5 + 4N + 6M; in version 2 "check 4 counts 10M".
    pub fn plan_length(self, node_count: usize, channel_count: usize) -> usize {
        Plan::HEADER + Rule::LENGTH * node_count + self.channel_length() * channel_count
    }
}

/// The masses that a channel takes; both ends belong to it.
#[derive(Clone, Copy, Debug, PartialEq, Eq)]
pub struct Window {
    pub least: u16,
    pub greatest: u16,
}

impl Window {
    /// "A version 1 belt reads as 0..65535."
    pub const ALL: Window = Window {
        least: 0,
        greatest: u16::MAX,
    };

    #[inline]
    pub fn has(&self, mass: u16) -> bool {
        self.least <= mass && mass <= self.greatest
    }
}

/// The paper's belt.
#[derive(Clone, Copy, Debug, PartialEq, Eq)]
pub struct Channel {
    pub sender: usize,
    pub receiver: usize,
    pub mask: u16,
    pub modulus: u8,
    pub remainder: u8,
    pub window: Window,
}

impl Channel {
    /// It takes all records.
    pub const fn between(sender: usize, receiver: usize) -> Channel {
        Channel {
            sender,
            receiver,
            mask: 0xFFFF,
            modulus: 1,
            remainder: 0,
            window: Window::ALL,
        }
    }

    /// "A belt: sender, receiver, mask (2 bytes), modulus, remainder"; in version
    /// 2 "a least and a greatest mass, 2 bytes each, after the remainder". Also of
    /// a plan that would be refused.
    #[inline]
    pub fn spelled(version: Version, bytes: &[u8]) -> Channel {
        let number = |at: usize| u16::from_be_bytes([bytes[at], bytes[at + 1]]);
        Channel {
            sender: usize::from(bytes[0]),
            receiver: usize::from(bytes[1]),
            mask: number(2),
            modulus: bytes[4],
            remainder: bytes[5],
            window: match version {
                Version::First => Window::ALL,
                Version::Second => Window {
                    least: number(6),
                    greatest: number(8),
                },
            },
        }
    }

    /// "Modulus 1..255, remainder below the modulus. Sender < receiver < N, the
    /// mask is not 0." "A least mass above the greatest is 6."
    pub fn is_sound(&self, node_count: usize) -> bool {
        self.sender < self.receiver
            && self.receiver < node_count
            && self.mask != 0
            && self.modulus >= 1
            && self.remainder < self.modulus
            && self.window.least <= self.window.greatest
    }

    fn write(&self, version: Version, bytes: &mut Vec<u8>) {
        bytes.extend([self.sender as u8, self.receiver as u8]);
        bytes.extend(self.mask.to_be_bytes());
        bytes.extend([self.modulus, self.remainder]);
        if version == Version::Second {
            bytes.extend(self.window.least.to_be_bytes());
            bytes.extend(self.window.greatest.to_be_bytes());
        }
    }

    /// "A belt takes a record if mask bit `material` (bit 0 lowest) is set and
    /// piece mod modulus = remainder, tested after the node's rule", and "the
    /// test gains this window". Of a tick: "every belt takes it". The record is one
    /// that the rule has been applied to.
    #[inline]
    pub fn takes(&self, record: &Record) -> bool {
        if record.is_tick() {
            return true;
        }
        let wanted = 1 << record.material;
        self.mask & wanted != 0
            && self.window.has(record.mass)
            && record.piece % u32::from(self.modulus) == u32::from(self.remainder)
    }
}

#[derive(Clone, Debug, PartialEq, Eq)]
pub struct Plan {
    /// "Write gives back the version that was loaded."
    pub version: Version,
    /// One a node.
    pub rules: Vec<Rule>,
    pub channels: Vec<Channel>,
}

impl Plan {
    pub const HEADER: usize = 5;
    pub const LEAST_NODES: usize = 2;
    pub const MOST_NODES: usize = 12;
    pub const LEAST_CHANNELS: usize = 1;
    pub const MOST_CHANNELS: usize = 24;
    /// "At most 4 belts enter and 4 leave a node."
    pub const MOST_AT_A_NODE: usize = 4;

    /// Checks 1 to 7, in rising order.
    pub fn read(bytes: &[u8]) -> Result<Plan, u32> {
        if bytes.len() < Plan::HEADER || bytes.len() != length_field(bytes) {
            return Err(PLAN_LENGTH);
        }
        let version = Version::read(bytes[2]).ok_or(PLAN_VERSION)?;
        let node_count = usize::from(bytes[3]);
        let channel_count = usize::from(bytes[4]);
        if !(Plan::LEAST_NODES..=Plan::MOST_NODES).contains(&node_count)
            || !(Plan::LEAST_CHANNELS..=Plan::MOST_CHANNELS).contains(&channel_count)
        {
            return Err(PLAN_COUNTS);
        }
        if bytes.len() != version.plan_length(node_count, channel_count) {
            return Err(PLAN_SIZE);
        }
        let (rules, channels) = bytes[Plan::HEADER..].split_at(node_count * Rule::LENGTH);
        let rules: Option<Vec<Rule>> = rules
            .chunks_exact(Rule::LENGTH)
            .map(|bytes| Rule::read(bytes.try_into().expect("its length")))
            .collect();
        let channels = channels.chunks_exact(version.channel_length());
        let plan = Plan {
            version,
            rules: rules.ok_or(PLAN_RULE)?,
            channels: channels
                .map(|bytes| Channel::spelled(version, bytes))
                .collect(),
        };
        if !plan.are_channels_sound() || !plan.channels_rise() {
            return Err(PLAN_CHANNEL);
        }
        if !plan.degrees_fit() {
            return Err(PLAN_DEGREE);
        }
        Ok(plan)
    }

    /// "Length of the whole plan (2 bytes), version, node count N 2..12, belt
    /// count M 1..24; then N rules of 4 bytes, then M belts."
    pub fn write(&self) -> Vec<u8> {
        let (node_count, channel_count) = (self.rules.len(), self.channels.len());
        let length = self.version.plan_length(node_count, channel_count);
        let mut bytes = Vec::with_capacity(length);
        bytes.extend((length as u16).to_be_bytes());
        bytes.extend([self.version as u8, node_count as u8, channel_count as u8]);
        bytes.extend(self.rules.iter().flat_map(Rule::write));
        for channel in &self.channels {
            channel.write(self.version, &mut bytes);
        }
        bytes
    }

    fn are_channels_sound(&self) -> bool {
        let mut channels = self.channels.iter();
        channels.all(|channel| channel.is_sound(self.node_count()))
    }

    /// "Belts rise strictly by sender then receiver."
    fn channels_rise(&self) -> bool {
        self.channels
            .windows(2)
            .all(|pair| (pair[0].sender, pair[0].receiver) < (pair[1].sender, pair[1].receiver))
    }

    fn degrees_fit(&self) -> bool {
        (0..self.node_count()).all(|node| {
            self.entering(node).count() <= Plan::MOST_AT_A_NODE
                && self.leaving(node).count() <= Plan::MOST_AT_A_NODE
        })
    }

    pub fn node_count(&self) -> usize {
        self.rules.len()
    }

    /// The numbers of the entering channels, parents rising.
    pub fn entering(&self, node: usize) -> impl Iterator<Item = usize> + '_ {
        (0..self.channels.len()).filter(move |&channel| self.channels[channel].receiver == node)
    }

    /// The numbers of the leaving channels, children rising.
    pub fn leaving(&self, node: usize) -> impl Iterator<Item = usize> + '_ {
        (0..self.channels.len()).filter(move |&channel| self.channels[channel].sender == node)
    }

    /// Rising.
    pub fn parents(&self, node: usize) -> impl Iterator<Item = usize> + '_ {
        self.entering(node)
            .map(|channel| self.channels[channel].sender)
    }

    /// Rising.
    pub fn children(&self, node: usize) -> impl Iterator<Item = usize> + '_ {
        self.leaving(node)
            .map(|channel| self.channels[channel].receiver)
    }

    /// The paper's infeed: "A node without entering belts."
    pub fn is_source(&self, node: usize) -> bool {
        self.entering(node).next().is_none()
    }

    /// The paper's outfeed: "without leaving belts".
    pub fn is_sink(&self, node: usize) -> bool {
        self.leaving(node).next().is_none()
    }

    /// "The set of belts that take" the record, "one bit a belt": the first of the
    /// node's leaving channels is bit 0. The node's rule has been applied to it.
    pub fn set_of(&self, node: usize, record: &Record) -> u8 {
        self.leaving(node)
            .enumerate()
            .filter(|&(_, channel)| self.channels[channel].takes(record))
            .fold(0, |set, (place, _)| set | 1 << place)
    }

    /// Whether some leaving channel of the node takes the record.
    pub fn passes_on(&self, node: usize, record: &Record) -> bool {
        self.set_of(node, record) != 0
    }

    /// Not: "a record taken by a node that has leaving belts, when none of them takes
    /// it, gets no time of its own". The node's rule has been applied to it.
    pub fn is_timed(&self, node: usize, record: &Record) -> bool {
        self.is_sink(node) || self.passes_on(node, record)
    }

    /// "Log times may repeat, or be 0, at such entries only": of what the node has taken, not
    /// been fed.
    pub fn may_repeat(&self, node: usize, record: &Record) -> bool {
        !self.is_source(node) && !self.is_timed(node, record)
    }
}

/// The first two bytes, which give the length of a plan or frame.
pub fn length_field(bytes: &[u8]) -> usize {
    usize::from(u16::from_be_bytes([bytes[0], bytes[1]]))
}

#[cfg(test)]
mod tests {
    use super::*;

    fn plan_of(node_count: u8, channels: &[[u8; 6]]) -> Vec<u8> {
        bytes_of(1, node_count, channels)
    }

    fn bytes_of<const LENGTH: usize>(
        version: u8,
        node_count: u8,
        channels: &[[u8; LENGTH]],
    ) -> Vec<u8> {
        let length = 5 + 4 * usize::from(node_count) + LENGTH * channels.len();
        let [high, low] = (length as u16).to_be_bytes();
        let mut bytes = vec![high, low, version, node_count, channels.len() as u8];
        bytes.extend(vec![0; 4 * usize::from(node_count)]);
        bytes.extend(channels.concat());
        bytes
    }

    fn edge(sender: u8, receiver: u8) -> [u8; 6] {
        [sender, receiver, 255, 255, 1, 0]
    }

    fn windowed(sender: u8, receiver: u8, window: [u8; 4]) -> [u8; 10] {
        let [a, b, c, d] = window;
        [sender, receiver, 255, 255, 1, 0, a, b, c, d]
    }

    fn answer(bytes: &[u8]) -> u32 {
        Plan::read(bytes).err().unwrap_or(0)
    }

    /// The answer to the plan with one byte changed.
    fn changed(bytes: &[u8], index: usize, byte: u8) -> u32 {
        let mut bytes = bytes.to_vec();
        bytes[index] = byte;
        answer(&bytes)
    }

    #[test]
    fn written_as_read() {
        let bytes = plan_of(3, &[edge(0, 1), edge(0, 2), edge(1, 2)]);
        let plan = Plan::read(&bytes).unwrap();
        assert_eq!(plan.write(), bytes);
        assert!(plan.is_source(0) && !plan.is_sink(0));
        assert!(!plan.is_source(1) && !plan.is_sink(1));
        assert!(!plan.is_source(2) && plan.is_sink(2));
        assert_eq!(plan.parents(2).collect::<Vec<_>>(), [0, 1]);
        assert_eq!(plan.children(0).collect::<Vec<_>>(), [1, 2]);
    }

    #[test]
    fn refusals() {
        let bytes = plan_of(2, &[edge(0, 1)]);
        assert_eq!(changed(&bytes, 1, 19), 0);
        assert_eq!(Plan::read(&[0, 5, 1]), Err(1));
        assert_eq!(Plan::read(&[0, 4, 1, 2]), Err(1));
        assert_eq!(Plan::read(&[]), Err(1));
        assert_eq!(changed(&bytes, 1, 18), 1);
        assert_eq!(changed(&bytes, 0, 1), 1);
        for version in [0, 3, 129, 255] {
            assert_eq!(changed(&bytes, 2, version), 2);
        }
        assert_eq!(changed(&bytes, 2, 2), 4);
        assert_eq!(changed(&bytes, 3, 1), 3);
        assert_eq!(changed(&bytes, 3, 13), 3);
        assert_eq!(changed(&bytes, 4, 0), 3);
        assert_eq!(changed(&bytes, 4, 25), 3);
        assert_eq!(changed(&bytes, 4, 2), 4);
        let mut short = bytes.clone();
        short.pop();
        short[1] = 18;
        assert_eq!(Plan::read(&short), Err(4));
        assert_eq!(changed(&bytes, 5, 3), 5);
        for (index, byte) in [(13, 1), (14, 0), (14, 2), (17, 0), (18, 1)] {
            assert_eq!(changed(&bytes, index, byte), 6);
        }
        let mut no_mask = bytes.clone();
        no_mask[15..17].fill(0);
        assert_eq!(Plan::read(&no_mask), Err(6));
        let falling = plan_of(3, &[edge(0, 2), edge(0, 1)]);
        assert_eq!(Plan::read(&falling), Err(6));
        let twice = plan_of(3, &[edge(0, 1), edge(0, 1)]);
        assert_eq!(Plan::read(&twice), Err(6));
        let out: Vec<[u8; 6]> = (1..=5).map(|receiver| edge(0, receiver)).collect();
        assert_eq!(Plan::read(&plan_of(6, &out)), Err(7));
        assert!(Plan::read(&plan_of(6, &out[..4])).is_ok());
        let into: Vec<[u8; 6]> = (0..5).map(|sender| edge(sender, 5)).collect();
        assert_eq!(Plan::read(&plan_of(6, &into)), Err(7));
        assert!(Plan::read(&plan_of(6, &into[..4])).is_ok());
    }

    #[test]
    fn rule_is_refused_before_a_channel() {
        let mut bytes = plan_of(2, &[edge(1, 1)]);
        bytes[5] = 3;
        assert_eq!(Plan::read(&bytes), Err(5));
    }

    /// "A belt is 10 bytes and check 4 counts 10M."
    #[test]
    fn version_two() {
        let bytes = bytes_of(2, 2, &[windowed(0, 1, [1, 2, 3, 4])]);
        assert_eq!(bytes.len(), 23);
        let plan = Plan::read(&bytes).unwrap();
        let (least, greatest) = (0x0102, 0x0304);
        assert_eq!(plan.channels[0].window, Window { least, greatest });
        assert_eq!(plan.write(), bytes);
        assert_eq!(changed(&bytes, 2, 1), 4);
        assert_eq!(answer(&bytes_of(2, 2, &[edge(0, 1)])), 4);
        let narrow = windowed(0, 1, [0; 4]);
        assert_eq!(answer(&bytes_of(1, 2, &[narrow])), 4);
        let most: Vec<[u8; 10]> = (0..12)
            .flat_map(|sender| [1, 2, 3].map(|step| windowed(sender, sender + step, [0; 4])))
            .filter(|channel| channel[1] < 12)
            .take(24)
            .collect();
        let longest = bytes_of(2, 12, &most);
        assert_eq!((longest.len(), answer(&longest)), (293, 0));
    }

    /// "A version 1 belt reads as 0..65535."
    #[test]
    fn version_one_has_all_masses() {
        let first = Plan::read(&plan_of(3, &[edge(0, 1), edge(1, 2)])).unwrap();
        let all = [0, 0, 255, 255];
        let second = [windowed(0, 1, all), windowed(1, 2, all)];
        let second = Plan::read(&bytes_of(2, 3, &second)).unwrap();
        assert_eq!(first.channels, second.channels);
        assert_eq!(first.rules, second.rules);
        assert_ne!(first, second);
    }

    /// "A least mass above the greatest is 6", before 7 and after 5.
    #[test]
    fn least_above_greatest() {
        for (window, expected) in [
            ([0, 5, 0, 5], 0),
            ([0, 6, 0, 5], 6),
            ([1, 0, 0, 255], 6),
            ([0, 255, 1, 0], 0),
            ([255, 255, 255, 255], 0),
            ([255, 255, 255, 254], 6),
            ([0, 0, 0, 0], 0),
        ] {
            let bytes = bytes_of(2, 2, &[windowed(0, 1, window)]);
            assert_eq!(answer(&bytes), expected, "{window:?}");
            assert_eq!(changed(&bytes, 5, 3), 5);
        }
        let all = [0, 0, 255, 255];
        let mut out: Vec<[u8; 10]> = (1..=5).map(|receiver| windowed(0, receiver, all)).collect();
        assert_eq!(answer(&bytes_of(2, 6, &out)), 7);
        out[4] = windowed(0, 5, [0, 1, 0, 0]);
        assert_eq!(answer(&bytes_of(2, 6, &out)), 6);
    }

    #[test]
    fn taken_by_material_remainder_and_mass() {
        let channel = Channel {
            mask: 0x8001,
            modulus: 3,
            remainder: 2,
            window: Window {
                least: 50,
                greatest: 100,
            },
            ..Channel::between(0, 1)
        };
        let takes = |piece, material, mass| {
            channel.takes(&Record {
                piece,
                material,
                mass,
            })
        };
        assert!(takes(2, 0, 75) && takes(5, 15, 75));
        assert!(!takes(3, 0, 75) && !takes(2, 1, 75));
        // Both ends belong to the window.
        assert!(takes(2, 0, 50) && takes(2, 0, 100));
        assert!(!takes(2, 0, 49) && !takes(2, 0, 101));
        assert!(!takes(2, 0, 0) && !takes(2, 0, 65535));
    }

    /// Neither mask nor modulus nor window is asked of a tick.
    #[test]
    fn tick_taken_by_all() {
        let open = Channel::between(0, 1);
        let masked = |mask| Channel { mask, ..open };
        let other_remainder = Channel {
            modulus: 255,
            remainder: 254,
            ..open
        };
        let heavy = Channel {
            window: Window {
                least: 1,
                greatest: 65535,
            },
            ..open
        };
        for channel in [masked(1), masked(0x7FFF), other_remainder, heavy] {
            assert!(channel.takes(&Record::TICK), "{channel:?}");
        }
        // What is no tick is asked.
        let none = Record {
            material: 15,
            ..Record::TICK
        };
        assert!(open.takes(&none) && masked(0x8000).takes(&none));
        for channel in [masked(0x7FFF), other_remainder, heavy] {
            assert!(!channel.takes(&none), "{channel:?}");
        }
    }
}
