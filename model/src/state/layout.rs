//! docs/LAYOUT.md: where the parts of a line stand in the bytes of a state.
//! Numbers are big-endian; every byte not named here is unused and 0.

use crate::line::Line;
use crate::plan::Plan;
use crate::record::Record;

/// "A lent buffer of 61,440 bytes."
pub const LENGTH: usize = 61_440;

/// The plan's own bytes.
pub const PLAN: usize = 0;
pub const PLAN_SPACE: usize = 512;
/// The counts of accepted steps, one a console.
pub const STEPS: usize = 512;
pub const STEPS_END: usize = steps(Line::CONSOLES);
pub const HEAD_LENGTH: usize = 4096;

/// A time, a mark or a count.
pub const NUMBER: usize = 4;
/// What a message was made from: the sender's number and 1, 0 for none, then
/// the sender's time, 0 for none.
pub const ORIGIN: usize = 1 + NUMBER;

pub const fn steps(console: usize) -> usize {
    STEPS + NUMBER * console
}

pub fn node(number: usize) -> usize {
    HEAD_LENGTH + NODE_LENGTH * number
}

pub fn channel(number: usize) -> usize {
    node(Plan::MOST_NODES) + CHANNEL_LENGTH * number
}

/// The bytes after the last channel's are unused.
pub fn tail() -> usize {
    channel(Plan::MOST_CHANNELS)
}

/// A list: its count, then slots of one length. Those past the count are unused.
#[derive(Clone, Copy, Debug)]
pub struct Slots {
    pub count: usize,
    pub length: usize,
    pub most: usize,
}

impl Slots {
    pub const fn slot(&self, index: usize) -> usize {
        self.count + NUMBER + self.length * index
    }

    pub const fn end(&self) -> usize {
        self.slot(self.most)
    }
}

/// Places within the block of a node.
pub const NODE_LENGTH: usize = 4096;
pub const STATUS: usize = 0;
pub const CRASH_MARK: usize = 1;
pub const TIME: usize = 4;
pub const LOG: Slots = Slots {
    count: 8,
    length: 24,
    most: Line::MOST_ENTRIES,
};
/// The paper's held list.
pub const BUFFERED: Slots = Slots {
    count: LOG.end(),
    length: 20,
    most: Line::MOST_BUFFERED,
};
pub const TARGETS: Slots = Slots {
    count: BUFFERED.end(),
    length: 12,
    most: Line::MOST_TARGETS,
};
/// One answer or none: low, high and the restored entries, parents rising. Its targets
/// stand in the node's slots for them.
pub const KEPT: Slots = Slots {
    count: TARGETS.end(),
    length: KEPT_RESTORED + NUMBER * Plan::MOST_AT_A_NODE,
    most: 1,
};

/// Values of a node's status.
pub const UP: u8 = 0;
pub const DOWN: u8 = 1;
pub const REPLAYING: u8 = 2;

/// Places within the block of a channel.
pub const CHANNEL_LENGTH: usize = 320;
pub const MARK: usize = 0;
/// The receiver's clock entry for the sender.
pub const TAKEN: usize = 4;
/// The receiver's entries for the sender's parents, parents rising.
pub const HEARD: usize = 8;
pub const QUEUE: Slots = Slots {
    count: HEARD + NUMBER * Plan::MOST_AT_A_NODE,
    length: 20,
    most: Line::MOST_MESSAGES,
};

/// The receiver's low clock: for the sender, then for the sender's parents.
pub const LOW: usize = QUEUE.end();
pub const LOW_END: usize = low_heard(Plan::MOST_AT_A_NODE);

pub const fn heard(row: usize) -> usize {
    HEARD + NUMBER * row
}

pub const fn low_heard(row: usize) -> usize {
    LOW + heard(row) - TAKEN
}

/// Places within a slot; each but a target begins with its record.
pub const RECORD: usize = 0;
/// The time of a log entry or a message on a channel.
pub const MESSAGE_TIME: usize = Record::LENGTH;
pub const MADE_FROM: usize = MESSAGE_TIME + NUMBER;
pub const INPUT_MADE_FROM: usize = MADE_FROM + ORIGIN;
/// A bit for each of the node's leaving channels, the first lowest.
pub const ENTRY_SET: usize = INPUT_MADE_FROM + ORIGIN;
pub const ENTRY_USED: usize = ENTRY_SET + 1;
pub const MESSAGE_USED: usize = MADE_FROM + ORIGIN;

/// The sender's own number here: a held record has one.
pub const HELD_SENDER: usize = Record::LENGTH;
pub const HELD_TIME: usize = HELD_SENDER + 1;
pub const HELD_INPUT_MADE_FROM: usize = HELD_TIME + NUMBER;
pub const HELD_USED: usize = HELD_INPUT_MADE_FROM + ORIGIN;

pub const TARGET_TIME: usize = 0;
pub const TARGET_PARENT_TIME: usize = 4;
pub const TARGET_PARENT: usize = 8;
pub const TARGET_USED: usize = 9;

/// Places within a kept answer.
pub const KEPT_LOW: usize = 0;
pub const KEPT_HIGH: usize = NUMBER;
pub const KEPT_RESTORED: usize = 2 * NUMBER;

pub const fn kept_restored(row: usize) -> usize {
    KEPT_RESTORED + NUMBER * row
}

/// Places within a record.
pub const PIECE: usize = 0;
pub const MATERIAL: usize = 4;
pub const RECORD_ZERO: usize = 5;
pub const MASS: usize = 6;

pub fn number_at(bytes: &[u8], at: usize) -> u32 {
    u32::from_be_bytes(bytes[at..at + NUMBER].try_into().expect("its length"))
}

pub fn put_number(bytes: &mut [u8], at: usize, number: u32) {
    put(bytes, at, &number.to_be_bytes());
}

pub fn put(bytes: &mut [u8], at: usize, part: &[u8]) {
    bytes[at..at + part.len()].copy_from_slice(part);
}
