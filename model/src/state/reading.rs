//! The line that the bytes of a state are those of.

use std::array::from_fn;
use std::mem::take;

use super::layout::*;
use super::writing::line_bytes;
use crate::clock::Clock;
use crate::line::{Buffered, Entry, Line, Message, Node, Origin, Queue, Restart, Status, Target};
use crate::plan::{length_field, Plan};
use crate::record::Record;

/// None where the bytes are not what the layout writes for any line with an
/// accepted plan.
pub fn read_line(state: &[u8]) -> Option<Line> {
    if state.len() != LENGTH {
        return None;
    }
    let line = named_parts(state)?;
    // The bytes that the layout does not name are 0: so it writes them.
    (line_bytes(&line) == state).then_some(line)
}

fn named_parts(state: &[u8]) -> Option<Line> {
    let plan = state[PLAN..PLAN_SPACE].get(..length_field(state))?;
    let plan = Plan::read(plan).ok()?;
    let nodes: Option<Vec<Node>> = (0..plan.node_count())
        .map(|number| read_node(state, &plan, number))
        .collect();
    let queues: Option<Vec<Queue>> = (0..plan.channels.len())
        .map(|number| read_queue(&state[channel(number)..][..CHANNEL_LENGTH]))
        .collect();
    Some(Line {
        steps: from_fn(|console| number_at(state, steps(console))),
        nodes: nodes?,
        queues: queues?,
        plan,
    })
}

fn read_node(state: &[u8], plan: &Plan, number: usize) -> Option<Node> {
    let block = &state[node(number)..][..NODE_LENGTH];
    let mut targets = read_slots(block, TARGETS, read_target)?;
    let mut kept = read_slots(block, KEPT, |slot| read_kept(slot, plan, number))?.pop();
    if let Some(kept) = &mut kept {
        kept.targets = take(&mut targets);
    }
    Some(Node {
        status: match block[STATUS] {
            UP => Status::Up,
            DOWN => Status::Down,
            REPLAYING => Status::Replaying,
            _ => return None,
        },
        crash_marked: match block[CRASH_MARK] {
            0 => false,
            1 => true,
            _ => return None,
        },
        clock: Clock {
            time: number_at(block, TIME),
            ..read_parts(state, plan, number, TAKEN)
        },
        low_clock: read_parts(state, plan, number, LOW),
        log: read_slots(block, LOG, read_entry)?,
        buffered: read_slots(block, BUFFERED, read_buffered)?,
        targets,
        kept,
    })
}

/// The parts of a clock stand with the entering channels, each at such a place.
fn read_parts(state: &[u8], plan: &Plan, number: usize, place: usize) -> Clock {
    let mut clock = Clock::empty(plan, number);
    for (part, entering) in clock.parents.iter_mut().zip(plan.entering(number)) {
        let times = state[channel(entering) + place..].chunks_exact(NUMBER);
        let before = part.parents.iter_mut().map(|before| &mut before.time);
        for (time, bytes) in [&mut part.time].into_iter().chain(before).zip(times) {
            *time = number_at(bytes, 0);
        }
    }
    clock
}

fn read_queue(block: &[u8]) -> Option<Queue> {
    Some(Queue {
        mark: number_at(block, MARK),
        messages: read_slots(block, QUEUE, read_message)?,
    })
}

fn read_slots<T>(block: &[u8], slots: Slots, read: impl Fn(&[u8]) -> T) -> Option<Vec<T>> {
    let count = number_at(block, slots.count) as usize;
    if count > slots.most {
        return None;
    }
    let parts = (0..count).map(|index| read(&block[slots.slot(index)..][..slots.length]));
    Some(parts.collect())
}

fn read_entry(slot: &[u8]) -> Entry {
    Entry {
        message: read_message(slot),
        input_made_from: read_origin(slot, INPUT_MADE_FROM),
        set: slot[ENTRY_SET],
    }
}

fn read_message(slot: &[u8]) -> Message {
    Message {
        record: read_record(slot),
        time: number_at(slot, MESSAGE_TIME),
        made_from: read_origin(slot, MADE_FROM),
    }
}

fn read_buffered(slot: &[u8]) -> Buffered {
    Buffered {
        record: read_record(slot),
        made_from: Origin {
            sender: usize::from(slot[HELD_SENDER]),
            time: number_at(slot, HELD_TIME),
        },
        input_made_from: read_origin(slot, HELD_INPUT_MADE_FROM),
    }
}

fn read_target(slot: &[u8]) -> Target {
    Target {
        time: number_at(slot, TARGET_TIME),
        parent: usize::from(slot[TARGET_PARENT]),
        parent_time: number_at(slot, TARGET_PARENT_TIME),
    }
}

/// Without its targets.
fn read_kept(slot: &[u8], plan: &Plan, number: usize) -> Restart {
    let restored = plan.parents(number).enumerate();
    Restart {
        low: number_at(slot, KEPT_LOW),
        high: number_at(slot, KEPT_HIGH),
        restored: restored
            .map(|(row, sender)| Origin {
                sender,
                time: number_at(slot, kept_restored(row)),
            })
            .collect(),
        targets: Vec::new(),
    }
}

/// Also of a material that no record has: that is a damage of its own.
pub fn read_record(slot: &[u8]) -> Record {
    Record {
        piece: number_at(slot, PIECE),
        material: slot[MATERIAL],
        mass: u16::from_be_bytes([slot[MASS], slot[MASS + 1]]),
    }
}

fn read_origin(slot: &[u8], at: usize) -> Option<Origin> {
    let sender = usize::from(slot[at]).checked_sub(1)?;
    let time = number_at(slot, at + 1);
    Some(Origin { sender, time })
}
