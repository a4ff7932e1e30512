//! A line written to the bytes of a state.

use super::layout::*;
use crate::line::{Buffered, Entry, Line, Message, Node, Origin, Restart, Status, Target};

/// The line has no more of anything than there are slots.
pub fn line_bytes(line: &Line) -> Vec<u8> {
    let mut state = vec![0; LENGTH];
    put(&mut state, PLAN, &line.plan.write());
    for (console, &count) in line.steps.iter().enumerate() {
        put_number(&mut state, steps(console), count);
    }
    for (number, each) in line.nodes.iter().enumerate() {
        write_node(&mut state[node(number)..][..NODE_LENGTH], each);
    }
    for (number, (queue, ends)) in line.queues.iter().zip(&line.plan.channels).enumerate() {
        let block = &mut state[channel(number)..][..CHANNEL_LENGTH];
        put_number(block, MARK, queue.mark);
        write_slots(block, QUEUE, &queue.messages, write_message);
        let receiver = &line.nodes[ends.receiver];
        for (place, clock) in [(TAKEN, &receiver.clock), (LOW, &receiver.low_clock)] {
            let part = clock.part(ends.sender).expect("a parent");
            for (row, time) in part.times().into_iter().enumerate() {
                put_number(block, place + NUMBER * row, time);
            }
        }
    }
    state
}

fn write_node(block: &mut [u8], node: &Node) {
    block[STATUS] = match node.status {
        Status::Up => UP,
        Status::Down => DOWN,
        Status::Replaying => REPLAYING,
    };
    block[CRASH_MARK] = u8::from(node.crash_marked);
    put_number(block, TIME, node.time());
    write_slots(block, LOG, &node.log, write_entry);
    write_slots(block, BUFFERED, &node.buffered, write_buffered);
    let targets = match &node.kept {
        None => &node.targets,
        Some(kept) => {
            assert!(
                node.targets.is_empty(),
                "the kept ones stand in their place"
            );
            &kept.targets
        }
    };
    write_slots(block, TARGETS, targets, write_target);
    write_slots(block, KEPT, node.kept.as_slice(), write_kept);
}

fn write_slots<T>(block: &mut [u8], slots: Slots, parts: &[T], write: fn(&mut [u8], &T)) {
    assert!(parts.len() <= slots.most, "no more than there are slots");
    put_number(block, slots.count, parts.len() as u32);
    for (index, part) in parts.iter().enumerate() {
        write(&mut block[slots.slot(index)..][..slots.length], part);
    }
}

fn write_entry(slot: &mut [u8], entry: &Entry) {
    write_message(slot, &entry.message);
    write_origin(slot, INPUT_MADE_FROM, entry.input_made_from);
    slot[ENTRY_SET] = entry.set;
}

fn write_message(slot: &mut [u8], message: &Message) {
    put(slot, RECORD, &message.record.write());
    put_number(slot, MESSAGE_TIME, message.time);
    write_origin(slot, MADE_FROM, message.made_from);
}

fn write_buffered(slot: &mut [u8], held: &Buffered) {
    put(slot, RECORD, &held.record.write());
    slot[HELD_SENDER] = byte(held.made_from.sender);
    put_number(slot, HELD_TIME, held.made_from.time);
    write_origin(slot, HELD_INPUT_MADE_FROM, held.input_made_from);
}

fn write_target(slot: &mut [u8], target: &Target) {
    put_number(slot, TARGET_TIME, target.time);
    put_number(slot, TARGET_PARENT_TIME, target.parent_time);
    slot[TARGET_PARENT] = byte(target.parent);
}

fn write_kept(slot: &mut [u8], kept: &Restart) {
    put_number(slot, KEPT_LOW, kept.low);
    put_number(slot, KEPT_HIGH, kept.high);
    for (row, entry) in kept.restored.iter().enumerate() {
        put_number(slot, kept_restored(row), entry.time);
    }
}

fn write_origin(slot: &mut [u8], at: usize, origin: Option<Origin>) {
    if let Some(Origin { sender, time }) = origin {
        slot[at] = byte(sender + 1);
        put_number(slot, at + 1, time);
    }
}

fn byte(number: usize) -> u8 {
    u8::try_from(number).expect("a number of one byte")
}
