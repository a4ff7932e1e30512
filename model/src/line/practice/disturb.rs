//! Lines that no frames lead to.

use crate::line::{restart, Line, Status};
use crate::plan::practice::MASSES;
use crate::random::Random;
use crate::record::Record;

/// Changes one number, one sender or one part anywhere in the line.
pub fn disturb(random: &mut Random, line: &mut Line) {
    let number = random.index(line.nodes.len());
    let channel = random.index(line.queues.len());
    let some_node = random.index(line.nodes.len());
    let early = random.between(0, 12);
    // Where times are late: about that of the node, a parent or the channel's.
    let known = [
        line.nodes[number].time(),
        line.nodes[line.plan.parents(number).next().unwrap_or(number)].time(),
        line.queues[channel].mark,
    ];
    let near = (random.pick(&known) + 4).saturating_sub(random.between(0, 12));
    let time = random.pick(&[early, near]);
    let material = random.pick(&[0, 1, 2, 3]);
    let mass = random.pick(&MASSES);
    let is_tick = random.one_in(8);
    let change_record = |record: &mut Record| {
        *record = match is_tick {
            true => Record::TICK,
            false => Record {
                material,
                mass,
                ..*record
            },
        };
    };
    let plan = &line.plan;
    let node = &mut line.nodes[number];
    let queue = &mut line.queues[channel];
    let entry = random.draw() as usize % node.log.len().max(1);
    let held = random.draw() as usize % node.buffered.len().max(1);
    let message = random.draw() as usize % queue.messages.len().max(1);
    match random.index(17) {
        0 => node.clock.time = time,
        1 | 2 => {
            let parts = node.clock.parents.len();
            if parts > 0 {
                let part = &mut node.clock.parents[random.index(parts)];
                part.time = time;
                for before in &mut part.parents {
                    before.time = before.time.max(time);
                }
            }
        }
        3 | 4 => {
            if let Some(entry) = node.log.get_mut(entry) {
                if let Some(input) = &mut entry.message.made_from {
                    input.time = time;
                }
                change_record(&mut entry.message.record);
                entry.set = plan.set_of(number, &entry.message.record);
            }
        }
        5 => {
            if let Some(entry) = node.log.get_mut(entry) {
                if let Some(origin) = &mut entry.input_made_from {
                    origin.time = time;
                    origin.sender = random.pick(&[origin.sender, some_node]);
                }
            }
        }
        6 => {
            if let Some(entry) = node.log.get_mut(entry) {
                entry.message.time = time;
            }
        }
        7 => {
            if let Some(held) = node.buffered.get_mut(held) {
                held.made_from.time = time;
                change_record(&mut held.record);
            }
        }
        8 => queue.mark = time,
        9 => {
            if let Some(message) = queue.messages.get_mut(message) {
                message.time = time;
                change_record(&mut message.record);
            }
        }
        10 => {
            if message < queue.messages.len() {
                queue.messages.remove(message);
            }
        }
        11 => {
            if held < node.buffered.len() {
                node.buffered.remove(held);
            }
        }
        12 => {
            if entry < node.log.len() {
                node.log.remove(entry);
            }
        }
        13 | 14 => {
            // Up to the clock, or just above.
            let parts = node.low_clock.parents.len();
            if parts > 0 {
                let number = random.index(parts);
                let part = &mut node.low_clock.parents[number];
                let entries = node.clock.parents[number].times();
                let place = random.index(entries.len());
                let any = random.between(0, entries[place]);
                let low = match place.checked_sub(1) {
                    None => &mut part.time,
                    Some(row) => &mut part.parents[row].time,
                };
                *low = random.pick(&[any, any, entries[place], entries[place] + 1]);
            }
        }
        15 => {
            if let Some(kept) = &mut node.kept {
                let entry = random.index(kept.restored.len());
                let number = match random.index(3) {
                    0 => &mut kept.low,
                    1 => &mut kept.high,
                    _ => &mut kept.restored[entry].time,
                };
                *number = random.pick(&[time, *number + 1, number.saturating_sub(1)]);
            }
        }
        _ => {
            // What two entries' inputs were made from, exchanged.
            if entry < node.log.len() {
                let other = random.index(node.log.len());
                let (first, second) = (node.log[entry], node.log[other]);
                node.log[entry].input_made_from = second.input_made_from;
                node.log[other].input_made_from = first.input_made_from;
            }
        }
    }
}

/// Gives log entries the sets of a plan or of records that are new.
pub fn give_sets(line: &mut Line) {
    for (number, node) in line.nodes.iter_mut().enumerate() {
        for entry in &mut node.log {
            entry.set = line.plan.set_of(number, &entry.message.record);
        }
    }
}

/// Gives replaying nodes the time and targets of their children's new logs, and nodes that
/// keep an answer the new one.
pub fn retarget(line: &mut Line) {
    for number in 0..line.nodes.len() {
        let (status, keeps) = (line.nodes[number].status, line.nodes[number].kept.is_some());
        if status == Status::Replaying {
            let told = restart(line, number);
            line.nodes[number].clock.time = told.low;
            line.nodes[number].targets = told.targets;
        } else if keeps {
            line.nodes[number].kept = Some(restart(line, number));
        }
    }
}
