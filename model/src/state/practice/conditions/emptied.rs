use super::*;
use crate::line::practice::reach;
use crate::line::{Buffered, Entry, Message, Origin, Status, Target};
use crate::state::practice::runs::any_record;

/// What is put there is sound but for its place, where that can be.
pub const HOLDING: Clause = Clause {
    words: "a down node's belts or emptied parts, an up node's targets or held list, a replaying \
            node's log or leaving belts hold anything",
    conditions: &[
        line("down: time", |random, line| {
            let node = down(random, line)?;
            line.nodes[node].clock.time = random.between(1, line.accepted_steps());
            Some(())
        }),
        line("down: entry for a parent", |random, line| {
            let node = down(random, line)?;
            let parent = pick::any(random, line.plan.parents(node))?;
            let time = random.between(1, line.accepted_steps());
            line.nodes[node].clock.raise_taken(parent, time);
            Some(())
        }),
        line("down: time heard of a parent's parent", |random, line| {
            let node = down(random, line)?;
            let parent = pick::any(random, line.plan.parents(node))?;
            let before = pick::any(random, line.plan.parents(parent))?;
            let time = random.between(1, line.accepted_steps());
            line.nodes[node].clock.raise_heard(parent, before, time);
            Some(())
        }),
        line("down: log", |random, line| {
            let node = down(random, line)?;
            let held = receive(random, line, node)?;
            line.nodes[node].clock.time = 1;
            let entry = logged(line, node, held, 1);
            line.nodes[node].log.push(entry);
            Some(())
        }),
        line("down: log alone", |random, line| {
            let node = down(random, line)?;
            let held = any_held(random, line, node)?;
            let entry = logged(line, node, held, 1);
            line.nodes[node].log.push(entry);
            Some(())
        }),
        line("down: held list", |random, line| {
            let node = down(random, line)?;
            let held = receive(random, line, node)?;
            line.nodes[node].buffered.push(held);
            Some(())
        }),
        line("down: held list alone", |random, line| {
            let node = down(random, line)?;
            let held = any_held(random, line, node)?;
            line.nodes[node].buffered.push(held);
            Some(())
        }),
        line("down: targets", |random, line| {
            let node = down(random, line)?;
            line.nodes[node].kept = None;
            aim(random, line, node)
        }),
        line("down: a kept answer's targets alone", |random, line| {
            let node = pick::keeping(random, line, |kept| !kept.targets.is_empty())?;
            let kept = line.nodes[node].kept.take()?;
            line.nodes[node].targets = kept.targets;
            Some(())
        }),
        line("down: entering mark", |random, line| {
            let node = down(random, line)?;
            let channel = pick::any(random, line.plan.entering(node))?;
            line.queues[channel].mark = random.between(1, line.accepted_steps());
            Some(())
        }),
        line("down: leaving mark", |random, line| {
            let node = down(random, line)?;
            let channel = pick::any(random, line.plan.leaving(node))?;
            let child = line.plan.channels[channel].receiver;
            let entry = line.nodes[child].clock.taken(node);
            line.queues[channel].mark = random.between(entry.max(1), line.accepted_steps());
            Some(())
        }),
        line("down: entering message", |random, line| {
            let node = down(random, line)?;
            let channel = pick::any(random, line.plan.entering(node))?;
            put_message(random, line, channel);
            Some(())
        }),
        line("down: leaving message", |random, line| {
            let node = down(random, line)?;
            let channel = pick::any(random, line.plan.leaving(node))?;
            put_message(random, line, channel);
            Some(())
        }),
        line("down: message without a mark", |random, line| {
            let node = down(random, line)?;
            let channels = line.plan.entering(node).chain(line.plan.leaving(node));
            let channel = pick::any(random, channels)?;
            put_message(random, line, channel);
            line.queues[channel].mark = 0;
            Some(())
        }),
        line("up: targets", |random, line| {
            let node = pick::node(random, line, |number, node| {
                node.status == Status::Up && !line.plan.is_source(number)
            })?;
            aim(random, line, node)
        }),
        line("up: held list", |random, line| {
            let (node, index) = pick::entry(random, line, |node, entry| {
                entry.message.made_from.is_some()
                    && line.plan.passes_on(node, &entry.message.record)
            })?;
            let entry = line.nodes[node].log[index];
            line.nodes[node].buffered.push(Buffered {
                record: entry.message.record,
                made_from: entry.message.made_from?,
                input_made_from: entry.input_made_from,
            });
            Some(())
        }),
        line("replaying: log", |random, line| {
            let (node, index) = pick::held(random, line, |_, _| true)?;
            let held = line.nodes[node].buffered[index];
            let time = line.nodes[node].time().max(1);
            let entry = logged(line, node, held, time);
            line.nodes[node].log.push(entry);
            Some(())
        }),
        line("replaying: leaving message", |random, line| {
            let node = pick::node_that_is(random, line, Status::Replaying)?;
            let channel = pick::any(random, line.plan.leaving(node))?;
            put_message(random, line, channel);
            Some(())
        }),
    ],
};

fn down(random: &mut Random, line: &mut Line) -> Option<usize> {
    reach(random, line, 1);
    pick::node_that_is(random, line, Status::Down)
}

/// A record that the node might have held, had its clock been high enough.
fn any_held(random: &mut Random, line: &Line, node: usize) -> Option<Buffered> {
    let mut record = any_record(random);
    for _ in 0..16 {
        if line.plan.passes_on(node, &record) {
            break;
        }
        record = any_record(random);
    }
    let sender = pick::any(random, line.plan.parents(node))?;
    let before = pick::any(random, line.plan.parents(sender));
    Some(Buffered {
        record,
        made_from: Origin { sender, time: 1 },
        input_made_from: before.map(|sender| Origin { sender, time: 1 }),
    })
}

/// The same, with the clock raised to it.
fn receive(random: &mut Random, line: &mut Line, node: usize) -> Option<Buffered> {
    let held = any_held(random, line, node)?;
    let clock = &mut line.nodes[node].clock;
    clock.raise_taken(held.made_from.sender, held.made_from.time);
    if let Some(origin) = held.input_made_from {
        clock.raise_heard(held.made_from.sender, origin.sender, origin.time);
    }
    Some(held)
}

fn logged(line: &Line, node: usize, held: Buffered, time: u32) -> Entry {
    Entry {
        message: Message {
            record: held.record,
            time,
            made_from: Some(held.made_from),
        },
        input_made_from: held.input_made_from,
        set: line.plan.set_of(node, &held.record),
    }
}

fn aim(random: &mut Random, line: &mut Line, node: usize) -> Option<()> {
    let parent = pick::any(random, line.plan.parents(node))?;
    reach(random, line, 1);
    let target = Target {
        time: random.between(1, line.accepted_steps()),
        parent,
        parent_time: random.between(1, line.accepted_steps()),
    };
    line.nodes[node].targets.push(target);
    Some(())
}

/// A message above the receiver's entry, and the mark at it.
fn put_message(random: &mut Random, line: &mut Line, channel: usize) {
    let ends = line.plan.channels[channel];
    let entry = line.nodes[ends.receiver].clock.taken(ends.sender);
    reach(random, line, entry + 1);
    let time = random.between(entry + 1, line.accepted_steps().max(entry + 1));
    let before = pick::any(random, line.plan.parents(ends.sender));
    let message = Message {
        record: any_record(random),
        time,
        made_from: before.map(|sender| Origin { sender, time: 1 }),
    };
    let queue = &mut line.queues[channel];
    queue.messages = vec![message];
    queue.mark = time;
}
