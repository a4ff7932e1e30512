use super::*;
use crate::line::practice::{greatest_time, share_steps};
use crate::line::Status;

/// What must reach as far as the time is raised with it, so that nothing but
/// the steps is exceeded, where that can be.
pub const EXCEEDED: Clause = Clause {
    words: "a time exceeds the accepted steps",
    conditions: &[
        line("steps too few", |random, line| {
            let most = greatest_time(line).checked_sub(1)?;
            let below = random.between(0, most);
            let total = random.pick(&[most, most, below]);
            line.steps = share_steps(random, total);
            Some(())
        }),
        line("node's time", |random, line| {
            let node = pick::node_that_is(random, line, Status::Up)?;
            line.nodes[node].clock.time = over(random, line);
            Some(())
        }),
        line("entry for a parent", |random, line| {
            let channel = pick::live_channel(random, line, |_| true)?;
            let time = over(random, line);
            take_up_to(line, channel, time);
            Some(())
        }),
        line("time heard of a parent's parent", |random, line| {
            let channel = pick::channel(random, line, |channel| {
                let ends = &line.plan.channels[channel];
                !line.plan.is_source(ends.sender)
                    && line.nodes[ends.receiver].status != Status::Down
            })?;
            let ends = line.plan.channels[channel];
            let before = pick::any(random, line.plan.parents(ends.sender))?;
            let time = over(random, line);
            line.nodes[ends.receiver]
                .clock
                .raise_heard(ends.sender, before, time);
            Some(())
        }),
        line("mark", |random, line| {
            let channel = pick::live_channel(random, line, |_| true)?;
            line.queues[channel].mark = over(random, line);
            Some(())
        }),
        line("time of an entry", |random, line| {
            let node = pick::node(random, line, |_, node| !node.log.is_empty())?;
            let time = over(random, line);
            line.nodes[node].log.last_mut()?.message.time = time;
            line.nodes[node].clock.time = time;
            Some(())
        }),
        line("time of an entry's sender", |random, line| {
            let (node, index) =
                pick::entry(random, line, |_, entry| entry.message.made_from.is_some())?;
            let time = over(random, line);
            let input = line.nodes[node].log[index].message.made_from.as_mut()?;
            input.time = time;
            let sender = input.sender;
            take_up_to(line, pick::channel_between(line, sender, node), time);
            Some(())
        }),
        line("time of an entry's input's sender", |random, line| {
            let (node, index) =
                pick::entry(random, line, |_, entry| entry.input_made_from.is_some())?;
            let time = over(random, line);
            let node = &mut line.nodes[node];
            let entry = &mut node.log[index];
            let origin = entry.input_made_from.as_mut()?;
            origin.time = time;
            let sender = entry.message.made_from?.sender;
            node.clock.raise_heard(sender, origin.sender, time);
            Some(())
        }),
        line("time of a held record", |random, line| {
            // The last of its row.
            let (node, index) = pick::held(random, line, |node, index| {
                let held = &line.nodes[node].buffered;
                let sender = held[index].made_from.sender;
                held[index + 1..]
                    .iter()
                    .all(|later| later.made_from.sender != sender)
            })?;
            let time = over(random, line);
            let input = &mut line.nodes[node].buffered[index].made_from;
            input.time = time;
            let sender = input.sender;
            take_up_to(line, pick::channel_between(line, sender, node), time);
            Some(())
        }),
        line("time of a held record's input's sender", |random, line| {
            let (node, index) = pick::held(random, line, |node, index| {
                line.nodes[node].buffered[index].input_made_from.is_some()
            })?;
            let time = over(random, line);
            let node = &mut line.nodes[node];
            let held = &mut node.buffered[index];
            let origin = held.input_made_from.as_mut()?;
            origin.time = time;
            node.clock
                .raise_heard(held.made_from.sender, origin.sender, time);
            Some(())
        }),
        line("time of a message", |random, line| {
            let channel = pick::channel(random, line, |channel| {
                !line.queues[channel].messages.is_empty()
            })?;
            let time = over(random, line);
            line.queues[channel].messages.last_mut()?.time = time;
            line.queues[channel].mark = time;
            Some(())
        }),
        line("time of a message's sender", |random, line| {
            let (channel, index) = pick::message(random, line, |channel, index| {
                line.queues[channel].messages[index].made_from.is_some()
            })?;
            let time = over(random, line);
            let origin = line.queues[channel].messages[index].made_from.as_mut()?;
            origin.time = time;
            Some(())
        }),
        line("time of a target", |random, line| {
            let node = pick::node(random, line, |_, node| !node.targets.is_empty())?;
            let time = over(random, line);
            let target = line.nodes[node].targets.last_mut()?;
            if random.one_in(2) {
                target.time = time;
            } else {
                target.parent_time = time;
            }
            Some(())
        }),
    ],
};

fn over(random: &mut Random, line: &Line) -> u32 {
    let next = line.accepted_steps() + 1;
    let limits = [1_000_001, 4_000_001].map(|limit| next.max(limit));
    random.pick(&[next, next, next + 256, limits[0], limits[1], u32::MAX])
}

/// The receiver has taken up to the time, and nothing waits.
fn take_up_to(line: &mut Line, channel: usize, time: u32) {
    let ends = line.plan.channels[channel];
    line.nodes[ends.receiver]
        .clock
        .raise_taken(ends.sender, time);
    line.queues[channel].messages.clear();
    line.queues[channel].mark = time;
}
