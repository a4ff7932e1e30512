use super::*;

pub const ZERO: Clause = Clause {
    words: "a message's, a held record's or a named sender's time is 0",
    conditions: &[
        line("time of an entry", |random, line| {
            let node = pick::node(random, line, |number, node| {
                let first = node.log.first().map(|entry| entry.message.record);
                first.is_some_and(|record| !line.plan.may_repeat(number, &record))
            })?;
            line.nodes[node].log[0].message.time = 0;
            Some(())
        }),
        line("time of a message", |random, line| {
            let (channel, index) = pick::message(random, line, |_, index| index == 0)?;
            line.queues[channel].messages[index].time = 0;
            Some(())
        }),
        line("time of a held record", |random, line| {
            // The first of its row.
            let (node, index) = pick::held(random, line, |node, index| {
                let held = &line.nodes[node].buffered;
                let sender = held[index].made_from.sender;
                held[..index]
                    .iter()
                    .all(|earlier| earlier.made_from.sender != sender)
            })?;
            line.nodes[node].buffered[index].made_from.time = 0;
            Some(())
        }),
        line("time of an entry's sender", |random, line| {
            let (node, index) =
                pick::entry(random, line, |_, entry| entry.message.made_from.is_some())?;
            line.nodes[node].log[index].message.made_from.as_mut()?.time = 0;
            Some(())
        }),
        line("time of an entry's input's sender", |random, line| {
            let (node, index) =
                pick::entry(random, line, |_, entry| entry.input_made_from.is_some())?;
            line.nodes[node].log[index].input_made_from.as_mut()?.time = 0;
            Some(())
        }),
        line("time of a held record's input's sender", |random, line| {
            let (node, index) = pick::held(random, line, |node, index| {
                line.nodes[node].buffered[index].input_made_from.is_some()
            })?;
            line.nodes[node].buffered[index]
                .input_made_from
                .as_mut()?
                .time = 0;
            Some(())
        }),
        line("time of a message's sender", |random, line| {
            let (channel, index) = pick::message(random, line, |channel, index| {
                line.queues[channel].messages[index].made_from.is_some()
            })?;
            line.queues[channel].messages[index]
                .made_from
                .as_mut()?
                .time = 0;
            Some(())
        }),
        line("time of a target's parent", |random, line| {
            let node = pick::node(random, line, |_, node| !node.targets.is_empty())?;
            let index = random.index(line.nodes[node].targets.len());
            line.nodes[node].targets[index].parent_time = 0;
            Some(())
        }),
    ],
};
