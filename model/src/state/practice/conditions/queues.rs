use super::*;

pub const UNSOUND: Clause = Clause {
    words: "with no end down, a belt's mark is below the receiver's entry, or message times don't \
            rise strictly from above that entry to the mark",
    conditions: &[
        line("mark below the receiver's entry", |random, line| {
            let channel = pick::live_channel(random, line, |channel| taken(line, channel) >= 1)?;
            let entry = taken(line, channel);
            let queue = &mut line.queues[channel];
            queue.messages.clear();
            queue.mark = random.pick(&[entry - 1, entry - 1, 0]);
            Some(())
        }),
        line(
            "message at or below the receiver's entry",
            |random, line| {
                let (channel, _) =
                    pick::message(random, line, |channel, _| taken(line, channel) >= 1)?;
                let entry = taken(line, channel);
                line.queues[channel].messages[0].time = random.between(1.max(entry - 1), entry);
                Some(())
            },
        ),
        line("receiver's entry at or above a message", |random, line| {
            let (channel, _) = pick::message(random, line, |_, _| true)?;
            let first = line.queues[channel].messages[0].time;
            let ends = line.plan.channels[channel];
            line.nodes[ends.receiver]
                .clock
                .raise_taken(ends.sender, first);
            Some(())
        }),
        line("twice the same", |random, line| {
            let (channel, index) = two_messages(random, line)?;
            let messages = &mut line.queues[channel].messages;
            messages[index + 1].time = messages[index].time;
            Some(())
        }),
        line("falling", |random, line| {
            let (channel, index) = two_messages(random, line)?;
            line.queues[channel].messages.swap(index, index + 1);
            Some(())
        }),
        line("message above the mark", |random, line| {
            let (channel, _) = pick::message(random, line, |_, _| true)?;
            let entry = taken(line, channel);
            more_steps(random, line, 1000);
            let queue = &mut line.queues[channel];
            if random.one_in(2) {
                queue.messages.last_mut()?.time = queue.mark + random.pick(&[1, 1, 256]);
            } else {
                let last = queue.messages.last()?.time;
                queue.mark = random.pick(&[last - 1, entry]);
            }
            Some(())
        }),
    ],
};

fn taken(line: &Line, channel: usize) -> u32 {
    let ends = &line.plan.channels[channel];
    line.nodes[ends.receiver].clock.taken(ends.sender)
}

/// A channel and the index of a message that is not the last one.
fn two_messages(random: &mut Random, line: &Line) -> Option<(usize, usize)> {
    pick::message(random, line, |channel, index| {
        index + 1 < line.queues[channel].messages.len()
    })
}
