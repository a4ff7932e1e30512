use super::*;
use crate::line::Status;
use crate::plan::Plan;

/// One too high, or far too high; or the clock lowered below.
pub const ABOVE: Clause = Clause {
    words: "a low clock entry above the node's clock",
    conditions: &[
        line("for the sender", |random, line| exceed(random, line, None)),
        line("for the sender's first parent", |random, line| {
            exceed(random, line, Some(0))
        }),
        line("for the sender's second parent", |random, line| {
            exceed(random, line, Some(1))
        }),
        line("for the sender's third parent", |random, line| {
            exceed(random, line, Some(2))
        }),
        line("for the sender's fourth parent", |random, line| {
            exceed(random, line, Some(Plan::MOST_AT_A_NODE - 1))
        }),
        line("of a down node", |random, line| {
            let node = pick::node_that_is(random, line, Status::Down)?;
            let parent = pick::any(random, line.plan.parents(node))?;
            line.nodes[node].low_clock.raise_taken(parent, 1);
            Some(())
        }),
        line("of a node that replays", |random, line| {
            let node = pick::node_that_is(random, line, Status::Replaying)?;
            let parent = pick::any(random, line.plan.parents(node))?;
            let time = line.nodes[node].clock.taken(parent) + 1;
            line.nodes[node].low_clock.raise_taken(parent, time);
            Some(())
        }),
    ],
};

/// At the entry for a channel's sender, or for one of the sender's parents.
fn exceed(random: &mut Random, line: &mut Line, row: Option<usize>) -> Option<()> {
    let channel = pick::channel(random, line, |channel| {
        let ends = &line.plan.channels[channel];
        line.nodes[ends.receiver].status != Status::Down
            && row.is_none_or(|row| row < line.plan.parents(ends.sender).count())
    })?;
    let ends = line.plan.channels[channel];
    more_steps(random, line, 1000);
    let node = &mut line.nodes[ends.receiver];
    let clocks = [&mut node.clock, &mut node.low_clock].map(|clock| {
        let part = clock.part_mut(ends.sender).expect("a parent");
        match row {
            None => part,
            Some(row) => &mut part.parents[row],
        }
    });
    let [entry, low] = clocks.map(|part| &mut part.time);
    if *low > 0 && random.one_in(3) {
        *entry = random.pick(&[*low - 1, *low - 1, 0]);
    } else {
        *low = *entry + random.pick(&[1, 1, 255, 256]);
    }
    Some(())
}
