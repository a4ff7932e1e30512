use super::*;
use crate::line::Entry;
use crate::state::practice::harmless::silence;

/// 2026-08: "such an entry's time not below the one before it, any other's above it".
pub const NOT_RISING: Clause = Clause {
    words: "log times don't rise as they have to, or pass the node's time",
    conditions: &[
        line("a source's twice the same", |random, line| {
            repeat(random, line, |plan, node, _| plan.is_source(node))
        }),
        line("a sink's twice the same", |random, line| {
            repeat(random, line, |plan, node, _| plan.is_sink(node))
        }),
        line("twice the same at what a channel takes", |random, line| {
            repeat(random, line, |plan, node, entry| {
                !plan.is_source(node) && entry.set != 0
            })
        }),
        line("twice the same at a source's empty set", |random, line| {
            let (node, index) = two_entries(random, line, |node, _| line.plan.is_source(node))?;
            silence(random, line, node, index + 1)?;
            let log = &mut line.nodes[node].log;
            log[index + 1].message.time = log[index].message.time;
            Some(())
        }),
        line("0 at a source's empty set", |random, line| {
            let node = pick::node(random, line, |number, node| {
                line.plan.is_source(number) && !node.log.is_empty()
            })?;
            silence(random, line, node, 0)?;
            line.nodes[node].log[0].message.time = 0;
            Some(())
        }),
        line("falling", |random, line| {
            let (node, index) = two_entries(random, line, |_, [before, entry]| {
                before.message.time < entry.message.time
            })?;
            let log = &mut line.nodes[node].log;
            let (first, second) = (log[index].message.time, log[index + 1].message.time);
            log[index].message.time = second;
            log[index + 1].message.time = first;
            Some(())
        }),
        line("falling at what no channel takes", |random, line| {
            let (node, index) = two_entries(random, line, |node, [before, entry]| {
                before.message.time > 0 && line.plan.may_repeat(node, &entry.message.record)
            })?;
            let log = &mut line.nodes[node].log;
            let before = log[index].message.time;
            let below = random.between(0, before - 1);
            log[index + 1].message.time = random.pick(&[below, before - 1]);
            Some(())
        }),
        line("the node's time is lower", |random, line| {
            let node = pick::node(random, line, |_, node| {
                let last = node.log.last();
                last.is_some_and(|last| last.message.time > 0)
            })?;
            let node = &mut line.nodes[node];
            let last = node.log.last()?.message.time;
            let below = random.between(0, last - 1);
            node.clock.time = random.pick(&[last - 1, below]);
            Some(())
        }),
        line("the last time is higher", |random, line| {
            let node = pick::node(random, line, |_, node| !node.log.is_empty())?;
            more_steps(random, line, 1000);
            let node = &mut line.nodes[node];
            let above = random.pick(&[1, 1, 255, 256, 1000]);
            node.log.last_mut()?.message.time = node.clock.time + above;
            Some(())
        }),
    ],
};

type IsSuch = fn(&Plan, usize, &Entry) -> bool;

/// Such an entry, with the time of the one before it.
fn repeat(random: &mut Random, line: &mut Line, is_such: IsSuch) -> Option<()> {
    let (node, index) = two_entries(random, line, |node, [_, entry]| {
        is_such(&line.plan, node, entry)
    })?;
    let log = &mut line.nodes[node].log;
    log[index + 1].message.time = log[index].message.time;
    Some(())
}

/// A node and the index of the first of two such entries.
fn two_entries(
    random: &mut Random,
    line: &Line,
    will_do: impl Fn(usize, [&Entry; 2]) -> bool,
) -> Option<(usize, usize)> {
    let pairs = |node: usize| -> Vec<usize> {
        let pairs = line.nodes[node].log.windows(2).enumerate();
        let such = pairs.filter(|(_, pair)| will_do(node, [&pair[0], &pair[1]]));
        such.map(|(index, _)| index).collect()
    };
    let node = pick::node(random, line, |number, _| !pairs(number).is_empty())?;
    let pairs = pairs(node);
    let any = random.pick(&pairs);
    Some((node, random.pick(&[any, pairs[0], pairs[pairs.len() - 1]])))
}
