//! Places in a line, drawn among those that will do.

use crate::line::{Entry, Line, Node, Restart, Status};
use crate::random::Random;

pub fn any(random: &mut Random, choices: impl Iterator<Item = usize>) -> Option<usize> {
    let choices: Vec<usize> = choices.collect();
    (!choices.is_empty()).then(|| random.pick(&choices))
}

pub fn node(
    random: &mut Random,
    line: &Line,
    will_do: impl Fn(usize, &Node) -> bool,
) -> Option<usize> {
    let numbers = 0..line.nodes.len();
    any(
        random,
        numbers.filter(|&number| will_do(number, &line.nodes[number])),
    )
}

pub fn node_that_is(random: &mut Random, line: &Line, status: Status) -> Option<usize> {
    node(random, line, |_, node| node.status == status)
}

/// A node that keeps such an answer.
pub fn keeping(
    random: &mut Random,
    line: &Line,
    will_do: impl Fn(&Restart) -> bool,
) -> Option<usize> {
    node(random, line, |_, node| {
        node.kept.as_ref().is_some_and(&will_do)
    })
}

pub fn channel(random: &mut Random, line: &Line, will_do: impl Fn(usize) -> bool) -> Option<usize> {
    any(
        random,
        (0..line.queues.len()).filter(|&number| will_do(number)),
    )
}

/// A channel with no end down.
pub fn live_channel(
    random: &mut Random,
    line: &Line,
    will_do: impl Fn(usize) -> bool,
) -> Option<usize> {
    channel(random, line, |number| {
        is_live(line, number) && will_do(number)
    })
}

pub fn is_live(line: &Line, channel: usize) -> bool {
    let ends = &line.plan.channels[channel];
    [ends.sender, ends.receiver]
        .iter()
        .all(|&end| line.nodes[end].status != Status::Down)
}

/// A node and the index of an entry in its log.
pub fn entry(
    random: &mut Random,
    line: &Line,
    will_do: impl Fn(usize, &Entry) -> bool,
) -> Option<(usize, usize)> {
    let log = |number: usize| &line.nodes[number].log;
    place(
        random,
        line.nodes.len(),
        |number| log(number).len(),
        |number, index| will_do(number, &log(number)[index]),
    )
}

/// A node and the index of a record that it holds.
pub fn held(
    random: &mut Random,
    line: &Line,
    will_do: impl Fn(usize, usize) -> bool,
) -> Option<(usize, usize)> {
    let length = |number: usize| line.nodes[number].buffered.len();
    place(random, line.nodes.len(), length, will_do)
}

/// A channel and the index of a message on it.
pub fn message(
    random: &mut Random,
    line: &Line,
    will_do: impl Fn(usize, usize) -> bool,
) -> Option<(usize, usize)> {
    let length = |number: usize| line.queues[number].messages.len();
    place(random, line.queues.len(), length, will_do)
}

/// One of the lists and an index in it. A long list is drawn no more often than
/// a short one.
fn place(
    random: &mut Random,
    lists: usize,
    length: impl Fn(usize) -> usize,
    will_do: impl Fn(usize, usize) -> bool,
) -> Option<(usize, usize)> {
    let has_any = |list: usize| (0..length(list)).any(|index| will_do(list, index));
    let list = any(random, (0..lists).filter(|&list| has_any(list)))?;
    let indices = (0..length(list)).filter(|&index| will_do(list, index));
    Some((list, any(random, indices)?))
}

/// The channel from a parent to the node.
pub fn channel_between(line: &Line, parent: usize, node: usize) -> usize {
    line.plan
        .entering(node)
        .find(|&channel| line.plan.channels[channel].sender == parent)
        .expect("a parent")
}
