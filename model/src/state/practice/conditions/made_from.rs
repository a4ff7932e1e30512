use super::*;
use crate::line::{Entry, Origin};

pub const MISSING_OR_PRESENT: Clause = Clause {
    words: "a made-from sender is missing where the maker is no infeed, or present where it is one",
    conditions: &[
        line("an entry's is missing", |random, line| {
            let (node, index) = pick::entry(random, line, |_, entry| !is_fed(entry))?;
            line.nodes[node].log[index].message.made_from = None;
            line.nodes[node].log[index].input_made_from = None;
            Some(())
        }),
        line(
            "an entry's is missing, its input's is not",
            |random, line| {
                let (node, index) =
                    pick::entry(random, line, |_, entry| entry.input_made_from.is_some())?;
                line.nodes[node].log[index].message.made_from = None;
                Some(())
            },
        ),
        line("a source's entry's is present", |random, line| {
            let (node, index) = pick::entry(random, line, |_, entry| is_fed(entry))?;
            line.nodes[node].log[index].message.made_from = any_origin(random, line);
            Some(())
        }),
        line("a source's entry's input's is present", |random, line| {
            let (node, index) = pick::entry(random, line, |_, entry| is_fed(entry))?;
            line.nodes[node].log[index].input_made_from = any_origin(random, line);
            Some(())
        }),
        line("an entry's input's is missing", |random, line| {
            let (node, index) =
                pick::entry(random, line, |_, entry| entry.input_made_from.is_some())?;
            line.nodes[node].log[index].input_made_from = None;
            Some(())
        }),
        line("an entry's input's is present", |random, line| {
            let (node, index) = pick::entry(random, line, |_, entry| {
                !is_fed(entry) && entry.input_made_from.is_none()
            })?;
            line.nodes[node].log[index].input_made_from = any_origin(random, line);
            Some(())
        }),
        line("a held record's input's is missing", |random, line| {
            let (node, index) = pick::held(random, line, |node, index| {
                line.nodes[node].buffered[index].input_made_from.is_some()
            })?;
            line.nodes[node].buffered[index].input_made_from = None;
            Some(())
        }),
        line("a held record's input's is present", |random, line| {
            let (node, index) = pick::held(random, line, |node, index| {
                line.nodes[node].buffered[index].input_made_from.is_none()
            })?;
            line.nodes[node].buffered[index].input_made_from = any_origin(random, line);
            Some(())
        }),
        line("a message's is missing", |random, line| {
            let (channel, index) = pick::message(random, line, |channel, index| {
                line.queues[channel].messages[index].made_from.is_some()
            })?;
            line.queues[channel].messages[index].made_from = None;
            Some(())
        }),
        line("a message's is present", |random, line| {
            let (channel, index) = pick::message(random, line, |channel, index| {
                line.queues[channel].messages[index].made_from.is_none()
            })?;
            line.queues[channel].messages[index].made_from = any_origin(random, line);
            Some(())
        }),
    ],
};

/// Of a source's log.
fn is_fed(entry: &Entry) -> bool {
    entry.message.made_from.is_none()
}

fn any_origin(random: &mut Random, line: &Line) -> Option<Origin> {
    Some(Origin {
        sender: random.index(line.nodes.len()),
        time: random.between(0, 1),
    })
}
