//! What a line may have in it that a practice must not miss.

use crate::line::practice::greatest_time;
use crate::line::{Entry, Line, Node, Restart, Status};
use crate::plan::practice::{all_leaving, is_partial, refuses_by_mass};
use crate::plan::{Plan, Version};

pub struct Feature {
    pub name: &'static str,
    pub is_in: fn(&Line) -> bool,
}

const fn feature(name: &'static str, is_in: fn(&Line) -> bool) -> Feature {
    Feature { name, is_in }
}

pub const FEATURES: &[Feature] = &[
    feature("a full log", |line| {
        has_node(line, |node| node.log.len() == Line::MOST_ENTRIES)
    }),
    feature("a full channel", |line| {
        let mut queues = line.queues.iter();
        queues.any(|queue| queue.messages.len() == Line::MOST_MESSAGES)
    }),
    feature("a node down", |line| {
        has_node(line, |node| node.status == Status::Down)
    }),
    feature("a node replaying", |line| {
        has_node(line, |node| node.status == Status::Replaying)
    }),
    feature("a kept answer", |line| has_kept(line, |_| true)),
    feature("a kept answer that has targets", |line| {
        has_kept(line, |kept| !kept.targets.is_empty())
    }),
    feature("a kept answer that has none", |line| {
        has_kept(line, |kept| kept.targets.is_empty())
    }),
    feature("a kept answer of over 16 targets", |line| {
        has_kept(line, |kept| kept.targets.len() > 16)
    }),
    feature("a kept answer whose entries differ", |line| {
        has_kept(line, |kept| {
            let mut entries = kept.restored.windows(2);
            entries.any(|pair| pair[0].time != pair[1].time)
        })
    }),
    feature("a kept answer of four parents", |line| {
        has_kept(line, |kept| kept.restored.len() == Plan::MOST_AT_A_NODE)
    }),
    feature("two kept answers", |line| {
        line.nodes.iter().filter(|node| node.kept.is_some()).count() > 1
    }),
    feature("a kept answer above time 1,000,000", |line| {
        has_kept(line, |kept| kept.low > 1_000_000)
    }),
    feature("a node down that keeps none", |line| {
        has_node(line, |node| {
            node.status == Status::Down && node.kept.is_none()
        })
    }),
    feature("over 16 targets", |line| {
        has_node(line, |node| node.targets.len() > 16)
    }),
    feature("a held record", |line| {
        has_node(line, |node| !node.buffered.is_empty())
    }),
    feature("a held record that a router made", |line| {
        has_node(line, |node| {
            let mut held = node.buffered.iter();
            held.any(|held| held.input_made_from.is_some())
        })
    }),
    feature("a held record that some window refuses", |line| {
        let mut channels = line.plan.channels.iter();
        channels.any(|channel| {
            let mut held = line.nodes[channel.sender].buffered.iter();
            held.any(|held| refuses_by_mass(channel, &held.record))
        })
    }),
    feature("a tick in a log", |line| {
        has_node(line, |node| {
            let mut log = node.log.iter();
            log.any(|entry| entry.message.record.is_tick())
        })
    }),
    feature("a tick that is held", |line| {
        has_node(line, |node| {
            let mut held = node.buffered.iter();
            held.any(|held| held.record.is_tick())
        })
    }),
    feature("a tick on a channel", |line| {
        let mut messages = line.queues.iter().flat_map(|queue| &queue.messages);
        messages.any(|message| message.record.is_tick())
    }),
    feature("a set of some channels, and not all", |line| {
        has_entry(line, |number, entry| {
            is_partial(&line.plan, number, entry.set)
        })
    }),
    feature("a set of some of four channels, and not all", |line| {
        has_entry(line, |number, entry| {
            all_leaving(&line.plan, number) == 0xF && is_partial(&line.plan, number, entry.set)
        })
    }),
    feature("an empty set of two channels or more", |line| {
        has_entry(line, |number, entry| {
            all_leaving(&line.plan, number) > 1 && entry.set == 0
        })
    }),
    feature("a recovered node's set of some channels", |line| {
        has_entry(line, |number, entry| {
            is_recovered(&line.nodes[number]) && is_partial(&line.plan, number, entry.set)
        })
    }),
    feature("an entry without a time of its own", |line| {
        has_silent(line, |_, _| true)
    }),
    feature("the same at time 0", |line| {
        has_silent(line, |_, entry| entry.message.time == 0)
    }),
    feature("the same of a recovered node", |line| {
        has_silent(line, |number, _| is_recovered(&line.nodes[number]))
    }),
    feature("the same in a full log", |line| {
        has_silent(line, |number, _| {
            line.nodes[number].log.len() == Line::MOST_ENTRIES
        })
    }),
    feature("a time that a log has twice", |line| {
        has_pair(line, |one, other| one == other)
    }),
    feature("a time that a log has three times", |line| {
        has_node(line, |node| {
            let times = |index: usize| node.log[index].message.time;
            (2..node.log.len()).any(|index| times(index - 2) == times(index))
        })
    }),
    feature("a log that goes on from time 0", |line| {
        has_pair(line, |one, other| one == 0 && other > 0)
    }),
    feature("a plan of version 2", |line| {
        line.plan.version == Version::Second
    }),
    feature("a node recovered", |line| has_node(line, is_recovered)),
    feature("a node recovered with a log", |line| {
        has_node(line, |node| is_recovered(node) && !node.log.is_empty())
    }),
    feature("a low clock", |line| has_low_clock(line, |low, _| low > 0)),
    feature("a low clock's entry in the middle", |line| {
        has_low_clock(line, |low, entry| 0 < low && low < entry)
    }),
    feature("a low clock's entry at the clock's", |line| {
        has_low_clock(line, |low, entry| 0 < low && low == entry)
    }),
    feature("a low clock that tells of a parent's parent", |line| {
        has_node(line, |node| {
            let mut parts = node.low_clock.parents.iter();
            parts.any(|part| part.times()[1..].iter().any(|&time| time > 0))
        })
    }),
    feature("a low clock while a node is down", |line| {
        has_node(line, |node| node.status == Status::Down) && has_low_clock(line, |low, _| low > 0)
    }),
    feature("a low clock of a node that replays' child", |line| {
        let mut channels = line.plan.channels.iter();
        channels.any(|channel| {
            let low = &line.nodes[channel.receiver].low_clock;
            line.nodes[channel.sender].status == Status::Replaying && low.taken(channel.sender) > 0
        })
    }),
    feature("a console with few steps left", |line| {
        let few = Line::MOST_STEPS - 100..Line::MOST_STEPS;
        line.steps.iter().any(|steps| few.contains(steps))
    }),
    feature("a console with no step left, another with some", |line| {
        line.steps.contains(&Line::MOST_STEPS) && line.steps != [Line::MOST_STEPS; Line::CONSOLES]
    }),
    feature("no step left", |line| {
        line.steps == [Line::MOST_STEPS; Line::CONSOLES]
    }),
    feature("a time above 1,000,000", |line| {
        greatest_time(line) > 1_000_000
    }),
    feature("a replay above time 1,000,000", |line| {
        has_node(line, |node| {
            node.status == Status::Replaying && node.time() > 1_000_000
        })
    }),
];

fn has_node(line: &Line, is_such: impl Fn(&Node) -> bool) -> bool {
    line.nodes.iter().any(is_such)
}

fn has_kept(line: &Line, is_such: impl Fn(&Restart) -> bool) -> bool {
    has_node(line, |node| node.kept.as_ref().is_some_and(&is_such))
}

/// A log entry, with its node's number.
fn has_entry(line: &Line, is_such: impl Fn(usize, &Entry) -> bool) -> bool {
    let mut nodes = line.nodes.iter().enumerate();
    nodes.any(|(number, node)| node.log.iter().any(|entry| is_such(number, entry)))
}

/// The same of one that a router does not pass on.
fn has_silent(line: &Line, is_such: impl Fn(usize, &Entry) -> bool) -> bool {
    has_entry(line, |number, entry| {
        line.plan.may_repeat(number, &entry.message.record) && is_such(number, entry)
    })
}

/// The times of an entry and of the next one.
fn has_pair(line: &Line, is_such: fn(u32, u32) -> bool) -> bool {
    has_node(line, |node| {
        let mut pairs = node.log.windows(2);
        pairs.any(|pair| is_such(pair[0].message.time, pair[1].message.time))
    })
}

/// An entry of a low clock, and the clock's in the same place.
fn has_low_clock(line: &Line, is_such: fn(u32, u32) -> bool) -> bool {
    has_node(line, |node| {
        let entries = node.clock.times().into_iter().skip(1);
        let mut low = node.low_clock.times().into_iter().skip(1).zip(entries);
        low.any(|(low, entry)| is_such(low, entry))
    })
}

fn is_recovered(node: &Node) -> bool {
    node.status == Status::Up && node.crash_marked
}
