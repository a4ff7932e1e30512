//! What the paragraph "Damaged" does not list is no damage: changes after which
//! a line is still undamaged.

use super::conditions::recovered::made::{complete_rows, greatest_target, trim_rows};
use super::conditions::recovered::tell_otherwise;
use super::runs::any_record;
use super::{pick, staged};
use crate::clock::Clock;
use crate::line::practice::{drawn_steps, give_sets, greatest_time, reach};
use crate::line::{restart, Line, Node, Status};
use crate::plan::practice::{in_other_version, MASSES};
use crate::plan::{Version, Window};
use crate::random::Random;
use crate::record::Record;
use crate::rule::Rule;

pub struct Harmless {
    pub name: &'static str,
    /// None where the line has no place for it.
    pub change: fn(&mut Random, &mut Line) -> Option<()>,
}

const fn harmless(
    name: &'static str,
    change: fn(&mut Random, &mut Line) -> Option<()>,
) -> Harmless {
    Harmless { name, change }
}

pub const HARMLESS: &[Harmless] = &[
    harmless("other steps that no time exceeds", |random, line| {
        line.steps = drawn_steps(random, greatest_time(line));
        Some(())
    }),
    harmless("all steps and the latest time", |random, line| {
        line.steps = [Line::MOST_STEPS; Line::CONSOLES];
        let node = pick::node_that_is(random, line, Status::Up)?;
        line.nodes[node].clock.time = line.accepted_steps();
        Some(())
    }),
    harmless("another rule", |random, line| {
        let node = random.index(line.nodes.len());
        line.plan.rules[node] = random.pick(&[
            Rule::Keep,
            Rule::Relabel { from: 1, to: 0 },
            Rule::Relabel { from: 15, to: 15 },
            Rule::Cap { greatest: 1 },
        ]);
        Some(())
    }),
    harmless("another mask of a channel", |random, line| {
        let channel = free_channel(random, line)?;
        line.plan.channels[channel].mask = random.between(1, 0xFFFF) as u16;
        settle(random, line)
    }),
    harmless("another remainder of a channel", |random, line| {
        let channel = free_channel(random, line)?;
        let channel = &mut line.plan.channels[channel];
        channel.modulus = random.between(1, 255) as u8;
        channel.remainder = random.index(usize::from(channel.modulus)) as u8;
        settle(random, line)
    }),
    harmless("another window of a channel", |random, line| {
        let channel = free_channel(random, line)?;
        line.plan.version = Version::Second;
        let least = random.draw() as u16;
        let any = random.between(least.into(), 0xFFFF) as u16;
        let greatest = random.pick(&[least, any]);
        line.plan.channels[channel].window = Window { least, greatest };
        settle(random, line)
    }),
    harmless("the plan in the other version", |_, line| {
        line.plan = in_other_version(&line.plan)?;
        Some(())
    }),
    harmless("crash mark of an up router", |random, line| {
        let plan = &line.plan;
        let node = pick::node(random, line, |number, _| {
            let mut joined = plan.parents(number).chain(plan.children(number));
            !plan.is_source(number)
                && !plan.is_sink(number)
                && joined.all(|other| !line.nodes[other].crash_marked)
        })?;
        line.nodes[node].crash_marked = true;
        Some(())
    }),
    harmless("time above the log", |random, line| {
        let node = pick::node_that_is(random, line, Status::Up)?;
        let time = random.between(line.nodes[node].time(), line.accepted_steps());
        line.nodes[node].clock.time = time;
        Some(())
    }),
    harmless("time that is the sum of the steps", |random, line| {
        let node = pick::node_that_is(random, line, Status::Up)?;
        line.nodes[node].clock.time = line.accepted_steps();
        Some(())
    }),
    harmless("gap in log times", |random, line| {
        let node = pick::node(random, line, |_, node| !node.log.is_empty())?;
        let time = random.between(line.nodes[node].time(), line.accepted_steps());
        line.nodes[node].clock.time = time;
        line.nodes[node].log.last_mut()?.message.time = time;
        Some(())
    }),
    harmless("another record in a log", |random, line| {
        let (node, index) = pick::entry(random, line, |_, _| true)?;
        line.nodes[node].log[index].message.record = any_record(random);
        settle(random, line)
    }),
    harmless("a tick in a log", |random, line| {
        let (node, index) = pick::entry(random, line, |_, _| true)?;
        line.nodes[node].log[index].message.record = Record::TICK;
        settle(random, line)
    }),
    harmless("an entry that no channel takes", |random, line| {
        let (node, index) = pick::entry(random, line, |_, _| true)?;
        silence(random, line, node, index)
    }),
    harmless(
        "the same, at the time of the one before it",
        |random, line| {
            let (node, index) = router_entry(random, line, |index| index > 0)?;
            silence(random, line, node, index)?;
            let log = &mut line.nodes[node].log;
            log[index].message.time = log[index - 1].message.time;
            Some(())
        },
    ),
    harmless("the same, at time 0", |random, line| {
        let (node, index) = router_entry(random, line, |index| index == 0)?;
        silence(random, line, node, index)?;
        line.nodes[node].log[index].message.time = 0;
        Some(())
    }),
    harmless(
        "a log that no channel takes, at one time",
        |random, line| {
            let (node, index) = router_entry(random, line, |_| true)?;
            let time = random.pick(&[0, line.nodes[node].log[index].message.time]);
            for index in 0..line.nodes[node].log.len() {
                silence(random, line, node, index)?;
                line.nodes[node].log[index].message.time = time;
            }
            Some(())
        },
    ),
    harmless("a tick that is held", |random, line| {
        let (node, index) = pick::held(random, line, |_, _| true)?;
        line.nodes[node].buffered[index].record = Record::TICK;
        Some(())
    }),
    harmless("a tick on a channel", |random, line| {
        let (channel, index) = pick::message(random, line, |_, _| true)?;
        line.queues[channel].messages[index].record = Record::TICK;
        Some(())
    }),
    harmless(
        "an entry that no parent's replay needs less",
        |random, line| {
            let (node, index) = pick::entry(random, line, |_, entry| {
                let input = entry.message.made_from;
                input.is_none_or(|input| line.nodes[input.sender].status == Status::Up)
            })?;
            line.nodes[node].log.remove(index);
            Some(())
        },
    ),
    harmless("an entry's sender's time lower", |random, line| {
        let (node, index) = pick::entry(random, line, |_, entry| {
            let input = entry.message.made_from;
            input.is_some_and(|input| line.nodes[input.sender].status == Status::Up)
        })?;
        let input = line.nodes[node].log[index].message.made_from.as_mut()?;
        input.time = random.between(1, input.time);
        Some(())
    }),
    harmless("higher mark", |random, line| {
        let channel = pick::live_channel(random, line, |_| true)?;
        let accepted = line.accepted_steps();
        let mark = random.between(line.queues[channel].mark, accepted);
        line.queues[channel].mark = random.pick(&[mark, accepted]);
        Some(())
    }),
    harmless("mark at the receiver's entry", |random, line| {
        let channel = pick::live_channel(random, line, |_| true)?;
        let ends = line.plan.channels[channel];
        line.queues[channel].messages.clear();
        line.queues[channel].mark = line.nodes[ends.receiver].clock.taken(ends.sender);
        Some(())
    }),
    harmless("mark at the last message", |random, line| {
        let (channel, _) = pick::message(random, line, |_, _| true)?;
        let queue = &mut line.queues[channel];
        queue.mark = queue.messages.last()?.time;
        Some(())
    }),
    harmless("entry for a parent just below a message", |random, line| {
        let (channel, _) = pick::message(random, line, |channel, _| {
            let ends = &line.plan.channels[channel];
            line.nodes[ends.sender].status == Status::Up
        })?;
        let ends = line.plan.channels[channel];
        let first = line.queues[channel].messages[0].time;
        let clock = &mut line.nodes[ends.receiver].clock;
        clock.raise_taken(ends.sender, first - 1);
        Some(())
    }),
    harmless("another record on a channel", |random, line| {
        let (channel, index) = pick::message(random, line, |_, _| true)?;
        line.queues[channel].messages[index].record = any_record(random);
        Some(())
    }),
    harmless("a message less", |random, line| {
        let (channel, index) = pick::message(random, line, |_, _| true)?;
        line.queues[channel].messages.remove(index);
        Some(())
    }),
    harmless("a message's sender and its time", |random, line| {
        let (channel, index) = pick::message(random, line, |channel, index| {
            line.queues[channel].messages[index].made_from.is_some()
        })?;
        let sender = pick::any(
            random,
            line.plan.parents(line.plan.channels[channel].sender),
        )?;
        let accepted = line.accepted_steps();
        let time = random.between(1, accepted);
        let origin = line.queues[channel].messages[index].made_from.as_mut()?;
        origin.sender = sender;
        origin.time = random.pick(&[time, accepted]);
        Some(())
    }),
    harmless("higher time heard of a parent's parent", |random, line| {
        let node = pick::node(random, line, |_, node| node.status != Status::Down)?;
        let parent = pick::any(random, line.plan.parents(node))?;
        let before = pick::any(random, line.plan.parents(parent))?;
        let accepted = line.accepted_steps();
        line.nodes[node].clock.raise_heard(parent, before, accepted);
        Some(())
    }),
    harmless("a held record less", |random, line| {
        let (node, index) = pick::held(random, line, |_, _| true)?;
        line.nodes[node].buffered.remove(index);
        Some(())
    }),
    harmless(
        "another held record that a channel takes",
        |random, line| {
            let (node, index) = pick::held(random, line, |_, _| true)?;
            let mut record = any_record(random);
            for _ in 0..8 {
                if line.plan.passes_on(node, &record) {
                    line.nodes[node].buffered[index].record = record;
                    return Some(());
                }
                record.piece = random.draw() as u32;
                record.material = random.index(16) as u8;
                record.mass = random.pick(&MASSES);
            }
            None
        },
    ),
    harmless("a held record at an end of a window", |random, line| {
        let (node, index) = pick::held(random, line, |node, index| {
            !line.nodes[node].buffered[index].record.is_tick()
        })?;
        let held = &mut line.nodes[node].buffered[index].record;
        let channels = &line.plan.channels;
        let taking = line.plan.leaving(node);
        let taking = pick::any(
            random,
            taking.filter(|&number| channels[number].takes(held)),
        )?;
        let Window { least, greatest } = channels[taking].window;
        held.mass = random.pick(&[least, greatest]);
        Some(())
    }),
    harmless(
        "held records of two rows in another order",
        |random, line| {
            let (node, index) = pick::held(random, line, |node, index| {
                let held = &line.nodes[node].buffered;
                index + 1 < held.len()
                    && held[index].made_from.sender != held[index + 1].made_from.sender
            })?;
            line.nodes[node].buffered.swap(index, index + 1);
            Some(())
        },
    ),
    harmless("rows of a replay all complete", |random, line| {
        let node = pick::node_that_is(random, line, Status::Replaying)?;
        let entering: Vec<usize> = line.plan.entering(node).collect();
        for channel in entering {
            let sender = line.plan.channels[channel].sender;
            let accepted = line.accepted_steps();
            line.nodes[node].clock.raise_taken(sender, accepted);
            line.queues[channel].messages.clear();
            line.queues[channel].mark = accepted;
        }
        Some(())
    }),
    harmless("rows complete at once but for one", |random, line| {
        let (node, spared) = incomplete_row(random, line)?;
        complete_rows(random, line, node, Some(spared))
    }),
    harmless("the same by low clocks", |random, line| {
        let (node, spared) = incomplete_row(random, line)?;
        trim_rows(random, line, node, Some(spared))
    }),
    harmless("low clock at the clock", |random, line| {
        let node = lowered_node(random, line)?;
        let node = &mut line.nodes[node];
        node.low_clock.parents = node.clock.parents.clone();
        Some(())
    }),
    harmless("low clock in the middle", |random, line| {
        let node = lowered_node(random, line)?;
        let node = &mut line.nodes[node];
        for (low, part) in node.low_clock.parents.iter_mut().zip(&node.clock.parents) {
            low.time = random.between(0, part.time);
            for (low, before) in low.parents.iter_mut().zip(&part.parents) {
                low.time = random.between(0, before.time);
            }
        }
        Some(())
    }),
    harmless("no low clock", |random, line| {
        let node = lowered_node(random, line)?;
        line.nodes[node].low_clock = Clock::empty(&line.plan, node);
        Some(())
    }),
    harmless("an answer asked for", |random, line| {
        let asked = pick::node(random, line, |number, node| {
            node.status == Status::Down && node.kept.is_none() && line.recovers(number)
        })?;
        line.nodes[asked].kept = Some(restart(line, asked));
        Some(())
    }),
    harmless("no kept answer", |random, line| {
        let node = pick::keeping(random, line, |_| true)?;
        line.nodes[node].kept = None;
        Some(())
    }),
    harmless("another answer, and kept", |random, line| {
        let node = pick::keeping(random, line, |_| true)?;
        tell_otherwise(random, line, node)?;
        line.nodes[node].kept = Some(restart(line, node));
        line.recovers(node).then_some(())
    }),
    harmless("64 held records", hold_most),
    harmless("entry for a parent lower", |random, line| {
        // As low as what was made from it lets it be.
        let channel = pick::live_channel(random, line, |channel| {
            let sender = line.plan.channels[channel].sender;
            line.nodes[sender].status == Status::Up
        })?;
        let ends = line.plan.channels[channel];
        let node = &mut line.nodes[ends.receiver];
        let logged = node.log.iter().filter_map(|entry| entry.message.made_from);
        let held = node.buffered.iter().map(|held| held.made_from);
        let least = logged
            .chain(held)
            .filter(|input| input.sender == ends.sender)
            .map(|input| input.time)
            .chain([node.low_clock.taken(ends.sender)])
            .max()
            .expect("the low clock's");
        node.clock.part_mut(ends.sender)?.time = least;
        Some(())
    }),
    harmless("four channels into and out of nodes", |random, line| {
        *line = Line::of(staged::routers_plan());
        line.steps = drawn_steps(random, greatest_time(line));
        Some(())
    }),
];

/// A node that replays, and a parent whose row would not be complete at once.
fn incomplete_row(random: &mut Random, line: &Line) -> Option<(usize, usize)> {
    let node = pick::node_that_is(random, line, Status::Replaying)?;
    let told = restart(line, node);
    let incomplete = told
        .restored
        .iter()
        .filter(|entry| entry.time < greatest_target(&told, entry.sender))
        .map(|entry| entry.sender);
    Some((node, pick::any(random, incomplete)?))
}

/// Whether what its children tell must stay: it replays by that, or keeps it.
fn is_told(node: &Node) -> bool {
    node.status == Status::Replaying || node.kept.is_some()
}

/// One that has heard of something; no parent is told by its low clock.
fn lowered_node(random: &mut Random, line: &Line) -> Option<usize> {
    pick::node(random, line, |number, node| {
        let mut parents = line.plan.parents(number);
        node.clock.parents.iter().any(|part| part.time > 0)
            && parents.all(|parent| !is_told(&line.nodes[parent]))
    })
}

/// Gives log entries the sets of a plan or of records that are new, and times that rise
/// where they now have to.
fn settle(random: &mut Random, line: &mut Line) -> Option<()> {
    give_sets(line);
    for (number, node) in line.nodes.iter_mut().enumerate() {
        let mut last = 0;
        for message in node.log.iter_mut().map(|entry| &mut entry.message) {
            let may_repeat = line.plan.may_repeat(number, &message.record);
            message.time = message.time.max(last + u32::from(!may_repeat));
            last = message.time;
        }
        node.clock.time = node.clock.time.max(last);
    }
    let greatest = greatest_time(line);
    reach(random, line, greatest);
    (greatest <= line.accepted_steps()).then_some(())
}

/// Gives the entry a record that none of its node's channels takes, where one is found.
pub fn silence(random: &mut Random, line: &mut Line, node: usize, index: usize) -> Option<()> {
    let entry = &mut line.nodes[node].log[index];
    let mut records = (0..64).map(|_| Record {
        material: random.index(16) as u8,
        ..any_record(random)
    });
    entry.message.record = records.find(|record| !line.plan.is_timed(node, record))?;
    entry.set = 0;
    Some(())
}

/// An entry of a node that is neither source nor sink.
fn router_entry(
    random: &mut Random,
    line: &Line,
    will_do: fn(usize) -> bool,
) -> Option<(usize, usize)> {
    let node = pick::node(random, line, |number, node| {
        !line.plan.is_source(number)
            && !line.plan.is_sink(number)
            && (0..node.log.len()).any(will_do)
    })?;
    let indices = (0..line.nodes[node].log.len()).filter(|&index| will_do(index));
    Some((node, pick::any(random, indices)?))
}

/// One whose sender holds nothing that it would have to take.
fn free_channel(random: &mut Random, line: &Line) -> Option<usize> {
    pick::channel(random, line, |channel| {
        let sender = line.plan.channels[channel].sender;
        line.nodes[sender].buffered.is_empty()
    })
}

/// A node that holds something holds as much as it can, all the rest from one
/// parent.
pub fn hold_most(random: &mut Random, line: &mut Line) -> Option<()> {
    let (node, index) = pick::held(random, line, |_, _| true)?;
    let needed = line.accepted_steps() + Line::MOST_BUFFERED as u32;
    reach(random, line, needed);
    if line.accepted_steps() < needed {
        return None;
    }
    let first = line.nodes[node].buffered[index];
    let sender = first.made_from.sender;
    let channel = pick::channel_between(line, sender, node);
    let node = &mut line.nodes[node];
    let room = Line::MOST_BUFFERED - node.buffered.len();
    for time in (node.clock.taken(sender) + 1..).take(room) {
        let mut held = first;
        held.made_from.time = time;
        node.buffered.push(held);
    }
    node.clock.raise_taken(sender, needed);
    line.queues[channel].messages.clear();
    line.queues[channel].mark = needed;
    Some(())
}
