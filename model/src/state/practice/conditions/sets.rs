use super::*;
use crate::plan::practice::{all_leaving, is_partial};
use crate::plan::{Channel, Version, Window};
use crate::record::Record;
use crate::state::practice::runs::any_record;

/// The set is another one, or what the plan gives has become another.
pub const DIFFERENT: Clause = Clause {
    words: "a set differs from what the plan gives",
    conditions: &[
        line("a channel more", |random, line| {
            let (node, index) = pick::entry(random, line, |node, entry| {
                entry.set != all_leaving(&line.plan, node)
            })?;
            let lacking = all_leaving(&line.plan, node) ^ line.nodes[node].log[index].set;
            line.nodes[node].log[index].set |= one_of(random, lacking)?;
            Some(())
        }),
        line("a channel less", |random, line| {
            let (node, index) = pick::entry(random, line, |_, entry| entry.set != 0)?;
            let set = line.nodes[node].log[index].set;
            line.nodes[node].log[index].set ^= one_of(random, set)?;
            Some(())
        }),
        line("a channel for another", |random, line| {
            let (node, index) = some_channels(random, line)?;
            let set = line.nodes[node].log[index].set;
            let lacking = all_leaving(&line.plan, node) ^ set;
            line.nodes[node].log[index].set ^= one_of(random, set)? | one_of(random, lacking)?;
            Some(())
        }),
        line("no channel", |random, line| {
            let (node, index) = pick::entry(random, line, |_, entry| entry.set != 0)?;
            line.nodes[node].log[index].set = 0;
            Some(())
        }),
        line("all channels", |random, line| {
            let (node, index) = pick::entry(random, line, |node, entry| {
                entry.set != all_leaving(&line.plan, node)
            })?;
            line.nodes[node].log[index].set = all_leaving(&line.plan, node);
            Some(())
        }),
        line("a bit past the channels", |random, line| {
            let (node, index) = pick::entry(random, line, |node, _| !line.plan.is_sink(node))?;
            let past = !all_leaving(&line.plan, node);
            let first = all_leaving(&line.plan, node) + 1;
            let any = one_of(random, past)?;
            line.nodes[node].log[index].set |= random.pick(&[first, any, past]);
            Some(())
        }),
        line("bits from the top", |random, line| {
            let reversed = |node: usize, set: u8| {
                let count = line.plan.leaving(node).count() as u32;
                set.reverse_bits() >> (u8::BITS - count)
            };
            let (node, index) = pick::entry(random, line, |node, entry| {
                !line.plan.is_sink(node) && reversed(node, entry.set) != entry.set
            })?;
            let set = line.nodes[node].log[index].set;
            let other = random.pick(&[reversed(node, set), set.reverse_bits()]);
            line.nodes[node].log[index].set = other;
            Some(())
        }),
        line("of a sink's entry", |random, line| {
            let (node, index) = pick::entry(random, line, |node, _| line.plan.is_sink(node))?;
            line.nodes[node].log[index].set = random.pick(&[1, 2, 8, 15, 16, 128, 255]);
            Some(())
        }),
        line("of a tick", |random, line| {
            let (node, index) = pick::entry(random, line, |node, entry| {
                entry.message.record.is_tick() && !line.plan.is_sink(node)
            })?;
            let set = line.nodes[node].log[index].set;
            line.nodes[node].log[index].set ^= one_of(random, set)?;
            Some(())
        }),
        line("of a recovered node's entry", |random, line| {
            let (node, index) = pick::entry(random, line, |node, _| line.nodes[node].crash_marked)?;
            let bit = random.index(line.plan.leaving(node).count());
            line.nodes[node].log[index].set ^= 1 << bit;
            Some(())
        }),
        line("two entries' exchanged", |random, line| {
            let other = |node: usize, set: u8| {
                let log = &line.nodes[node].log;
                (0..log.len()).filter(move |&index| log[index].set != set)
            };
            let (node, first) = pick::entry(random, line, |node, entry| {
                other(node, entry.set).count() > 0
            })?;
            let second = pick::any(random, other(node, line.nodes[node].log[first].set))?;
            let log = &mut line.nodes[node].log;
            (log[first].set, log[second].set) = (log[second].set, log[first].set);
            Some(())
        }),
        line("another record, the set as before", |random, line| {
            let record = any_record(random);
            record_instead(random, line, record)
        }),
        line("a tick, the set as before", |random, line| {
            record_instead(random, line, Record::TICK)
        }),
        line("another mask, sets as before", |random, line| {
            channel_instead(random, line, |random, channel| {
                channel.mask = random.between(1, 0xFFFF) as u16;
            })
        }),
        line("another remainder, sets as before", |random, line| {
            channel_instead(random, line, |random, channel| {
                channel.modulus = random.between(2, 255) as u8;
                channel.remainder = random.index(usize::from(channel.modulus)) as u8;
            })
        }),
        line("another window, sets as before", |random, line| {
            line.plan.version = Version::Second;
            channel_instead(random, line, |random, channel| {
                let [one, other] = [(); 2].map(|()| random.draw() as u16);
                channel.window = Window {
                    least: one.min(other),
                    greatest: one.max(other),
                };
            })
        }),
    ],
};

/// One of the bits.
fn one_of(random: &mut Random, bits: u8) -> Option<u8> {
    let place = pick::any(random, (0..8).filter(|place| bits >> place & 1 == 1))?;
    Some(1 << place)
}

/// An entry that some of its node's channels take, and some do not.
fn some_channels(random: &mut Random, line: &Line) -> Option<(usize, usize)> {
    pick::entry(random, line, |node, entry| {
        is_partial(&line.plan, node, entry.set)
    })
}

/// None where each entry has the record's set.
fn record_instead(random: &mut Random, line: &mut Line, record: Record) -> Option<()> {
    let (node, index) = pick::entry(random, line, |node, entry| {
        entry.set != line.plan.set_of(node, &record)
    })?;
    line.nodes[node].log[index].message.record = record;
    Some(())
}

/// Changes a channel whose sender has a log; None where that keeps all its sets.
fn channel_instead(
    random: &mut Random,
    line: &mut Line,
    change: fn(&mut Random, &mut Channel),
) -> Option<()> {
    let sender = pick::node(random, line, |number, node| {
        !line.plan.is_sink(number) && !node.log.is_empty()
    })?;
    let number = pick::any(random, line.plan.leaving(sender))?;
    change(random, &mut line.plan.channels[number]);
    let mut log = line.nodes[sender].log.iter();
    log.any(|entry| entry.set != line.plan.set_of(sender, &entry.message.record))
        .then_some(())
}
