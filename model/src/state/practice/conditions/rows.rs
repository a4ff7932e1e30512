use super::*;
use crate::line::Status;
use crate::plan::{Channel, Version, Window};
use crate::record::Record;

pub const NOT_RISING: Clause = Clause {
    words: "held times of a row don't rise strictly",
    conditions: &[
        line("twice the same", |random, line| {
            let (node, first, second) = two_of_a_row(random, line)?;
            let held = &mut line.nodes[node].buffered;
            held[second].made_from.time = held[first].made_from.time;
            Some(())
        }),
        line("one record twice", |random, line| {
            let (node, index) = pick::held(random, line, |node, _| {
                line.nodes[node].buffered.len() < Line::MOST_BUFFERED
            })?;
            let held = &mut line.nodes[node].buffered;
            held.push(held[index]);
            Some(())
        }),
        line("falling", |random, line| {
            let (node, first, second) = two_of_a_row(random, line)?;
            line.nodes[node].buffered.swap(first, second);
            Some(())
        }),
    ],
};

pub const NOT_TAKEN: Clause = Clause {
    words: "a held record is one that no leaving belt takes",
    conditions: &[
        line("by its material", |random, line| {
            let (node, index) = pick::held(random, line, |_, _| true)?;
            let mut record = line.nodes[node].buffered[index].record;
            record.material = pick::any(
                random,
                (0..16).filter(|&material| {
                    let mut other = record;
                    other.material = material as u8;
                    !line.plan.passes_on(node, &other)
                }),
            )? as u8;
            line.nodes[node].buffered[index].record = record;
            Some(())
        }),
        line("by its piece number", |random, line| {
            let pieces = [(); 8].map(|()| random.draw() as u32);
            let untaken = |node: usize, index: usize| {
                let held = asked(line, node, index)?;
                let is_taken = |piece| line.plan.passes_on(node, &Record { piece, ..held });
                pieces.into_iter().find(|&piece| !is_taken(piece))
            };
            let (node, index) =
                pick::held(random, line, |node, index| untaken(node, index).is_some())?;
            let piece = untaken(node, index)?;
            line.nodes[node].buffered[index].record.piece = piece;
            Some(())
        }),
        line("by its mass", |random, line| {
            let (node, index) = pick::held(random, line, |node, index| {
                !untaken_masses(line, node, index).is_empty()
            })?;
            let mass = random.pick(&untaken_masses(line, node, index));
            line.nodes[node].buffered[index].record.mass = mass;
            Some(())
        }),
        line("by the channels' masks", |random, line| {
            turn_away(random, line, |_, channel, held| {
                channel.mask = !(1 << held.material);
            })
        }),
        line("by the channels' remainders", |random, line| {
            turn_away(random, line, |random, channel, held| {
                channel.modulus = random.between(2, 255) as u8;
                let taken = held.piece % u32::from(channel.modulus);
                channel.remainder = ((taken + 1) % u32::from(channel.modulus)) as u8;
            })
        }),
        line("by the channels' windows", |random, line| {
            line.plan.version = Version::Second;
            turn_away(random, line, |random, channel, held| {
                let below = held.mass.checked_sub(1);
                let below = below.map(|greatest| Window { least: 0, greatest });
                let above = held.mass.checked_add(1).map(|least| Window {
                    least,
                    ..Window::ALL
                });
                let windows: Vec<Window> = below.into_iter().chain(above).collect();
                channel.window = random.pick(&windows);
            })
        }),
    ],
};

/// The held record, if channels are asked whether they take it: it is no tick.
fn asked(line: &Line, node: usize, index: usize) -> Option<Record> {
    let held = line.nodes[node].buffered.get(index)?.record;
    (!held.is_tick()).then_some(held)
}

/// Masses beside the windows of the channels that leave the node: with them none
/// takes the held record.
fn untaken_masses(line: &Line, node: usize, index: usize) -> Vec<u16> {
    let Some(held) = asked(line, node, index) else {
        return Vec::new();
    };
    let is_taken = |mass| line.plan.passes_on(node, &Record { mass, ..held });
    let beside = line.plan.leaving(node).flat_map(|number| {
        let Window { least, greatest } = line.plan.channels[number].window;
        [least.wrapping_sub(1), greatest.wrapping_add(1)]
    });
    beside.filter(|&mass| !is_taken(mass)).collect()
}

/// Changes the channels that leave a replaying node so that none takes the first
/// record that it holds.
fn turn_away(
    random: &mut Random,
    line: &mut Line,
    change: fn(&mut Random, &mut Channel, &Record),
) -> Option<()> {
    let node = pick::node_that_is(random, line, Status::Replaying)?;
    let held = asked(line, node, 0)?;
    let channels = line.plan.channels.iter_mut();
    for channel in channels.filter(|channel| channel.sender == node) {
        change(random, channel, &held);
    }
    Some(())
}

/// A node and two of the records that it holds from one parent.
fn two_of_a_row(random: &mut Random, line: &Line) -> Option<(usize, usize, usize)> {
    let later = |node: usize, index: usize| {
        let held = &line.nodes[node].buffered;
        let sender = held[index].made_from.sender;
        (index + 1..held.len()).filter(move |&other| held[other].made_from.sender == sender)
    };
    let (node, first) = pick::held(random, line, |node, index| later(node, index).count() > 0)?;
    let second = pick::any(random, later(node, first))?;
    Some((node, first, second))
}
