//! Replays and kept answers that Recover would not give.

use super::{pick, Told};
use crate::clock::Clock;
use crate::line::practice::{reach, retarget, share_steps};
use crate::line::{restart, Entry, Line, Message, Origin, Restart, Status};
use crate::random::Random;
use crate::state::practice::runs::any_record;
use crate::state::practice::staged::plan_of;

/// Replaying with what the children tell.
pub fn replay(line: &mut Line, node: usize, told: &Restart) {
    let mut clock = Clock::empty(&line.plan, node);
    clock.time = told.low;
    for channel in line.plan.entering(node).chain(line.plan.leaving(node)) {
        line.queues[channel] = Default::default();
        let ends = &line.plan.channels[channel];
        if ends.sender == node {
            line.queues[channel].mark = line.nodes[ends.receiver].clock.taken(node);
        }
    }
    line.nodes[node].clock = clock;
    line.nodes[node].low_clock = Clock::empty(&line.plan, node);
    line.nodes[node].status = Status::Replaying;
    line.nodes[node].log.clear();
    line.nodes[node].kept = None;
}

/// Children have taken, at or below low, what the greatest target of each row
/// was made from, save a spared row: of that, what came just before.
pub fn complete_rows(
    random: &mut Random,
    line: &mut Line,
    node: usize,
    spared: Option<usize>,
) -> Option<()> {
    let told = restart(line, node);
    if told.low == 0 {
        return None;
    }
    for parent in line.plan.clone().parents(node) {
        let greatest = greatest_target(&told, parent);
        let time = match spared == Some(parent) {
            true => greatest.saturating_sub(1),
            false => greatest,
        };
        if time == 0 {
            continue;
        }
        let children = line.plan.children(node);
        let room = |child: &usize| line.nodes[*child].log.len() < Line::MOST_ENTRIES;
        let child = pick::any(random, children.filter(room))?;
        let input = Origin {
            sender: node,
            time: random.between(1, told.low),
        };
        let origin = Origin {
            sender: parent,
            time,
        };
        log_input(random, line, child, input, origin);
        let time = line.nodes[child].time();
        reach(random, line, time);
    }
    retarget(line);
    Some(())
}

/// Children's low clocks tell what the greatest target of each row was made from,
/// save that of a spared row.
pub fn trim_rows(
    random: &mut Random,
    line: &mut Line,
    node: usize,
    spared: Option<usize>,
) -> Option<()> {
    let told = restart(line, node);
    for parent in line.plan.clone().parents(node) {
        let time = greatest_target(&told, parent);
        if spared == Some(parent) {
            continue;
        }
        let children = line.plan.children(node);
        let heard = |child: &usize| line.nodes[*child].clock.heard(node, parent) >= time;
        let child = pick::any(random, children.filter(heard))?;
        line.nodes[child].low_clock.raise_heard(node, parent, time);
    }
    retarget(line);
    Some(())
}

/// 0 if the row has none.
pub fn greatest_target(told: &Restart, parent: usize) -> u32 {
    let targets = told.targets.iter();
    let row = targets.filter(|target| target.parent == parent);
    row.map(|target| target.parent_time).max().unwrap_or(0)
}

/// The node logs what it made from the input, which was made from the origin.
fn log_input(random: &mut Random, line: &mut Line, node: usize, input: Origin, origin: Origin) {
    let record = any_record(random);
    let set = line.plan.set_of(node, &record);
    let node = &mut line.nodes[node];
    node.clock.time += 1;
    node.clock.raise_taken(input.sender, input.time);
    node.clock
        .raise_heard(input.sender, origin.sender, origin.time);
    node.log.push(Entry {
        message: Message {
            record,
            time: node.clock.time,
            made_from: Some(input),
        },
        input_made_from: Some(origin),
        set,
    });
}

/// A router that has 64 of the 65 targets that two of its children tell; the third has
/// heard nothing.
pub fn too_many<T: Told>(random: &mut Random) -> Line {
    let mut line = Line::of(plan_of(5, vec![(0, 1), (1, 2), (1, 3), (1, 4)]));
    line.steps = share_steps(random, 1000);
    let alone = random.between(1, 65);
    for time in 1..=65 {
        let child = if time == alone { 3 } else { 2 };
        let (input, origin) = (Origin { sender: 1, time }, Origin { sender: 0, time });
        log_input(random, &mut line, child, input, origin);
    }
    line.nodes[1].crash_marked = true;
    let mut told = restart(&line, 1);
    let dropped = random.between(0, 64) as usize;
    told.targets.remove(random.pick(&[dropped, 64]));
    T::make(&mut line, 1, told);
    line
}
