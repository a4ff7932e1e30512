//! Lines by hand at which many steps have been accepted: some consoles have none
//! left, and times are late.

use crate::clock::Clock;
use crate::line::{Line, Queue, Status};
use crate::random::Random;

/// As many steps as there can be.
const ALL_STEPS: u32 = Line::CONSOLES as u32 * Line::MOST_STEPS;

/// More steps than the line has, and times as late as those let them be.
pub fn age(random: &mut Random, line: &mut Line) {
    line.steps = drawn_steps(random, greatest_time(line));
    make_late(random, line);
}

/// At least so many in all.
pub fn drawn_steps(random: &mut Random, least: u32) -> [u32; Line::CONSOLES] {
    let any = random.between(least, ALL_STEPS);
    let near = (least + random.between(0, 4)).min(ALL_STEPS);
    let total = random.pick(&[near, any, any, any]);
    share_steps(random, total)
}

/// So many in all, as far as there can be. Some consoles have none or few, some
/// have none or few left.
pub fn share_steps(random: &mut Random, total: u32) -> [u32; Line::CONSOLES] {
    let mut steps = [0; Line::CONSOLES];
    let mut left = total;
    let most = Line::MOST_STEPS;
    let first = random.index(Line::CONSOLES);
    for turn in 0..2 * Line::CONSOLES {
        let any = random.between(0, most);
        let few = random.between(0, 40);
        // What is left at last goes where there is room.
        let share = match turn < Line::CONSOLES {
            true => random.pick(&[0, few, any, any, most - few, most - few, most]),
            false => most,
        };
        let count = &mut steps[(first + turn) % Line::CONSOLES];
        let more = share.min(left).min(most - *count);
        *count += more;
        left -= more;
    }
    steps
}

/// Gives the line so many steps in all, where it has fewer.
pub fn reach(random: &mut Random, line: &mut Line, total: u32) {
    if line.accepted_steps() < total {
        line.steps = share_steps(random, total);
    }
}

/// Every time of a node later by what is drawn for the node.
pub fn make_late(random: &mut Random, line: &mut Line) {
    let most = line.accepted_steps() - greatest_time(line);
    let mut drawn = |_| {
        let any = random.between(0, most);
        random.pick(&[0, any, any, most])
    };
    let later: Vec<u32> = (0..line.nodes.len()).map(&mut drawn).collect();
    each_time(line, &mut |node, time| *time += later[node]);
    for number in 0..line.nodes.len() {
        if line.nodes[number].status == Status::Down {
            empty(line, number);
        }
    }
}

/// What stays empty while a node is down.
fn empty(line: &mut Line, node: usize) {
    let plan = &line.plan;
    line.nodes[node].clock = Clock::empty(plan, node);
    line.nodes[node].low_clock = Clock::empty(plan, node);
    for channel in plan.entering(node).chain(plan.leaving(node)) {
        line.queues[channel] = Queue::default();
    }
}

pub fn greatest_time(line: &Line) -> u32 {
    let mut greatest = 0;
    each_time(&mut line.clone(), &mut |_, time| {
        greatest = greatest.max(*time)
    });
    greatest
}

/// Every time in the line, with the node whose time it is.
pub(super) fn each_time(line: &mut Line, visit: &mut dyn FnMut(usize, &mut u32)) {
    for (number, node) in line.nodes.iter_mut().enumerate() {
        each_in_clock(&mut node.clock, visit);
        for part in &mut node.low_clock.parents {
            each_in_clock(part, visit);
        }
        for entry in &mut node.log {
            visit(number, &mut entry.message.time);
            let origins = [&mut entry.message.made_from, &mut entry.input_made_from];
            for origin in origins.into_iter().flatten() {
                visit(origin.sender, &mut origin.time);
            }
        }
        for held in &mut node.buffered {
            let input = Some(&mut held.made_from);
            for origin in input.into_iter().chain(&mut held.input_made_from) {
                visit(origin.sender, &mut origin.time);
            }
        }
        if let Some(kept) = &mut node.kept {
            visit(number, &mut kept.low);
            visit(number, &mut kept.high);
            for entry in &mut kept.restored {
                visit(entry.sender, &mut entry.time);
            }
        }
        let kept = node.kept.iter_mut().flat_map(|kept| &mut kept.targets);
        for target in node.targets.iter_mut().chain(kept) {
            visit(number, &mut target.time);
            visit(target.parent, &mut target.parent_time);
        }
    }
    for (queue, channel) in line.queues.iter_mut().zip(&line.plan.channels) {
        visit(channel.sender, &mut queue.mark);
        for message in &mut queue.messages {
            visit(channel.sender, &mut message.time);
            if let Some(origin) = &mut message.made_from {
                visit(origin.sender, &mut origin.time);
            }
        }
    }
}

fn each_in_clock(clock: &mut Clock, visit: &mut dyn FnMut(usize, &mut u32)) {
    visit(clock.node, &mut clock.time);
    for part in &mut clock.parents {
        each_in_clock(part, visit);
    }
}
