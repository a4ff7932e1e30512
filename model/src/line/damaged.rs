//! Document 01, the paragraph "Damaged", and requests 2026-04 and 2026-06 to 2026-08, as far
//! as they speak of more than bytes: their number and the unused ones have no place in the
//! structs.

use super::{restart, Entry, Line, Message, Node, Origin, Queue, Status};
use crate::clock::Clock;
use crate::plan::Plan;

pub fn damaged(line: &Line) -> bool {
    // In this order: what stands later rests on the numbers seen to before.
    !(is_plan_accepted(line)
        && has_plans_shape(line)
        && are_numbers_within_limits(line)
        && are_senders_right(line)
        && are_times_reached(line)
        && are_low_clocks_within(line)
        && is_log_sound(line)
        && are_sets_right(line)
        && is_buffer_sound(line)
        && are_queues_sound(line)
        && are_crash_marks_sound(line)
        && is_emptied_where_it_must_be(line)
        && are_replays_as_recovered(line)
        && are_kept_as_recovered(line))
}

/// Not: "the plan would be refused".
fn is_plan_accepted(line: &Line) -> bool {
    Plan::read(&line.plan.write()).as_ref() == Ok(&line.plan)
}

/// As many nodes, channels and clock parts as the plan has: given by the layout
/// where the state is bytes.
fn has_plans_shape(line: &Line) -> bool {
    line.nodes.len() == line.plan.node_count()
        && line.queues.len() == line.plan.channels.len()
        && line.nodes.iter().enumerate().all(|(number, node)| {
            let wanted = Clock::empty(&line.plan, number);
            has_shape(&node.clock, &wanted) && has_shape(&node.low_clock, &wanted)
        })
}

fn has_shape(clock: &Clock, wanted: &Clock) -> bool {
    clock.node == wanted.node
        && clock.parents.len() == wanted.parents.len()
        && clock
            .parents
            .iter()
            .zip(&wanted.parents)
            .all(|(part, wanted)| has_shape(part, wanted))
}

/// Not: "a number is outside its limits".
fn are_numbers_within_limits(line: &Line) -> bool {
    let are_nodes_within = line.nodes.iter().all(|node| {
        node.log.len() <= Line::MOST_ENTRIES
            && node.buffered.len() <= Line::MOST_BUFFERED
            && node.targets.len() <= Line::MOST_TARGETS
            && node.log.iter().all(|entry| entry.message.record.is_sound())
            && node.buffered.iter().all(|held| held.record.is_sound())
    });
    let are_queues_within = line.queues.iter().all(|queue| {
        queue.messages.len() <= Line::MOST_MESSAGES
            && queue
                .messages
                .iter()
                .all(|message| message.record.is_sound())
    });
    let are_steps_within = line.steps.iter().all(|&count| count <= Line::MOST_STEPS);
    are_steps_within && are_nodes_within && are_queues_within
}

/// Not: a number "names a node that is not the right parent"; "a named sender's
/// time is 0; a made-from sender is missing where the maker is no infeed, or
/// present where it is one".
fn are_senders_right(line: &Line) -> bool {
    let plan = &line.plan;
    let are_nodes_right = line.nodes.iter().enumerate().all(|(number, node)| {
        let are_entries_right = node.log.iter().all(|entry| {
            let made_from = entry.message.made_from;
            is_origin_right(plan, number, made_from)
                && match made_from {
                    None => entry.input_made_from.is_none(),
                    Some(input) => is_origin_right(plan, input.sender, entry.input_made_from),
                }
        });
        let are_held_right = node.buffered.iter().all(|held| {
            is_origin_right(plan, number, Some(held.made_from))
                && is_origin_right(plan, held.made_from.sender, held.input_made_from)
        });
        let are_targets_right = node.targets.iter().all(|target| {
            let input = Origin {
                sender: target.parent,
                time: target.parent_time,
            };
            is_origin_right(plan, number, Some(input))
        });
        are_entries_right && are_held_right && are_targets_right
    });
    let are_queues_right = line
        .queues
        .iter()
        .zip(&plan.channels)
        .all(|(queue, channel)| {
            queue
                .messages
                .iter()
                .all(|message| is_origin_right(plan, channel.sender, message.made_from))
        });
    are_nodes_right && are_queues_right
}

/// Whether something that the maker made may have been made from this.
fn is_origin_right(plan: &Plan, maker: usize, origin: Option<Origin>) -> bool {
    match origin {
        None => plan.is_source(maker),
        Some(Origin { sender, time }) => {
            plan.parents(maker).any(|parent| parent == sender) && time >= 1
        }
    }
}

/// Not: "a time exceeds the accepted steps", those of all consoles.
fn are_times_reached(line: &Line) -> bool {
    let accepted = line.accepted_steps();
    let is_reached = |time: u32| time <= accepted;
    let is_origin_reached =
        |origin: Option<Origin>| origin.is_none_or(|origin| is_reached(origin.time));
    let are_nodes_reached = line.nodes.iter().all(|node| {
        let are_entries_reached = node.log.iter().all(|entry| {
            is_reached(entry.message.time)
                && is_origin_reached(entry.message.made_from)
                && is_origin_reached(entry.input_made_from)
        });
        let are_held_reached = node
            .buffered
            .iter()
            .all(|held| is_reached(held.made_from.time) && is_origin_reached(held.input_made_from));
        let are_targets_reached = node
            .targets
            .iter()
            .all(|target| is_reached(target.time) && is_reached(target.parent_time));
        node.clock.times().into_iter().all(is_reached)
            && are_entries_reached
            && are_held_reached
            && are_targets_reached
    });
    let are_queues_reached = line.queues.iter().all(|queue| {
        is_reached(queue.mark)
            && queue
                .messages
                .iter()
                .all(|message| is_reached(message.time) && is_origin_reached(message.made_from))
    });
    are_nodes_reached && are_queues_reached
}

/// Not: "a low clock entry above the node's clock". So it is reached too, and a down
/// node's is empty. It has no entry for the node itself.
fn are_low_clocks_within(line: &Line) -> bool {
    line.nodes
        .iter()
        .all(|node| node.low_clock.time == 0 && node.low_clock.is_within(&node.clock))
}

/// Not: log times "pass the node's time; an entry's other times pass the node's clock".
fn is_log_sound(line: &Line) -> bool {
    line.nodes.iter().enumerate().all(|(number, node)| {
        do_log_times_rise(&line.plan, number, &node.log)
            && node
                .log
                .iter()
                .all(|entry| entry.message.time <= node.time() && is_entry_heard(node, entry))
    })
}

/// "The state check wants such an entry's time not below the one before it, any other's
/// above it."
fn do_log_times_rise(plan: &Plan, number: usize, log: &[Entry]) -> bool {
    let before = [0]
        .into_iter()
        .chain(log.iter().map(|entry| entry.message.time));
    log.iter().zip(before).all(|(entry, before)| {
        let Message { record, time, .. } = &entry.message;
        *time > before || *time == before && plan.may_repeat(number, record)
    })
}

fn is_entry_heard(node: &Node, entry: &Entry) -> bool {
    match entry.message.made_from {
        None => true,
        Some(input) => is_heard(&node.clock, input, entry.input_made_from),
    }
}

/// Whether the clock has heard of an input and of what that was made from.
fn is_heard(clock: &Clock, input: Origin, input_made_from: Option<Origin>) -> bool {
    input.time <= clock.taken(input.sender)
        && input_made_from
            .is_none_or(|origin| origin.time <= clock.heard(input.sender, origin.sender))
}

/// Not: a set "differs from what the plan gives".
fn are_sets_right(line: &Line) -> bool {
    line.nodes.iter().enumerate().all(|(number, node)| {
        node.log
            .iter()
            .all(|entry| entry.set == line.plan.set_of(number, &entry.message.record))
    })
}

/// Not: "a held record's time is 0" (a sender's: seen to before); "a held
/// record's other times pass the node's clock; held times of a row don't rise
/// strictly; a held record is one that no leaving belt takes".
fn is_buffer_sound(line: &Line) -> bool {
    line.nodes.iter().enumerate().all(|(number, node)| {
        let do_rows_rise = line.plan.parents(number).all(|parent| {
            let row = node
                .buffered
                .iter()
                .map(|held| held.made_from)
                .filter(|input| input.sender == parent);
            rises_strictly_from_above(0, row.map(|input| input.time))
        });
        do_rows_rise
            && node.buffered.iter().all(|held| {
                is_heard(&node.clock, held.made_from, held.input_made_from)
                    && line.plan.passes_on(number, &held.record)
            })
    })
}

/// Not: "a message's time is 0"; "with no end down, a belt's mark is below the
/// receiver's entry, or message times don't rise strictly from above that entry
/// to the mark". With an end down the channel is empty: seen to below.
fn are_queues_sound(line: &Line) -> bool {
    line.queues
        .iter()
        .zip(&line.plan.channels)
        .all(|(queue, channel)| {
            let ends = [channel.sender, channel.receiver];
            if ends
                .iter()
                .any(|&end| line.nodes[end].status == Status::Down)
            {
                return true;
            }
            let taken = line.nodes[channel.receiver].clock.taken(channel.sender);
            let times = queue.messages.iter().map(|message| message.time);
            taken <= queue.mark
                && rises_strictly_from_above(taken, times.clone())
                && times.max().is_none_or(|last| last <= queue.mark)
        })
}

/// Not: "a down or replaying node lacks a crash mark, an infeed or outfeed bears
/// one, or two joined nodes do".
fn are_crash_marks_sound(line: &Line) -> bool {
    let plan = &line.plan;
    let is_marked = |node: usize| line.nodes[node].crash_marked;
    let are_nodes_sound = (0..plan.node_count()).all(|node| {
        if is_marked(node) {
            !plan.is_source(node) && !plan.is_sink(node)
        } else {
            line.nodes[node].status == Status::Up
        }
    });
    let is_pair_sound = |(sender, receiver)| !(is_marked(sender) && is_marked(receiver));
    are_nodes_sound
        && plan
            .channels
            .iter()
            .map(|channel| (channel.sender, channel.receiver))
            .all(is_pair_sound)
}

/// Not: "a down node's belts or emptied parts, an up node's targets or held
/// list, a replaying node's log or leaving belts hold anything". A down node's
/// marks count too; a replaying node's marks do not, since Recover sets them.
fn is_emptied_where_it_must_be(line: &Line) -> bool {
    let plan = &line.plan;
    line.nodes.iter().enumerate().all(|(number, node)| {
        let holds_no_targets = node.targets.is_empty() && node.buffered.is_empty();
        match node.status {
            Status::Up => holds_no_targets,
            Status::Down => {
                holds_no_targets
                    && node.log.is_empty()
                    && node.clock == Clock::empty(plan, number)
                    && plan
                        .entering(number)
                        .chain(plan.leaving(number))
                        .all(|channel| line.queues[channel] == Queue::default())
            }
            Status::Replaying => {
                node.log.is_empty()
                    && plan
                        .leaving(number)
                        .all(|channel| line.queues[channel].messages.is_empty())
            }
        }
    })
}

/// Not: "a replaying node's time or targets are not what Recover would give":
/// Recover, were the node down in the same state, is accepted (the number of
/// steps aside) and leaves it replaying with that time and those targets.
fn are_replays_as_recovered(line: &Line) -> bool {
    line.nodes
        .iter()
        .enumerate()
        .filter(|(_, node)| node.status == Status::Replaying)
        .all(|(number, node)| {
            let restart = restart(line, number);
            restart.check_targets().is_ok()
                && !restart.is_complete()
                && node.time() == restart.low
                && node.targets == restart.targets
        })
}

/// Not: a kept answer "that Recover would not give now", also where it would be refused, so
/// wherever the node is not down. Its times are then reached and its parents right.
fn are_kept_as_recovered(line: &Line) -> bool {
    line.nodes.iter().enumerate().all(|(number, node)| {
        let kept = node.kept.as_ref();
        kept.is_none_or(|kept| line.recovers(number) && *kept == restart(line, number))
    })
}

fn rises_strictly_from_above(start: u32, times: impl Iterator<Item = u32>) -> bool {
    let mut last = start;
    for time in times {
        if time <= last {
            return false;
        }
        last = time;
    }
    true
}
