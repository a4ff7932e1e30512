//! Kept answers: their other numbers, and nodes that keep none.

use super::*;
use crate::line::Entry;
use crate::plan::Plan;
use crate::state::layout::*;

/// The targets aside, and what else the children tell.
pub const KEPT_NUMBERS: Clause = Clause {
    words: "a kept answer has another number, or is not a down node's",
    conditions: &[
        line("high", |random, line| {
            let node = any::<Keeping>(random, line)?;
            other_time(random, line, node, None)
        }),
        line("low as high", |random, line| {
            let node = pick::keeping(random, line, |kept| kept.low < kept.high)?;
            let kept = kept(&mut line.nodes[node]);
            kept.low = kept.high;
            Some(())
        }),
        line("high as low", |random, line| {
            let node = pick::keeping(random, line, |kept| kept.low < kept.high)?;
            let kept = kept(&mut line.nodes[node]);
            kept.high = kept.low;
            Some(())
        }),
        line("first entry", |random, line| other_entry(random, line, 0)),
        line("second entry", |random, line| other_entry(random, line, 1)),
        line("third entry", |random, line| other_entry(random, line, 2)),
        line("fourth entry", |random, line| other_entry(random, line, 3)),
        line("two entries exchanged", |random, line| {
            let node = pick::keeping(random, line, |kept| {
                let first = kept.restored[0].time;
                kept.restored.iter().any(|entry| entry.time != first)
            })?;
            let restored = &mut kept(&mut line.nodes[node]).restored;
            let first = random.index(restored.len());
            let time = restored[first].time;
            let others = (0..restored.len()).filter(|&other| restored[other].time != time);
            let second = pick::any(random, others)?;
            restored[first].time = restored[second].time;
            restored[second].time = time;
            Some(())
        }),
        line("entries one later", |random, line| {
            let node = any::<Keeping>(random, line)?;
            let restored = &mut kept(&mut line.nodes[node]).restored;
            let times: Vec<u32> = restored.iter().map(|entry| entry.time).collect();
            for (entry, &time) in restored.iter_mut().zip([&0].into_iter().chain(&times)) {
                entry.time = time;
            }
            restored
                .iter()
                .zip(times)
                .any(|(entry, time)| entry.time != time)
                .then_some(())
        }),
        line("no entry", |random, line| {
            let node = pick::keeping(random, line, |kept| {
                kept.restored.iter().any(|entry| entry.time > 0)
            })?;
            for entry in &mut kept(&mut line.nodes[node]).restored {
                entry.time = 0;
            }
            Some(())
        }),
        bytes("an entry behind the parents", |random, line, state| {
            let number = pick::keeping(random, line, |kept| {
                kept.restored.len() < Plan::MOST_AT_A_NODE
            })?;
            let parents = line.plan.parents(number).count();
            let row = random.between(parents as u32, Plan::MOST_AT_A_NODE as u32 - 1) as usize;
            let time = random.between(1, line.accepted_steps());
            let at = node(number) + KEPT.slot(0) + kept_restored(row);
            put_number(state, at, random.pick(&[1, time]));
            Some(())
        }),
        bytes("its numbers, not counted", |random, line, state| {
            let number = pick::keeping(random, line, |kept| kept.high > 0)?;
            put_number(state, node(number) + KEPT.count, 0);
            Some(())
        }),
        bytes("its numbers alone, not counted", |random, line, state| {
            let number = pick::keeping(random, line, |kept| kept.high > 0)?;
            state[node(number) + TARGETS.count..][..TARGETS.end() - TARGETS.count].fill(0);
            put_number(state, node(number) + KEPT.count, 0);
            Some(())
        }),
        bytes("counted, with no numbers", |random, line, state| {
            let number = pick::node(random, line, |number, node| {
                node.status == Status::Down && restart(line, number).high > 0
            })?;
            let block = &mut state[node(number)..][..NODE_LENGTH];
            block[TARGETS.count..KEPT.end()].fill(0);
            put_number(block, KEPT.count, 1);
            Some(())
        }),
        line("of a node that is up", |random, line| {
            let node = pick::node(random, line, |number, node| {
                node.status == Status::Up && !line.plan.is_sink(number)
            })?;
            let told = restart(line, node);
            let has_room = told.targets.len() <= Line::MOST_TARGETS;
            line.nodes[node].kept = Some(told);
            has_room.then_some(())
        }),
        line("the same, without targets", |random, line| {
            let node = pick::node(random, line, |number, node| {
                node.status == Status::Up && !line.plan.is_sink(number)
            })?;
            let told = restart(line, node);
            let targets = Vec::new();
            line.nodes[node].kept = Some(Restart { targets, ..told });
            Some(())
        }),
        bytes("counted where a node is up", |random, line, state| {
            let number = pick::node_that_is(random, line, Status::Up)?;
            put_number(state, node(number) + KEPT.count, 1);
            Some(())
        }),
        line("of a node that replays", |random, line| {
            let node = any::<Replaying>(random, line)?;
            line.nodes[node].kept = Some(restart(line, node));
            line.nodes[node].targets.clear();
            Some(())
        }),
        line("a child's entry gives another high", |random, line| {
            let node = any::<Keeping>(random, line)?;
            raise_high(random, line, node)
        }),
        line("logs restore another entry", |random, line| {
            let node = any::<Keeping>(random, line)?;
            restore_less(random, line, node)?;
            is_stale(line, node)
        }),
        line("a low clock restores another entry", |random, line| {
            let node = any::<Keeping>(random, line)?;
            restore_more(random, line, node)?;
            is_stale(line, node)
        }),
    ],
};

/// The children tell the down node another answer, and nothing else is damaged.
pub fn tell_otherwise(random: &mut Random, line: &mut Line, node: usize) -> Option<()> {
    let way = random.pick(&[raise_high, restore_less, restore_more]);
    way(random, line, node)?;
    is_stale(line, node)
}

fn is_stale(line: &Line, node: usize) -> Option<()> {
    (!Keeping::is_as(&line.nodes[node], &restart(line, node))).then_some(())
}

fn raise_high(random: &mut Random, line: &mut Line, node: usize) -> Option<()> {
    more_steps(random, line, 1);
    let high = restart(line, node).high;
    let child = pick::any(random, line.plan.children(node))?;
    take_up_to(line, node, child, high + 1);
    (high < line.accepted_steps()).then_some(())
}

/// No child's log tells any more what an entry was restored from.
fn restore_less(random: &mut Random, line: &mut Line, node: usize) -> Option<()> {
    let told = restart(line, node);
    let parent = random.pick(&told.restored);
    let is_from = |entry: &Entry| {
        let input = entry.message.made_from;
        entry.input_made_from == Some(parent)
            && input.is_some_and(|input| input.sender == node && input.time <= told.low)
    };
    for child in line.plan.children(node) {
        line.nodes[child].log.retain(|entry| !is_from(entry));
    }
    Some(())
}

/// A child's low clock tells more than it told.
fn restore_more(random: &mut Random, line: &mut Line, node: usize) -> Option<()> {
    let child = pick::any(random, line.plan.children(node))?;
    let parent = pick::any(random, line.plan.parents(node))?;
    let heard = line.nodes[child].clock.heard(node, parent);
    let time = random.between(heard.min(1), heard);
    let low = &mut line.nodes[child].low_clock;
    low.raise_heard(node, parent, time);
    Some(())
}

fn other_entry(random: &mut Random, line: &mut Line, row: usize) -> Option<()> {
    let node = pick::keeping(random, line, |kept| kept.restored.len() > row)?;
    other_time(random, line, node, Some(row))
}

/// Of a restored entry, or else of high.
fn other_time(random: &mut Random, line: &mut Line, node: usize, row: Option<usize>) -> Option<()> {
    more_steps(random, line, 1);
    let any = random.between(0, line.accepted_steps());
    let kept = kept(&mut line.nodes[node]);
    let time = match row {
        None => &mut kept.high,
        Some(row) => &mut kept.restored[row].time,
    };
    let other = random.pick(&[*time + 1, time.wrapping_sub(1), any]);
    let is_other = other != *time;
    *time = other;
    is_other.then_some(())
}
