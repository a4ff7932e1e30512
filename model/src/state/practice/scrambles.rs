//! Bytes drawn at random: all of a state, those behind its plan, or those of one
//! part.

use super::change::{change, Change};
use super::places::places;
use super::slots::any_list;
use crate::line::Line;
use crate::random::Random;
use crate::state::layout::*;

pub const SCRAMBLES: &[Change] = &[
    change("all bytes", |random, _, state| {
        random.fill(state);
        Some(())
    }),
    change("all behind the plan", |random, line, state| {
        random.fill(&mut state[line.plan.write().len()..]);
        Some(())
    }),
    change("all behind the right steps", |random, _, state| {
        random.fill(&mut state[STEPS_END..]);
        Some(())
    }),
    change("all behind other steps", |random, _, state| {
        other_steps(random, state);
        random.fill(&mut state[STEPS_END..]);
        Some(())
    }),
    change("all used behind the right steps", |random, line, state| {
        fill_used(random, line, state);
        Some(())
    }),
    change("all used behind other steps", |random, line, state| {
        other_steps(random, state);
        fill_used(random, line, state);
        Some(())
    }),
    change("the page of plan and steps", |random, _, state| {
        random.fill(&mut state[..HEAD_LENGTH]);
        Some(())
    }),
    change("a node's page", |random, line, state| {
        let at = node(random.index(line.nodes.len()));
        random.fill(&mut state[at..][..NODE_LENGTH]);
        Some(())
    }),
    change("a channel's block", |random, line, state| {
        let at = channel(random.index(line.queues.len()));
        random.fill(&mut state[at..][..CHANNEL_LENGTH]);
        Some(())
    }),
    change("a slot", |random, line, state| {
        let list = any_list(random, line, state, 1)?;
        let index = random.index(list.count);
        random.fill(&mut state[list.range(index, index + 1)]);
        Some(())
    }),
    change("a free slot", |random, line, state| {
        let list = any_list(random, line, state, 0)?;
        if list.count == list.slots.most {
            return None;
        }
        let index = list.count + random.index(list.slots.most - list.count);
        random.fill(&mut state[list.range(index, index + 1)]);
        Some(())
    }),
];

fn other_steps(random: &mut Random, state: &mut [u8]) {
    for console in 0..Line::CONSOLES {
        put_number(state, steps(console), random.between(0, Line::MOST_STEPS));
    }
}

/// The unused bytes stay 0.
fn fill_used(random: &mut Random, line: &Line, state: &mut [u8]) {
    for place in places(line) {
        if place.is_used && place.at >= STEPS_END {
            random.fill(&mut state[place.range()]);
        }
    }
}
