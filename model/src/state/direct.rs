//! The check of a state straight over its bytes, with nothing allocated and
//! each byte looked at about once: what the engine's check is timed beside. The
//! step in place stands in `step`.
//!
//! A time that is at most another one which is at most the accepted steps is
//! not held against the steps again.

mod channels;
mod nodes;
mod recovered;
mod sets;
mod shape;
mod step;

pub use step::{step, step_unchecked};

use std::array::from_fn;

use super::layout::*;
use super::reading::read_record;
use crate::answer::{ACCEPTED, STATE};
use crate::line::Line;
use crate::plan::{Channel, Plan};
use crate::record::MATERIALS;
use shape::Shape;

pub fn check(state: &[u8]) -> u32 {
    match state.try_into() {
        Ok(state) if is_undamaged(state) => ACCEPTED,
        _ => STATE,
    }
}

fn is_undamaged(state: &[u8; LENGTH]) -> bool {
    let Some(shape) = Shape::read(&state[..PLAN_SPACE]) else {
        return false;
    };
    let counts: [u32; Line::CONSOLES] = from_fn(|console| number_at(state, steps(console)));
    if counts.iter().any(|&count| count > Line::MOST_STEPS)
        || !is_zero(&state[shape.length..STEPS])
        || !is_zero(&state[STEPS_END..HEAD_LENGTH])
    {
        return false;
    }
    let mut view = View {
        state,
        shape,
        steps: counts.iter().sum(),
        down: 0,
        replaying: 0,
        keeping: 0,
        marked: 0,
    };
    view.read_statuses()
        && (0..view.shape.node_count).all(|number| view.is_node_sound(number))
        && is_zero(&state[node(view.shape.node_count)..node(Plan::MOST_NODES)])
        && (0..view.shape.channel_count).all(|number| view.is_channel_sound(number))
        && is_zero(&state[channel(view.shape.channel_count)..])
        && view.are_as_recovered()
}

struct View<'a> {
    state: &'a [u8; LENGTH],
    shape: Shape,
    /// Of all consoles.
    steps: u32,
    /// A bit for each node.
    down: u32,
    replaying: u32,
    /// Down with a kept answer.
    keeping: u32,
    marked: u32,
}

impl View<'_> {
    fn node(&self, number: usize) -> &[u8] {
        &self.state[node(number)..][..NODE_LENGTH]
    }

    fn channel(&self, number: usize) -> &[u8] {
        &self.state[channel(number)..][..CHANNEL_LENGTH]
    }

    fn taken(&self, channel: usize) -> u32 {
        number_at(self.channel(channel), TAKEN)
    }

    /// Also the zeros after them.
    fn read_statuses(&mut self) -> bool {
        for number in 0..self.shape.node_count {
            let [status, mark, zero, other_zero] = self.node(number)[..TIME]
                .try_into()
                .expect("four bytes before the time");
            if status > REPLAYING || mark > 1 || zero | other_zero != 0 {
                return false;
            }
            let is_down = status == DOWN;
            let keeps = is_down && number_at(self.node(number), KEPT.count) == 1;
            self.down |= u32::from(is_down) << number;
            self.keeping |= u32::from(keeps) << number;
            self.replaying |= u32::from(status == REPLAYING) << number;
            self.marked |= u32::from(mark) << number;
        }
        let unmarked = !self.marked;
        (self.down | self.replaying) & unmarked == 0
            && self.marked & (self.shape.sources | self.shape.sinks) == 0
    }
}

fn has(nodes: u32, number: usize) -> bool {
    nodes >> number & 1 == 1
}

fn count_in(block: &[u8], slots: Slots) -> Option<usize> {
    let count = number_at(block, slots.count) as usize;
    (count <= slots.most).then_some(count)
}

fn is_record_sound(slot: &[u8]) -> bool {
    slot[MATERIAL] < MATERIALS && slot[RECORD_ZERO] == 0 || is_tick(slot)
}

/// Apart, so that what is not a tick is looked at as fast as it can be.
#[cold]
fn is_tick(slot: &[u8]) -> bool {
    slot[RECORD_ZERO] == 0 && read_record(slot).is_tick()
}

/// No way out before the end: so it runs over many bytes at a time.
fn is_zero(bytes: &[u8]) -> bool {
    bytes.iter().fold(0, |any, byte| any | byte) == 0
}
