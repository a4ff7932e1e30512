//! Slots of a list that change places, are lost or doubled; blocks likewise.

use super::change::{change, Change};
use crate::line::Line;
use crate::random::Random;
use crate::state::layout::*;

pub const SHUFFLES: &[Change] = &[
    change("two slots swapped", |random, line, state| {
        let list = any_list(random, line, state, 2)?;
        let (first, second) = (random.index(list.count), random.index(list.count));
        list.swap(state, first, second);
        Some(())
    }),
    change("neighbouring slots swapped", |random, line, state| {
        let list = any_list(random, line, state, 2)?;
        let first = random.index(list.count - 1);
        list.swap(state, first, first + 1);
        Some(())
    }),
    change("a slot swapped with a free one", |random, line, state| {
        let list = any_list(random, line, state, 1)?;
        if list.count == list.slots.most {
            return None;
        }
        let free = list.count + random.index(list.slots.most - list.count);
        list.swap(state, random.index(list.count), free);
        Some(())
    }),
    change("all slots one later", |random, line, state| {
        let list = any_list(random, line, state, 1)?;
        state[list.range(0, list.slots.most)].rotate_right(list.slots.length);
        Some(())
    }),
    change("all slots one earlier", |random, line, state| {
        let list = any_list(random, line, state, 1)?;
        state[list.range(0, list.slots.most)].rotate_left(list.slots.length);
        Some(())
    }),
    change("all slots one byte later", |random, line, state| {
        let list = any_list(random, line, state, 1)?;
        state[list.range(0, list.slots.most)].rotate_right(1);
        Some(())
    }),
    change("all slots one byte earlier", |random, line, state| {
        let list = any_list(random, line, state, 1)?;
        state[list.range(0, list.slots.most)].rotate_left(1);
        Some(())
    }),
    change("a slot over the next one", |random, line, state| {
        let list = any_list(random, line, state, 2)?;
        let first = random.index(list.count - 1);
        state.copy_within(list.range(first, first + 1), list.at(first + 1));
        Some(())
    }),
    change("a slot taken out, the count kept", |random, line, state| {
        let list = any_list(random, line, state, 1)?;
        list.take_out(random, state);
        Some(())
    }),
    change("a slot taken out", |random, line, state| {
        let list = any_list(random, line, state, 1)?;
        list.take_out(random, state);
        list.recount(state, list.count - 1);
        Some(())
    }),
    change("the last slot doubled", |random, line, state| {
        let list = any_list(random, line, state, 1)?;
        if list.count == list.slots.most {
            return None;
        }
        state.copy_within(list.range(list.count - 1, list.count), list.at(list.count));
        list.recount(state, list.count + 1);
        Some(())
    }),
    change("one more counted", |random, line, state| {
        let list = any_list(random, line, state, 0)?;
        list.recount(state, list.count + 1);
        Some(())
    }),
    change("one less counted", |random, line, state| {
        let list = any_list(random, line, state, 1)?;
        list.recount(state, list.count - 1);
        Some(())
    }),
    change("list emptied, the count kept", |random, line, state| {
        let list = any_list(random, line, state, 1)?;
        state[list.range(0, list.count)].fill(0);
        Some(())
    }),
    change("list emptied", |random, line, state| {
        let list = any_list(random, line, state, 1)?;
        state[list.range(0, list.count)].fill(0);
        list.recount(state, 0);
        Some(())
    }),
    change("a node's lists one byte later", |random, line, state| {
        let at = node(random.index(line.nodes.len()));
        state[at..at + NODE_LENGTH].rotate_right(1);
        Some(())
    }),
    change("two nodes swapped", |random, line, state| {
        let (first, second) = (random.index(line.nodes.len()), random.index(12));
        swap(state, node(first), node(second), NODE_LENGTH);
        Some(())
    }),
    change("two channels swapped", |random, line, state| {
        let (first, second) = (random.index(line.queues.len()), random.index(24));
        swap(state, channel(first), channel(second), CHANNEL_LENGTH);
        Some(())
    }),
    change("all nodes one later", |_, _, state| {
        state[node(0)..node(12)].rotate_right(NODE_LENGTH);
        Some(())
    }),
    change("all channels one later", |_, _, state| {
        state[channel(0)..channel(24)].rotate_right(CHANNEL_LENGTH);
        Some(())
    }),
    change("all bytes one later", |_, _, state| {
        state.rotate_right(1);
        Some(())
    }),
];

/// A list in the state, with the place of its count.
pub struct List {
    block: usize,
    pub slots: Slots,
    pub count: usize,
}

/// With at least so many slots used.
pub fn any_list(random: &mut Random, line: &Line, state: &[u8], least: usize) -> Option<List> {
    let nodes = (0..line.nodes.len())
        .flat_map(|number| [LOG, BUFFERED, TARGETS, KEPT].map(|slots| (node(number), slots)));
    let channels = (0..line.queues.len()).map(|number| (channel(number), QUEUE));
    let mut lists: Vec<List> = nodes
        .chain(channels)
        .map(|(block, slots)| List {
            block,
            slots,
            count: number_at(state, block + slots.count) as usize,
        })
        .filter(|list| list.count >= least)
        .collect();
    if lists.is_empty() {
        return None;
    }
    Some(lists.swap_remove(random.index(lists.len())))
}

impl List {
    fn at(&self, index: usize) -> usize {
        self.block + self.slots.slot(index)
    }

    pub fn range(&self, first: usize, end: usize) -> std::ops::Range<usize> {
        self.at(first)..self.at(end)
    }

    fn swap(&self, state: &mut [u8], first: usize, second: usize) {
        swap(state, self.at(first), self.at(second), self.slots.length);
    }

    fn take_out(&self, random: &mut Random, state: &mut [u8]) {
        let index = random.index(self.count);
        let later = &mut state[self.range(index, self.count)];
        later[..self.slots.length].fill(0);
        later.rotate_left(self.slots.length);
    }

    fn recount(&self, state: &mut [u8], count: usize) {
        put_number(state, self.block + self.slots.count, count as u32);
    }
}

fn swap(state: &mut [u8], first: usize, second: usize, length: usize) {
    let kept = state[first..first + length].to_vec();
    state.copy_within(second..second + length, first);
    put(state, second, &kept);
}
