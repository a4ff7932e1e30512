use super::*;
use crate::line::practice::give_sets;
use crate::plan::practice::WRONG_RULES;
use crate::plan::{Plan, Version, Window};
use crate::rule::Rule;
use crate::state::layout::put;
use crate::state::practice::staged::plan_of;

pub const REFUSED: Clause = Clause {
    words: "the plan would be refused",
    conditions: &[
        bytes("length", |random, line, state| {
            let length = line.plan.write().len() as u16;
            let any = random.draw() as u16;
            let channels = line.plan.channels.len() as u16;
            let others = [length + 4 * channels, length - 4 * channels];
            let near = [0, 4, 5, length - 1, length + 1, length + 256, 513, any];
            let other = random.pick(&[&near[..], &others].concat());
            put(state, 0, &other.to_be_bytes());
            (other != length).then_some(())
        }),
        bytes("version", |random, _, state| {
            // The other version's plan has another length.
            state[2] = random.pick(&[0, 3 - state[2], 3, 129, 255]);
            Some(())
        }),
        bytes("number of nodes", |random, _, state| {
            state[3] = random.pick(&[0, 1, 13, 14, 255]);
            Some(())
        }),
        bytes("number of channels", |random, _, state| {
            state[4] = random.pick(&[0, 25, 26, 255]);
            Some(())
        }),
        bytes(
            "numbers that the length does not fit",
            |random, line, state| {
                let nodes = random.between(2, 12) as usize;
                let channels = random.between(1, 24) as usize;
                (state[3], state[4]) = (nodes as u8, channels as u8);
                let needed = line.plan.version.plan_length(nodes, channels);
                (needed != line.plan.write().len()).then_some(())
            },
        ),
        bytes("rule", |random, line, state| {
            let node = random.index(line.plan.node_count());
            let rule = random.pick(&WRONG_RULES);
            put(state, rule_at(node), &rule);
            Some(())
        }),
        bytes("channel", |random, line, state| {
            let number = random.index(line.plan.channels.len());
            let slot = &mut state[channel_at(&line.plan, number)..];
            match random.index(7) {
                0 => slot[0] = slot[1],
                1 => slot.swap(0, 1),
                2 => slot[1] = line.plan.node_count() as u8,
                3 => slot[1] = 255,
                4 => slot[2..4].fill(0),
                5 => slot[4] = 0,
                _ => slot[5] = slot[4],
            }
            Some(())
        }),
        bytes("order of channels", |random, line, state| {
            if line.plan.channels.len() < 2 {
                return None;
            }
            let first = random.index(line.plan.channels.len() - 1);
            let at = channel_at(&line.plan, first);
            let length = line.plan.version.channel_length();
            let both = &mut state[at..][..2 * length];
            if random.one_in(2) {
                both.rotate_left(length);
            } else {
                let (first, second) = both.split_at_mut(length);
                second[..2].copy_from_slice(&first[..2]);
            }
            Some(())
        }),
        line("least mass above the greatest", |random, line| {
            let number = random.index(line.plan.channels.len());
            let Window { least, greatest } = line.plan.channels[number].window;
            let near = random.between(0, 65_534) as u16;
            let far = random.between(near.into(), 65_534) as u16;
            let wrong = random.pick(&[
                (far + 1, near),
                (near + 1, near),
                (greatest.saturating_add(1), greatest),
                (least, least.saturating_sub(1)),
                (greatest, least),
            ]);
            line.plan.version = Version::Second;
            line.plan.channels[number].window = Window {
                least: wrong.0,
                greatest: wrong.1,
            };
            give_sets(line);
            (wrong.0 > wrong.1).then_some(())
        }),
        line("no channels", |random, line| {
            let nodes = random.between(2, 12) as usize;
            *line = unstepped(nodes, Vec::new());
            Some(())
        }),
        line("13 nodes", |random, line| {
            let last = random.between(1, 12) as usize;
            *line = unstepped(13, vec![(0, last)]);
            Some(())
        }),
        line("25 channels", |random, line| {
            let nodes = random.between(11, 12) as usize;
            let near = (1..nodes).map(|node| (node - 1, node));
            let next = (2..nodes).map(|node| (node - 2, node));
            let far = (3..nodes).map(|node| (node - 3, node));
            let ends = near.chain(next).chain(far);
            *line = unstepped(nodes, ends.take(25).collect());
            Some(())
        }),
        line("five channels leave a node", |random, line| {
            let nodes = random.between(6, 12) as usize;
            *line = unstepped(nodes, (1..=5).map(|node| (0, node)).collect());
            Some(())
        }),
        line("five channels enter a node", |random, line| {
            let nodes = random.between(6, 12) as usize;
            *line = unstepped(nodes, (0..5).map(|node| (node, 5)).collect());
            Some(())
        }),
    ],
};

fn rule_at(node: usize) -> usize {
    Plan::HEADER + Rule::LENGTH * node
}

fn channel_at(plan: &Plan, number: usize) -> usize {
    rule_at(plan.node_count()) + plan.version.channel_length() * number
}

/// A line before any step; nothing but its plan is wrong.
fn unstepped(nodes: usize, ends: Vec<(usize, usize)>) -> Line {
    Line::of(plan_of(nodes, ends))
}
