//! Several routers down at once, no two of which a channel joins; most of them asked. What
//! their children tell is as in `torn`. In some cases no console has more than one step left.

use std::ops::Range;

use super::torn::{give_steps, trim_some, Past};
use super::{caller, give_sets};
use crate::line::{step, Caller, Frame, Line, Status};
use crate::plan::practice::{any_plan, keeping, sort_some_by_mass};
use crate::plan::{Channel, Plan};
use crate::random::Random;

/// Sources, routers, what stands between those and the next, routers, sinks.
const LAYERS: [Range<usize>; 5] = [0..2, 2..4, 4..7, 7..9, 9..12];
/// Which layers send to which.
const JOINED: [(usize, usize); 5] = [(0, 1), (1, 2), (1, 4), (2, 3), (3, 4)];

pub fn several_down(random: &mut Random) -> Line {
    let mut line = crashed(random);
    for router in down(&line) {
        let high = random.pick(&[2, 8, 20, 100, 100]);
        let past = Past::drawn(random, &line.plan, router, high);
        past.fill_children(random, &mut line);
    }
    if random.one_in(3) {
        for node in &mut line.nodes {
            trim_some(random, node);
        }
    }
    give_sets(&mut line);
    give_steps(random, &mut line);
    for router in down(&line) {
        if !random.one_in(4) {
            let frame = Frame::Ask { node: router as u8 };
            let caller = caller(random, &line);
            step(&mut line, &frame.sent_by(caller));
        }
    }
    if random.one_in(4) {
        for count in &mut line.steps {
            *count = (*count).max(Line::MOST_STEPS - 1);
        }
    }
    line
}

/// Two or more nodes are down, all else is as loaded.
fn crashed(random: &mut Random) -> Line {
    loop {
        let plan = match random.one_in(4) {
            true => any_plan(random),
            false => layered(random),
        };
        let mut line = Line::of(plan);
        for _ in 0..3 * line.nodes.len() {
            let node = random.index(line.nodes.len()) as u8;
            step(&mut line, &Frame::Crash { node }.write());
        }
        if down(&line).len() >= 2 {
            return line;
        }
    }
}

/// Most of the channels that there can be.
fn layered(random: &mut Random) -> Plan {
    let mut plan = keeping(LAYERS[4].end, []);
    for (from, to) in JOINED {
        for sender in LAYERS[from].clone() {
            for receiver in LAYERS[to].clone() {
                let leaving = plan.leaving(sender).count();
                if leaving < Plan::MOST_AT_A_NODE && !random.one_in(3) {
                    plan.channels.push(Channel {
                        mask: random.pick(&[0xFFFF, 0xAAAA, 0x5555]),
                        ..Channel::between(sender, receiver)
                    });
                }
            }
        }
    }
    let ends = |channel: &Channel| (channel.sender, channel.receiver);
    plan.channels.sort_unstable_by_key(ends);
    sort_some_by_mass(random, &mut plan);
    plan
}

fn down(line: &Line) -> Vec<usize> {
    let numbers = 0..line.nodes.len();
    let is_down = |&node: &usize| line.nodes[node].status == Status::Down;
    numbers.filter(is_down).collect()
}

/// Two nodes that are down, and what restarts each.
pub struct TwoRestarts {
    pub nodes: [usize; 2],
    pub frames: [Frame; 2],
    pub callers: [Caller; 2],
}

impl TwoRestarts {
    /// Of every two nodes that are down, by each pair of kinds.
    pub fn all(random: &mut Random, line: &Line) -> Vec<TwoRestarts> {
        let down = down(line);
        let mut all = Vec::new();
        for (place, &one) in down.iter().enumerate() {
            for &other in &down[place + 1..] {
                let [ones, others] = [one, other].map(restarts);
                for frames in ones.map(|one| others.map(|other| [one, other])).concat() {
                    all.push(TwoRestarts {
                        nodes: [one, other],
                        frames,
                        callers: two_callers(random, line),
                    });
                }
            }
        }
        all
    }

    /// As they are sent.
    pub fn bytes(&self) -> [Vec<u8>; 2] {
        let [one, other] = self.callers;
        [self.frames[0].sent_by(one), self.frames[1].sent_by(other)]
    }
}

fn restarts(node: usize) -> [Frame; 2] {
    let node = node as u8;
    [Frame::Recover { node }, Frame::Commit { node }]
}

/// In half of the cases of one console.
fn two_callers(random: &mut Random, line: &Line) -> [Caller; 2] {
    let one = caller(random, line);
    let other = caller(random, line);
    let first = random.pick(&[
        [Caller::Unnamed, Caller::Console(0)],
        [Caller::Console(0), Caller::Unnamed],
    ]);
    random.pick(&[[one, one], [one, other], [one, other], first])
}
