//! Random lines that frames lead to.

use std::cmp::Reverse;

use super::{pick, staged};
use crate::answer::ACCEPTED;
use crate::line::practice::{age, caller, or_tick, tear, Practice};
use crate::line::{step, Frame, Line, Node, Status};
use crate::plan::practice::{any_plan, MASSES};
use crate::random::Random;
use crate::record::Record;

/// What frames are played on.
pub trait Played {
    fn line(&self) -> &Line;
    /// The answer.
    fn step(&mut self, frame: &[u8]) -> u32;
}

impl Played for Line {
    fn line(&self) -> &Line {
        self
    }

    fn step(&mut self, frame: &[u8]) -> u32 {
        step(self, frame)
    }
}

/// The answer to a frame from any console, in either version.
pub fn call(random: &mut Random, played: &mut dyn Played, frame: Frame) -> u32 {
    let caller = caller(random, played.line());
    played.step(&frame.sent_by(caller))
}

/// Lines on the way of one run, from Load or from late times.
pub fn lines(random: &mut Random) -> Vec<Line> {
    let mut line = Line::of(any_plan(random));
    if random.one_in(2) {
        age(random, &mut line);
    }
    play(random, &mut line)
}

/// Lines on the way.
pub fn play(random: &mut Random, played: &mut dyn Played) -> Vec<Line> {
    if random.one_in(2) {
        filled(random, played)
    } else {
        practised(random, played)
    }
}

/// Lines on the way to where no console has few steps left, but some, and the
/// last.
pub fn play_to_the_end(random: &mut Random, played: &mut dyn Played) -> Vec<Line> {
    let mut practice = Practice::new(random);
    let mut lines = Vec::new();
    let few = Line::MOST_STEPS - staged::STEPS_LEFT..Line::MOST_STEPS;
    while played.line().steps.iter().any(|steps| few.contains(steps)) {
        let frame = practice.frame(random, played.line());
        if played.step(&frame) == ACCEPTED && random.one_in(16) {
            lines.push(played.line().clone());
        }
    }
    lines.push(played.line().clone());
    lines
}

/// A mixture of all frames, some of them refused.
fn practised(random: &mut Random, played: &mut dyn Played) -> Vec<Line> {
    let mut practice = Practice::new(random);
    let mut lines = Vec::new();
    let most = random.pick(&[32, 128, 400]);
    for _ in 0..random.between(0, most) {
        let frame = practice.frame(random, played.line());
        played.step(&frame);
        // More often while something is held or kept.
        let line = played.line();
        let holds = |node: &Node| !node.buffered.is_empty() || node.kept.is_some();
        let holds = line.nodes.iter().any(holds);
        if random.one_in(if holds { most / 16 } else { most / 4 }) {
            lines.push(line.clone());
        }
    }
    lines.push(played.line().clone());
    lines
}

/// Fed, sent and taken until nothing more can be, save on channels that are
/// never taken on; then logs are trimmed and filled again, and routers crash and
/// replay; what is still kept is committed, and they crash and are asked for once more.
fn filled(random: &mut Random, played: &mut dyn Played) -> Vec<Line> {
    let lazy = (random.draw() & random.draw()) as u32;
    let lazy = random.pick(&[0, lazy, lazy]);
    let ticks = random.pick(&[8, 32, 1_000]);
    fill(random, played, lazy, ticks);
    let mut lines = vec![played.line().clone()];
    if random.one_in(2) {
        trim_all(random, played);
        lines.push(played.line().clone());
        fill(random, played, lazy, ticks);
    }
    for node in crash_most(random, played) {
        if random.one_in(2) {
            call(random, played, Frame::Ask { node });
        }
        if !random.one_in(4) {
            restart(random, played, node);
        }
    }
    lines.push(played.line().clone());
    for _ in 0..random.between(1, 4) {
        for _ in 0..random.pick(&[2, 4, 8, 40]) {
            replay_on(random, played);
        }
        lines.push(played.line().clone());
    }
    fill(random, played, lazy, ticks);
    lines.push(played.line().clone());
    for node in 0..played.line().nodes.len() {
        if played.line().nodes[node].kept.is_some() {
            call(random, played, Frame::Commit { node: node as u8 });
        }
    }
    for node in crash_most(random, played) {
        call(random, played, Frame::Ask { node });
    }
    lines.push(played.line().clone());
    lines
}

/// The nodes that crash, mostly those first whose children have parted most.
fn crash_most(random: &mut Random, played: &mut dyn Played) -> Vec<u8> {
    let mut nodes = shuffled(random, played.line().nodes.len());
    if !random.one_in(4) {
        nodes.sort_by_key(|&node| Reverse(tear(played.line(), node)));
    }
    let mut crashed = Vec::new();
    for node in nodes.into_iter().map(|node| node as u8) {
        if !random.one_in(8) && call(random, played, Frame::Crash { node }) == ACCEPTED {
            crashed.push(node);
        }
    }
    crashed
}

/// A Recover, or an Ask and a Commit. The answer to the last.
pub fn restart(random: &mut Random, played: &mut dyn Played, node: u8) -> u32 {
    if random.one_in(2) {
        return call(random, played, Frame::Recover { node });
    }
    call(random, played, Frame::Ask { node });
    call(random, played, Frame::Commit { node })
}

/// Each node once.
pub fn trim_all(random: &mut Random, played: &mut dyn Played) {
    for node in shuffled(random, played.line().nodes.len()) {
        call(random, played, Frame::Trim { node: node as u8 });
    }
}

fn fill(random: &mut Random, played: &mut dyn Played, lazy: u32, ticks: u32) {
    let (nodes, channels) = (played.line().nodes.len(), played.line().queues.len());
    let most_rounds = random.pick(&[10, 60, 1000]);
    for _ in 0..most_rounds {
        let mut is_stuck = true;
        for place in shuffled(random, nodes + 2 * channels) {
            let frame = if place < nodes {
                let record = any_record(random);
                Frame::Feed {
                    node: place as u8,
                    record: or_tick(random, ticks, record).write(),
                }
            } else if place < nodes + channels {
                Frame::Send {
                    channel: (place - nodes) as u8,
                }
            } else {
                let channel = (place - nodes - channels) as u8;
                if lazy >> channel & 1 == 1 {
                    continue;
                }
                Frame::Take { channel }
            };
            let time = |line: &Line| line.nodes.get(place).map(Node::time);
            let before = time(played.line());
            let is_accepted = call(random, played, frame) == ACCEPTED;
            // A Feed that no channel takes leaves nothing.
            let is_quiet = place < nodes && time(played.line()) == before;
            is_stuck &= !is_accepted || is_quiet;
        }
        if is_stuck {
            return;
        }
    }
}

/// Sends and takes once for a node that replays, if there is one. The answer to
/// the Take.
pub fn replay_on(random: &mut Random, played: &mut dyn Played) -> Option<u32> {
    let line = played.line();
    let replaying = pick::channel(random, line, |channel| {
        let receiver = line.plan.channels[channel].receiver;
        line.nodes[receiver].status == Status::Replaying
    });
    let channel = replaying? as u8;
    call(random, played, Frame::Send { channel });
    Some(call(random, played, Frame::Take { channel }))
}

fn shuffled(random: &mut Random, count: usize) -> Vec<usize> {
    let mut numbers: Vec<usize> = (0..count).collect();
    for last in (1..count).rev() {
        numbers.swap(last, random.index(last + 1));
    }
    numbers
}

pub fn any_record(random: &mut Random) -> Record {
    Record {
        piece: random.pick(&[0, 1, 2, 3, 254, 255, 256, 65_536, u32::MAX]),
        material: random.pick(&[0, 0, 1, 1, 2, 2, 3, 15]),
        mass: random.pick(&MASSES),
    }
}
