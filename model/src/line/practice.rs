//! Random frames: mostly accepted, with many crashes and replays.

mod disturb;
mod events;
mod frames;
mod late;
mod several_down;
mod torn;

pub use disturb::{disturb, give_sets, retarget};
pub use events::{Stepped, EVENTS};
pub use frames::{
    almost_tick, caller, cut_frames, every_frame, is_tick_but_for, random_frames, stray, FIELDS,
};
pub use late::{age, drawn_steps, greatest_time, make_late, reach, share_steps};
pub use several_down::{several_down, TwoRestarts};
pub use torn::torn;

use super::{stepped, Frame, Line, Status};
use crate::answer::{ACCEPTED, ROW_COMPLETE, STEPS_USED_UP};
use crate::plan::practice::MASSES;
use crate::random::Random;
use crate::record::Record;

/// How often a kind of frame, and then its place, is drawn anew in the hope of
/// one that is accepted.
const DRAWS: usize = 8;

/// What is done on a line, and how often.
pub struct Practice {
    /// Shares of the frames: feeds, sends, takes, crashes, recoveries, sends
    /// and takes for nodes that replay, trims, asks, commits.
    shares: [usize; 9],
    /// A bit for each channel that is sent and taken on seldom: so children part
    /// ways.
    lazy: u32,
    /// One frame in so many is as people type, one in as many the first drawn.
    strays: u32,
    /// One record in so many is a tick.
    ticks: u32,
    pieces: u32,
}

impl Practice {
    pub fn new(random: &mut Random) -> Practice {
        Practice {
            shares: [
                random.pick(&[8, 20, 40]),
                random.pick(&[20, 40, 80]),
                random.pick(&[8, 20, 40]),
                random.pick(&[1, 2, 4]),
                random.pick(&[1, 2, 4, 16]),
                random.pick(&[4, 8, 16]),
                random.pick(&[1, 4, 8]),
                random.pick(&[1, 4, 8]),
                random.pick(&[1, 4, 16]),
            ],
            lazy: (random.draw() & random.draw()) as u32,
            strays: random.pick(&[8, 32, 128]),
            ticks: random.pick(&[4, 16, 1_000, 1_000, 1_000, 1_000]),
            pieces: 0,
        }
    }

    /// The next frame, in most cases one that the line accepts.
    pub fn frame(&mut self, random: &mut Random, line: &Line) -> Vec<u8> {
        if random.one_in(self.strays) {
            return stray(random, line);
        }
        let draws = if random.one_in(self.strays) { 1 } else { DRAWS };
        let mut frame = Vec::new();
        for _ in 0..draws {
            let share = drawn_share(random, &self.shares);
            for _ in 0..draws {
                let caller = caller(random, line);
                frame = self.drawn(random, line, share).sent_by(caller);
                let answer = stepped(line, &frame).err().unwrap_or(ACCEPTED);
                // A complete row and a console at its end are met seldom enough.
                let is_seldom = [ROW_COMPLETE, STEPS_USED_UP].contains(&answer);
                if answer == ACCEPTED || is_seldom && random.one_in(2) {
                    return frame;
                }
            }
        }
        frame
    }

    fn drawn(&mut self, random: &mut Random, line: &Line, share: usize) -> Frame {
        let node = random.index(line.nodes.len());
        let mut channel = random.index(line.queues.len()) as u8;
        while self.lazy >> channel & 1 == 1 && !random.one_in(32) {
            channel = random.index(line.queues.len()) as u8;
        }
        match share {
            0 => Frame::Feed {
                node: node as u8,
                record: self.record(random).write(),
            },
            1 => Frame::Send { channel },
            2 => Frame::Take { channel },
            3 => {
                let wanted = random.pick(&[0, 2, 4, 8]);
                let spares_replays = !random.one_in(8);
                let torn = (0..line.nodes.len()).filter(|&node| {
                    let is_spared = line.nodes[node].status == Status::Replaying && spares_replays;
                    tear(line, node) >= wanted && !is_spared
                });
                match any_of(random, torn) {
                    Some(node) => Frame::Crash { node: node as u8 },
                    None => Frame::Take { channel },
                }
            }
            4 => Frame::Recover { node: node as u8 },
            6 => Frame::Trim { node: node as u8 },
            7 => Frame::Ask { node: node as u8 },
            8 => Frame::Commit { node: node as u8 },
            _ => {
                let replaying = line.plan.channels.iter().map(|channel| channel.receiver);
                let replaying = replaying
                    .enumerate()
                    .filter(|&(_, node)| line.nodes[node].status == Status::Replaying)
                    .map(|(channel, _)| channel);
                let channel = any_of(random, replaying).map_or(channel, |channel| channel as u8);
                random.pick(&[Frame::Send { channel }, Frame::Take { channel }])
            }
        }
    }

    fn record(&mut self, random: &mut Random) -> Record {
        self.pieces += 1;
        let record = drawn_record(random, self.pieces);
        or_tick(random, self.ticks, record)
    }
}

/// A tick once in so many times.
pub fn or_tick(random: &mut Random, ticks: u32, record: Record) -> Record {
    match random.one_in(ticks) {
        true => Record::TICK,
        false => record,
    }
}

fn drawn_record(random: &mut Random, piece: u32) -> Record {
    Record {
        piece,
        material: random.pick(&[0, 0, 1, 1, 2, 2, 3, 15]),
        mass: random.pick(&MASSES),
    }
}

/// How unequally much the children have taken from the node: the more, the
/// longer the replay after a crash.
pub fn tear(line: &Line, node: usize) -> u32 {
    let least = line.taken_by_children(node).min().unwrap_or(0);
    let greatest = line.taken_by_children(node).max().unwrap_or(0);
    greatest - least
}

fn any_of(random: &mut Random, choices: impl Iterator<Item = usize>) -> Option<usize> {
    let choices: Vec<usize> = choices.collect();
    (!choices.is_empty()).then(|| random.pick(&choices))
}

/// The number of a share, drawn as often as it is great.
fn drawn_share(random: &mut Random, shares: &[usize]) -> usize {
    let mut left = random.index(shares.iter().sum());
    for (number, share) in shares.iter().enumerate() {
        if left < *share {
            return number;
        }
        left -= share;
    }
    unreachable!("less than the sum is left")
}
