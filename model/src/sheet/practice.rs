//! Sheets to practise on: runs as they are typed, and what goes wrong in typing.

use super::length_field;
use crate::answer::FRAME_LENGTH;
use crate::line::practice::{every_frame, random_frames};
use crate::line::{step, Frame, Line};
use crate::plan::practice::{any_plan, mutate, noise, plan};
use crate::plan::Plan;
use crate::random::Random;
use crate::state::practice::{play, play_to_the_end, replay_on, staged, Played};

/// More than a block or a two-byte number counts.
const MANY_FRAMES: usize = 70_000;
/// The bytes of a frame of each kind in each version: so far apart, the same bytes
/// come again, records and consoles aside.
pub const SHIFTS: usize = 104;

/// A sheet, and the line that it leads to.
pub struct Typed {
    pub bytes: Vec<u8>,
    line: Line,
}

impl From<Plan> for Typed {
    fn from(plan: Plan) -> Typed {
        Typed {
            bytes: plan.write(),
            line: Line::of(plan),
        }
    }
}

impl Played for Typed {
    fn line(&self) -> &Line {
        &self.line
    }

    /// A frame that is not as long as its field says is left out: it would shift
    /// all after it.
    fn step(&mut self, frame: &[u8]) -> u32 {
        if Frame::read(frame) != Err(FRAME_LENGTH) {
            self.bytes.extend(frame);
        }
        step(&mut self.line, frame)
    }
}

impl Typed {
    fn every_frame(&mut self, random: &mut Random) {
        for frame in every_frame(random, &self.line).concat() {
            self.step(&frame);
        }
    }
}

/// Mostly accepted, with many crashes and replays.
pub fn right(random: &mut Random) -> Vec<u8> {
    let mut typed = Typed::from(any_plan(random));
    play(random, &mut typed);
    typed.bytes
}

/// A right one of so many bytes at the most.
pub fn short(random: &mut Random, most: usize) -> Vec<u8> {
    loop {
        let sheet = right(random);
        if sheet.len() <= most {
            return sheet;
        }
    }
}

/// A right one with a few bytes changed, lost or added, some in the plan.
pub fn slipped(random: &mut Random) -> Vec<u8> {
    let mut sheet = right(random);
    let within = random.pick(&[length_field(&sheet), sheet.len(), sheet.len()]);
    for _ in 0..random.between(1, 4) {
        let start = random.index(within.min(sheet.len()));
        let end = (start + random.pick(&[1, 5, 6, 13, 14])).min(sheet.len());
        let mut part = sheet[start..end].to_vec();
        mutate(random, &mut part);
        sheet.splice(start..end, part);
    }
    sheet
}

/// Random bytes, all of them or those behind a plan, which may be mutated.
pub fn raw(random: &mut Random) -> Vec<u8> {
    let mut sheet = match random.index(5) {
        0 => Vec::new(),
        1 => noise(random),
        2 | 3 => plan(random),
        _ => any_plan(random).write(),
    };
    if sheet.len() > Plan::HEADER && random.one_in(2) {
        mutate(random, &mut sheet);
    }
    for _ in 0..random.index(8) {
        let length = random.pick(&[1, 5, 100]);
        let part = match random.index(3) {
            0 => noise(random),
            1 => random_frames(random).concat(),
            _ => random.bytes(length),
        };
        sheet.extend(part);
    }
    sheet
}

/// Full logs and channels, as many targets and held records as there can be, a
/// node down, answers kept; each frame; then the replays to their end, and each frame
/// again.
pub fn at_the_limits(random: &mut Random) -> Vec<u8> {
    let mut typed: Typed = match random.index(6) {
        0 => staged::full(),
        1 => staged::replaying(),
        2 => staged::holding(random.index(Line::MOST_BUFFERED)),
        3 => staged::down(),
        4 => staged::asked(),
        _ => staged::all_asked(),
    };
    typed.every_frame(random);
    while replay_on(random, &mut typed).is_some() {}
    typed.every_frame(random);
    typed.bytes
}

/// A long frame within a right sheet, or a long plan in front of it; the sheet may
/// end within either.
pub fn long_frame(random: &mut Random) -> Vec<u8> {
    let sheet = short(random, 1_000);
    let at = random.pick(&[vec![0], frame_starts(&sheet)].concat());
    let length: u16 = random.pick(&[255, 256, 4_095, 4_096, 4_097, 65_534, 65_535]);
    let mut frame = random.bytes(usize::from(length));
    frame[..2].copy_from_slice(&length.to_be_bytes());
    frame[2] = random.pick(&[0, 1, 2]);
    let mut bytes = [&sheet[..at], &frame, &sheet[at..]].concat();
    if random.one_in(2) {
        bytes.truncate(at + random.index(frame.len()));
    }
    bytes
}

/// The sheet with the length field of the plan or of one frame at its edges.
pub fn edges(sheet: &[u8]) -> Vec<Vec<u8>> {
    let mut edges = Vec::new();
    for at in [vec![0], frame_starts(sheet)].concat() {
        for length in [0, 1, 2, 3, 4, 5, 6, 7, 12, 13, 14, 15, 255, 256, 65_535_u16] {
            let mut bytes = sheet[..at].to_vec();
            bytes.extend(length.to_be_bytes());
            bytes.extend(sheet.get(at + 2..).unwrap_or_default());
            edges.push(bytes);
        }
    }
    edges
}

/// Where frames start, and the end.
fn frame_starts(sheet: &[u8]) -> Vec<usize> {
    let mut starts = vec![length_field(sheet)];
    while let Some(frame) = sheet.get(starts[starts.len() - 1]..) {
        if frame.is_empty() {
            break;
        }
        starts.push(starts[starts.len() - 1] + length_field(frame));
    }
    starts
}

/// Very many frames, nearly all of them refused, behind one that shifts them.
pub fn many(random: &mut Random, shift: usize) -> Vec<u8> {
    let mut typed: Typed = staged::mixed();
    let mut first = vec![0; Frame::LEAST_LENGTH + shift];
    first[1] = first.len() as u8;
    typed.step(&first);
    let length = typed.bytes.len() + MANY_FRAMES / 16 * SHIFTS;
    while typed.bytes.len() < length {
        typed.every_frame(random);
    }
    typed.bytes
}

/// 1,000,000 accepted steps of console 0, more of the others, and each frame once
/// more.
pub fn million(random: &mut Random) -> Vec<u8> {
    let mut typed: Typed = staged::worn();
    play_to_the_end(random, &mut typed);
    for _ in 0..4 {
        play(random, &mut typed);
    }
    typed.every_frame(random);
    typed.bytes
}
