//! Frames of all kinds and versions, right and wrong.

use std::ops::Range;

use super::drawn_record;
use crate::line::{Caller, Frame, Line};
use crate::random::Random;
use crate::record::Record;

/// One with steps left, in most cases.
pub fn caller(random: &mut Random, line: &Line) -> Caller {
    let mut caller = random.pick(&Caller::ALL);
    for _ in 0..4 {
        if line.steps[caller.console()] < Line::MOST_STEPS {
            break;
        }
        caller = random.pick(&Caller::ALL);
    }
    caller
}

/// In version 2, now and then from a console that there is not.
fn any_console(random: &mut Random) -> Caller {
    let right = random.index(Line::CONSOLES) as u8;
    let first_wrong = Line::CONSOLES as u8;
    let wrong = random.between(first_wrong.into(), 255) as u8;
    let wrong = random.pick(&[first_wrong, wrong, 255]);
    Caller::Console(if random.one_in(8) { wrong } else { right })
}

/// A frame as people type: any place and record, now and then a byte changed,
/// lost or added.
pub fn stray(random: &mut Random, line: &Line) -> Vec<u8> {
    let near = random.index(line.queues.len().max(line.nodes.len()) + 2) as u8;
    let any = random.draw() as u8;
    let place = random.pick(&[near, near, near, any]);
    let frames = frames_at(place, typed_record(random));
    let console = any_console(random);
    let caller = random.pick(&[Caller::Unnamed, console]);
    let mut bytes = random.pick(&frames).sent_by(caller);
    match random.index(10) {
        0 => {
            let index = random.index(bytes.len());
            bytes[index] = random.draw() as u8;
        }
        1 => {
            bytes.pop();
        }
        2 => bytes.push(random.draw() as u8),
        3 => bytes[2] = random.pick(&[0, 1, 2, 3, 255]),
        4 => bytes[3] = random.pick(&[0, 9, 10, 255]),
        5 => {
            // As long as its field says, whatever the kind.
            let length = random.pick(&[5, 6, 13, 14]);
            bytes.resize(length, 0);
            bytes[1] = length as u8;
        }
        _ => {}
    }
    bytes
}

fn typed_record(random: &mut Random) -> [u8; Record::LENGTH] {
    match random.index(8) {
        0 => return Record::TICK.write(),
        1 => return almost_tick(random),
        _ => {}
    }
    let mut record = Record {
        piece: random.draw() as u32,
        material: random.pick(&[0, 15, 16, 255]),
        mass: random.draw() as u16,
    }
    .write();
    if random.one_in(4) {
        record[5] = random.pick(&[1, 128, 255]);
    }
    record
}

/// The bytes of a record's piece number, material, zero byte and mass.
pub const FIELDS: [Range<usize>; 4] = [0..4, 4..5, 5..6, 6..8];

/// A tick but for one field, and so no record.
pub fn almost_tick(random: &mut Random) -> [u8; Record::LENGTH] {
    let [piece, material, zero, mass] = FIELDS;
    let field = random.pick(&[&piece, &material, &zero, &mass]).clone();
    let any = random.between(1, 255) as u8;
    let mut record = Record::TICK.write();
    record[field.start + random.index(field.len())] = match field == material {
        true => random.pick(&[16, 127, 254, 254]),
        false => random.pick(&[1, any]),
    };
    record
}

/// Whether nothing but that field keeps it from being a tick.
pub fn is_tick_but_for(field: Range<usize>, record: [u8; Record::LENGTH]) -> bool {
    let tick = Record::TICK.write();
    let mut mended = record;
    mended[field.clone()].copy_from_slice(&tick[field]);
    mended == tick && record != tick
}

/// One of each kind.
fn frames_at(place: u8, record: [u8; Record::LENGTH]) -> [Frame; 8] {
    [
        Frame::Feed {
            node: place,
            record,
        },
        Frame::Send { channel: place },
        Frame::Take { channel: place },
        Frame::Crash { node: place },
        Frame::Recover { node: place },
        Frame::Trim { node: place },
        Frame::Ask { node: place },
        Frame::Commit { node: place },
    ]
}

/// Each kind at each place that the line has, and at some that it has not: in
/// version 1 and in version 2.
pub fn every_frame(random: &mut Random, line: &Line) -> Vec<[Vec<u8>; 2]> {
    let places = line.queues.len().max(line.nodes.len()) as u8;
    let mut frames = Vec::new();
    for place in (0..=places).chain([254, 255]) {
        let piece = random.draw() as u32;
        let right = drawn_record(random, piece).write();
        let typed = typed_record(random);
        let record = random.pick(&[right, right, right, typed]);
        for frame in frames_at(place, record) {
            frames.push([frame.write(), frame.sent_by(any_console(random))]);
        }
    }
    frames
}

/// Each kind in each version cut short everywhere and a byte too long, with the
/// length field that it had and with the right one.
pub fn cut_frames(random: &mut Random, line: &Line) -> Vec<Vec<u8>> {
    let place = random.index(line.nodes.len()) as u8;
    let mut cut = Vec::new();
    for frame in frames_at(place, typed_record(random)) {
        for caller in [Caller::Unnamed, any_console(random)] {
            let whole = frame.sent_by(caller);
            for length in 0..=whole.len() + 1 {
                let mut bytes = whole.clone();
                bytes.resize(length, 0);
                cut.push(bytes.clone());
                if length >= 2 {
                    bytes[1] = length as u8;
                    cut.push(bytes);
                }
            }
        }
    }
    cut
}

/// Bytes of any number, behind no head, the right length, or that and a right
/// version; and a frame whose length is right but for the bits that the field
/// lacks.
pub fn random_frames(random: &mut Random) -> Vec<Vec<u8>> {
    let [first, second] = Frame::VERSIONS;
    let heads: [&[u8]; 5] = [&[], &[0], &[0, 0], &[0, 0, first], &[0, 0, second]];
    let mut frames = Vec::new();
    for head in heads {
        let length = random.pick(&[5, 6, 13, 14, 300]);
        for length in [random.index(20).max(head.len()), length] {
            let mut bytes = random.bytes(length);
            bytes[..head.len()].copy_from_slice(head);
            if head.len() >= 2 {
                bytes[..2].copy_from_slice(&(length as u16).to_be_bytes());
            }
            frames.push(bytes);
        }
    }
    let long = random.pick(&frames_at(0, [0; Record::LENGTH]));
    let mut long = long.sent_by(random.pick(&Caller::ALL));
    long.resize(long.len() + (1 << 16), 0);
    frames.push(long);
    frames
}
