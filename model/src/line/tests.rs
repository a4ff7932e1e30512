//! Lines and frames that the tests are made of, and P9.

mod asks;
mod damage;
mod either_order;
mod handmade;
mod practised;
mod refusals;
mod sets;
mod ticks;
mod times;
mod trims;

use super::*;
use crate::line::practice::give_sets;
use crate::plain::{Act, PlainLine};
use crate::plan::practice::keeping;
use crate::plan::{Channel, Version};
use crate::state::{direct, line_bytes, read_line};

fn feed(node: u8, piece: u32, material: u8) -> Vec<u8> {
    let record = Record {
        piece,
        material,
        mass: 250,
    };
    Frame::Feed {
        node,
        record: record.write(),
    }
    .write()
}

fn tick(node: u8) -> Vec<u8> {
    let record = Record::TICK.write();
    Frame::Feed { node, record }.write()
}

fn send(channel: u8) -> Vec<u8> {
    Frame::Send { channel }.write()
}

fn take(channel: u8) -> Vec<u8> {
    Frame::Take { channel }.write()
}

fn crash(node: u8) -> Vec<u8> {
    Frame::Crash { node }.write()
}

fn recover(node: u8) -> Vec<u8> {
    Frame::Recover { node }.write()
}

fn ask(node: u8) -> Vec<u8> {
    Frame::Ask { node }.write()
}

fn commit(node: u8) -> Vec<u8> {
    Frame::Commit { node }.write()
}

fn trim(node: u8) -> Vec<u8> {
    Frame::Trim { node }.write()
}

/// The step in place leaves the same.
fn accept(line: &mut Line, frames: &[Vec<u8>]) {
    for (number, frame) in frames.iter().enumerate() {
        let mut state = line_bytes(line);
        assert_eq!(step(line, frame), 0, "frame {number} {frame:?}");
        assert!(!damaged(line), "after frame {number} {frame:?}");
        assert_eq!(direct::step(&mut state, frame), 0);
        assert_eq!(read_line(&state).as_ref(), Some(&*line));
    }
}

/// The line after the frame, accepted.
fn after(line: &Line, frame: Vec<u8>) -> Line {
    let mut next = line.clone();
    accept(&mut next, &[frame]);
    next
}

/// Each is sent and taken on once.
fn pass(line: &mut Line, channels: &[u8]) {
    for &channel in channels {
        accept(line, &[send(channel), take(channel)]);
    }
}

/// The answer; a refusal changes nothing.
fn refuse(line: &Line, frame: &[u8]) -> u32 {
    let mut after = line.clone();
    let answer = step(&mut after, frame);
    assert_ne!(answer, 0, "{frame:?}");
    assert_eq!(&after, line);
    answer
}

/// Rules keep; channels are sender, receiver and mask.
fn line_of(node_count: usize, channels: &[(usize, usize, u16)]) -> Line {
    let channels = channels.iter().map(|&(sender, receiver, mask)| Channel {
        mask,
        ..Channel::between(sender, receiver)
    });
    let plan = keeping(node_count, channels);
    Line::load(&plan.write()).expect("an accepted plan")
}

/// P9: "0 and 1 feed 2; 2 sends material 1 to 3, materials 1 and 2 to 4."
/// Channels 0: 0 to 2, 1: 1 to 2, 2: 2 to 3, 3: 2 to 4.
fn ninth_line() -> Line {
    line_of(5, &[(0, 2, 0xFFFF), (1, 2, 0xFFFF), (2, 3, 2), (2, 4, 6)])
}

/// "Pieces 1 (material 1) and 2 (material 2) enter at 0, piece 3 (material 2)
/// at 1. Node 2 takes 3, 1, 2; node 3 takes piece 1; 2 crashes and recovers."
fn ninth_frames() -> Vec<Vec<u8>> {
    vec![
        feed(0, 1, 1),
        feed(0, 2, 2),
        feed(1, 3, 2),
        send(1),
        take(1),
        send(0),
        take(0),
        send(0),
        take(0),
        send(2),
        take(2),
        crash(2),
        recover(2),
    ]
}

fn ninth_replaying() -> Line {
    let mut line = ninth_line();
    accept(&mut line, &ninth_frames());
    line
}

fn origin(sender: usize, time: u32) -> Option<Origin> {
    Some(Origin { sender, time })
}

fn record(piece: u32, material: u8) -> Record {
    Record {
        piece,
        material,
        mass: 250,
    }
}

fn pieces(line: &Line, node: usize) -> Vec<u32> {
    line.nodes[node]
        .log
        .iter()
        .map(|entry| entry.message.record.piece)
        .collect()
}

fn times(line: &Line, node: usize) -> Vec<u32> {
    let log = line.nodes[node].log.iter();
    log.map(|entry| entry.message.time).collect()
}

#[test]
fn ninth_marked_sheet() {
    let mut line = ninth_line();
    let frames = ninth_frames();
    let (last, before) = frames.split_last().unwrap();
    accept(&mut line, before);
    assert_eq!(line.nodes[2].status, Status::Down);
    let told = restart(&line, 2);
    let target = Target {
        time: 2,
        parent: 0,
        parent_time: 1,
    };
    // "Low 0, high 2, target (2, 0, 1)."
    assert_eq!((told.low, told.high), (0, 2));
    assert_eq!(told.targets, [target]);
    assert!(told.restored.iter().all(|entry| entry.time == 0));

    accept(&mut line, std::slice::from_ref(last));
    assert_eq!(line.nodes[2].status, Status::Replaying);
    assert_eq!(line.nodes[2].time(), 0);
    assert_eq!(line.nodes[2].targets, [target]);
    // "Belt marks 2 to node 3, 0 to node 4."
    assert_eq!(line.queues[2].mark, 2);
    assert_eq!(line.queues[3].mark, 0);
    assert_eq!(line.queues[0].mark, 0);
    assert_eq!(line.queues[1].mark, 0);

    // "A Take from 1, after a Send there, is 20."
    assert_eq!(refuse(&line, &take(1)), 18);
    accept(&mut line, &[send(1)]);
    assert_eq!(refuse(&line, &take(1)), 20);

    // "Taking piece 1 places it at 2; time 1 stays empty."
    accept(&mut line, &[send(0), take(0)]);
    let node = &line.nodes[2];
    assert_eq!(node.status, Status::Up);
    assert_eq!(node.time(), 2);
    assert!(node.targets.is_empty() && node.buffered.is_empty());
    let placed = Entry {
        message: Message {
            record: record(1, 1),
            time: 2,
            made_from: origin(0, 1),
        },
        input_made_from: None,
        set: 0b11,
    };
    assert_eq!(node.log, [placed]);
    assert_eq!((node.clock.taken(0), node.clock.taken(1)), (1, 0));

    // "Node 4 may then receive 1, 3, 2."
    accept(&mut line, &[send(3), take(3)]);
    accept(&mut line, &[take(1), send(3), take(3)]);
    accept(&mut line, &[send(0), take(0), send(3), take(3)]);
    assert_eq!(pieces(&line, 4), [1, 3, 2]);
    assert_eq!(pieces(&line, 3), [1]);
    assert!(crate::order::is_quiet(&line));

    // Nothing lost, doubled or swapped.
    let mut plain = PlainLine::new(&line.plan);
    let fed = |node, piece, material| Act::Feed {
        node,
        record: record(piece, material),
    };
    plain.run(&[fed(0, 1, 1), fed(0, 2, 2), fed(1, 3, 2)]);
    for channel in [0, 1, 0, 2, 3, 3, 3] {
        plain.run(&[Act::Take { channel }]);
    }
    assert!(plain.is_at_rest());
    let received = |node| {
        let receipts = plain.received(node).iter();
        receipts
            .map(|receipt| receipt.record.piece)
            .collect::<Vec<u32>>()
    };
    assert_eq!(received(4), [1, 3, 2]);
    assert_eq!(received(3), [1]);
}

#[test]
fn clock_layers() {
    let mut line = line_of(4, &[(0, 1, 1), (0, 2, 1), (1, 2, 1), (2, 3, 1)]);
    accept(&mut line, &[feed(0, 1, 0), feed(0, 2, 0)]);
    accept(&mut line, &[send(0), take(0), send(2), take(2)]);
    accept(&mut line, &[send(1), take(1), send(1), take(1)]);
    let clock = &line.nodes[2].clock;
    assert_eq!(clock.time, 3);
    assert_eq!(
        (clock.taken(0), clock.taken(1), clock.heard(1, 0)),
        (2, 1, 1)
    );
    accept(&mut line, &[send(3), send(3), take(3), take(3)]);
    let clock = &line.nodes[3].clock;
    assert_eq!(clock.taken(2), 2);
    assert_eq!((clock.heard(2, 0), clock.heard(2, 1)), (1, 1));
    assert_eq!(clock.times(), [2, 2, 1, 1]);
    let entry = line.nodes[3].log[0];
    assert_eq!(entry.message.made_from, origin(2, 1));
    assert_eq!(entry.input_made_from, origin(1, 1));
}

#[test]
fn rules_on_the_way() {
    let mut line = line_of(3, &[(0, 1, 2), (1, 2, 4)]);
    line.plan.rules[0] = crate::rule::Rule::Relabel { from: 0, to: 1 };
    line.plan.rules[1] = crate::rule::Rule::Relabel { from: 1, to: 2 };
    line.plan.rules[2] = crate::rule::Rule::Cap { greatest: 99 };
    accept(&mut line, &[feed(0, 1, 0), feed(0, 2, 3)]);
    assert_eq!(line.nodes[0].log[0].message.record.material, 1);
    // A Feed that no channel takes leaves nothing.
    assert_eq!(line.nodes[0].log.len(), 1);
    accept(&mut line, &[send(0)]);
    assert_eq!(refuse(&line, &send(0)), 18);
    accept(&mut line, &[take(0), send(1), take(1)]);
    assert_eq!(line.nodes[1].log[0].message.record.material, 2);
    assert_eq!(line.nodes[2].log[0].message.record.mass, 99);
}

/// The window is asked of what the cap leaves: the heavy piece goes where 100 does.
#[test]
fn window_after_the_cap() {
    let mut line = line_of(3, &[(0, 1, 0xFFFF), (0, 2, 0xFFFF)]);
    line.plan.version = Version::Second;
    line.plan.rules[0] = crate::rule::Rule::Cap { greatest: 100 };
    line.plan.channels[0].window.greatest = 100;
    line.plan.channels[1].window.least = 101;
    accept(&mut line, &[feed(0, 1, 0), send(0), take(0)]);
    assert_eq!(line.nodes[1].log[0].message.record.mass, 100);
    assert_eq!(refuse(&line, &send(1)), 18);
    line.plan.channels[0].window.greatest = 99;
    line.plan.channels[1].window.least = 100;
    give_sets(&mut line);
    accept(&mut line, &[feed(0, 2, 0), send(1), send(1)]);
    assert_eq!(refuse(&line, &send(0)), 18);
}

/// A router crashes again while it replays, and ends as if it had not.
#[test]
fn crash_while_replaying() {
    let mut line = ninth_replaying();
    accept(&mut line, &[send(0), crash(2)]);
    assert_eq!(line.queues, vec![Queue::default(); 4]);
    assert_eq!(refuse(&line, &take(0)), 15);
    accept(&mut line, &[recover(2)]);
    let mut once = ninth_replaying();
    once.steps = line.steps;
    assert_eq!(line, once);
}

/// Node 3 sends material 1 to 4, 2 to 5, 3 to 6, which takes nothing. It took
/// pieces 1 (of material 3, from a parent whose row has no targets), 2, 3, 4; node 4 has
/// piece 2, node 5 piece 4. Piece 3 is free: at the empty time 1 node 4 would never get it.
#[test]
fn floor_keeps_a_record_from_an_empty_time() {
    let entering = [0, 1, 2].map(|source| (source, 3, 15));
    let channels = [&entering[..], &[(3, 4, 2), (3, 5, 4), (3, 6, 8)]].concat();
    let mut line = line_of(7, &channels);
    accept(&mut line, &[feed(2, 1, 3), feed(0, 2, 1)]);
    accept(&mut line, &[feed(1, 3, 1), feed(1, 4, 2)]);
    pass(&mut line, &[2, 0, 1, 1, 3, 4]);
    accept(&mut line, &[crash(3), recover(3)]);
    assert_eq!(line.nodes[3].targets.len(), 2);
    pass(&mut line, &[0, 1, 1]);
    let node = &line.nodes[3];
    assert_eq!((node.status, node.time()), (Status::Up, 4));
    assert_eq!(
        (pieces(&line, 3), times(&line, 3)),
        (vec![2, 3, 4], vec![2, 3, 4])
    );
    pass(&mut line, &[3, 2, 5]);
    assert_eq!((pieces(&line, 4), pieces(&line, 6)), (vec![2, 3], vec![1]));
    assert!(crate::order::is_quiet(&line));
}
