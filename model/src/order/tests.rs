mod asks;
mod marks;
mod ticks;
mod times;
mod trims;

use super::*;
use crate::answer::{ACCEPTED, NO_REPLAY};
use crate::line::practice::{caller, Practice};
use crate::line::{damaged, step};
use crate::plan::practice::any_plan;
use crate::plan::Version;
use crate::random::Random;

/// Passes a frame; tells the order of an accepted one.
fn pass(line: &mut Line, order: &mut Order, frame: &[u8]) -> u32 {
    let before = line.clone();
    let answer = step(line, frame);
    if answer == ACCEPTED {
        order.follow(&before, frame, line);
    }
    answer
}

/// Restarts, by Recover or by Ask and Commit, sends and takes until nothing more is accepted,
/// from any console.
fn drain(random: &mut Random, line: &mut Line, order: &mut Order) {
    loop {
        let nodes = 0..line.nodes.len() as u8;
        let channels = 0..line.queues.len() as u8;
        let frames: Vec<Frame> = nodes
            .flat_map(|node| match random.one_in(2) {
                true => vec![Frame::Recover { node }],
                false => vec![Frame::Ask { node }, Frame::Commit { node }],
            })
            .chain(channels.clone().map(|channel| Frame::Send { channel }))
            .chain(channels.map(|channel| Frame::Take { channel }))
            .collect();
        let mut moved = false;
        for frame in frames {
            let caller = caller(random, line);
            moved |= pass(line, order, &frame.sent_by(caller)) == ACCEPTED;
        }
        if !moved {
            return;
        }
    }
}

#[test]
fn order_of_received_records() {
    let mut random = Random::new(11);
    // By the version of the plan.
    let mut quiet_ends = [0; 2];
    let mut ended_replays = [0; 2];
    let mut crashes_while_replaying = [0; 2];
    let mut trims_that_drop = [0; 2];
    let mut ticks_taken = [0; 2];
    let mut commits = [0; 2];
    for _ in 0..800 {
        let mut line = Line::of(any_plan(&mut random));
        let version = usize::from(line.plan.version == Version::Second);
        let mut order = Order::new(&line.plan);
        let mut practice = Practice::new(&mut random);
        for _ in 0..random.between(20, 250) {
            let frame = practice.frame(&mut random, &line);
            let before = line.clone();
            let answer = pass(&mut line, &mut order, &frame);
            assert_ne!(answer, NO_REPLAY, "no run of frames leads there");
            let replaying = |line: &Line, node: usize| line.nodes[node].status == Status::Replaying;
            for node in 0..line.nodes.len() {
                if replaying(&before, node) && !replaying(&line, node) {
                    match line.nodes[node].status {
                        Status::Up => ended_replays[version] += 1,
                        _ => crashes_while_replaying[version] += 1,
                    }
                }
            }
            if answer == ACCEPTED && trimmed(&before, &frame, &line) > 0 {
                trims_that_drop[version] += 1;
            }
            match (answer, Frame::read(&frame)) {
                (ACCEPTED, Ok((_, Frame::Take { channel }))) => {
                    let taken = before.queues[usize::from(channel)].messages[0];
                    ticks_taken[version] += usize::from(taken.record.is_tick());
                }
                (ACCEPTED, Ok((_, Frame::Commit { .. }))) => commits[version] += 1,
                _ => {}
            }
            if random.one_in(8) {
                assert!(order.holds(&line), "{:?}", line.plan);
            }
        }
        assert!(order.holds(&line), "{:?}", line.plan);
        drain(&mut random, &mut line, &mut order);
        assert!(order.holds(&line), "{:?}", line.plan);
        assert!(!damaged(&line));
        quiet_ends[version] += usize::from(is_quiet(&line));
    }
    println!("{quiet_ends:?} quiet, {ended_replays:?} ended, {crashes_while_replaying:?} crashed");
    println!("{trims_that_drop:?} trims, {ticks_taken:?} ticks, {commits:?} commits");
    for version in 0..2 {
        assert!(quiet_ends[version] > 100, "{quiet_ends:?}");
        assert!(ended_replays[version] > 100, "{ended_replays:?}");
        let crashes = crashes_while_replaying[version];
        assert!(crashes > 25, "{crashes_while_replaying:?}");
        assert!(trims_that_drop[version] > 50, "{trims_that_drop:?}");
        assert!(ticks_taken[version] > 200, "{ticks_taken:?}");
        assert!(commits[version] > 100, "{commits:?}");
    }
}

/// How many entries an accepted frame drops by a Trim.
fn trimmed(before: &Line, frame: &[u8], after: &Line) -> usize {
    match Frame::read(frame) {
        Ok((_, Frame::Trim { node })) => {
            let entries = |line: &Line| line.nodes[usize::from(node)].log.len();
            entries(before) - entries(after)
        }
        _ => 0,
    }
}
