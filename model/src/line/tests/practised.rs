//! Random plans and frames: no accepted step damages a line, a refused one
//! changes nothing.

use std::collections::BTreeMap;

use super::*;
use crate::answer::NO_REPLAY;
use crate::line::practice::{age, disturb, reach, retarget, stray, Practice, Stepped, EVENTS};
use crate::plan::practice::any_plan;
use crate::plan::Window;
use crate::random::Random;

/// How often each answer was given and each event met.
#[derive(Debug, Default)]
struct Seen {
    answers: [usize; 28],
    events: BTreeMap<&'static str, usize>,
}

impl Seen {
    fn look(&mut self, before: &Line, frame: &[u8], after: Result<&Line, u32>) {
        self.answers[after.err().unwrap_or(0) as usize] += 1;
        let Ok((caller, frame)) = Frame::read(frame) else {
            return;
        };
        let step = Stepped {
            before,
            caller,
            frame,
            after,
        };
        for event in EVENTS.iter().filter(|event| (event.is_it)(&step)) {
            *self.events.entry(event.name).or_default() += 1;
        }
    }
}

#[test]
fn practised_lines_stay_undamaged() {
    let mut random = Random::new(5);
    let mut seen = Seen::default();
    for _ in 0..1_500 {
        let plan = any_plan(&mut random);
        assert_eq!(Plan::read(&plan.write()), Ok(plan.clone()));
        let mut line = Line::of(plan);
        if random.one_in(2) {
            age(&mut random, &mut line);
        }
        let mut practice = Practice::new(&mut random);
        for _ in 0..random.between(50, 400) {
            let frame = practice.frame(&mut random, &line);
            let before = line.clone();
            let answer = step(&mut line, &frame);
            if answer == 0 {
                assert!(!damaged(&line), "{frame:?} {before:?}");
                let (caller, _) = Frame::read(&frame).expect("an accepted frame");
                let mut steps = before.steps;
                steps[caller.console()] += 1;
                assert_eq!(line.steps, steps);
                seen.look(&before, &frame, Ok(&line));
            } else {
                assert_eq!(line, before);
                seen.look(&before, &frame, Err(answer));
            }
        }
    }
    println!("{seen:?}");
    for answer in (9..=21).chain([0, 25, 26, 27]) {
        assert!(seen.answers[answer] >= 20, "{answer} too seldom: {seen:?}");
    }
    assert_eq!(seen.answers[NO_REPLAY as usize], 0);
    for (least, event) in [
        (800, "Recover begins a replay"),
        (100, "Crash of a node that replays"),
        (400, "replay ended"),
        (100, "replay ended with an empty time"),
        (50, "replay ended with a free record"),
        (20, "Take that drops a record for its mass alone"),
        (20, "a cap brings a record to the end of a window"),
        (4, "replay ended with a record that is free by its mass"),
        (100, "Take that holds a tick"),
        (50, "replay ended with a tick"),
        (100, "Trim that drops a tick"),
        (10, "Trim that drops what ticks alone let go"),
        (100, "Feed of what some channels take, and not all"),
        (100, "Take of what some channels take, and not all"),
        (50, "replay ended with what some take, and not all"),
        (100, "Ask that finds targets"),
        (100, "Ask repeated"),
        (100, "Commit begins a replay"),
        (100, "Commit leaves the node up"),
        (50, "Commit of entries that differ"),
        (50, "Recover discards a kept answer"),
        (100, "Take while an answer is kept"),
        (20, "Crash while another answer is kept"),
        (50, "26: Trim while an answer is kept"),
        (1_000, "Feed that no channel takes"),
        (50, "the same, and the log is full"),
        (100, "Feed of a node without channels"),
        (500, "Take without a time of its own, at time 0"),
        (1_000, "Take without a time of its own, above time 0"),
        (500, "Take with a time of its own after one without"),
        (100, "a rule keeps a record from leaving"),
        (100, "a rule lets a record leave"),
        (20, "Trim that drops what has no time of its own"),
        (50, "Recover told by what has no time of its own"),
    ] {
        assert!(seen.events[event] > least, "{event} too seldom: {seen:?}");
    }
}

/// From any undamaged line, reached by frames or not, accepted steps lead to
/// undamaged lines, and no step fails.
#[test]
fn undamaged_lines_stay_undamaged() {
    let mut random = Random::new(7);
    let mut starts = 0;
    let mut answers = [0; 28];
    for _ in 0..300 {
        let mut line = Line::of(any_plan(&mut random));
        if random.one_in(2) {
            age(&mut random, &mut line);
        }
        let mut practice = Practice::new(&mut random);
        for _ in 0..random.between(30, 200) {
            let frame = practice.frame(&mut random, &line);
            step(&mut line, &frame);
        }
        let accepted = line.accepted_steps();
        reach(&mut random, &mut line, accepted + 1_000);
        for _ in 0..60 {
            let mut other = line.clone();
            for _ in 0..random.between(1, 6) {
                disturb(&mut random, &mut other);
            }
            if random.one_in(2) {
                retarget(&mut other);
            }
            if damaged(&other) {
                continue;
            }
            starts += 1;
            line = other.clone();
            for _ in 0..20 {
                let frame = if random.one_in(4) {
                    stray(&mut random, &other)
                } else {
                    practice.frame(&mut random, &other)
                };
                let before = other.clone();
                let answer = step(&mut other, &frame);
                answers[answer as usize] += 1;
                assert!(!damaged(&other), "{frame:?} {before:?}");
            }
        }
    }
    println!("{starts} lines, {answers:?}");
    assert!(starts > 2_000, "{starts}");
}

/// With masses in the place of materials, and windows in that of masks, all goes as
/// it did.
#[test]
fn windows_do_as_masks() {
    let mut random = Random::new(13);
    let mut seen = Seen::default();
    for _ in 0..400 {
        let mut plan = any_plan(&mut random);
        plan.version = Version::First;
        plan.rules.fill(crate::rule::Rule::Keep);
        let mut by_mass = plan.clone();
        by_mass.version = Version::Second;
        let pairs = plan.channels.iter_mut().zip(&mut by_mass.channels);
        for (channel, other) in pairs {
            let least = random.index(4) as u16;
            let greatest = random.pick(&[least, 3, 15]);
            channel.mask = u16::MAX << least & u16::MAX >> (15 - greatest);
            channel.window = Window::ALL;
            other.mask = 1;
            other.window = Window { least, greatest };
        }
        let (mut line, mut other) = (Line::of(plan), Line::of(by_mass));
        let mut practice = Practice::new(&mut random);
        for _ in 0..random.between(50, 300) {
            let frame = practice.frame(&mut random, &line);
            let before = other.clone();
            let answer = step(&mut line, &frame);
            let weighed = weighed(&frame);
            assert_eq!(step(&mut other, &weighed), answer, "{weighed:?} {before:?}");
            let after = if answer == 0 { Ok(&other) } else { Err(answer) };
            seen.look(&before, &weighed, after);
            assert_eq!(damaged(&other), damaged(&line));
        }
        assert_eq!(without_kinds(&other), without_kinds(&line));
    }
    println!("{seen:?}");
    assert!(seen.events["Take that drops a record for its mass alone"] > 50);
    assert!(seen.events["replay ended otherwise than without windows"] > 5);
}

/// The frame with the material of what is fed as its mass.
fn weighed(frame: &[u8]) -> Vec<u8> {
    match Frame::read(frame) {
        Ok((caller, Frame::Feed { node, record }))
            if Record::read(record).is_some_and(|record| !record.is_tick()) =>
        {
            let record = Record::read(record).expect("a record");
            let weighed = Record {
                material: 0,
                mass: record.material.into(),
                ..record
            };
            let record = weighed.write();
            Frame::Feed { node, record }.sent_by(caller)
        }
        _ => frame.to_vec(),
    }
}

/// Nodes and queues, with neither materials nor masses.
fn without_kinds(line: &Line) -> (Vec<Node>, Vec<Queue>) {
    let (mut nodes, mut queues) = (line.nodes.clone(), line.queues.clone());
    let entries = nodes.iter_mut().map(|node| {
        let logged = node.log.iter_mut().map(|entry| &mut entry.message.record);
        logged.chain(node.buffered.iter_mut().map(|held| &mut held.record))
    });
    let queued = queues.iter_mut().map(|queue| queue.messages.iter_mut());
    let queued = queued.flatten().map(|message| &mut message.record);
    for record in entries.flatten().chain(queued) {
        (record.material, record.mass) = (0, 0);
    }
    (nodes, queues)
}
