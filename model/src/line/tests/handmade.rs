//! Undamaged lines that no frames lead to: there 21 and 24 end a replay.

use super::*;
use crate::line::practice::age;

/// A log entry of a child, which is a sink, made from a message of the router at `time`, which was
/// made from the parent's at `parent_time`.
fn child_entry(own_time: u32, router: usize, time: u32, parent: usize, parent_time: u32) -> Entry {
    Entry {
        message: Message {
            record: record(own_time, 1),
            time: own_time,
            made_from: origin(router, time),
        },
        input_made_from: origin(parent, parent_time),
        set: 0,
    }
}

/// Gives a child log entries (router's time, parent, parent's time) and the
/// clock that they need.
fn give_log(line: &mut Line, child: usize, router: usize, triples: &[(u32, usize, u32)]) {
    let node = &mut line.nodes[child];
    for &(time, parent, parent_time) in triples {
        let own_time = node.clock.time + 1;
        node.clock.time = own_time;
        node.clock.raise_taken(router, time);
        node.clock.raise_heard(router, parent, parent_time);
        node.log
            .push(child_entry(own_time, router, time, parent, parent_time));
    }
    line.steps = [250; 4];
}

/// The line of P9, node 2 down, with such logs at 3 and 4.
fn ninth_down(third: &[(u32, usize, u32)], fourth: &[(u32, usize, u32)]) -> Line {
    let mut line = ninth_line();
    accept(&mut line, &[crash(2)]);
    give_log(&mut line, 3, 2, third);
    give_log(&mut line, 4, 2, fourth);
    assert!(!damaged(&line));
    line
}

fn give_message(line: &mut Line, channel: usize, time: u32, record: Record) {
    line.queues[channel].messages.push(Message {
        record,
        time,
        made_from: None,
    });
    line.queues[channel].mark = time;
}

/// Node 2 with the time and targets that the children's logs tell, whether or
/// not Recover is accepted.
fn replaying_anyway(line: &Line) -> Line {
    let told = restart(line, 2);
    let mut replaying = line.clone();
    let node = &mut replaying.nodes[2];
    node.status = Status::Replaying;
    node.clock.time = told.low;
    node.targets = told.targets;
    for channel in [2, 3] {
        let child = line.plan.channels[channel].receiver;
        replaying.queues[channel].mark = line.nodes[child].clock.taken(2);
    }
    replaying
}

#[test]
fn targets_that_conflict() {
    let sound = ninth_down(&[(2, 0, 1), (3, 1, 1)], &[]);
    assert!(!damaged(&replaying_anyway(&sound)));
    let one_time = ninth_down(&[(2, 0, 1), (2, 1, 1)], &[]);
    assert_eq!(refuse(&one_time, &recover(2)), 24);
    assert!(damaged(&replaying_anyway(&one_time)));
    let one_input = ninth_down(&[(1, 0, 1), (2, 0, 1)], &[]);
    assert_eq!(refuse(&one_input, &recover(2)), 24);
    assert!(damaged(&replaying_anyway(&one_input)));
    let one_input_at_low = ninth_down(&[(1, 0, 1), (2, 0, 2)], &[(1, 0, 2)]);
    // At or below low nothing conflicts; the row is complete at once: 24 still.
    assert_eq!(refuse(&one_input_at_low, &recover(2)), 24);
    let mut twice_the_same = ninth_down(&[(2, 0, 2), (2, 0, 2)], &[(1, 0, 1)]);
    accept(&mut twice_the_same, &[recover(2)]);
    assert_eq!(twice_the_same.nodes[2].targets.len(), 1);
}

#[test]
fn complete_at_once() {
    let line = ninth_down(&[(2, 0, 3)], &[(1, 0, 5)]);
    let told = restart(&line, 2);
    assert_eq!(told.restored[0].time, 5);
    assert_eq!(told.targets.len(), 1);
    assert_eq!(refuse(&line, &recover(2)), 24);
    assert!(damaged(&replaying_anyway(&line)));
}

#[test]
fn too_many_targets() {
    let mut line = line_of(5, &[(0, 1, 1), (1, 2, 1), (1, 3, 1), (1, 4, 1)]);
    accept(&mut line, &[crash(1)]);
    let most: Vec<(u32, usize, u32)> = (1..=64).map(|time| (time, 0, time)).collect();
    give_log(&mut line, 2, 1, &most);
    let mut full = line.clone();
    assert!(!damaged(&full));
    accept(&mut full, &[recover(1)]);
    assert_eq!(full.nodes[1].targets.len(), Line::MOST_TARGETS);
    let mut over = line.clone();
    give_log(&mut over, 3, 1, &[(65, 0, 65)]);
    assert!(!damaged(&over));
    assert_eq!(refuse(&over, &recover(1)), 21);
    // Also if they conflict.
    let mut conflicting = line.clone();
    give_log(&mut conflicting, 3, 1, &[(65, 0, 64)]);
    assert!(!damaged(&conflicting));
    assert_eq!(refuse(&conflicting, &recover(1)), 21);
}

#[test]
fn target_not_held() {
    let mut line = ninth_down(&[(1, 0, 1), (3, 0, 4)], &[]);
    accept(&mut line, &[recover(2)]);
    // The row is passed over.
    let mut skipped = line.clone();
    give_message(&mut skipped, 0, 5, record(1, 1));
    assert!(!damaged(&skipped));
    assert_eq!(refuse(&skipped, &take(0)), 24);
    // The target's record is one that no channel takes.
    let mut dropped = line.clone();
    give_message(&mut dropped, 0, 1, record(1, 1));
    give_message(&mut dropped, 0, 4, record(2, 7));
    accept(&mut dropped, &[take(0)]);
    assert_eq!(refuse(&dropped, &take(0)), 24);
    // Held, both are placed.
    let mut held = line.clone();
    give_message(&mut held, 0, 1, record(1, 1));
    give_message(&mut held, 0, 4, record(2, 1));
    accept(&mut held, &[take(0), take(0)]);
    let times: Vec<u32> = held.nodes[2]
        .log
        .iter()
        .map(|entry| entry.message.time)
        .collect();
    assert_eq!(times, [1, 3]);
    assert_eq!(held.nodes[2].time(), 3);
}

#[test]
fn no_placing() {
    let mut line = ninth_down(&[(2, 0, 2)], &[(1, 1, 1)]);
    accept(&mut line, &[recover(2)]);
    give_message(&mut line, 0, 1, record(1, 1));
    give_message(&mut line, 0, 2, record(2, 1));
    accept(&mut line, &[take(0)]);
    assert_eq!(line.nodes[2].buffered.len(), 1);
    assert_eq!(refuse(&line, &take(0)), 24);
}

/// A free record's floor is over the children whose channels take it only.
#[test]
fn floors() {
    // Node 3 has taken time 3 and takes material 1 only; 4 has taken nothing.
    let mut line = ninth_down(&[(2, 0, 2), (3, 1, 3)], &[]);
    accept(&mut line, &[recover(2)]);
    let mut free_for_fourth = line.clone();
    give_message(&mut free_for_fourth, 0, 1, record(1, 2));
    give_message(&mut free_for_fourth, 0, 2, record(2, 1));
    give_message(&mut free_for_fourth, 1, 3, record(3, 1));
    accept(&mut free_for_fourth, &[take(0), take(0), take(1)]);
    assert_eq!(pieces(&free_for_fourth, 2), [1, 2, 3]);
    let mut free_for_third = line.clone();
    give_message(&mut free_for_third, 0, 1, record(1, 1));
    give_message(&mut free_for_third, 0, 2, record(2, 1));
    give_message(&mut free_for_third, 1, 3, record(3, 1));
    accept(&mut free_for_third, &[take(0), take(0)]);
    assert_eq!(refuse(&free_for_third, &take(1)), 24);
}

#[test]
fn held_list_full() {
    let mut line = ninth_down(&[(99, 0, 99)], &[]);
    accept(&mut line, &[recover(2)]);
    for time in 1..=64 {
        line.nodes[2].clock.raise_taken(0, time);
        line.nodes[2].buffered.push(Buffered {
            record: record(time, 1),
            made_from: Origin { sender: 0, time },
            input_made_from: None,
        });
        line.queues[0].mark = time;
    }
    assert!(!damaged(&line));
    let mut held = line.clone();
    give_message(&mut held, 0, 65, record(65, 1));
    assert!(!damaged(&held));
    assert_eq!(refuse(&held, &take(0)), 21);
    // Also where the step would end in 24.
    let mut last = line.clone();
    give_message(&mut last, 0, 99, record(99, 2));
    assert_eq!(refuse(&last, &take(0)), 21);
    // A dropped record needs no space.
    let mut dropped = line.clone();
    give_message(&mut dropped, 0, 65, record(65, 7));
    accept(&mut dropped, &[take(0)]);
    assert_eq!(dropped.nodes[2].buffered.len(), 64);
    assert_eq!(dropped.nodes[2].clock.taken(0), 65);
}

/// Child 3 has taken up to 4, child 4 up to 1: what is known at or below low is
/// restored, what is above is a target; marks are the children's entries.
#[test]
fn restored_entries() {
    let mut line = ninth_down(&[(1, 0, 2), (4, 1, 7)], &[(1, 0, 2), (1, 1, 3), (1, 1, 2)]);
    let told = restart(&line, 2);
    assert_eq!((told.low, told.high), (1, 4));
    let restored: Vec<(usize, u32)> = told
        .restored
        .iter()
        .map(|entry| (entry.sender, entry.time))
        .collect();
    assert_eq!(restored, [(0, 2), (1, 3)]);
    accept(&mut line, &[recover(2)]);
    let node = &line.nodes[2];
    assert_eq!(node.time(), 1);
    assert_eq!((node.clock.taken(0), node.clock.taken(1)), (2, 3));
    let marks: Vec<u32> = line.queues.iter().map(|queue| queue.mark).collect();
    assert_eq!(marks, [2, 3, 4, 1]);
    assert_eq!(
        node.targets,
        [Target {
            time: 4,
            parent: 1,
            parent_time: 7,
        }]
    );
}

/// The ninth sheet where times are late: "placed at 2" is 2 later than low.
#[test]
fn late_replay() {
    assert_eq!(4 * Line::MOST_STEPS, crate::placing::GREATEST);
    let mut random = crate::random::Random::new(1);
    let mut latest = 0;
    for _ in 0..100 {
        let mut line = ninth_replaying();
        age(&mut random, &mut line);
        assert!(!damaged(&line), "{line:?}");
        let low = line.nodes[2].time();
        let caller = Caller::ALL
            .into_iter()
            .find(|caller| line.steps[caller.console()] + 2 <= Line::MOST_STEPS);
        let Some(caller) = caller else {
            continue;
        };
        let frames = [Frame::Send { channel: 0 }, Frame::Take { channel: 0 }];
        accept(&mut line, &frames.map(|frame| frame.sent_by(caller)));
        let node = &line.nodes[2];
        assert_eq!((node.status, node.time()), (Status::Up, low + 2));
        assert_eq!(node.log[0].message.time, low + 2);
        latest = latest.max(low);
    }
    assert!(latest > 3_000_000, "{latest}");
}
