//! Request 2026-07: Ask, what it keeps, and Commit.

use super::*;

/// P9 with node 2 down.
fn ninth_down() -> Line {
    let mut line = ninth_line();
    let frames = ninth_frames();
    accept(&mut line, &frames[..frames.len() - 1]);
    line
}

fn kept(line: &Line, node: usize) -> Option<&Restart> {
    line.nodes[node].kept.as_ref()
}

/// What Ask keeps changes nothing else, and what Commit applies is what Recover would.
#[test]
fn ninth_marked_sheet_asked() {
    let mut line = ninth_down();
    let before = line.clone();
    accept(&mut line, &[ask(2)]);
    let target = Target {
        time: 2,
        parent: 0,
        parent_time: 1,
    };
    let answer = Restart {
        low: 0,
        high: 2,
        restored: vec![Origin { sender: 0, time: 0 }, Origin { sender: 1, time: 0 }],
        targets: vec![target],
    };
    assert_eq!(kept(&line, 2), Some(&answer));
    let mut without = line.clone();
    without.nodes[2].kept = None;
    without.steps = before.steps;
    assert_eq!(without, before);
    assert_eq!(line.steps[0], before.steps[0] + 1);

    let committed = after(&line, commit(2));
    assert_eq!(committed, after(&line, recover(2)));
    assert_eq!(kept(&committed, 2), None);
    assert_eq!(committed.steps[0], line.steps[0] + 1);
    let mut once = ninth_replaying();
    once.steps = committed.steps;
    assert_eq!(committed, once);
}

#[test]
fn nothing_kept() {
    let mut line = ninth_line();
    assert_eq!(refuse(&line, &commit(2)), 15);
    assert_eq!(refuse(&line, &ask(2)), 15);
    accept(&mut line, &[crash(2)]);
    assert_eq!(refuse(&line, &commit(2)), 27);
    accept(&mut line, &[ask(2), ask(2), commit(2)]);
    assert_eq!(line.nodes[2].status, Status::Up);
    assert_eq!(refuse(&line, &commit(2)), 15);
    accept(&mut line, &[crash(2)]);
    assert_eq!(refuse(&line, &commit(2)), 27);
    for replaying in [
        ninth_replaying(),
        after(&after(&ninth_down(), ask(2)), commit(2)),
    ] {
        assert_eq!(refuse(&replaying, &commit(2)), 15);
        assert_eq!(refuse(&replaying, &ask(2)), 15);
        assert_eq!(refuse(&after(&replaying, crash(2)), &commit(2)), 27);
    }
}

/// A kept answer stays where its node is named and the frame is refused.
#[test]
fn kept_at_refusals() {
    let mut line = after(&ninth_down(), ask(2));
    for frame in [crash(2), send(0), take(3), trim(2)] {
        refuse(&line, &frame);
    }
    line.steps[0] = Line::MOST_STEPS;
    for frame in [ask(2), commit(2), recover(2)] {
        assert_eq!(refuse(&line, &frame), 12);
    }
    let other = |frame: Frame| frame.sent_by(Caller::Console(1));
    let [ask, commit, recover] = [
        Frame::Ask { node: 2 },
        Frame::Commit { node: 2 },
        Frame::Recover { node: 2 },
    ];
    line = after(&line, other(ask));
    assert_eq!(after(&line, other(commit)), after(&line, other(recover)));
}

#[test]
fn recover_discards() {
    let mut line = ninth_down();
    let recovered = after(&line, recover(2));
    accept(&mut line, &[ask(2), recover(2)]);
    assert_eq!(kept(&line, 2), None);
    line.steps = recovered.steps;
    assert_eq!(line, recovered);
    accept(&mut line, &[crash(2)]);
    assert_eq!(refuse(&line, &commit(2)), 27);
}

/// 0, 1, 2 and 3 to 4, and 1 to 5; both to 6 and 7. Node 4 took 1, 2, 3 and 3 pieces from
/// its parents in turn; 6 has the first eight of them, 7 the first seven. Of two that 5 took
/// 6 has both, 7 one. Both routers are down.
fn four_parents() -> Line {
    let entering = [(0, 4), (1, 4), (1, 5), (2, 4), (3, 4)];
    let leaving = [(4, 6), (4, 7), (5, 6), (5, 7)];
    let channels = [&entering[..], &leaving[..]].concat();
    let channels = channels.iter().map(|&(from, to)| (from, to, 1));
    let mut line = line_of(8, &channels.collect::<Vec<_>>());
    for (parent, channel, pieces) in [(0, 0, 1), (1, 1, 2), (2, 3, 3), (3, 4, 3)] {
        for piece in 0..pieces {
            accept(&mut line, &[feed(parent, piece, 0)]);
            pass(&mut line, &[channel]);
        }
    }
    pass(&mut line, &[5; 8]);
    pass(&mut line, &[6; 7]);
    pass(&mut line, &[2, 2, 7, 7, 8]);
    accept(&mut line, &[crash(4), crash(5)]);
    line
}

/// Each parent's entry is its own, and two nodes keep theirs apart.
#[test]
fn entries_of_four_parents() {
    let mut line = after(&four_parents(), ask(4));
    let times = |line: &Line, node| {
        let entries = &kept(line, node).unwrap().restored;
        let times: Vec<u32> = entries.iter().map(|entry| entry.time).collect();
        times
    };
    assert_eq!(times(&line, 4), [1, 2, 3, 1]);
    let answer = kept(&line, 4).unwrap().clone();
    assert_eq!((answer.low, answer.high), (7, 8));
    assert_eq!(answer.targets.len(), 1);
    assert_eq!(refuse(&line, &commit(5)), 27);
    accept(&mut line, &[ask(5)]);
    assert_eq!(times(&line, 5), [1]);
    assert_eq!(kept(&line, 5).unwrap().targets.len(), 1);
    assert_eq!(kept(&line, 4), Some(&answer));
    let state = line_bytes(&line);
    let page = 4096 * 5;
    assert_eq!(
        state[page + 2832..page + 2848],
        [0, 0, 0, 1, 0, 0, 0, 8, 0, 0, 0, 2, 3, 0, 0, 0]
    );
    let numbers = [1, 7, 8, 1, 2, 3, 1].map(u32::to_be_bytes).concat();
    assert_eq!(state[page + 3604..page + 3632], numbers);
    let page = 4096 * 6;
    let numbers = [1, 1, 2, 1, 0, 0, 0].map(u32::to_be_bytes).concat();
    assert_eq!(state[page + 3604..page + 3632], numbers);
    for (first, second) in [(4, 5), (5, 4)] {
        let committed = after(&after(&line, commit(first)), commit(second));
        assert_eq!(
            committed,
            after(&after(&line, recover(first)), recover(second))
        );
        assert_eq!(committed.nodes[4].clock.times()[..5], [7, 1, 2, 3, 1]);
        assert_eq!(committed.nodes[5].clock.times(), [1, 1]);
    }
}

/// What other nodes do while the answer is kept leaves it as it is: Feeds, a piece sent on
/// by the other router, that router's restarts.
#[test]
fn steps_between() {
    let mut line = after(&four_parents(), ask(4));
    let answer = kept(&line, 4).unwrap().clone();
    let at_once = after(&line, commit(4));
    accept(&mut line, &[feed(1, 20, 0), recover(5)]);
    pass(&mut line, &[2, 2]);
    assert_eq!(line.nodes[5].status, Status::Up);
    pass(&mut line, &[7, 8, 8]);
    accept(&mut line, &[crash(5), ask(5), commit(5)]);
    assert_eq!(kept(&line, 4), Some(&answer));
    let later = after(&line, commit(4));
    assert_eq!(later, after(&line, recover(4)));
    assert_eq!(later.nodes[4], at_once.nodes[4]);
}

/// Of 2's children, 3 and 4 have its time 2 from different inputs, and 5 has nothing:
/// refused as Recover is, and nothing is kept.
#[test]
fn refused_as_recover() {
    let ends = [(0, 2, 7), (1, 2, 7), (2, 3, 2), (2, 4, 6), (2, 5, 6)];
    let mut line = line_of(6, &ends);
    line.steps = [100; 4];
    for (node, source) in [(3, 0), (4, 1)] {
        let node = &mut line.nodes[node];
        node.clock.time = 1;
        node.clock.raise_taken(2, 2);
        node.clock.raise_heard(2, source, 1);
        node.log.push(Entry {
            message: Message {
                record: record(1, 1),
                time: 1,
                made_from: origin(2, 2),
            },
            input_made_from: origin(source, 1),
            set: 0,
        });
    }
    for channel in [2, 3] {
        line.queues[channel].mark = 2;
    }
    accept(&mut line, &[crash(2)]);
    assert_eq!(refuse(&line, &recover(2)), 24);
    assert_eq!(refuse(&line, &ask(2)), 24);
    assert_eq!(refuse(&line, &commit(2)), 27);
    // Kept all the same, it is damage.
    line.nodes[2].kept = Some(restart(&line, 2));
    assert!(damaged(&line));
}

/// One number at a time; see `damage` for where answers may not be kept.
#[test]
fn other_answers() {
    type Change = fn(&mut Restart);
    let line = after(&four_parents(), ask(4));
    let changes: &[Change] = &[
        |kept| kept.low += 1,
        |kept| kept.low -= 1,
        |kept| kept.high += 1,
        |kept| kept.high -= 1,
        |kept| kept.restored[0].time += 1,
        |kept| kept.restored[1].time -= 1,
        |kept| kept.restored[2].time = 0,
        |kept| kept.restored[3].time += 1,
        |kept| kept.restored.swap(0, 1),
        |kept| kept.restored.truncate(3),
        |kept| kept.restored[3].sender = 2,
        |kept| kept.targets.clear(),
        |kept| kept.targets.push(kept.targets[0]),
        |kept| kept.targets[0].time += 1,
        |kept| kept.targets[0].parent = 2,
        |kept| kept.targets[0].parent_time += 1,
    ];
    for change in changes {
        let mut other = line.clone();
        change(other.nodes[4].kept.as_mut().unwrap());
        assert!(damaged(&other));
    }
    let mut stale = line.clone();
    stale.nodes[6].clock.raise_taken(4, 9);
    assert!(damaged(&stale));
    stale.nodes[4].kept = None;
    assert!(!damaged(&stale));
    for node in [0, 6, 7] {
        let mut other = line.clone();
        other.nodes[node].kept = other.nodes[4].kept.take();
        assert!(damaged(&other));
    }
    for frame in [recover(4), commit(4)] {
        let mut other = after(&line, frame);
        other.nodes[4].kept = line.nodes[4].kept.clone();
        assert!(damaged(&other));
        other.nodes[4].targets.clear();
        assert!(damaged(&other));
    }
    let mut other = line.clone();
    other.nodes[4].targets = other.nodes[4].kept.take().unwrap().targets;
    assert!(damaged(&other));
}
