//! Request 2026-14: two nodes that are down, restarted in either order.

use super::*;

/// Channels take all. So many pieces are fed at each source, and passed on by the channels
/// in turn.
fn passed(ends: &[(usize, usize)], sources: &[u8], fed: u32, channels: &[u8]) -> Line {
    let node_count = ends.iter().map(|&(_, to)| to + 1).max().unwrap();
    let ends = ends.iter().map(|&(from, to)| (from, to, 0xFFFF));
    let mut line = line_of(node_count, &ends.collect::<Vec<_>>());
    for &source in sources {
        for piece in 0..fed {
            accept(&mut line, &[feed(source, piece, 0)]);
        }
    }
    pass(&mut line, channels);
    line
}

/// The nodes crash and are asked for.
fn asked(mut line: Line, nodes: [u8; 2]) -> Line {
    accept(&mut line, &nodes.map(crash));
    accept(&mut line, &nodes.map(ask));
    line
}

/// What is left, by Recover and by Commit, whichever is first.
fn restarted(line: &Line, [one, other]: [u8; 2]) -> Line {
    let left = after(&after(line, recover(one)), recover(other));
    for ones in [recover, commit] {
        for others in [recover, commit] {
            assert_eq!(after(&after(line, ones(one)), others(other)), left);
            assert_eq!(after(&after(line, others(other)), ones(one)), left);
        }
    }
    left
}

fn marks(line: &Line) -> Vec<u32> {
    line.queues.iter().map(|queue| queue.mark).collect()
}

fn target(time: u32, parent: usize, parent_time: u32) -> Target {
    Target {
        time,
        parent,
        parent_time,
    }
}

/// 2 has an own child 5, 3 has 6; both send to 4.
fn child_shared() -> Line {
    let ends = [(0, 2), (1, 3), (2, 4), (2, 5), (3, 4), (3, 6)];
    let line = passed(&ends, &[0, 1], 2, &[0, 0, 1, 1, 2, 4, 4, 5]);
    asked(line, [2, 3])
}

/// Of 4's log each is told what it made itself, and 4 stays as it is.
#[test]
fn shared_child() {
    let line = child_shared();
    let left = restarted(&line, [2, 3]);
    assert_eq!(marks(&left), [0, 1, 1, 0, 2, 1]);
    assert_eq!(left.nodes[2].clock.times(), [0, 0]);
    assert_eq!(left.nodes[2].targets, [target(1, 0, 1)]);
    assert_eq!(left.nodes[3].clock.times(), [1, 1]);
    assert_eq!(left.nodes[3].targets, [target(2, 1, 2)]);
    for node in [0, 1, 4, 5, 6] {
        assert_eq!(left.nodes[node], line.nodes[node]);
    }
    assert_eq!(left.steps[0], line.steps[0] + 2);
}

/// 1 and 2 take from 0, which gives each its own mark. 2 is up at once: its one child has
/// all that it made.
#[test]
fn shared_parent() {
    let ends = [(0, 1), (0, 2), (1, 3), (1, 4), (2, 5)];
    let line = passed(&ends, &[0], 3, &[0, 0, 0, 1, 2, 2, 2, 3, 3, 4]);
    let line = asked(line, [1, 2]);
    let left = restarted(&line, [1, 2]);
    assert_eq!(marks(&left), [2, 1, 3, 2, 1]);
    assert_eq!(left.nodes[1].clock.times(), [2, 2]);
    assert_eq!(left.nodes[1].targets, [target(3, 0, 3)]);
    assert_eq!(left.nodes[2].clock.times(), [1, 1]);
    assert_eq!(
        (left.nodes[1].status, left.nodes[2].status),
        (Status::Replaying, Status::Up)
    );
    // Node 2 goes on while 1 replays.
    let mut on = left.clone();
    pass(&mut on, &[1, 4, 0]);
    assert_eq!((pieces(&on, 5), pieces(&on, 1)), (vec![0, 1], vec![2]));
}

/// 1 to 2 to 3: "parents' parents get 0", so 3 has heard nothing of 1, which knows nothing of
/// 3's children.
#[test]
fn grandparent() {
    let ends = [(0, 1), (1, 2), (1, 5), (2, 3), (3, 4), (3, 6)];
    let line = passed(&ends, &[0], 3, &[0, 0, 0, 1, 1, 1, 2, 3, 3, 3, 4, 4, 5]);
    let line = asked(line, [1, 3]);
    let left = restarted(&line, [1, 3]);
    assert_eq!(marks(&left), [1, 3, 1, 1, 2, 1]);
    assert_eq!(left.nodes[1].clock.times(), [1, 1]);
    assert_eq!(left.nodes[1].targets, [target(2, 0, 2), target(3, 0, 3)]);
    assert_eq!(left.nodes[3].clock.times(), [1, 1, 0]);
    assert_eq!(left.nodes[3].targets, [target(2, 2, 2)]);
    assert_eq!(left.nodes[2], line.nodes[2]);
}

/// Of a down node the answer to the frame, before and after the other restart.
fn answers(line: &Line, frame: &[u8], other: Vec<u8>) -> [u32; 2] {
    [line, &after(line, other)].map(|line| refuse(line, frame))
}

/// 2's children give one time two inputs; 3 is as before.
#[test]
fn refused_in_either_order() {
    let mut line = child_shared();
    line.nodes[2].kept = None;
    let entry = line.nodes[4].log[0];
    assert_eq!(entry.message.made_from, origin(2, 1));
    line.nodes[4].clock.raise_heard(2, 0, 2);
    line.nodes[4].clock.time += 1;
    let time = line.nodes[4].time();
    line.nodes[4].log.push(Entry {
        message: Message {
            time,
            ..entry.message
        },
        input_made_from: origin(0, 2),
        ..entry
    });
    assert!(!damaged(&line));
    for other in [recover(3), commit(3)] {
        assert_eq!(answers(&line, &recover(2), other.clone()), [24, 24]);
        assert_eq!(answers(&line, &commit(2), other), [27, 27]);
    }
    // What 3 keeps is not 2's, nor the other way round.
    let mut line = child_shared();
    line.nodes[3].kept = None;
    for other in [recover(2), commit(2)] {
        assert_eq!(answers(&line, &commit(3), other), [27, 27]);
    }
}

/// "12 excepted": with one step left, one console restarts one of them, two restart both.
#[test]
fn last_step() {
    let mut line = child_shared();
    line.steps = [Line::MOST_STEPS - 1, 5, 6, 7];
    let from = |caller, frame: Frame| frame.sent_by(caller);
    let [first, second] = [Caller::Console(0), Caller::Console(1)];
    let restarts = |node| [Frame::Recover { node }, Frame::Commit { node }];
    for one in restarts(2) {
        for other in restarts(3) {
            for (frame, then) in [(one, other), (other, one)] {
                for caller in [Caller::Unnamed, first] {
                    let once = after(&line, from(caller, frame));
                    assert_eq!(refuse(&once, &from(first, then)), 12);
                    assert_eq!(refuse(&once, &from(Caller::Unnamed, then)), 12);
                    assert_eq!(once.steps, [Line::MOST_STEPS, 5, 6, 7]);
                }
            }
            let forth = after(&after(&line, from(first, one)), from(second, other));
            let back = after(&after(&line, from(second, other)), from(first, one));
            assert_eq!(forth, back);
            assert_eq!(forth.steps, [Line::MOST_STEPS, 6, 6, 7]);
        }
    }
    // A refused restart leaves the step to the other, an accepted one does not.
    line.nodes[2].kept = None;
    assert_eq!(answers(&line, &commit(2), recover(3)), [27, 12]);
    let other = from(second, Frame::Commit { node: 2 });
    assert_eq!(answers(&line, &other, recover(3)), [27, 27]);
}
