//! Request 2026-04: floor times, Trim and the low clock.

use super::*;

fn low_times(line: &Line, node: usize) -> Vec<u32> {
    line.nodes[node].low_clock.times()
}

/// 0 to 1 to 2 to 3: three pieces at 1, two at 2, one at 3.
fn chain() -> Line {
    let mut line = line_of(4, &[(0, 1, 1), (1, 2, 1), (2, 3, 1)]);
    for piece in 1..=3 {
        accept(&mut line, &[feed(0, piece, 0)]);
    }
    pass(&mut line, &[0, 0, 0, 1, 1, 2]);
    line
}

#[test]
fn floors_of_a_chain() {
    let mut line = chain();
    // Of 0 node 1 holds 3 and node 2 holds 2; of 1 node 2 holds 2 and node 3
    // holds 1.
    assert_eq!(line.floor_times(), [2, 1, 1, 1]);
    accept(&mut line, &[trim(0), trim(1), trim(2), trim(3)]);
    assert_eq!(times(&line, 0), [3]);
    assert_eq!(times(&line, 1), [2, 3]);
    assert_eq!(times(&line, 2), [2]);
    assert_eq!(times(&line, 3), [] as [u32; 0]);
    // Own time aside: parents, and through them their parents.
    assert_eq!(low_times(&line, 0), [0]);
    assert_eq!(low_times(&line, 1), [0, 1]);
    assert_eq!(low_times(&line, 2), [0, 1, 1]);
    assert_eq!(low_times(&line, 3), [0, 1, 1]);
    assert_eq!(line.floor_times(), [2, 1, 1, 1]);
    // What is kept in the log is sent as before.
    pass(&mut line, &[1, 2, 2]);
    assert_eq!(pieces(&line, 3), [2, 3]);
}

#[test]
fn nothing_to_drop() {
    let mut line = chain();
    accept(&mut line, &[trim(3)]);
    let mut after = line.clone();
    accept(&mut after, &[trim(3), trim(3)]);
    line.steps[0] += 2;
    assert_eq!(after, line);
}

/// Both sinks of P9 have taken all that there is for them, but 3 has heard nothing
/// of 1: that holds back 2's first entry, and so the one behind it.
#[test]
fn only_a_leading_run() {
    let mut line = ninth_line();
    accept(&mut line, &[feed(1, 3, 2), feed(0, 1, 1)]);
    pass(&mut line, &[1, 0, 2, 3, 3]);
    assert_eq!(line.floor_times(), [1, 0, 2, 1, 2]);
    accept(&mut line, &[trim(2), trim(1)]);
    assert_eq!((times(&line, 2), times(&line, 1)), (vec![1, 2], vec![1]));
    // Of 4's two entries the sender's floor is reached: both go, each kept for
    // the parent that it came through.
    accept(&mut line, &[trim(4), trim(0)]);
    assert_eq!(low_times(&line, 4), [0, 2, 1, 1]);
    assert!(line.nodes[4].log.is_empty() && line.nodes[0].log.is_empty());
}

/// 3 has taken a piece that 4 has not: 2's floor holds back 3's entry, though 3's
/// own does not.
#[test]
fn floor_of_the_sender() {
    let mut line = ninth_line();
    accept(&mut line, &[feed(0, 1, 1)]);
    pass(&mut line, &[0, 2]);
    assert_eq!(line.floor_times(), [0, 0, 0, 1, 0]);
    accept(&mut line, &[trim(3)]);
    assert_eq!(times(&line, 3), [1]);
    pass(&mut line, &[3]);
    accept(&mut line, &[trim(3)]);
    assert_eq!(low_times(&line, 3), [0, 1, 1, 0]);
}

#[test]
fn some_node_not_up() {
    let mut down = ninth_line();
    accept(&mut down, &[trim(2), crash(2)]);
    for line in [down, ninth_replaying()] {
        for node in 0..5 {
            assert_eq!(refuse(&line, &trim(node)), 26);
        }
        assert_eq!(refuse(&line, &trim(5)), 13);
        let mut used_up = line.clone();
        used_up.steps[0] = Line::MOST_STEPS;
        assert_eq!(refuse(&used_up, &trim(2)), 12);
        let mut other = line;
        other.steps[1] = 0;
        let trim = Frame::Trim { node: 0 }.sent_by(Caller::Console(1));
        assert_eq!(refuse(&other, &trim), 26);
    }
    let mut ended = ninth_replaying();
    accept(&mut ended, &[send(0), take(0)]);
    accept(&mut ended, &[trim(0), trim(1), trim(2), trim(3), trim(4)]);
}

/// Node 2 made pieces 1 and 2; node 3 has both, node 4 the first, which all have
/// trimmed.
fn ninth_trimmed() -> Line {
    let mut line = ninth_line();
    accept(&mut line, &[feed(0, 1, 1), feed(0, 2, 1)]);
    pass(&mut line, &[0, 0, 2, 2, 3]);
    assert_eq!(line.floor_times(), [1, 0, 1, 2, 1]);
    accept(&mut line, &[trim(0), trim(2), trim(3), trim(4)]);
    for node in [0, 2, 3] {
        assert_eq!(times(&line, node), [2]);
    }
    assert!(line.nodes[4].log.is_empty());
    line
}

/// No log tells any more that piece 1 went through 2: the low clocks do.
#[test]
fn restored_from_low_clocks() {
    let mut line = ninth_trimmed();
    accept(&mut line, &[crash(2)]);
    let told = restart(&line, 2);
    assert_eq!((told.low, told.high), (1, 2));
    assert_eq!(told.restored[0], Origin { sender: 0, time: 1 });
    assert_eq!(told.restored[1], Origin { sender: 1, time: 0 });
    accept(&mut line, &[recover(2)]);
    assert_eq!(line.nodes[2].targets.len(), 1);
    assert_eq!(line.nodes[2].clock.times(), [1, 1, 0]);
    assert_eq!(line.queues[0].mark, 1);
    pass(&mut line, &[0]);
    assert_eq!(line.nodes[2].status, Status::Up);
    assert_eq!((pieces(&line, 2), times(&line, 2)), (vec![2], vec![2]));
    pass(&mut line, &[3]);
    assert_eq!((pieces(&line, 3), pieces(&line, 4)), (vec![2], vec![2]));
}

/// The greatest over the children's low clocks and logs.
#[test]
fn restored_from_the_greatest() {
    let mut line = ninth_trimmed();
    accept(&mut line, &[crash(2)]);
    for (third, fourth, restored) in [(0, 0, 0), (0, 1, 1), (1, 0, 1), (2, 1, 2)] {
        for (child, time) in [(3, third), (4, fourth)] {
            let low = line.nodes[child].low_clock.part_mut(2).unwrap();
            low.part_mut(0).unwrap().time = time;
        }
        assert!(!damaged(&line));
        assert_eq!(restart(&line, 2).restored[0].time, restored);
    }
    // With 2 restored the row is complete at once.
    assert_eq!(refuse(&line, &recover(2)), 24);
}

#[test]
fn crash_empties_the_low_clock() {
    let mut line = ninth_trimmed();
    assert_eq!(low_times(&line, 2), [0, 1, 0]);
    let others = [3, 4].map(|node| low_times(&line, node));
    accept(&mut line, &[crash(2)]);
    assert_eq!(low_times(&line, 2), [0, 0, 0]);
    assert_eq!([3, 4].map(|node| low_times(&line, node)), others);
    accept(&mut line, &[recover(2)]);
    pass(&mut line, &[0]);
    assert_eq!(low_times(&line, 2), [0, 0, 0]);
}

/// A recovered node has heard nothing of its parents' parents.
#[test]
fn floors_fall() {
    let mut line = line_of(4, &[(0, 1, 1), (1, 2, 1), (2, 3, 1)]);
    for piece in 1..=2 {
        accept(&mut line, &[feed(0, piece, 0)]);
        pass(&mut line, &[0, 1, 2]);
        assert_eq!(line.floor_times(), [piece; 4]);
        if piece == 1 {
            accept(&mut line, &[trim(1)]);
        }
    }
    accept(&mut line, &[crash(2), recover(2)]);
    assert_eq!(line.nodes[2].status, Status::Up);
    assert_eq!(line.floor_times(), [0, 2, 2, 2]);
    accept(&mut line, &[trim(0), trim(1)]);
    assert_eq!((times(&line, 0), times(&line, 1)), (vec![1, 2], vec![2]));
    assert_eq!(low_times(&line, 1), [0, 1]);
}

#[test]
fn past_64_entries() {
    let mut line = line_of(2, &[(0, 1, 1)]);
    for piece in 1..=64 {
        accept(&mut line, &[feed(0, piece, 0)]);
        pass(&mut line, &[0]);
    }
    assert_eq!(refuse(&line, &feed(0, 65, 0)), 21);
    accept(&mut line, &[trim(0), feed(0, 65, 0), send(0)]);
    assert_eq!(times(&line, 0), [65]);
    assert_eq!(refuse(&line, &take(0)), 21);
    accept(&mut line, &[trim(1), take(0)]);
    assert_eq!(low_times(&line, 1), [0, 64]);
    assert_eq!((times(&line, 1), pieces(&line, 1)), (vec![65], vec![65]));
}
