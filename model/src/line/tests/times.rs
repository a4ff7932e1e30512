//! Request 2026-08: what leaves gets a time, what does not gets none.

use super::*;
use crate::rule::Rule;

/// 0 to 1 to 2 to 3. Channel 0 takes materials 1, 2 and 3, channel 1 material 1, channel 2
/// all.
fn chain() -> Line {
    line_of(4, &[(0, 1, 14), (1, 2, 2), (2, 3, 0xFFFF)])
}

/// The same with six pieces at 1, of which the third and the sixth leave it.
fn six_taken() -> Line {
    let mut line = chain();
    for (piece, material) in [(1, 2), (2, 3), (3, 1), (4, 2), (5, 3), (6, 1)] {
        accept(&mut line, &[feed(0, piece, material)]);
        pass(&mut line, &[0]);
        assert_eq!(line.nodes[1].clock.taken(0), piece);
    }
    line
}

fn taken(line: &Line, node: usize) -> Vec<(u32, Option<Origin>)> {
    let log = line.nodes[node].log.iter();
    log.map(|entry| (entry.message.time, entry.message.made_from))
        .collect()
}

/// It "leaves nothing but the step count".
#[test]
fn feed_that_no_channel_takes() {
    let mut line = chain();
    for fed in [&[][..], &[feed(0, 1, 1)]] {
        accept(&mut line, fed);
        let mut before = line.clone();
        accept(&mut line, &[feed(0, 2, 0), feed(0, 3, 4)]);
        before.steps[0] += 2;
        assert_eq!(line, before);
    }
    accept(&mut line, &[feed(0, 4, 3)]);
    assert_eq!(
        (times(&line, 0), pieces(&line, 0)),
        (vec![1, 2], vec![1, 4])
    );
}

/// "21 is not looked at for it"; 17, 14, 13 and 12 are.
#[test]
fn full_log() {
    let mut line = chain();
    for piece in 0..64 {
        accept(&mut line, &[feed(0, piece, 1)]);
    }
    assert_eq!(refuse(&line, &feed(0, 64, 1)), 21);
    assert_eq!(refuse(&line, &tick(0)), 21);
    accept(&mut line, &[feed(0, 64, 0)]);
    assert_eq!(line.nodes[0].log.len(), 64);
    assert_eq!(refuse(&line, &feed(0, 65, 16)), 17);
    assert_eq!(refuse(&line, &feed(1, 65, 0)), 14);
    assert_eq!(refuse(&line, &feed(4, 65, 0)), 13);
    line.steps[0] = Line::MOST_STEPS;
    assert_eq!(refuse(&line, &feed(0, 64, 0)), 12);
}

/// "It carries the node's present time and an empty set of belts": 0 at first.
#[test]
fn take_that_no_channel_takes() {
    let mut line = six_taken();
    assert_eq!(times(&line, 1), [0, 0, 1, 1, 1, 2]);
    let sets: Vec<u8> = line.nodes[1].log.iter().map(|entry| entry.set).collect();
    assert_eq!(sets, [0, 0, 1, 0, 0, 1]);
    assert_eq!(line.nodes[1].time(), 2);
    assert_eq!(pieces(&line, 1), [1, 2, 3, 4, 5, 6]);
    // Its child takes what left, at times 1 and 2.
    pass(&mut line, &[1, 1]);
    assert_eq!(refuse(&line, &send(1)), 18);
    assert_eq!(taken(&line, 2), [(1, origin(1, 1)), (2, origin(1, 2))]);
    assert_eq!(line.nodes[2].clock.times(), [2, 2, 6]);
}

/// The Take needs space, though it gets no time.
#[test]
fn take_into_a_full_log() {
    let mut line = line_of(4, &[(0, 2, 14), (1, 2, 14), (2, 3, 2)]);
    for piece in 0..64 {
        accept(&mut line, &[feed(0, piece, 2)]);
        pass(&mut line, &[0]);
    }
    assert_eq!((times(&line, 2), line.nodes[2].time()), (vec![0; 64], 0));
    for material in [2, 1] {
        let mut line = line.clone();
        accept(&mut line, &[feed(1, 64, material), send(1)]);
        assert_eq!(refuse(&line, &take(1)), 21);
    }
}

/// "Outfeeds log and count everything as before", also one that is an infeed.
#[test]
fn sinks_count_all() {
    let mut line = line_of(3, &[(0, 1, 1)]);
    accept(&mut line, &[feed(0, 1, 0), feed(0, 2, 0)]);
    pass(&mut line, &[0, 0]);
    accept(&mut line, &[feed(2, 3, 7), feed(2, 4, 8)]);
    for node in 0..3 {
        assert_eq!(
            (times(&line, node), line.nodes[node].time()),
            (vec![1, 2], 2)
        );
    }
    for piece in 5..67 {
        accept(&mut line, &[feed(2, piece, 9)]);
    }
    assert_eq!(refuse(&line, &feed(2, 67, 9)), 21);
}

/// The record is the one after the node's rule: material 1 becomes 0, which nobody takes,
/// and at node 1 a mass above 100 becomes 100, which the window has.
#[test]
fn after_the_rule() {
    let mut line = line_of(3, &[(0, 1, 0xFFFE), (1, 2, 0xFFFF)]);
    line.plan.version = Version::Second;
    line.plan.rules[0] = Rule::Relabel { from: 1, to: 0 };
    line.plan.rules[1] = Rule::Cap { greatest: 100 };
    line.plan.channels[1].window.greatest = 100;
    accept(&mut line, &[feed(0, 1, 1), feed(0, 2, 0)]);
    assert!(line.nodes[0].log.is_empty());
    accept(&mut line, &[feed(0, 3, 2)]);
    pass(&mut line, &[0, 1]);
    assert_eq!((times(&line, 1), line.nodes[1].time()), (vec![1], 1));
    line.plan.rules[1] = Rule::Relabel { from: 3, to: 4 };
    line.plan.channels[1].window.greatest = 65_535;
    line.plan.channels[1].mask = 0x000C;
    accept(&mut line, &[feed(0, 4, 3)]);
    pass(&mut line, &[0]);
    assert_eq!((times(&line, 1), line.nodes[1].time()), (vec![1, 1], 1));
    line.plan.rules[1] = Rule::Relabel { from: 4, to: 3 };
    accept(&mut line, &[feed(0, 5, 4)]);
    pass(&mut line, &[0]);
    assert_eq!((times(&line, 1), line.nodes[1].time()), (vec![1, 1, 2], 2));
}

/// Ticks leave wherever a channel does.
#[test]
fn ticks_have_times() {
    let mut line = chain();
    accept(&mut line, &[tick(0)]);
    pass(&mut line, &[0, 1, 2]);
    assert_eq!([0, 1, 2, 3].map(|node| line.nodes[node].time()), [1; 4]);
}

/// 0 and 1 send to 2, which sends all to 3 and material 1 to 4; 3 passes on material 2 only.
fn parted() -> Line {
    let mut line = line_of(
        6,
        &[(0, 2, ALL), (1, 2, ALL), (2, 3, ALL), (2, 4, 2), (3, 5, 4)],
    );
    accept(&mut line, &[feed(0, 1, 1), feed(1, 2, 1), feed(0, 3, 2)]);
    pass(&mut line, &[0, 1, 0, 2, 2, 2]);
    line
}

const ALL: u16 = 0xFFFF;

/// "Its log entry stays, since a parent's restart needs it": 3 has made only piece 3 of what
/// it took, and tells of all three.
#[test]
fn parents_restart() {
    let mut line = parted();
    assert_eq!((times(&line, 3), line.nodes[3].time()), (vec![0, 0, 1], 1));
    accept(&mut line, &[crash(2)]);
    let told = restart(&line, 2);
    assert_eq!((told.low, told.high, told.targets.len()), (0, 3, 3));
    accept(&mut line, &[recover(2)]);
    pass(&mut line, &[0, 0, 1]);
    assert_eq!(
        (pieces(&line, 2), times(&line, 2)),
        (vec![1, 2, 3], vec![1, 2, 3])
    );
    pass(&mut line, &[3, 3]);
    assert_eq!(pieces(&line, 4), [1, 2]);
    // What Trim drops of them is told by the low clock.
    pass(&mut line, &[4]);
    accept(&mut line, &[trim(3)]);
    assert_eq!(times(&line, 3), [1]);
    assert_eq!(line.nodes[3].low_clock.times(), [0, 2, 1, 1]);
    accept(&mut line, &[crash(2)]);
    let told = restart(&line, 2);
    assert_eq!((told.low, told.high, told.targets.len()), (2, 3, 1));
    assert_eq!(
        told.restored
            .iter()
            .map(|entry| entry.time)
            .collect::<Vec<_>>(),
        [1, 1]
    );
}

/// A node that replays drops what none takes: no column is left for it, and no time.
#[test]
fn dropped_in_a_replay() {
    let mut line = line_of(5, &[(0, 1, 14), (1, 2, 2), (1, 3, 6), (2, 4, 1)]);
    for (piece, material) in [(1, 3), (2, 2), (3, 3), (4, 1), (5, 3)] {
        accept(&mut line, &[feed(0, piece, material)]);
        pass(&mut line, &[0]);
    }
    assert_eq!(times(&line, 1), [0, 1, 1, 2, 2]);
    pass(&mut line, &[1]);
    accept(&mut line, &[crash(1), recover(1)]);
    assert_eq!(line.nodes[1].targets.len(), 1);
    pass(&mut line, &[0, 0, 0]);
    assert_eq!(line.nodes[1].buffered.len(), 1);
    pass(&mut line, &[0]);
    assert_eq!(
        (pieces(&line, 1), times(&line, 1)),
        (vec![2, 4], vec![1, 2])
    );
    // After it the node takes as any other.
    pass(&mut line, &[0]);
    assert_eq!((times(&line, 1), line.nodes[1].time()), (vec![1, 2, 2], 2));
    pass(&mut line, &[2, 2]);
    assert_eq!(pieces(&line, 3), [2, 4]);
}

/// An entry at time 0 is never above a floor; its sender's time may be.
#[test]
fn trim_of_such_entries() {
    let mut line = chain();
    for (piece, material) in [(1, 2), (2, 2), (3, 1), (4, 3)] {
        accept(&mut line, &[feed(0, piece, material)]);
        pass(&mut line, &[0]);
    }
    // Node 2 has heard nothing of 0.
    accept(&mut line, &[trim(1)]);
    assert_eq!(times(&line, 1), [0, 0, 1, 1]);
    pass(&mut line, &[1]);
    assert_eq!(line.floor_times(), [3, 0, 0, 0]);
    accept(&mut line, &[trim(1)]);
    assert_eq!(times(&line, 1), [1, 1]);
    assert_eq!(line.nodes[1].low_clock.times(), [0, 2]);
    pass(&mut line, &[2]);
    accept(&mut line, &[trim(1)]);
    // Of the last the sender's floor is not reached.
    assert_eq!((times(&line, 1), pieces(&line, 1)), (vec![1], vec![4]));
}

/// Whether the line is damaged where the node's log has these times.
fn is_damaged(line: &Line, node: usize, times: &[u32]) -> bool {
    let mut other = line.clone();
    for (entry, &time) in other.nodes[node].log.iter_mut().zip(times) {
        entry.message.time = time;
    }
    let in_place = direct::check(&line_bytes(&other));
    assert_eq!(in_place != 0, damaged(&other), "{times:?}");
    damaged(&other)
}

/// The times of node 1's log, sets being 0, 0, 1, 0, 0, 1.
#[test]
fn times_that_repeat() {
    let mut line = six_taken();
    line.steps = [100; 4];
    line.nodes[1].clock.time = 9;
    let sound = [
        [0, 0, 1, 1, 1, 2],
        [0, 1, 2, 2, 3, 9],
        [5, 5, 6, 6, 6, 7],
        [0, 7, 8, 8, 8, 9],
        [1, 2, 3, 4, 5, 6],
        [0, 0, 1, 5, 8, 9],
    ];
    let wrong = [
        // What a channel takes: 0, or that of the one before it.
        [0, 0, 0, 1, 1, 2],
        [0, 1, 1, 1, 1, 2],
        [0, 0, 1, 1, 2, 2],
        // Below the one before it.
        [1, 0, 1, 1, 1, 2],
        [0, 0, 2, 1, 1, 3],
        [0, 0, 1, 3, 2, 4],
        [0, 0, 2, 3, 3, 2],
        // Past the node's time.
        [0, 0, 1, 1, 1, 10],
        [10, 10, 11, 11, 11, 12],
        [0, u32::MAX, 1, 1, 1, 2],
    ];
    for (lists, is_wrong) in [(&sound[..], false), (&wrong, true)] {
        for times in lists {
            assert_eq!(is_damaged(&line, 1, times), is_wrong, "{times:?}");
        }
    }
}

/// Of a source each time rises, whatever its set; a sink's set is always empty.
#[test]
fn times_that_do_not() {
    let mut line = six_taken();
    pass(&mut line, &[1, 1, 2, 2]);
    for (node, count) in [(0, 6), (3, 2)] {
        line.nodes[node].log[count - 1].message.record.material = 0;
        give_sets(&mut line);
        let right: Vec<u32> = (1..=count as u32).collect();
        assert!(!is_damaged(&line, node, &right));
        for index in 0..count {
            let mut times = right.clone();
            times[index] -= 1;
            assert!(is_damaged(&line, node, &times), "{times:?}");
        }
    }
}
