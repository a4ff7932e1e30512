//! What is written is read back, and what is read was written so.

use crate::line::{damaged, step, Frame, Line};
use crate::state::practice::{staged, FEATURES};
use crate::state::tests::runs;
use crate::state::{check, direct, line_bytes, read_line};

fn assert_round_trip(line: &Line) {
    let state = line_bytes(line);
    assert_eq!(read_line(&state).as_ref(), Some(line));
    assert!(!damaged(line));
    assert_eq!(check(&state), 0);
    assert_eq!(direct::check(&state), 0);
}

#[test]
fn reached_lines() {
    for line in runs().iter().flatten() {
        assert_round_trip(line);
    }
}

#[test]
fn features_of_reached_lines() {
    let lines = || runs().iter().flatten();
    assert!(lines().count() > 1_000);
    for feature in FEATURES {
        let count = lines().filter(|line| (feature.is_in)(line)).count();
        println!("{count} {}", feature.name);
        assert!(count >= 20, "too few lines with {}", feature.name);
    }
}

#[test]
fn lines_that_hold_most() {
    assert_round_trip(&staged::fresh());
    assert_round_trip(&staged::mixed());
    assert_round_trip(&staged::nearly_full());
    assert_round_trip(&staged::silent());
    assert_round_trip(&staged::down());
    let full = staged::full();
    assert_round_trip(&full);
    assert_round_trip(&staged::by_piece(full.clone()));
    assert_round_trip(&staged::by_piece(staged::mixed()));
    assert!(full.nodes.iter().all(|node| node.log.len() == 64));
    assert!(full.queues.iter().all(|queue| queue.messages.len() == 8));
    let heard_by_all = staged::heard_by_all();
    assert_round_trip(&heard_by_all);
    assert_round_trip(&staged::trimmed());
    let half_heard: Line = staged::half_heard();
    assert_round_trip(&half_heard);
    for (line, left) in [(heard_by_all, 0), (half_heard, 64)] {
        for node in 0..12 {
            let mut trimmed = line.clone();
            assert_eq!(step(&mut trimmed, &Frame::Trim { node }.write()), 0);
            assert_eq!(trimmed.nodes[usize::from(node)].log.len(), left);
        }
    }
    for (asked, routers, targets) in [(staged::asked(), 4..5, 64), (staged::all_asked(), 4..8, 44)]
    {
        assert_round_trip(&asked);
        for router in routers {
            let kept = asked.nodes[router].kept.as_ref().expect("a kept answer");
            assert_eq!(kept.targets.len(), targets);
        }
    }
    let replaying = staged::replaying();
    assert_round_trip(&replaying);
    assert_round_trip(&staged::by_piece(replaying.clone()));
    for router in 4..8 {
        let node = &replaying.nodes[router];
        assert_eq!((node.targets.len(), node.buffered.len()), (64, 63));
    }
}
