//! Request 2026-05: ticks through a line.

use super::*;

/// 1 sends material 1 to 2; to 3 it sends pieces 3, 7, .. of material 2, over 900
/// tenths, of which there are none. The rules would change what else is fed.
#[test]
fn quiet_channel() {
    let mut line = line_of(4, &[(0, 1, 0xFFFF), (1, 2, 2), (1, 3, 4)]);
    line.plan.version = Version::Second;
    line.plan.rules[0] = crate::rule::Rule::Cap { greatest: 800 };
    line.plan.rules[1] = crate::rule::Rule::Relabel { from: 15, to: 1 };
    let quiet = &mut line.plan.channels[2];
    quiet.modulus = 4;
    quiet.remainder = 3;
    quiet.window.least = 901;
    for piece in 1..=3 {
        accept(&mut line, &[feed(0, piece, 15)]);
        pass(&mut line, &[0, 1]);
    }
    assert_eq!(line.floor_times(), [0, 0, 3, 0]);
    let trims = [0, 1, 2, 3].map(trim);
    accept(&mut line, &trims);
    assert_eq!([0, 1, 2].map(|node| line.nodes[node].log.len()), [3; 3]);
    accept(&mut line, &[tick(0)]);
    pass(&mut line, &[0, 1, 2]);
    for node in 0..4 {
        let last = line.nodes[node].log.last().unwrap();
        assert_eq!(last.message.record, Record::TICK);
    }
    assert_eq!(line.floor_times(), [4, 4, 4, 1]);
    accept(&mut line, &trims);
    assert!(line.nodes.iter().all(|node| node.log.is_empty()));
}

/// "With no crash since the first of these ticks was fed": a recovered node has heard
/// nothing of its parents' parents.
#[test]
fn crash_after_the_tick() {
    let mut line = line_of(4, &[(0, 1, 1), (1, 2, 1), (2, 3, 1)]);
    accept(&mut line, &[tick(0)]);
    pass(&mut line, &[0, 1, 2]);
    assert_eq!(line.floor_times(), [1; 4]);
    accept(&mut line, &[crash(2), recover(2)]);
    assert_eq!(line.floor_times(), [0, 1, 1, 1]);
}

/// P9's line: 3 has taken a tick and a piece, 4 nothing.
#[test]
fn tick_in_a_replay() {
    let mut line = ninth_line();
    accept(&mut line, &[tick(0), feed(0, 1, 1)]);
    pass(&mut line, &[0, 0, 2, 2]);
    accept(&mut line, &[crash(2), recover(2)]);
    assert_eq!(line.nodes[2].targets.len(), 2);
    pass(&mut line, &[0]);
    assert_eq!(line.nodes[2].buffered[0].record, Record::TICK);
    pass(&mut line, &[0]);
    assert_eq!(line.nodes[2].status, Status::Up);
    assert_eq!(
        (pieces(&line, 2), times(&line, 2)),
        (vec![0, 1], vec![1, 2])
    );
    pass(&mut line, &[3, 3]);
    assert_eq!(
        (pieces(&line, 3), pieces(&line, 4)),
        (vec![0, 1], vec![0, 1])
    );
    assert!(crate::order::is_quiet(&line));
}

/// A tick that is no target is above the greatest entry of all children, which is
/// high: no column is left. No run leads there; here the log of 0 is changed by hand.
#[test]
fn free_tick() {
    let mut line = ninth_line();
    accept(&mut line, &[feed(0, 1, 3), feed(0, 2, 1)]);
    pass(&mut line, &[0, 0, 2]);
    accept(&mut line, &[crash(2), recover(2)]);
    line.nodes[0].log[0].message.record = Record::TICK;
    pass(&mut line, &[0]);
    assert_eq!(line.nodes[2].buffered.len(), 1);
    accept(&mut line, &[send(0)]);
    assert_eq!(refuse(&line, &take(0)), 24);
}
