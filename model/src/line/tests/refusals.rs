//! Refusals 9 to 21, 25 to 27 that frames alone can lead to, in the order of the
//! checks.

use super::*;

fn feed_bytes(node: u8, record: [u8; 8]) -> Vec<u8> {
    Frame::Feed { node, record }.write()
}

const UNSOUND: [u8; 8] = [0, 0, 0, 1, 16, 0, 0, 1];
const NONZERO: [u8; 8] = [0, 0, 0, 1, 15, 1, 0, 1];

#[test]
fn frames() {
    let line = ninth_line();
    for frame in [
        &[][..],
        &[0, 5, 1, 2],
        &[0, 4, 1, 2],
        &[0, 6, 1, 2, 0],
        &[1, 5, 1, 2, 0],
        &[0, 5, 0, 9, 9, 9],
    ] {
        assert_eq!(refuse(&line, frame), 9);
    }
    assert_eq!(refuse(&line, &[0, 5, 0, 2, 0]), 10);
    for version in [0, 3, 255] {
        assert_eq!(refuse(&line, &[0, 6, version, 2, 0, 0]), 10);
    }
    assert_eq!(refuse(&line, &[0, 5, 1, 0, 0]), 11);
    assert_eq!(refuse(&line, &[0, 5, 1, 9, 0]), 11);
    assert_eq!(refuse(&line, &[0, 5, 1, 1, 0]), 11);
    assert_eq!(refuse(&line, &[0, 6, 1, 2, 0, 0]), 11);
    let mut long_send = feed(0, 1, 1);
    long_send[3] = 2;
    assert_eq!(refuse(&line, &long_send), 11);
}

/// 6 bytes, or 14, and one more or less.
#[test]
fn frames_of_version_two() {
    let line = ninth_line();
    let send = Frame::Send { channel: 0 };
    assert_eq!(send.sent_by(Caller::Console(3)), [0, 6, 2, 2, 3, 0]);
    let fed = Frame::Feed {
        node: 1,
        record: [0, 0, 0, 7, 1, 0, 0, 250],
    };
    let bytes = fed.sent_by(Caller::Console(2));
    assert_eq!(bytes, [0, 14, 2, 1, 2, 1, 0, 0, 0, 7, 1, 0, 0, 250]);
    assert_eq!(Frame::read(&bytes), Ok((Caller::Console(2), fed)));
    accept(&mut line.clone(), std::slice::from_ref(&bytes));
    assert_eq!(refuse(&line, &[0, 6, 2, 2, 0, 0]), 18);
    assert_eq!(refuse(&line, &[0, 6, 2, 2, 0]), 9);
    assert_eq!(refuse(&line, &[0, 5, 2, 2, 0]), 11);
    assert_eq!(refuse(&line, &[0, 7, 2, 2, 0, 0, 0]), 11);
    assert_eq!(refuse(&line, &[0, 6, 2, 0, 0, 0]), 11);
    assert_eq!(refuse(&line, &[0, 6, 2, 9, 0, 0]), 11);
    assert_eq!(refuse(&line, &[0, 6, 2, 1, 0, 0]), 11);
    for (version, length) in [(1, 14), (2, 13), (2, 15)] {
        let mut other = bytes.clone();
        other.resize(length, 0);
        (other[1], other[2]) = (length as u8, version);
        assert_eq!(refuse(&line, &other), 11);
    }
}

/// After 11 and before all that looks at the line.
#[test]
fn consoles() {
    let mut line = ninth_line();
    for _ in 0..2 {
        for console in [4, 5, 127, 128, 255] {
            assert_eq!(refuse(&line, &[0, 6, 2, 2, console, 24]), 25);
            for kind in [6, 7, 8] {
                assert_eq!(refuse(&line, &[0, 6, 2, kind, console, 24]), 25);
            }
            assert_eq!(refuse(&line, &[0, 6, 2, 9, console, 24]), 11);
            assert_eq!(refuse(&line, &[0, 5, 2, 2, console]), 11);
        }
        assert_eq!(refuse(&line, &[0, 6, 2, 2, 3, 0]), 18);
        line.steps = [Line::MOST_STEPS, Line::MOST_STEPS, Line::MOST_STEPS, 0];
    }
}

/// 12 looks at the caller's count alone, and an accepted step raises that alone.
#[test]
fn steps_used_up() {
    let right = record(1, 1).write();
    let fed = |node, record| Frame::Feed { node, record };
    let frames = [
        fed(0, right),
        fed(9, right),
        fed(0, UNSOUND),
        Frame::Send { channel: 0 },
        Frame::Send { channel: 24 },
        Frame::Crash { node: 2 },
        Frame::Trim { node: 2 },
        Frame::Ask { node: 2 },
        Frame::Commit { node: 2 },
    ];
    for caller in Caller::ALL {
        let console = caller.console();
        for others in [0, Line::MOST_STEPS] {
            let mut line = ninth_line();
            line.steps = [others; Line::CONSOLES];
            line.steps[console] = Line::MOST_STEPS - 1;
            let mut used_up = line.steps;
            used_up[console] = Line::MOST_STEPS;
            accept(&mut line, &[frames[0].sent_by(caller)]);
            assert_eq!(line.steps, used_up);
            for frame in frames {
                assert_eq!(refuse(&line, &frame.sent_by(caller)), 12);
            }
        }
    }
    let mut line = ninth_line();
    line.steps[0] = Line::MOST_STEPS;
    assert_eq!(refuse(&line, &[0, 5, 1, 9, 0]), 11);
    assert_eq!(refuse(&line, &crash(2)), 12);
    accept(
        &mut line,
        &[Frame::Crash { node: 2 }.sent_by(Caller::Console(1))],
    );
    assert_eq!(line.steps, [Line::MOST_STEPS, 1, 0, 0]);
}

/// A replaying node at the last step is no damage.
#[test]
fn last_step_while_replaying() {
    let mut line = ninth_replaying();
    line.steps[0] = Line::MOST_STEPS - 1;
    accept(&mut line, &[send(0)]);
    assert_eq!(refuse(&line, &take(0)), 12);
}

#[test]
fn places() {
    let line = ninth_line();
    for frame in [
        feed(5, 1, 1),
        feed_bytes(5, UNSOUND),
        send(4),
        take(4),
        take(255),
        crash(5),
        recover(255),
        ask(5),
        ask(255),
        commit(5),
        commit(255),
        trim(5),
        trim(255),
    ] {
        assert_eq!(refuse(&line, &frame), 13);
    }
    for frame in [feed(2, 1, 1), feed(3, 1, 1), feed_bytes(4, UNSOUND)] {
        assert_eq!(refuse(&line, &frame), 14);
    }
    for node in [0, 1, 3, 4] {
        assert_eq!(refuse(&line, &crash(node)), 14);
        for frame in [recover(node), ask(node), commit(node)] {
            assert_eq!(refuse(&line, &frame), 14);
        }
    }
}

#[test]
fn down_and_not_down() {
    let mut line = ninth_line();
    assert_eq!(refuse(&line, &recover(2)), 15);
    accept(&mut line, &[feed(0, 1, 1), send(0), take(0), crash(2)]);
    assert_eq!(refuse(&line, &crash(2)), 15);
    for channel in 0..4 {
        assert_eq!(refuse(&line, &send(channel)), 15);
        assert_eq!(refuse(&line, &take(channel)), 15);
    }
    accept(&mut line, &[feed(0, 2, 1), recover(2)]);
    assert_eq!(line.nodes[2].status, Status::Up);
    assert_eq!(refuse(&line, &recover(2)), 15);
    assert_eq!(refuse(&ninth_replaying(), &recover(2)), 15);
}

#[test]
fn crashed_neighbours() {
    let mut line = line_of(5, &[(0, 1, 1), (1, 2, 1), (2, 3, 1), (3, 4, 1)]);
    accept(&mut line, &[crash(2)]);
    assert_eq!(refuse(&line, &crash(1)), 16);
    assert_eq!(refuse(&line, &crash(3)), 16);
    accept(&mut line, &[recover(2)]);
    assert_eq!(refuse(&line, &crash(1)), 16);
    assert_eq!(refuse(&line, &crash(3)), 16);
    accept(&mut line, &[crash(2)]);
    assert_eq!(refuse(&line, &crash(2)), 15);
}

#[test]
fn records() {
    let mut line = ninth_line();
    assert_eq!(refuse(&line, &feed_bytes(0, UNSOUND)), 17);
    assert_eq!(refuse(&line, &feed_bytes(0, NONZERO)), 17);
    let tick = Record::TICK.write();
    let almost = [(3, 1), (4, 16), (4, 254), (5, 1), (7, 1)].map(|(at, byte)| {
        let mut almost = tick;
        almost[at] = byte;
        almost
    });
    accept(&mut line.clone(), &[feed_bytes(0, tick)]);
    for piece in 0..64 {
        for almost in almost {
            assert_eq!(refuse(&line, &feed_bytes(0, almost)), 17);
        }
        accept(&mut line, &[feed(0, piece, 1)]);
    }
    assert_eq!(refuse(&line, &feed(0, 64, 1)), 21);
    assert_eq!(refuse(&line, &feed_bytes(0, tick)), 21);
    assert_eq!(refuse(&line, &feed_bytes(0, UNSOUND)), 17);
    assert_eq!(refuse(&line, &feed_bytes(0, almost[0])), 17);
    assert_eq!(refuse(&line, &feed_bytes(2, almost[0])), 14);
}

#[test]
fn full_channel_and_full_log() {
    let mut line = ninth_line();
    for piece in 0..8 {
        accept(&mut line, &[feed(0, piece, 1), send(0)]);
    }
    assert_eq!(refuse(&line, &send(0)), 18);
    accept(&mut line, &[feed(0, 8, 1)]);
    assert_eq!(refuse(&line, &send(0)), 19);
    assert_eq!(refuse(&line, &take(1)), 18);
    for piece in 9..64 {
        accept(&mut line, &[feed(0, piece, 1), take(0), send(0)]);
    }
    while line.nodes[2].log.len() < Line::MOST_ENTRIES {
        accept(&mut line, &[take(0)]);
        let _ = step(&mut line, &send(0));
    }
    assert_eq!(refuse(&line, &take(0)), 18);
    accept(&mut line, &[feed(1, 1, 1), send(1)]);
    assert_eq!(refuse(&line, &take(1)), 21);
}
