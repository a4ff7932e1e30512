//! One damage at a time, and what is none.

use super::*;

/// 0 to 1 to 3 and 2 to 3, which sends to 4 and 5 and replays, having held a
/// record from 1; 6 to 7 to 8, where 7 is down; 9 to 10 to 11, up with messages
/// waiting. Channels 0: 0-1, 1: 1-3, 2: 2-3, 3: 3-4, 4: 3-5, 5: 6-7, 6: 7-8,
/// 7: 9-10, 8: 10-11.
fn mixed_line() -> Line {
    let mut line = line_of(
        12,
        &[
            (0, 1, 0xFFFF),
            (1, 3, 0xFFFF),
            (2, 3, 0xFFFF),
            (3, 4, 2),
            (3, 5, 6),
            (6, 7, 1),
            (7, 8, 1),
            (9, 10, 0xFFFF),
            (10, 11, 0xFFFF),
        ],
    );
    for piece in 1..=3 {
        accept(&mut line, &[feed(0, piece, 1), send(0), take(0)]);
        accept(&mut line, &[send(1), take(1)]);
    }
    accept(&mut line, &[feed(2, 4, 1), send(2), take(2)]);
    for _ in 0..4 {
        accept(&mut line, &[send(3), take(3)]);
    }
    accept(&mut line, &[send(4), take(4), crash(3), recover(3)]);
    accept(&mut line, &[send(1), take(1), send(1), send(2)]);
    accept(&mut line, &[feed(6, 5, 0), send(5), take(5), crash(7)]);
    for piece in 6..=9 {
        accept(&mut line, &[feed(9, piece, 1), send(7), take(7), send(8)]);
    }
    accept(&mut line, &[take(8)]);
    let replaying = &line.nodes[3];
    assert_eq!(replaying.status, Status::Replaying);
    assert_eq!((replaying.buffered.len(), replaying.targets.len()), (1, 3));
    assert_eq!(replaying.time(), 1);
    assert_eq!(line.queues[8].messages.len(), 3);
    line
}

fn change(change: impl FnOnce(&mut Line)) -> bool {
    let mut line = mixed_line();
    let before = line.clone();
    change(&mut line);
    assert_ne!(line, before, "a change changes something");
    damaged(&line)
}

#[test]
fn damages() {
    type Change = fn(&mut Line);
    let changes: &[(&str, Change)] = &[
        ("plan: a channel", |line| line.plan.channels[0].mask = 0),
        ("plan: a window", |line| {
            line.plan.version = Version::Second;
            line.plan.channels[0].window.greatest = 0;
            line.plan.channels[0].window.least = 1;
        }),
        ("plan: a window in version 1", |line| {
            line.plan.channels[0].window.least = 1;
        }),
        ("plan: a rule", |line| {
            line.plan.rules[0] = crate::rule::Rule::Cap { greatest: 0 };
        }),
        ("plan: order", |line| line.plan.channels.swap(0, 1)),
        ("first console's steps", |line| line.steps[0] = 1_000_001),
        ("last console's steps", |line| line.steps[3] = 1_000_001),
        ("node's time passes the steps", |line| {
            line.nodes[11].clock.time = line.accepted_steps() + 1;
        }),
        ("node's time passes all steps", |line| {
            line.steps = [1_000_000; 4];
            line.nodes[11].clock.time = 4_000_001;
        }),
        ("entry for a parent passes the steps", |line| {
            line.steps = [1, 0, 1, 1];
        }),
        ("heard time passes the steps", |line| {
            let accepted = line.accepted_steps();
            line.nodes[11].clock.raise_heard(10, 9, accepted + 1);
        }),
        ("mark passes the steps", |line| {
            line.queues[0].mark = line.accepted_steps() + 1;
        }),
        ("record in a log", |line| {
            line.nodes[0].log[0].message.record.material = 16;
        }),
        ("record on a channel", |line| {
            line.queues[8].messages[0].record.material = 16;
        }),
        ("held record", |line| {
            line.nodes[3].buffered[0].record.material = 17;
        }),
        ("tick's material in a log, of a piece", |line| {
            line.nodes[0].log[0].message.record.material = 255;
        }),
        ("tick on a channel but for its piece", |line| {
            let record = &mut line.queues[8].messages[0].record;
            *record = Record {
                piece: 1,
                ..Record::TICK
            };
        }),
        ("held tick but for its mass", |line| {
            let record = &mut line.nodes[3].buffered[0].record;
            *record = Record {
                mass: 1,
                ..Record::TICK
            };
        }),
        ("held tick but for its material", |line| {
            let record = &mut line.nodes[3].buffered[0].record;
            *record = Record {
                material: 254,
                ..Record::TICK
            };
        }),
        ("set of an entry", |line| line.nodes[10].log[3].set = 0),
        ("set of a sink's entry", |line| {
            line.nodes[11].log[0].set = 1
        }),
        ("set of the entries that a mask has", |line| {
            line.plan.channels[8].mask = 4;
        }),
        ("65 entries", |line| {
            let last = *line.nodes[0].log.last().unwrap();
            line.steps = [250; 4];
            for time in 4..=65 {
                let mut entry = last;
                entry.message.time = time;
                line.nodes[0].log.push(entry);
            }
            line.nodes[0].clock.time = 65;
        }),
        ("9 messages", |line| {
            let last = *line.queues[8].messages.last().unwrap();
            line.steps = [250; 4];
            for time in 5..=10 {
                line.queues[8].messages.push(Message { time, ..last });
            }
            line.queues[8].mark = 10;
        }),
        ("sender of an entry is no parent", |line| {
            line.nodes[11].log[0].message.made_from = origin(9, 1);
        }),
        ("sender of an entry is no node", |line| {
            line.nodes[11].log[0].message.made_from = origin(200, 1);
        }),
        ("sender of an entry's time is 0", |line| {
            line.nodes[11].log[0].message.made_from = origin(10, 0);
        }),
        ("sender of an entry is missing", |line| {
            line.nodes[11].log[0].message.made_from = None;
        }),
        ("sender of an entry and its input's are missing", |line| {
            line.nodes[11].log[0].message.made_from = None;
            line.nodes[11].log[0].input_made_from = None;
        }),
        ("sender of a source's entry", |line| {
            line.nodes[9].log[0].message.made_from = origin(9, 1);
        }),
        ("input's sender at a source", |line| {
            line.nodes[9].log[0].input_made_from = origin(9, 1);
        }),
        ("input's sender is missing", |line| {
            line.nodes[11].log[0].input_made_from = None;
        }),
        ("input's sender is no parent's parent", |line| {
            line.nodes[11].log[0].input_made_from = origin(10, 1);
        }),
        ("input's sender's time is 0", |line| {
            line.nodes[11].log[0].input_made_from = origin(9, 0);
        }),
        (
            "input's sender where the input came from a source",
            |line| {
                line.nodes[10].log[0].input_made_from = origin(9, 1);
            },
        ),
        ("sender of a message is missing", |line| {
            line.queues[8].messages[0].made_from = None;
        }),
        ("sender of a message is no parent", |line| {
            line.queues[8].messages[0].made_from = origin(10, 1);
        }),
        ("sender of a message's time is 0", |line| {
            line.queues[8].messages[0].made_from = origin(9, 0);
        }),
        ("sender of a message's time passes the steps", |line| {
            line.queues[8].messages[0].made_from = origin(9, 1000);
        }),
        ("sender of a source's message", |line| {
            line.queues[2].messages[0].made_from = origin(0, 1);
        }),
        ("message's time is 0", |line| {
            line.queues[2].messages[0].time = 0
        }),
        ("message at the receiver's entry", |line| {
            line.queues[8].messages[0].time = 1;
        }),
        ("messages do not rise", |line| {
            line.queues[8].messages[1].time = 2;
        }),
        ("message above the mark", |line| {
            line.steps = [250; 4];
            line.queues[8].messages[2].time = 5;
        }),
        ("mark below the receiver's entry", |line| {
            line.queues[8].messages.clear();
            line.queues[8].mark = 0;
        }),
        ("log time is 0", |line| {
            line.nodes[0].log[0].message.time = 0
        }),
        ("log times do not rise", |line| {
            line.nodes[0].log[1].message.time = 1;
        }),
        ("log times pass the node's time", |line| {
            line.nodes[0].log[2].message.time = 4;
        }),
        ("entry's sender's time passes the clock", |line| {
            line.nodes[11].log[0].message.made_from = origin(10, 2);
        }),
        ("entry's input's sender's time passes the clock", |line| {
            line.nodes[11].log[0].input_made_from = origin(9, 2);
        }),
        ("held time passes the clock", |line| {
            line.nodes[3].buffered[0].made_from.time = 3;
        }),
        ("held time is 0", |line| {
            line.nodes[3].buffered[0].made_from.time = 0;
        }),
        ("held record's sender is no parent", |line| {
            line.nodes[3].buffered[0].made_from.sender = 0;
        }),
        (
            "held record's input's sender's time passes the clock",
            |line| {
                line.nodes[3].buffered[0].input_made_from = origin(0, 3);
            },
        ),
        ("held record's input's sender's time is 0", |line| {
            line.nodes[3].buffered[0].input_made_from = origin(0, 0);
        }),
        ("held record's input's sender is missing", |line| {
            line.nodes[3].buffered[0].input_made_from = None;
        }),
        ("held times do not rise", |line| {
            let held = line.nodes[3].buffered[0];
            line.nodes[3].buffered.push(held);
        }),
        ("held record that no channel takes", |line| {
            line.nodes[3].buffered[0].record.material = 0;
        }),
        ("held record below all windows", |line| {
            line.plan.version = Version::Second;
            line.plan.channels[3].window.least = 251;
            line.plan.channels[4].window.least = 300;
        }),
        ("held record above all windows", |line| {
            line.plan.version = Version::Second;
            line.plan.channels[3].window.greatest = 249;
            line.plan.channels[4].window.greatest = 0;
        }),
        ("down without a crash mark", |line| {
            line.nodes[7].crash_marked = false
        }),
        ("replaying without a crash mark", |line| {
            line.nodes[3].crash_marked = false;
        }),
        ("source with a crash mark", |line| {
            line.nodes[9].crash_marked = true
        }),
        ("sink with a crash mark", |line| {
            line.nodes[11].crash_marked = true
        }),
        ("two joined nodes with crash marks", |line| {
            line.nodes[1].crash_marked = true;
        }),
        ("replaying node's time", |line| line.nodes[3].clock.time = 0),
        ("a target less", |line| {
            line.nodes[3].targets.pop();
        }),
        ("a target more", |line| {
            let target = Target {
                time: 5,
                parent: 2,
                parent_time: 2,
            };
            line.nodes[3].targets.push(target);
        }),
        ("another target", |line| {
            line.nodes[3].targets[0].parent_time = 1
        }),
        ("targets in another order", |line| {
            line.nodes[3].targets.swap(0, 1)
        }),
        ("no targets", |line| line.nodes[3].targets.clear()),
        ("down node's time", |line| line.nodes[7].clock.time = 1),
        ("down node's clock", |line| {
            line.nodes[7].clock.raise_taken(6, 1)
        }),
        ("down node's log", |line| {
            let mut entry = line.nodes[10].log[0];
            entry.message.made_from = origin(6, 1);
            line.nodes[7].log.push(entry);
        }),
        ("down node's targets", |line| {
            let target = Target {
                time: 1,
                parent: 6,
                parent_time: 1,
            };
            line.nodes[7].targets.push(target);
        }),
        ("down node's entering mark", |line| line.queues[5].mark = 1),
        ("down node's leaving mark", |line| line.queues[6].mark = 1),
        ("down node's entering messages", |line| {
            let message = line.nodes[6].log[0].message;
            line.queues[5].messages.push(message);
        }),
        ("up node's targets", |line| {
            let target = Target {
                time: 1,
                parent: 9,
                parent_time: 1,
            };
            line.nodes[10].targets.push(target);
        }),
        ("up node's held list", |line| {
            line.nodes[10].buffered.push(Buffered {
                record: record(1, 1),
                made_from: Origin { sender: 9, time: 1 },
                input_made_from: None,
            });
        }),
        ("replaying node's log", |line| {
            line.nodes[3].log.push(Entry {
                message: Message {
                    record: record(1, 1),
                    time: 1,
                    made_from: origin(1, 1),
                },
                input_made_from: origin(0, 1),
                set: 0b11,
            });
        }),
        ("replaying node's leaving channel", |line| {
            line.queues[4].messages.push(Message {
                record: record(1, 1),
                time: 2,
                made_from: origin(1, 1),
            });
            line.queues[4].mark = 2;
        }),
        ("a child's log that gives other targets", |line| {
            line.nodes[4].log.pop();
        }),
        ("a replaying node that should be up", |line| {
            line.nodes[3].status = Status::Up;
        }),
        ("a node that would be up replays", |line| {
            line.nodes[7].status = Status::Replaying;
        }),
        ("a clock part less", |line| {
            line.nodes[11].clock.parents.pop();
        }),
        ("a low clock part less", |line| {
            line.nodes[11].low_clock.parents.pop();
        }),
        ("low clock above the entry for a parent", |line| {
            line.nodes[11].low_clock.raise_taken(10, 2);
        }),
        ("low clock above the time heard", |line| {
            line.nodes[11].low_clock.raise_heard(10, 9, 2);
        }),
        ("low clock for the node itself", |line| {
            line.nodes[11].low_clock.time = 1;
        }),
        ("down node's low clock", |line| {
            line.nodes[7].low_clock.raise_taken(6, 1);
        }),
        ("low clock that completes all rows at once", |line| {
            line.nodes[4].low_clock.raise_heard(3, 1, 3);
            line.nodes[4].low_clock.raise_heard(3, 2, 1);
        }),
    ];
    assert!(!damaged(&mixed_line()));
    for (name, damage) in changes {
        assert!(change(damage), "{name}");
    }
}

#[test]
fn no_damages() {
    type Change = fn(&mut Line);
    let changes: &[(&str, Change)] = &[
        ("steps nobody needed", |line| line.steps[3] += 1),
        ("steps of other consoles", |line| {
            line.steps = [0, line.steps[0] - 5, 5, 0];
        }),
        ("mark above the sender's time", |line| {
            line.queues[8].mark = line.accepted_steps();
        }),
        ("node's time at all steps", |line| {
            line.steps = [1_000_000; 4];
            line.nodes[11].clock.time = 4_000_000;
        }),
        ("a gap in log times", |line| {
            line.nodes[9].clock.time = 9;
            line.nodes[9].log[3].message.time = 9;
        }),
        ("a queued record that its channel would not take", |line| {
            line.plan.channels[8].mask = 4;
            give_sets(line);
        }),
        ("the plan in version 2", |line| {
            line.plan.version = Version::Second;
        }),
        ("a held record that one window has", |line| {
            line.plan.version = Version::Second;
            line.plan.channels[3].window.least = 251;
            line.plan.channels[4].window.least = 250;
            line.plan.channels[4].window.greatest = 250;
        }),
        ("a queued record that its channel's window lacks", |line| {
            line.plan.version = Version::Second;
            line.plan.channels[8].window.greatest = 249;
            give_sets(line);
        }),
        ("a tick in a log", |line| {
            line.nodes[0].log[0].message.record = Record::TICK;
        }),
        ("a tick on a channel", |line| {
            line.queues[8].messages[0].record = Record::TICK;
        }),
        ("a held tick", |line| {
            line.nodes[3].buffered[0].record = Record::TICK;
        }),
        ("a held tick of mass below all windows", |line| {
            line.nodes[3].buffered[0].record = Record::TICK;
            line.plan.version = Version::Second;
            line.plan.channels[3].window.least = 251;
            line.plan.channels[4].window.least = 300;
        }),
        ("a crash mark on an up router", |line| {
            line.nodes[10].crash_marked = true;
        }),
        ("all rows of a replaying node complete", |line| {
            line.nodes[3].clock.raise_taken(1, 9);
            line.nodes[3].clock.raise_taken(2, 9);
            line.queues[1].messages.clear();
            line.queues[2].messages.clear();
            line.queues[1].mark = 9;
            line.queues[2].mark = 9;
        }),
        ("a held record that the rule would change", |line| {
            line.plan.rules[3] = crate::rule::Rule::Relabel { from: 1, to: 0 };
        }),
        ("a replaying node's leaving mark", |line| {
            line.queues[4].mark = 3;
        }),
        ("low clock at the clock", |line| {
            line.nodes[11].low_clock = Clock {
                time: 0,
                ..line.nodes[11].clock.clone()
            };
        }),
        ("replaying node's low clock", |line| {
            line.nodes[3].low_clock.raise_taken(1, 2);
            line.nodes[3].low_clock.raise_heard(1, 0, 2);
        }),
        ("low clock that completes one row at once", |line| {
            line.nodes[4].low_clock.raise_heard(3, 1, 3);
        }),
    ];
    for (name, harmless) in changes {
        assert!(!change(harmless), "{name}");
    }
}
