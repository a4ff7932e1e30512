//! Request 2026-06: the set of channels that take a log entry.

use super::*;
use crate::plan::Window;
use crate::rule::Rule;

/// A record and its set in the log of the node that sorts.
type Sorted = ((u32, u8, u16), u8);

/// By its four channels: materials 0 to 3; even pieces; masses from 100 to 200; of
/// material 1 pieces 2, 5, .. up to 150 tenths.
const SORTED: [Sorted; 10] = [
    ((1, 0, 50), 0b0001),
    ((4, 15, 0), 0b0010),
    ((7, 15, 200), 0b0100),
    ((7, 15, 201), 0b0000),
    ((7, 15, 99), 0b0000),
    ((8, 4, 100), 0b0110),
    ((5, 1, 151), 0b0101),
    ((5, 1, 99), 0b1001),
    ((2, 1, 150), 0b1111),
    ((0, 255, 0), 0b1111),
];

fn drawn(line: &mut Line, first: usize) {
    line.plan.version = Version::Second;
    let channels = &mut line.plan.channels[first..];
    channels[0].mask = 0x000F;
    channels[1].modulus = 2;
    channels[2].window = Window {
        least: 100,
        greatest: 200,
    };
    channels[3].mask = 0x0002;
    (channels[3].modulus, channels[3].remainder) = (3, 2);
    channels[3].window.greatest = 150;
}

fn feed_sorted(node: u8, (piece, material, mass): (u32, u8, u16)) -> Vec<u8> {
    let record = Record {
        piece,
        material,
        mass,
    };
    let record = record.write();
    Frame::Feed { node, record }.write()
}

fn sets(line: &Line, node: usize) -> Vec<u8> {
    line.nodes[node].log.iter().map(|entry| entry.set).collect()
}

const ALL: u16 = 0xFFFF;

/// 0 sorts to 1, 2, 3 and 4.
fn fed() -> Line {
    let mut line = line_of(5, &[(0, 1, ALL), (0, 2, ALL), (0, 3, ALL), (0, 4, ALL)]);
    drawn(&mut line, 0);
    for (record, _) in SORTED {
        accept(&mut line, &[feed_sorted(0, record)]);
    }
    line
}

/// 0 and 1 send to 2, which sorts to 3, 4, 5 and 6. All but the last come from 0.
fn taken() -> Line {
    let leaving = [3, 4, 5, 6].map(|sink| (2, sink, ALL));
    let channels = [&[(0, 2, ALL), (1, 2, ALL)], &leaving[..]].concat();
    let mut line = line_of(7, &channels);
    drawn(&mut line, 2);
    let (last, before) = SORTED.split_last().unwrap();
    for (record, _) in before {
        accept(&mut line, &[feed_sorted(0, *record)]);
        pass(&mut line, &[0]);
    }
    accept(&mut line, &[feed_sorted(1, last.0)]);
    pass(&mut line, &[1]);
    line
}

#[test]
fn of_a_feed() {
    // What no channel takes is not logged.
    let sorted = SORTED.iter().map(|(_, set)| *set).filter(|&set| set != 0);
    assert_eq!(sets(&fed(), 0), sorted.collect::<Vec<u8>>());
}

#[test]
fn of_a_take() {
    let line = taken();
    assert_eq!(sets(&line, 2), SORTED.map(|(_, set)| set));
    // One channel leaves each source, and takes all.
    assert_eq!((sets(&line, 0), sets(&line, 1)), (vec![1; 9], vec![1]));
}

/// What each sink takes is what has its bit.
#[test]
fn sent_by_the_bit() {
    let mut line = taken();
    for (place, channel) in [2, 3, 4, 5].into_iter().enumerate() {
        let taking = SORTED.iter().filter(|(_, set)| set >> place & 1 == 1);
        let records: Vec<(u32, u8, u16)> = taking.map(|(record, _)| *record).collect();
        for _ in &records {
            pass(&mut line, &[channel]);
        }
        assert_eq!(refuse(&line, &send(channel)), 18);
        let sink = &line.nodes[3 + place];
        let received = sink.log.iter().map(|entry| entry.message.record);
        let received = received.map(|record| (record.piece, record.material, record.mass));
        assert_eq!(received.collect::<Vec<_>>(), records);
        assert_eq!(sets(&line, 3 + place), vec![0; records.len()]);
    }
}

/// The set is that of the record after the rule.
#[test]
fn after_the_rule() {
    let mut line = line_of(4, &[(0, 1, 2), (0, 2, 4), (1, 3, 4)]);
    line.plan.rules[0] = Rule::Relabel { from: 2, to: 1 };
    line.plan.rules[1] = Rule::Relabel { from: 1, to: 2 };
    accept(&mut line, &[feed(0, 1, 2), feed(0, 2, 1), feed(0, 3, 3)]);
    assert_eq!(sets(&line, 0), [0b01, 0b01]);
    pass(&mut line, &[0, 0]);
    assert_eq!(sets(&line, 1), [1, 1]);
}

/// 3 and 6 have taken all that is for them, 4 and 5 nothing; what no channel takes is
/// dropped.
#[test]
fn of_placed_records() {
    let mut line = taken();
    pass(&mut line, &[2, 2, 2, 2, 2, 5, 5, 5]);
    accept(&mut line, &[crash(2), recover(2)]);
    assert_eq!(line.nodes[2].status, Status::Replaying);
    for _ in 0..8 {
        pass(&mut line, &[0]);
    }
    assert!(line.nodes[2].log.is_empty());
    pass(&mut line, &[1]);
    assert_eq!(line.nodes[2].status, Status::Replaying);
    pass(&mut line, &[0]);
    assert_eq!(line.nodes[2].status, Status::Up);
    let held = SORTED.iter().filter(|(_, set)| *set != 0);
    let mut kept: Vec<(u32, u8)> = held.map(|((piece, ..), set)| (*piece, *set)).collect();
    let placed = line.nodes[2].log.iter();
    let mut placed: Vec<(u32, u8)> = placed
        .map(|entry| (entry.message.record.piece, entry.set))
        .collect();
    kept.sort_unstable();
    placed.sort_unstable();
    assert_eq!(placed, kept);
}

/// P9: piece 1 goes to both.
#[test]
fn of_the_ninth_sheet() {
    let mut line = ninth_line();
    let frames = ninth_frames();
    accept(&mut line, &frames[..9]);
    assert_eq!((sets(&line, 0), sets(&line, 1)), (vec![1, 1], vec![1]));
    assert_eq!(sets(&line, 2), [0b10, 0b11, 0b10]);
    accept(&mut line, &frames[9..]);
    accept(&mut line, &[send(0), take(0)]);
    assert_eq!(sets(&line, 2), [0b11]);
}

/// It has no bits to set, whatever is fed or taken.
#[test]
fn of_sinks() {
    let mut line = line_of(3, &[(0, 1, ALL)]);
    let tick = feed_sorted(2, SORTED[9].0);
    accept(&mut line, &[feed(2, 1, 1), tick, feed(0, 2, 2)]);
    pass(&mut line, &[0]);
    assert_eq!((sets(&line, 1), sets(&line, 2)), (vec![0], vec![0, 0]));
}

#[test]
fn moved_by_a_trim() {
    let mut line = ninth_line();
    accept(&mut line, &[feed(0, 1, 1), feed(0, 2, 2), feed(0, 3, 1)]);
    pass(&mut line, &[0, 0, 0, 2, 3]);
    assert_eq!(sets(&line, 2), [0b11, 0b10, 0b11]);
    accept(&mut line, &[trim(2)]);
    assert_eq!(
        (times(&line, 2), sets(&line, 2)),
        (vec![2, 3], vec![0b10, 0b11])
    );
}

/// Each set but the right one, of every entry.
#[test]
fn any_other_is_damaged() {
    for line in [fed(), taken()] {
        for (number, node) in line.nodes.iter().enumerate() {
            for (index, entry) in node.log.iter().enumerate() {
                let mut other = line.clone();
                for set in 0..=u8::MAX {
                    other.nodes[number].log[index].set = set;
                    assert_eq!(damaged(&other), set != entry.set, "{number} {index} {set}");
                }
            }
        }
    }
}

/// Where the plan or a record changes, sets have to follow.
#[test]
fn plan_gives_others() {
    type Change = fn(&mut Line);
    let changes: &[Change] = &[
        |line| line.plan.channels[0].mask = 0x001F,
        |line| line.plan.channels[1].modulus = 1,
        |line| line.plan.channels[1].remainder = 1,
        |line| line.plan.channels[2].window.greatest = 199,
        |line| line.plan.channels[2].window.least = 99,
        |line| line.plan.channels.swap(2, 3),
        |line| line.nodes[0].log[0].message.record.piece = 2,
        |line| line.nodes[0].log[0].message.record.material = 4,
        |line| line.nodes[0].log[0].message.record.mass = 100,
        |line| line.nodes[0].log[0].message.record = Record::TICK,
        |line| line.nodes[0].log[7].message.record.material = 0,
    ];
    for (number, change) in changes.iter().enumerate() {
        let mut line = fed();
        change(&mut line);
        for (number, channel) in line.plan.channels.iter_mut().enumerate() {
            channel.receiver = 1 + number;
        }
        assert!(damaged(&line), "{number}");
        give_sets(&mut line);
        assert!(!damaged(&line), "{number}");
    }
    // No set knows of the rule that a record has been through.
    let mut line = fed();
    line.plan.rules[0] = Rule::Cap { greatest: 1 };
    assert!(!damaged(&line));
}
