//! Where the bytes stand, spelled out.

use crate::line::{step, Caller, Frame, Line, Origin};
use crate::plan::practice::keeping;
use crate::plan::Channel;
use crate::record::Record;
use crate::state::practice::{places, staged};
use crate::state::{self, direct, layout, line_bytes, read_line, LENGTH};

/// The numbers of docs/LAYOUT.md.
#[test]
fn places_of_the_layout() {
    assert_eq!(LENGTH, 61_440);
    assert_eq!([0, 1, 2, 3].map(layout::steps), [512, 516, 520, 524]);
    assert_eq!(layout::STEPS_END, 528);
    assert_eq!((layout::node(0), layout::node(11)), (4096, 49_152));
    assert_eq!((layout::channel(0), layout::channel(23)), (53_248, 60_608));
    assert_eq!(layout::tail(), 60_928);
    assert_eq!((layout::LOG.count, layout::LOG.slot(0)), (8, 12));
    assert_eq!(
        (layout::BUFFERED.count, layout::TARGETS.count),
        (1548, 2832)
    );
    assert_eq!((layout::KEPT.count, layout::KEPT.end()), (3604, 3632));
    let kept = [
        layout::KEPT_LOW,
        layout::KEPT_HIGH,
        layout::kept_restored(0),
    ];
    assert_eq!(kept.map(|at| layout::KEPT.slot(0) + at), [3608, 3612, 3616]);
    assert_eq!(layout::kept_restored(3) - layout::kept_restored(0), 12);
    assert_eq!((layout::QUEUE.count, layout::QUEUE.end()), (24, 188));
    assert_eq!((layout::LOW, layout::LOW_END), (188, 208));
    assert_eq!([0, 1, 2, 3].map(layout::low_heard), [192, 196, 200, 204]);
    assert_eq!((layout::ENTRY_SET, layout::ENTRY_USED), (22, 23));
    assert_eq!(layout::LOG.length, 24);
    assert_eq!((layout::HELD_USED, layout::BUFFERED.length), (18, 20));
    assert_eq!((layout::TARGET_USED, layout::TARGETS.length), (9, 12));
    assert_eq!((layout::MESSAGE_USED, layout::QUEUE.length), (17, 20));
}

/// P1's plan and frames.
#[test]
fn first_marked_sheet() {
    let plan = [
        0x00, 0x13, 0x01, 0x02, 0x01, 0, 0, 0, 0, 0, 0, 0, 0, 0x00, 0x01, 0xFF, 0xFF, 0x01, 0x00,
    ];
    let mut line = Line::load(&plan).unwrap();
    let record = Record {
        piece: 7,
        material: 1,
        mass: 250,
    };
    let frames = [
        Frame::Feed {
            node: 0,
            record: record.write(),
        },
        Frame::Send { channel: 0 },
        Frame::Take { channel: 0 },
    ];
    let mut expected = vec![0; 61_440];
    expected[..19].copy_from_slice(&plan);
    assert_eq!(line_bytes(&line), expected);

    // Fed: one step, node 0 at time 1 with one entry, made from nothing, that its
    // channel takes.
    assert_eq!(step(&mut line, &frames[0].write()), 0);
    expected[515] = 1;
    expected[4096 + 7] = 1;
    expected[4096 + 11] = 1;
    expected[4096 + 12..4096 + 24].copy_from_slice(&[0, 0, 0, 7, 1, 0, 0, 250, 0, 0, 0, 1]);
    expected[4096 + 34] = 1;
    assert_eq!(line_bytes(&line), expected);

    // Sent: the mark, a count of one, the message.
    let mut sent = expected.clone();
    assert_eq!(step(&mut line, &frames[1].write()), 0);
    sent[515] = 2;
    sent[53_248 + 3] = 1;
    sent[53_248 + 27] = 1;
    sent[53_248 + 28..53_248 + 40].copy_from_slice(&[0, 0, 0, 7, 1, 0, 0, 250, 0, 0, 0, 1]);
    assert_eq!(line_bytes(&line), sent);

    // Taken: the mark and the receiver's entry; node 1's entry is made from
    // node 0's time 1.
    assert_eq!(step(&mut line, &frames[2].write()), 0);
    expected[515] = 3;
    expected[53_248 + 3] = 1;
    expected[53_248 + 7] = 1;
    expected[8192 + 7] = 1;
    expected[8192 + 11] = 1;
    expected[8192 + 12..8192 + 29]
        .copy_from_slice(&[0, 0, 0, 7, 1, 0, 0, 250, 0, 0, 0, 1, 1, 0, 0, 0, 1]);
    assert_eq!(line_bytes(&line), expected);

    // A Feed more from each console.
    for (console, at) in [515, 519, 523, 527].into_iter().enumerate() {
        let fed = frames[0].sent_by(Caller::Console(console as u8));
        assert_eq!(step(&mut line, &fed), 0);
        expected[at] += 1;
    }
    assert_eq!(line_bytes(&line)[..4096], expected[..4096]);
    assert_eq!(read_line(&line_bytes(&line)), Some(line));
}

/// In version 2 the plan's own bytes are longer, and nothing else is elsewhere.
#[test]
fn plan_of_version_two() {
    let (first, second): (Line, Line) = (staged::full(), staged::by_mass(staged::full()));
    let (state, other) = (line_bytes(&first), line_bytes(&second));
    assert_eq!(state[512..], other[512..]);
    assert_eq!(
        (state[..5].to_vec(), state[197..512] == [0; 315]),
        (vec![0, 197, 1, 12, 24], true)
    );
    assert_eq!(other[..5], [1, 37, 2, 12, 24]);
    assert_eq!(
        other[283..512][..10],
        [10, 11, 255, 255, 1, 0, 0, 0, 3, 231]
    );
    assert_eq!(other[293..512], [0; 219]);
    assert_eq!(read_line(&other), Some(second));
}

/// A line with every part in it, some of its bytes spelled out.
#[test]
fn replaying_routers() {
    let line = staged::replaying();
    let state = line_bytes(&line);
    let router = 4096 * 5;
    assert_eq!(state[router..router + 8], [2, 1, 0, 0, 0, 0, 0, 0]);
    assert_eq!(state[router + 8..router + 1548], [0; 1540]);
    // 63 held records; the second came from source 1, whose time was 1.
    assert_eq!(state[router + 1548..router + 1552], [0, 0, 0, 63]);
    let second = [0, 0, 3, 232, 8, 0, 0, 0, 1, 0, 0, 0, 1, 0, 0, 0, 0, 0, 0, 0];
    assert_eq!(state[router + 1572..router + 1592], second);
    // 64 targets; the sixth is time 6, made from source 1's time 2.
    assert_eq!(state[router + 2832..router + 2836], [0, 0, 0, 64]);
    let sixth = [0, 0, 0, 6, 0, 0, 0, 2, 1, 0, 0, 0];
    assert_eq!(state[router + 2896..router + 2908], sixth);
    // The sink's last entry is made from router 4's time 64, that from source
    // 3's time 16.
    let sink = 4096 * 9;
    let last = sink + 12 + 63 * 24;
    assert_eq!(state[last + 8..last + 12], [0, 0, 0, 64]);
    let origins = [5, 0, 0, 0, 64, 4, 0, 0, 0, 16, 0, 0];
    assert_eq!(state[last + 12..last + 24], origins);
    // Channel 16 goes from router 4 to sink 8, which has heard up to time 16 of
    // each source.
    let heard = [0, 0, 0, 64, 0, 0, 0, 64, 0, 0, 0, 16, 0, 0, 0, 16];
    assert_eq!(state[58_368..58_384], heard);
    assert_eq!(state[58_384..58_392], [0, 0, 0, 16, 0, 0, 0, 16]);
    assert_eq!(state[58_392..58_688], [0; 296]);
    assert_eq!(read_line(&state), Some(line));
}

/// Channel 17 goes from router 4 to sink 9, which has heard of the first, third and
/// fourth source up to 1, 2 and 16777216.
#[test]
fn low_clocks() {
    let mut line = Line::of(staged::routers_plan());
    line.steps = [1_000_000; 4];
    let node = &mut line.nodes[9];
    for clock in [&mut node.clock, &mut node.low_clock] {
        clock.raise_taken(4, 0x01020304);
        for (source, time) in [(0, 1), (2, 2), (3, 1 << 24)] {
            clock.raise_heard(4, source, time);
        }
    }
    let state = line_bytes(&line);
    let block = &state[53_248 + 320 * 17..][..320];
    assert_eq!(block[4..24], block[188..208]);
    let low = [1, 2, 3, 4, 0, 0, 0, 1, 0, 0, 0, 0, 0, 0, 0, 2, 1, 0, 0, 0];
    assert_eq!(block[188..208], low);
    assert_eq!(block[208..], [0; 112]);
    assert_eq!(read_line(&state), Some(line));
}

/// The first leaving channel is the lowest bit of byte 22; nothing is in byte 23. 0 sends
/// material 0 to 1, pieces 1, 4, .. to 2, all to 3, and material 1 to 4.
#[test]
fn sets_of_entries() {
    let leaving = [1, 2, 3, 4].map(|sink| Channel::between(0, sink));
    let mut plan = keeping(5, leaving);
    plan.channels[0].mask = 1;
    (plan.channels[1].modulus, plan.channels[1].remainder) = (3, 1);
    plan.channels[3].mask = 2;
    let fed = [
        (Record::TICK, 15),
        (staged::piece(32), 0b0101),
        (staged::piece(1), 0b1110),
        (staged::piece(17), 0b1100),
        (staged::piece(2), 0b0100),
        (staged::piece(4), 0b0110),
    ];
    for step in [state::step, direct::step] {
        let mut state = line_bytes(&Line::of(plan.clone()));
        for (index, (record, set)) in fed.into_iter().enumerate() {
            let record = record.write();
            let frame = Frame::Feed { node: 0, record }.write();
            assert_eq!(step(&mut state, &frame), 0);
            let slot = &state[4096 + 12 + 24 * index..][..24];
            assert_eq!((slot[22], slot[23]), (set, 0));
        }
        let line = read_line(&state).unwrap();
        let sets: Vec<u8> = line.nodes[0].log.iter().map(|entry| entry.set).collect();
        assert_eq!(sets, fed.map(|(_, set)| set));
    }
}

/// A sender is written as its number and 1, a held record's as its number.
#[test]
fn numbers_of_senders() {
    let mut line: Line = staged::full();
    line.nodes[2].log[0].message.made_from = Some(Origin {
        sender: 254,
        time: 0x01020304,
    });
    let state = line_bytes(&line);
    assert_eq!(state[3 * 4096 + 24..3 * 4096 + 29], [255, 1, 2, 3, 4]);
    assert_eq!(read_line(&state), Some(line));
}

#[test]
fn places_fill_the_state() {
    for line in [staged::fresh(), staged::mixed(), staged::replaying()] {
        let state = line_bytes(&line);
        let mut at = 0;
        for place in places(&line) {
            assert_eq!(place.at, at);
            at += place.width;
            assert!(place.is_used || state[place.range()].iter().all(|&byte| byte == 0));
        }
        assert_eq!(at, LENGTH);
    }
}
