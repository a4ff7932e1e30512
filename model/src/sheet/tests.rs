use std::path::Path;
use std::time::Instant;

use super::*;
use crate::line::practice::Practice;
use crate::plan::practice::{any_plan, keeping};
use crate::plan::{Channel, Plan};
use crate::random::Random;

/// P1: "Plan .., frames .. print".
#[test]
fn first_marked_sheet() {
    let input = [
        &[
            0x00, 0x13, 0x01, 0x02, 0x01, 0x00, 0x00, 0x00, 0x00, 0x00, 0x00, 0x00, 0x00, 0x00,
            0x01, 0xFF, 0xFF, 0x01, 0x00,
        ][..],
        &[
            0x00, 0x0D, 0x01, 0x01, 0x00, 0x00, 0x00, 0x00, 0x07, 0x01, 0x00, 0x00, 0xFA,
        ],
        &[0x00, 0x05, 0x01, 0x02, 0x00],
        &[0x00, 0x05, 0x01, 0x03, 0x00],
        &[0x00, 0x05, 0x01, 0x03, 0x00],
    ]
    .concat();
    let printed = "\
LINE 1
A 1 0
A 2 0
A 3 0
A 4 18
N 0 up 1
L 0 1 - - 7 1 250
T 0:1
N 1 up 1
L 1 1 0 1 7 1 250
T 1:1[0:1]
";
    assert_eq!(String::from_utf8(sheet(&input)).unwrap(), printed);
}

/// P2: "`00 05 01` is 1."
#[test]
fn second_marked_sheet() {
    assert_eq!(sheet(&[0x00, 0x05, 0x01]), b"LINE 1\nA 0 1\n");
}

/// A line of two nodes and one channel.
const PLAN: [u8; 19] = [0, 19, 1, 2, 1, 0, 0, 0, 0, 0, 0, 0, 0, 0, 1, 255, 255, 1, 0];

fn written(parts: &[&[u8]]) -> String {
    String::from_utf8(sheet(&parts.concat())).unwrap()
}

#[test]
fn refused_plans() {
    for plan in [&[][..], &[0], &[0, 0], &[0, 4, 1, 2, 1], &[0, 19, 1]] {
        assert_eq!(written(&[plan]), "LINE 1\nA 0 1\n");
    }
    for (version, answer) in [(0, 2), (2, 4), (3, 2)] {
        let mut plan = PLAN;
        plan[2] = version;
        let refused = format!("LINE 1\nA 0 {answer}\n");
        assert_eq!(written(&[&plan, &[0, 5, 1, 2, 0]]), refused);
    }
}

#[test]
fn cut_frames() {
    let nodes = "N 0 up 0\nT 0:0\nN 1 up 0\nT 1:0[0:0]\n";
    assert_eq!(written(&[&PLAN]), format!("LINE 1\n{nodes}"));
    for tail in [
        &[0][..],
        &[0, 4, 1, 2],
        &[0, 0],
        &[0, 6, 1, 2, 0],
        &[255, 255],
        &[0, 5, 1, 2],
    ] {
        let frame = [0, 5, 1, 2, 0];
        let expected = format!("LINE 1\nA 1 18\nA 2 9\n{nodes}");
        assert_eq!(written(&[&PLAN, &frame, tail]), expected);
    }
    let other_length = [0, 6, 1, 2, 0, 0, 0, 5, 0, 2, 0];
    let expected = format!("LINE 1\nA 1 11\nA 2 10\n{nodes}");
    assert_eq!(written(&[&PLAN, &other_length]), expected);
    // In version 2 as in version 1.
    let short = [0, 6, 2, 2, 4, 0, 0, 5, 2, 2, 0, 0, 4, 2, 2];
    let expected = format!("LINE 1\nA 1 25\nA 2 11\nA 3 9\n{nodes}");
    assert_eq!(written(&[&PLAN, &short]), expected);
}

#[test]
fn clock_of_three_layers() {
    let ends = [(0, 2), (1, 2), (1, 3), (2, 3), (3, 4)];
    let channels = ends.map(|(sender, receiver)| Channel::between(sender, receiver));
    let line = Line::of(keeping(5, channels));
    let mut text = Vec::new();
    list_clock(&mut text, &line.nodes[3].clock);
    assert_eq!(text, b"3:0[1:0 2:0[0:0 1:0]]");
    text.clear();
    list_clock(&mut text, &line.nodes[4].clock);
    assert_eq!(text, b"4:0[3:0[1:0 2:0]]");
}

/// P9's node 2, down and asked.
#[test]
fn kept_answer() {
    let channels = [(0, 2, 15), (1, 2, 15), (2, 3, 2), (2, 4, 6)];
    let channels = channels.map(|(sender, receiver, mask)| Channel {
        mask,
        ..Channel::between(sender, receiver)
    });
    let mut input = keeping(5, channels).write();
    for (node, piece, material) in [(0, 1, 1), (0, 2, 2), (1, 3, 2)] {
        input.extend([0, 13, 1, 1, node, 0, 0, 0, piece, material, 0, 0, 250]);
    }
    for channel in [1, 0, 0, 2] {
        input.extend([0, 5, 1, 2, channel, 0, 5, 1, 3, channel]);
    }
    let down = written(&[&input, &[0, 5, 1, 4, 2]]);
    let asked = written(&[&input, &[0, 5, 1, 4, 2], &[0, 5, 1, 7, 2]]);
    let clock = "T 2:0[0:0 1:0]\n";
    let kept = format!("{clock}Q 0 2 0:0 1:0 2[0:1]\n");
    let expected = down.replace("A 12 0\n", "A 12 0\nA 13 0\n");
    assert_eq!(asked, expected.replace(clock, &kept));
}

#[test]
fn kept_sheets() {
    let folder = Path::new(env!("CARGO_MANIFEST_DIR")).join("vectors/sheets");
    let checked = vectors::check_folder(&folder).unwrap();
    assert!(checked.wrong.is_empty(), "{:?}", checked.wrong);
    assert_eq!(checked.sheets(), 290);
}

/// Twelve nodes, 500 frames: well under 50 ms.
#[test]
fn large_sheets_are_quick() {
    let mut random = Random::new(9);
    for _ in 0..4 {
        let plan = loop {
            let plan = any_plan(&mut random);
            if plan.node_count() == Plan::MOST_NODES && plan.channels.len() > 16 {
                break plan;
            }
        };
        let mut input = plan.write();
        let mut line = Line::of(plan);
        let mut practice = Practice::new(&mut random);
        for _ in 0..500 {
            let frame = practice.frame(&mut random, &line);
            if Frame::read(&frame) != Err(FRAME_LENGTH) {
                step(&mut line, &frame);
                input.extend(frame);
            }
        }
        let start = Instant::now();
        let written = sheet(&input);
        let taken = start.elapsed();
        println!("{} bytes written in {taken:?}", written.len());
        assert!(taken.as_millis() < 500, "{taken:?}");
    }
}
