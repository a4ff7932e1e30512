//! Request 2026-04: "trimming at whatever moment it is accepted changes nothing that
//! anybody receives by a list of steps that are all accepted both with and without it,
//! even where crashes follow".

use super::*;
use crate::answer::NO_SPACE;
use crate::line::Node;

/// A list of accepted steps with Trims in it, and what was met since one dropped
/// something.
#[derive(Default)]
struct Trimmed {
    frames: Vec<Vec<u8>>,
    drops: bool,
    crashes: bool,
    replays: bool,
    /// Restarts of nodes whose children have low clocks.
    low_clocks: bool,
}

impl Trimmed {
    /// From the line on, which is left at the end.
    fn new(random: &mut Random, practice: &mut Practice, line: &mut Line) -> Trimmed {
        let mut list = Trimmed::default();
        for _ in 0..random.between(50, 300) {
            let is_up = |node: &Node| node.status == Status::Up;
            let frame = if line.nodes.iter().all(is_up) && random.one_in(8) {
                let node = random.index(line.nodes.len()) as u8;
                Frame::Trim { node }.write()
            } else {
                practice.frame(random, line)
            };
            let before = line.clone();
            if step(line, &frame) == ACCEPTED {
                list.look(&before, &frame, line);
                list.frames.push(frame);
            }
        }
        list
    }

    fn look(&mut self, before: &Line, frame: &[u8], after: &Line) {
        self.drops |= trimmed(before, frame, after) > 0;
        match Frame::read(frame) {
            Ok((_, Frame::Crash { .. })) => self.crashes |= self.drops,
            Ok((_, Frame::Recover { node } | Frame::Commit { node })) if self.drops => {
                let node = usize::from(node);
                self.replays |= after.nodes[node].status == Status::Replaying;
                let mut children = after.plan.children(node);
                let is_low = |child: usize| after.nodes[child].low_clock.taken(node) > 0;
                self.low_clocks |= children.any(is_low);
            }
            _ => {}
        }
    }

    /// All Trims left out, or some of them.
    fn without(&self, random: &mut Random) -> Vec<Vec<u8>> {
        let are_all = !random.one_in(3);
        let mut frames = self.frames.clone();
        frames.retain(|frame| {
            let is_trim = matches!(Frame::read(frame), Ok((_, Frame::Trim { .. })));
            !is_trim || !are_all && random.one_in(2)
        });
        frames
    }
}

/// What everybody receives by the frames, in order, or the first refusal.
fn receipts(mut line: Line, frames: &[Vec<u8>]) -> Result<Vec<(usize, Receipt)>, u32> {
    let mut receipts = Vec::new();
    for frame in frames {
        let before = line.clone();
        let answer = step(&mut line, frame);
        if answer != ACCEPTED {
            return Err(answer);
        }
        if let Ok((_, Frame::Take { channel })) = Frame::read(frame) {
            let ends = &before.plan.channels[usize::from(channel)];
            let receipt = Receipt {
                record: before.queues[usize::from(channel)].messages[0].record,
                sender: ends.sender,
            };
            receipts.push((ends.receiver, receipt));
        }
    }
    Ok(receipts)
}

#[test]
fn trims_change_nothing_received() {
    let mut random = Random::new(17);
    let mut full = 0;
    // All pairs of lists, and those with what was met in them.
    let mut pairs = [0; 4];
    for _ in 0..2_000 {
        let mut line = Line::of(any_plan(&mut random));
        let mut practice = Practice::new(&mut random);
        for _ in 0..random.between(0, 100) {
            let frame = practice.frame(&mut random, &line);
            step(&mut line, &frame);
        }
        let start = line.clone();
        let list = Trimmed::new(&mut random, &mut practice, &mut line);
        let without = list.without(&mut random);
        if !list.drops || without.len() == list.frames.len() {
            continue;
        }
        match receipts(start.clone(), &without) {
            Ok(received) => {
                let with = receipts(start, &list.frames);
                assert_eq!(with, Ok(received), "{:?}", line.plan);
                let met = [true, list.crashes, list.replays, list.low_clocks];
                for (pairs, is_met) in pairs.iter_mut().zip(met) {
                    *pairs += usize::from(is_met);
                }
            }
            Err(refusal) => {
                assert_eq!(refusal, NO_SPACE, "{:?}", line.plan);
                full += 1;
            }
        }
    }
    println!("{pairs:?} pairs, {full} with 21 where logs are not trimmed");
    assert!(pairs[0] > 400 && full > 10, "{pairs:?} {full}");
    assert!(pairs.iter().all(|&pairs| pairs > 100), "{pairs:?}");
}
