//! Request 2026-05: "After a tick from each infeed, and every message made from it at
//! once or in turn, has been taken by all receivers, with no crash since the first of
//! these ticks was fed, every floor time is at least that of its node's last such
//! message."

use std::collections::BTreeMap;

use super::*;
use crate::line::Node;

/// Such messages: the ticks that are followed, and what is made from them.
#[derive(Default)]
struct Followed {
    /// By node and time; a bit for each channel that one is still to be taken on.
    messages: BTreeMap<(usize, u32), u32>,
    /// Whether, when the first was fed, a node had crashed, was down, and replayed.
    met: [bool; 3],
}

impl Followed {
    /// To be told of each accepted step.
    fn look(&mut self, random: &mut Random, before: &Line, frame: &[u8], after: &Line) {
        match Frame::read(frame).expect("an accepted frame").1 {
            Frame::Feed { node, record } if record == Record::TICK.write() => {
                // Of a source's later ticks some are not followed.
                if self.last(node.into()).is_some() && random.one_in(2) {
                    return;
                }
                if self.messages.is_empty() {
                    let is_any = |is_such: fn(&Node) -> bool| before.nodes.iter().any(is_such);
                    self.met = [
                        is_any(|node| node.crash_marked),
                        is_any(|node| node.status == Status::Down),
                        is_any(|node| node.status == Status::Replaying),
                    ];
                }
                self.add(after, node.into());
            }
            Frame::Take { channel } => {
                let number = usize::from(channel);
                let ends = &before.plan.channels[number];
                let time = before.queues[number].messages[0].time;
                if let Some(waiting) = self.messages.get_mut(&(ends.sender, time)) {
                    let status = before.nodes[ends.receiver].status;
                    assert_eq!(status, Status::Up, "no replay takes such a message");
                    *waiting &= !(1 << number);
                    self.add(after, ends.receiver);
                }
            }
            Frame::Crash { .. } => *self = Followed::default(),
            _ => {}
        }
    }

    /// The node's last message, which no receiver has yet.
    fn add(&mut self, line: &Line, node: usize) {
        let leaving = line.plan.leaving(node);
        let waiting = leaving.fold(0, |waiting, channel| waiting | 1 << channel);
        self.messages
            .insert((node, line.nodes[node].time()), waiting);
    }

    fn last(&self, node: usize) -> Option<u32> {
        let of_node = self.messages.range((node, 0)..=(node, u32::MAX));
        of_node.map(|(&(_, time), _)| time).next_back()
    }

    fn are_taken_by_all(&self, plan: &Plan) -> bool {
        let mut sources = (0..plan.node_count()).filter(|&node| plan.is_source(node));
        sources.all(|node| self.last(node).is_some())
            && self.messages.values().all(|&waiting| waiting == 0)
    }
}

/// A Recover or a Commit of each node, some Trims, ticks at some sources or at none, and a few
/// Sends and Takes on each channel.
fn calm(random: &mut Random, line: &Line) -> Vec<Frame> {
    let ticks = random.pick(&[2, 1_000]);
    let mut frames = Vec::new();
    for node in 0..line.nodes.len() as u8 {
        frames.push(Frame::Ask { node });
        frames.push(random.pick(&[Frame::Recover { node }, Frame::Commit { node }]));
        if random.one_in(4) {
            frames.push(Frame::Trim { node });
        }
        if random.one_in(ticks) {
            let record = Record::TICK.write();
            frames.push(Frame::Feed { node, record });
        }
    }
    for channel in 0..line.queues.len() as u8 {
        for _ in 0..random.between(1, 4) {
            frames.extend([Frame::Send { channel }, Frame::Take { channel }]);
        }
    }
    frames
}

#[test]
fn floors_after_ticks() {
    let mut random = Random::new(19);
    // All moments, and those with what was met at the first tick; runs that have any.
    let mut moments = [0; 4];
    let mut runs = 0;
    for _ in 0..600 {
        let mut line = Line::of(any_plan(&mut random));
        let mut practice = Practice::new(&mut random);
        let mut followed = Followed::default();
        let before = moments;
        for _ in 0..random.between(2, 6) {
            let mut frames = vec![None; random.index(80)];
            for _ in 0..random.between(1, 12) {
                frames.extend(calm(&mut random, &line).into_iter().map(Some));
            }
            if random.one_in(2) {
                followed = Followed::default();
            }
            for frame in frames {
                let frame = match frame {
                    Some(frame) => frame.write(),
                    None => practice.frame(&mut random, &line),
                };
                let before = line.clone();
                if step(&mut line, &frame) != ACCEPTED {
                    continue;
                }
                followed.look(&mut random, &before, &frame, &line);
                if !followed.are_taken_by_all(&line.plan) {
                    continue;
                }
                for (node, floor) in line.floor_times().into_iter().enumerate() {
                    let last = followed.last(node).expect("one of every node");
                    assert!(floor >= last, "node {node}: {floor} {last} {line:?}");
                }
                let met = [true].into_iter().chain(followed.met);
                for (moments, is_met) in moments.iter_mut().zip(met) {
                    *moments += usize::from(is_met);
                }
            }
        }
        runs += usize::from(moments != before);
    }
    println!("{moments:?} moments in {runs} runs");
    assert!(runs > 300, "{runs}");
    assert!(moments[0] > 20_000 && moments[1] > 10_000, "{moments:?}");
    assert!(moments[2] > 500 && moments[3] > 500, "{moments:?}");
}
