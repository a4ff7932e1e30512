//! Request 2026-07: "Ask and then Commit, with other accepted steps between that leave the
//! node down, ends as Recover at the moment of Commit would."

use super::*;
use crate::compare::as_recover;
use crate::line::practice::{age, disturb, reach, retarget, tear};
use crate::state::{self, direct, line_bytes};

/// What was met where answers are kept.
#[derive(Debug, Default)]
struct Met {
    /// Restarts by Commit and by Recover that end up at once, in a replay, refused with 12.
    restarts: [usize; 3],
    /// Accepted steps between an Ask and such a restart, at the most.
    between: usize,
    /// Such restarts after 8 accepted steps and more.
    late: usize,
}

impl Met {
    /// Every node that keeps an answer, in both of the model's steps.
    fn look(&mut self, random: &mut Random, line: &Line, since_ask: &[usize]) {
        for (node, kept) in line.nodes.iter().map(|node| &node.kept).enumerate() {
            let Some(kept) = kept else {
                continue;
            };
            let state = line_bytes(line);
            let caller = caller(random, line);
            for step in [state::step, direct::step] {
                let answer = as_recover(step, &state, caller, node as u8);
                let answer = answer.unwrap_or_else(|wrong| panic!("{wrong}: {line:?}"));
                self.restarts[match answer {
                    ACCEPTED => usize::from(!kept.targets.is_empty()),
                    _ => 2,
                }] += 1;
            }
            self.between = self.between.max(since_ask[node]);
            self.late += usize::from(since_ask[node] >= 8);
        }
    }
}

/// A frame of a practice, or else an Ask of a node whose children have parted.
fn frame(random: &mut Random, practice: &mut Practice, line: &Line) -> Vec<u8> {
    let is_down = |node: &usize| line.nodes[*node].status == Status::Down;
    let asked = (0..line.nodes.len()).filter(is_down);
    match asked.max_by_key(|&node| tear(line, node)) {
        Some(node) if line.nodes[node].kept.is_none() && random.one_in(2) => {
            Frame::Ask { node: node as u8 }.sent_by(caller(random, line))
        }
        _ => practice.frame(random, line),
    }
}

#[test]
fn commit_ends_as_recover() {
    let mut random = Random::new(23);
    let mut met = Met::default();
    for _ in 0..400 {
        let mut line = Line::of(any_plan(&mut random));
        if random.one_in(2) {
            age(&mut random, &mut line);
        }
        let mut practice = Practice::new(&mut random);
        let mut since_ask = vec![0; line.nodes.len()];
        for _ in 0..random.between(50, 250) {
            let frame = frame(&mut random, &mut practice, &line);
            if step(&mut line, &frame) != ACCEPTED {
                continue;
            }
            since_ask.iter_mut().for_each(|steps| *steps += 1);
            if let Ok((_, Frame::Ask { node })) = Frame::read(&frame) {
                since_ask[usize::from(node)] = 0;
            }
            met.look(&mut random, &line, &since_ask);
        }
    }
    println!("{met:?}");
    assert!(
        met.restarts[0] > 2_000 && met.restarts[1] > 2_000,
        "{met:?}"
    );
    assert!(met.restarts[2] > 20, "{met:?}");
    assert!(met.late > 1_000 && met.between > 40, "{met:?}");
}

/// Also where no run leads.
#[test]
fn commit_ends_as_recover_elsewhere() {
    let mut random = Random::new(29);
    let mut met = Met::default();
    for _ in 0..300 {
        let mut line = Line::of(any_plan(&mut random));
        let mut practice = Practice::new(&mut random);
        for _ in 0..random.between(30, 200) {
            let frame = frame(&mut random, &mut practice, &line);
            step(&mut line, &frame);
        }
        let more = line.accepted_steps() + 1_000;
        reach(&mut random, &mut line, more);
        for _ in 0..60 {
            let mut other = line.clone();
            for _ in 0..random.between(1, 6) {
                disturb(&mut random, &mut other);
            }
            retarget(&mut other);
            if !damaged(&other) {
                line = other;
                met.look(&mut random, &line, &vec![0; line.nodes.len()]);
            }
        }
    }
    println!("{met:?}");
    assert!(met.restarts[0] > 500 && met.restarts[1] > 500, "{met:?}");
}
