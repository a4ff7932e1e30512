//! Request 2026-09: "logging a yes instead of the chosen placing keeps the promised order
//! of received records".

use super::*;
use crate::line::practice::tear;
use crate::line::{stepped, stepped_with};
use crate::placing::tables::another_placing;
use crate::placing::{Mark, Table};
use crate::plan::practice::keeping;
use crate::plan::Channel;

/// The mask of two materials that one record in four has.
const SELDOM: u16 = 1 << 3 | 1 << 15;

/// How often another placing is drawn in the hope of one that is not the chosen one.
const DRAWS: usize = 8;

/// Two routers between two or three sources and three sinks. The first sink takes what comes
/// seldom, the others what comes often: where these lag, a replay has few targets and many
/// free records.
fn two_routers(random: &mut Random) -> Plan {
    let first = random.between(2, 3) as usize;
    let (routers, sinks) = (first..first + 2, first + 2..first + 5);
    let entering = (0..first).flat_map(|source| {
        let routers = routers.clone();
        routers.map(move |router| Channel::between(source, router))
    });
    let mut channels: Vec<Channel> = entering.collect();
    for router in routers {
        channels.extend(sinks.clone().map(|sink| Channel {
            mask: match sink == sinks.start {
                true => SELDOM,
                false => 1 << random.index(3) | 1 << random.index(3),
            },
            ..Channel::between(router, sink)
        }));
    }
    keeping(sinks.end, channels)
}

/// A frame of a practice, but few Sends of what comes often, and Crashes of nodes whose
/// children have parted by so much: only long replays leave a choice.
fn frame(random: &mut Random, practice: &mut Practice, line: &Line, parted: u32) -> Vec<u8> {
    loop {
        let frame = practice.frame(random, line);
        let is_passed_over = match Frame::read(&frame) {
            Ok((_, Frame::Crash { node })) if usize::from(node) < line.nodes.len() => {
                tear(line, node.into()) < parted
            }
            Ok((_, Frame::Send { channel })) if usize::from(channel) < line.queues.len() => {
                line.plan.channels[usize::from(channel)].mask & SELDOM == 0 && !random.one_in(16)
            }
            _ => false,
        };
        if !is_passed_over {
            return frame;
        }
    }
}

/// What is proposed for the table of a replay that ends: in most cases another placing.
fn proposed(random: &mut Random, table: &Table, chosen: &[u32]) -> Vec<u32> {
    if random.one_in(8) {
        let column = |_| random.between(table.low, table.high + 1);
        return chosen.iter().map(column).collect();
    }
    let mut other = chosen.to_vec();
    for _ in 0..DRAWS {
        other = another_placing(random, table, &other);
    }
    other
}

/// Replays that end with another placing than the chosen one; with the chosen one because
/// what is proposed gets a no; and behind the first in a run: replays that end, Crashes of
/// any node and of one that was so placed, Takes of what it logged.
const SEEN: [&str; 6] = ["others", "noes", "ended", "crashes", "again", "taken"];

#[test]
fn order_of_what_got_yes() {
    let mut random = Random::new(37);
    let mut seen = [0; SEEN.len()];
    for _ in 0..1_500 {
        let mut line = Line::of(match random.one_in(4) {
            true => any_plan(&mut random),
            false => two_routers(&mut random),
        });
        let mut order = Order::new(&line.plan);
        let mut practice = Practice::new(&mut random);
        let mut is_placed = vec![false; line.nodes.len()];
        let parted = random.pick(&[1, 3, 5]);
        for _ in 0..random.between(50, 400) {
            let frame = frame(&mut random, &mut practice, &line, parted);
            let mut ended = None;
            let after = stepped_with(&line, &frame, &mut |table, chosen| {
                let columns = proposed(&mut random, table, chosen);
                ended = Some((table.mark(&columns), columns != chosen));
                columns
            });
            let as_chosen = stepped(&line, &frame);
            assert_eq!(after.is_ok(), as_chosen.is_ok(), "{frame:?} {line:?}");
            let Ok(after) = after else {
                continue;
            };
            order.follow(&line, &frame, &after);
            let is_any = is_placed.contains(&true);
            match Frame::read(&frame).expect("an accepted frame").1 {
                Frame::Crash { node } => {
                    seen[3] += usize::from(is_any);
                    seen[4] += usize::from(is_placed[usize::from(node)]);
                }
                Frame::Take { channel } => {
                    let ends = &line.plan.channels[usize::from(channel)];
                    seen[5] += usize::from(is_placed[ends.sender]);
                    if let Some((mark, is_other)) = ended {
                        let is_logged = mark == Mark::Yes && is_other;
                        assert_eq!(Ok(&after) != as_chosen.as_ref(), is_logged, "{line:?}");
                        assert!(!damaged(&after), "{after:?}");
                        seen[0] += usize::from(is_logged);
                        seen[1] += usize::from(mark != Mark::Yes);
                        seen[2] += usize::from(is_any);
                        is_placed[ends.receiver] |= is_logged;
                    }
                }
                _ => {}
            }
            line = after;
            if ended.is_some() || random.one_in(8) {
                assert!(order.holds(&line), "{:?}", line.plan);
            }
        }
        drain(&mut random, &mut line, &mut order);
        assert!(order.holds(&line), "{:?}", line.plan);
        assert!(!damaged(&line));
    }
    println!("{:?}", SEEN.iter().zip(seen).collect::<Vec<_>>());
    assert!(seen.iter().all(|&times| times > 100), "{seen:?}");
}
