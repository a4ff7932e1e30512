//! What a node has by what its children tell: its time and targets while it replays, a kept
//! answer while it is down.

mod kept;
pub mod made;

pub use kept::{tell_otherwise, KEPT_NUMBERS};

use std::marker::PhantomData;

use super::*;
use crate::line::practice::retarget;
use crate::line::{restart, Node, Origin, Restart, Status, Target};
use made::{complete_rows, replay, too_many, trim_rows};

pub trait Told {
    fn is_it(node: &Node) -> bool;
    fn low(node: &mut Node) -> &mut u32;
    fn targets(node: &mut Node) -> &mut Vec<Target>;
    fn is_as(node: &Node, told: &Restart) -> bool;
    /// Makes it such, with what its children tell.
    fn make(line: &mut Line, node: usize, told: Restart);
}

pub struct Replaying;

impl Told for Replaying {
    fn is_it(node: &Node) -> bool {
        node.status == Status::Replaying
    }

    fn low(node: &mut Node) -> &mut u32 {
        &mut node.clock.time
    }

    fn targets(node: &mut Node) -> &mut Vec<Target> {
        &mut node.targets
    }

    fn is_as(node: &Node, told: &Restart) -> bool {
        node.time() == told.low && node.targets == told.targets
    }

    fn make(line: &mut Line, node: usize, told: Restart) {
        replay(line, node, &told);
        line.nodes[node].targets = told.targets;
    }
}

/// Down, with a kept answer.
pub struct Keeping;

impl Told for Keeping {
    fn is_it(node: &Node) -> bool {
        node.kept.is_some()
    }

    fn low(node: &mut Node) -> &mut u32 {
        &mut kept(node).low
    }

    fn targets(node: &mut Node) -> &mut Vec<Target> {
        &mut kept(node).targets
    }

    fn is_as(node: &Node, told: &Restart) -> bool {
        node.kept.as_ref() == Some(told)
    }

    fn make(line: &mut Line, node: usize, told: Restart) {
        line.nodes[node].status = Status::Down;
        line.nodes[node].kept = Some(told);
    }
}

fn kept(node: &mut Node) -> &mut Restart {
    node.kept.as_mut().expect("a kept answer")
}

pub const NOT_RECOVERED: Clause = Clause {
    words: "a replaying node's time or targets are not what Recover would give",
    conditions: Conditions::<Replaying>::ALL,
};

pub const STALE: Clause = Clause {
    words: "a kept answer is one that Recover would not give now",
    conditions: Conditions::<Keeping>::ALL,
};

pub const UP_AT_ONCE: Clause = Clause {
    words: "the same, where it would be up",
    conditions: &[line("up by Recover", |random, line| {
        let node = pick::node(random, line, |_, node| {
            node.crash_marked && node.status != Status::Replaying
        })?;
        let told = restart(line, node);
        let is_up = told.targets.is_empty();
        Replaying::make(line, node, told);
        is_up.then_some(())
    })],
};

struct Conditions<T>(PhantomData<T>);

impl<T: Told> Conditions<T> {
    const ALL: &'static [Condition] = &[
        line("low", |random, line| {
            let node = any::<T>(random, line)?;
            more_steps(random, line, 1);
            let any = random.between(0, line.accepted_steps());
            let low = T::low(&mut line.nodes[node]);
            let other = random.pick(&[*low + 1, low.wrapping_sub(1).min(*low + 1), any]);
            let is_other = other != *low;
            *low = other;
            is_other.then_some(())
        }),
        line("a target less", |random, line| {
            let (node, index) = target::<T>(random, line)?;
            T::targets(&mut line.nodes[node]).remove(index);
            Some(())
        }),
        line("no targets", |random, line| {
            let (node, _) = target::<T>(random, line)?;
            T::targets(&mut line.nodes[node]).clear();
            Some(())
        }),
        line("a target more", |random, line| {
            let (node, index) = target::<T>(random, line)?;
            more_steps(random, line, 10);
            let targets = T::targets(&mut line.nodes[node]);
            if targets.len() == Line::MOST_TARGETS {
                return None;
            }
            let last = targets[targets.len() - 1];
            let more = random.pick(&[
                targets[index],
                Target {
                    time: last.time + 1,
                    ..last
                },
                Target {
                    time: last.time + 1,
                    parent_time: last.parent_time + 1,
                    ..last
                },
                Target {
                    parent_time: last.parent_time + 1,
                    ..last
                },
            ]);
            targets.push(more);
            Some(())
        }),
        line("another time of a target", |random, line| {
            let (node, index) = target::<T>(random, line)?;
            more_steps(random, line, 1);
            shift(random, &mut T::targets(&mut line.nodes[node])[index].time);
            Some(())
        }),
        line("another parent of a target", |random, line| {
            let (node, index) = target::<T>(random, line)?;
            let parent = T::targets(&mut line.nodes[node])[index].parent;
            let others = line.plan.parents(node).filter(|&other| other != parent);
            let other = pick::any(random, others)?;
            T::targets(&mut line.nodes[node])[index].parent = other;
            Some(())
        }),
        line("another time of a target's parent", |random, line| {
            let (node, index) = target::<T>(random, line)?;
            more_steps(random, line, 1);
            let target = &mut T::targets(&mut line.nodes[node])[index];
            shift(random, &mut target.parent_time);
            Some(())
        }),
        line("order of targets", |random, line| {
            let (node, index) = target::<T>(random, line)?;
            let targets = T::targets(&mut line.nodes[node]);
            let other = random.index(targets.len());
            targets.swap(index, other);
            (index != other).then_some(())
        }),
        line("a child's log tells fewer", |random, line| {
            let (node, child, index) = told::<T>(random, line)?;
            other_restart::<T>(line, node, |line| {
                line.nodes[child].log.remove(index);
            })
        }),
        line("a child's log tells another time", |random, line| {
            let (node, child, index) = told::<T>(random, line)?;
            let time = line.nodes[child].log[index].message.made_from?.time;
            let other = random.between(1, time);
            other_restart::<T>(line, node, |line| {
                let input = &mut line.nodes[child].log[index].message.made_from;
                input.as_mut().expect("it tells of the node").time = other;
            })
        }),
        line(
            "a child's log tells another time of a parent",
            |random, line| {
                let (node, child, index) = told::<T>(random, line)?;
                let time = line.nodes[child].log[index].input_made_from?.time;
                let other = random.between(1, time);
                other_restart::<T>(line, node, |line| {
                    let origin = &mut line.nodes[child].log[index].input_made_from;
                    origin.as_mut().expect("it tells of a parent").time = other;
                })
            },
        ),
        line("a child's log tells another parent", |random, line| {
            let (node, child, index) = told::<T>(random, line)?;
            let parent = line.nodes[child].log[index].input_made_from?.sender;
            let clock = &line.nodes[child].clock;
            let others = line
                .plan
                .parents(node)
                .filter(|&other| other != parent && clock.heard(node, other) >= 1);
            let sender = pick::any(random, others)?;
            let time = random.between(1, clock.heard(node, sender));
            other_restart::<T>(line, node, |line| {
                line.nodes[child].log[index].input_made_from = Some(Origin { sender, time });
            })
        }),
        line("a child's entry gives another low", |random, line| {
            let node = any::<T>(random, line)?;
            more_steps(random, line, 1);
            let low = restart(line, node).low;
            let children: Vec<usize> = line.plan.children(node).collect();
            for child in children {
                if line.nodes[child].clock.taken(node) == low {
                    take_up_to(line, node, child, low + 1);
                }
            }
            Some(())
        }),
        line("one time with two inputs", |random, line| {
            let (node, child, index) = told::<T>(random, line)?;
            let (other_child, other) = told_of(random, line, node)?;
            let time = line.nodes[other_child].log[other].message.made_from?.time;
            let input = line.nodes[child].log[index].message.made_from.as_mut()?;
            input.time = time;
            take_up_to(line, node, child, time);
            conflicts(line, node)
        }),
        line("one input with two times", |random, line| {
            let (node, child, index) = told::<T>(random, line)?;
            let (other_child, other) = told_of(random, line, node)?;
            let origin = line.nodes[other_child].log[other].input_made_from?;
            line.nodes[child].log[index].input_made_from = Some(origin);
            let clock = &mut line.nodes[child].clock;
            clock.raise_heard(node, origin.sender, origin.time);
            conflicts(line, node)
        }),
        line("rows complete at once", |random, line| {
            let (node, _) = target::<T>(random, line)?;
            complete_rows(random, line, node, None)
        }),
        line("rows complete at once by low clocks", |random, line| {
            let (node, _) = target::<T>(random, line)?;
            trim_rows(random, line, node, None)
        }),
        line("over 64 targets", |random, line| {
            *line = too_many::<T>(random);
            Some(())
        }),
    ];
}

fn any<T: Told>(random: &mut Random, line: &Line) -> Option<usize> {
    pick::node(random, line, |_, node| T::is_it(node))
}

/// A node that has targets, and the index of one of them.
fn target<T: Told>(random: &mut Random, line: &mut Line) -> Option<(usize, usize)> {
    let count = |node: &Node| T::targets(&mut node.clone()).len();
    let node = pick::node(random, line, |_, node| T::is_it(node) && count(node) > 0)?;
    let count = count(&line.nodes[node]);
    let any = random.index(count);
    Some((node, random.pick(&[any, 0, count - 1])))
}

fn shift(random: &mut Random, time: &mut u32) {
    *time = random.pick(&[*time + 1, *time - 1]);
}

/// A node, a child of it and the index of a log entry that tells of a target.
fn told<T: Told>(random: &mut Random, line: &Line) -> Option<(usize, usize, usize)> {
    let node = any::<T>(random, line)?;
    let (child, index) = told_of(random, line, node)?;
    Some((node, child, index))
}

fn told_of(random: &mut Random, line: &Line, node: usize) -> Option<(usize, usize)> {
    let low = restart(line, node).low;
    pick::entry(random, line, |_, entry| {
        let input = entry.message.made_from;
        input.is_some_and(|input| input.sender == node && input.time > low)
    })
}

/// The child has taken up to the time at the least. A down node's channels have no marks.
fn take_up_to(line: &mut Line, node: usize, child: usize, time: u32) {
    line.nodes[child].clock.raise_taken(node, time);
    if line.nodes[node].status != Status::Down {
        let channel = pick::channel_between(line, node, child);
        line.queues[channel].mark = line.queues[channel].mark.max(time);
    }
}

/// Changes what the children tell; None if Recover would give the same.
fn other_restart<T: Told>(line: &mut Line, node: usize, change: impl Fn(&mut Line)) -> Option<()> {
    change(line);
    let told = restart(line, node);
    (!T::is_as(&line.nodes[node], &told)).then_some(())
}

/// Gives the node what its children tell; None if their targets agree.
fn conflicts(line: &mut Line, node: usize) -> Option<()> {
    retarget(line);
    let told = restart(line, node);
    (told.targets.len() <= Line::MOST_TARGETS && told.check_targets().is_err()).then_some(())
}
