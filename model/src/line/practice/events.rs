//! What a step may do, and why it may be refused, that a practice must not miss.

mod asks;
mod sets;
mod ticks;
mod times;
mod trims;

use std::collections::BTreeSet;

use super::FIELDS;
use crate::answer::{
    NOTHING_THERE, NO_REPLAY, NO_SPACE, NO_SUCH_PLACE, SOME_NOT_UP, STEPS_USED_UP, WRONG_STATUS,
};
use crate::line::replay::placed;
use crate::line::{
    restart, stepped, Buffered, Caller, Entry, Frame, Line, Node, Origin, Restart, Status, Target,
};
use crate::placing::Table;
use crate::plan::practice::{all_leaving, is_partial, refuses_by_mass};
use crate::plan::{Channel, Plan, Window};
use crate::record::{Record, MATERIALS};
use asks::do_entries_differ;
use sets::has_partial;
use ticks::{is_tick, lets_go_by_ticks};
use times::drops;
use trims::past;

pub struct Stepped<'a> {
    pub before: &'a Line,
    pub caller: Caller,
    pub frame: Frame,
    /// The line after it, or the refusal.
    pub after: Result<&'a Line, u32>,
}

pub struct Event {
    pub name: &'static str,
    pub is_it: fn(&Stepped) -> bool,
}

const fn event(name: &'static str, is_it: fn(&Stepped) -> bool) -> Event {
    Event { name, is_it }
}

pub const EVENTS: &[Event] = &[
    event("Recover leaves the node up", |step| {
        step.recovered() == Some(Status::Up)
    }),
    event("Recover begins a replay", |step| {
        step.recovered() == Some(Status::Replaying)
    }),
    event("Recover begins a replay with 64 targets", |step| {
        step.recovered() == Some(Status::Replaying)
            && step
                .to_recover()
                .is_some_and(|node| restart(step.before, node).targets.len() == Line::MOST_TARGETS)
    }),
    event("Crash of a node that replays", |step| {
        step.crashed()
            .is_some_and(|node| node.status == Status::Replaying)
    }),
    event("Crash of a node that has recovered", |step| {
        step.crashed()
            .is_some_and(|node| node.status == Status::Up && node.crash_marked)
    }),
    event("Crash of a node for the first time", |step| {
        step.crashed().is_some_and(|node| !node.crash_marked)
    }),
    event("Take that holds a record", |step| step.held(1)),
    event("Take that drops a record", |step| step.held(0)),
    event("Take that drops a record for its mass alone", |step| {
        step.held(0) && step.works(|channel, _, made| refuses_by_mass(channel, made))
    }),
    event("Take that holds what some window refuses", |step| {
        step.held(1) && step.works(|channel, _, made| refuses_by_mass(channel, made))
    }),
    event("a cap brings a record into a window", |step| {
        step.works(|channel, came, made| refuses_by_mass(channel, came) && channel.takes(made))
    }),
    event("a cap brings a record to the end of a window", |step| {
        step.works(|channel, came, made| {
            refuses_by_mass(channel, came)
                && channel.takes(made)
                && made.mass == channel.window.greatest
        })
    }),
    event("a cap takes a record out of a window", |step| {
        step.works(|channel, came, made| channel.takes(came) && refuses_by_mass(channel, made))
    }),
    event("Send passes over what only the window refuses", |step| {
        step.after.is_ok() && step.passes_over(|_, _| true)
    }),
    event("18: only the window refuses what waits", |step| {
        step.after == Err(NOTHING_THERE) && step.passes_over(|_, _| true)
    }),
    event("Send of a channel's least mass", |step| {
        step.sends(|channel, record| record.mass == channel.window.least && record.mass > 0)
    }),
    event("Send of a channel's greatest mass", |step| {
        step.sends(|channel, record| {
            record.mass == channel.window.greatest && record.mass < u16::MAX
        })
    }),
    event("Send looks at one less than the least mass", |step| {
        step.passes_over(|window, mass| mass.checked_add(1) == Some(window.least))
    }),
    event("Send looks at one more than the greatest mass", |step| {
        step.passes_over(|window, mass| mass.checked_sub(1) == Some(window.greatest))
    }),
    event("replay ended", |step| step.ended().is_some()),
    event("replay ended with an empty time", |step| {
        step.ended()
            .is_some_and(|(low, _, ended)| ended.log.len() < (ended.time() - low) as usize)
    }),
    event("replay ended with a free record", |step| {
        step.ended().is_some_and(|(_, number, ended)| {
            let targets = step.before.nodes[number].targets.len();
            ended.log.len() > targets
        })
    }),
    event("replay ended otherwise than without floors", |step| {
        step.last_table(|_| {}).is_some_and(|table| {
            let mut without = table.clone();
            without.items.iter_mut().for_each(|item| item.floor = 0);
            placed(&without) != placed(&table)
        })
    }),
    event(
        "replay ended with a record that is free by its mass",
        |step| {
            let tables = [step.last_table(|_| {}), step.last_table(open_windows)];
            tables[0] != tables[1]
        },
    ),
    event("replay ended otherwise than without windows", |step| {
        let tables = [step.last_table(|_| {}), step.last_table(open_windows)];
        let [columns, without] = tables.map(|table| table.map(|table| placed(&table)));
        columns != without
    }),
    event("replay ended with 64 records", |step| {
        step.ended()
            .is_some_and(|(_, _, ended)| ended.log.len() == Line::MOST_BUFFERED)
    }),
    event("replay ended above time 1,000,000", |step| {
        step.ended().is_some_and(|(low, _, _)| low > 1_000_000)
    }),
    event("replay ended over more than 1,000,000 columns", |step| {
        step.ended()
            .is_some_and(|(low, _, ended)| ended.time() - low > 1_000_000)
    }),
    event("the last step of a console", |step| {
        step.after
            .is_ok_and(|after| after.steps[step.caller.console()] == Line::MOST_STEPS)
    }),
    event("the last step of all", |step| {
        step.after
            .is_ok_and(|after| after.steps == [Line::MOST_STEPS; Line::CONSOLES])
    }),
    event("12, accepted from another console", |step| {
        step.after == Err(STEPS_USED_UP)
            && Caller::ALL
                .iter()
                .any(|&other| stepped(step.before, &step.frame.sent_by(other)).is_ok())
    }),
    event("12, no console has steps left", |step| {
        step.after == Err(STEPS_USED_UP) && step.before.steps == [Line::MOST_STEPS; Line::CONSOLES]
    }),
    event("21: a source's log is full", |step| {
        step.after == Err(NO_SPACE) && matches!(step.frame, Frame::Feed { .. })
    }),
    event("21: a receiver's log is full", |step| {
        step.after == Err(NO_SPACE) && step.receiver(Status::Up).is_some()
    }),
    event("21: a held list is full", |step| {
        step.after == Err(NO_SPACE) && step.receiver(Status::Replaying).is_some()
    }),
    event("21: over 64 targets", |step| {
        step.after == Err(NO_SPACE) && step.to_recover().is_some()
    }),
    event("24: one time with two inputs", |step| {
        step.has_two_targets(|target| (target.time as usize, 0))
    }),
    event("24: one input with two times", |step| {
        step.has_two_targets(|target| (target.parent, target.parent_time))
    }),
    event("24: rows complete at once", |step| {
        step.told_in_vain()
            .is_some_and(|told| told.check_targets().is_ok())
    }),
    event("24: rows complete at once by low clocks alone", |step| {
        step.told_in_vain()
            .is_some_and(|told| told.check_targets().is_ok())
            && step.told_by_logs().is_some_and(|told| !told.is_complete())
    }),
    event("24: a target not held", |step| {
        step.after == Err(NO_REPLAY) && step.misses_target() == Some(true)
    }),
    event("24: no placing", |step| {
        step.after == Err(NO_REPLAY) && step.misses_target() == Some(false)
    }),
    event("Recover restores an entry from a low clock alone", |step| {
        step.recovered().is_some() && step.is_told_by_low_clocks()
    }),
    event("the same, and begins a replay", |step| {
        step.recovered() == Some(Status::Replaying) && step.is_told_by_low_clocks()
    }),
    event("replay ended with a child's log trimmed", |step| {
        step.ended().is_some_and(|(_, number, _)| {
            let mut children = step.before.plan.children(number);
            children.any(|child| step.before.nodes[child].low_clock.taken(number) > 0)
        })
    }),
    event("Crash of a node with a low clock", |step| {
        step.crashed()
            .is_some_and(|node| node.low_clock.times().iter().any(|&time| time > 0))
    }),
    event("Trim of a source that drops", |step| {
        step.trims(|line, node, run| line.plan.is_source(node) && run > 0)
    }),
    event("Trim of a router that drops", |step| {
        step.trims(|line, node, run| {
            !line.plan.is_source(node) && !line.plan.is_sink(node) && run > 0
        })
    }),
    event("Trim of a sink that drops", |step| {
        step.trims(|line, node, run| {
            line.plan.is_sink(node) && !line.plan.is_source(node) && run > 0
        })
    }),
    event("Trim that drops all of a full log", |step| {
        step.trims(|_, _, run| run == Line::MOST_ENTRIES)
    }),
    event("Trim that drops a part of a full log", |step| {
        step.trims(|line, node, run| {
            let entries = line.nodes[node].log.len();
            entries == Line::MOST_ENTRIES && 0 < run && run < entries
        })
    }),
    event("Trim that drops nothing of a full log", |step| {
        step.trims(|line, node, run| line.nodes[node].log.len() == Line::MOST_ENTRIES && run == 0)
    }),
    event("Trim of an empty log", |step| {
        step.trims(|line, node, _| line.nodes[node].log.is_empty())
    }),
    event("Trim stopped by the entry's own time alone", |step| {
        step.stopped() == Some((true, false))
    }),
    event("Trim stopped by the sender's time alone", |step| {
        step.stopped() == Some((false, true))
    }),
    event("Trim stopped with an entry behind that may go", |step| {
        step.trims(|line, node, run| {
            let floors = line.floor_times();
            let mut behind = line.nodes[node].log.iter().skip(run + 1);
            behind.any(|entry| past(&floors, node, entry) == (false, false))
        })
    }),
    event("Trim that drops where nodes have recovered", |step| {
        step.trims(|line, _, run| run > 0 && line.nodes.iter().any(|node| node.crash_marked))
    }),
    event("Trim of a log trimmed before that drops", |step| {
        step.trims(|line, node, run| {
            let low = line.nodes[node].low_clock.times();
            run > 0 && low.iter().any(|&time| time > 0)
        })
    }),
    event("Trim where a floor has fallen below what is gone", |step| {
        step.trims(|line, node, _| {
            let floors = line.floor_times();
            let mut parts = line.nodes[node].low_clock.parents.iter();
            parts.any(|part| part.time > floors[part.node])
        })
    }),
    event("26: the node is down", |step| {
        step.is_not_up(Status::Down, true)
    }),
    event("26: the node replays", |step| {
        step.is_not_up(Status::Replaying, true)
    }),
    event("26: another node is down, none replays", |step| {
        step.is_not_up(Status::Down, false)
    }),
    event("26: another node replays, none is down", |step| {
        step.is_not_up(Status::Replaying, false)
    }),
    event("13: Trim of no node while one is not up", |step| {
        let is_up = |node: &Node| node.status == Status::Up;
        step.after == Err(NO_SUCH_PLACE)
            && step.to_trim().is_some()
            && !step.before.nodes.iter().all(is_up)
    }),
    event("Feed of a tick", |step| {
        step.feeds_tick() && step.after.is_ok()
    }),
    event("21: a tick, and the source's log is full", |step| {
        step.feeds_tick() && step.after == Err(NO_SPACE)
    }),
    event("17: a tick but for its piece", |step| {
        step.is_refused_for(&FIELDS[0])
    }),
    event("17: a tick but for its material", |step| {
        step.is_refused_for(&FIELDS[1])
    }),
    event("17: a tick but for its zero byte", |step| {
        step.is_refused_for(&FIELDS[2])
    }),
    event("17: a tick but for its mass", |step| {
        step.is_refused_for(&FIELDS[3])
    }),
    event("Send of a tick that the mask has no bit for", |step| {
        step.sends(|channel, record| record.is_tick() && channel.mask >> 15 == 0)
    }),
    event("Send of a tick that is not the remainder's", |step| {
        step.sends(|channel, record| record.is_tick() && channel.remainder != 0)
    }),
    event("Send of a tick that the window lacks", |step| {
        step.sends(|channel, record| record.is_tick() && channel.window.least > 0)
    }),
    event("Take of a tick", |step| {
        step.takes_tick(Status::Up).is_some()
    }),
    event("Take that holds a tick", |step| {
        step.takes_tick(Status::Replaying).is_some() && step.held(1)
    }),
    event(
        "the same where piece 0 of mass 0 would be dropped",
        |step| {
            step.takes_tick(Status::Replaying)
                .is_some_and(|node| step.passes_on_nothing_else(node))
                && step.held(1)
        },
    ),
    event("replay ended with a tick", |step| {
        step.ended()
            .is_some_and(|(_, _, ended)| ended.log.iter().any(is_tick))
    }),
    event("replay ended by a tick", |step| {
        step.ended().is_some() && step.takes_tick(Status::Replaying).is_some()
    }),
    event("24: a tick that is free", |step| {
        step.after == Err(NO_REPLAY) && step.misses_target() == Some(false) && step.has_free_tick()
    }),
    event("Trim that drops a tick", |step| {
        step.trims(|line, node, run| line.nodes[node].log[..run].iter().any(is_tick))
    }),
    event("Trim that drops what ticks alone let go", |step| {
        step.trims(lets_go_by_ticks)
    }),
    event("Feed of what some channels take, and not all", |step| {
        step.feeds() && step.makes(is_partial)
    }),
    event("Feed of what none of two channels or more takes", |step| {
        step.feeds() && step.makes(|plan, node, set| set == 0 && all_leaving(plan, node) > 1)
    }),
    event("Take of what some channels take, and not all", |step| {
        !step.feeds() && step.makes(is_partial)
    }),
    event("Take of what none of two channels or more takes", |step| {
        !step.feeds() && step.makes(|plan, node, set| set == 0 && all_leaving(plan, node) > 1)
    }),
    event("a rule changes which channels take a record", |step| {
        step.works(|channel, came, made| channel.takes(came) != channel.takes(made))
    }),
    event("Send passes over what other channels take", |step| {
        step.passes_over_set(|set| set != 0)
    }),
    event("replay ended with what some take, and not all", |step| {
        step.ended()
            .is_some_and(|(_, number, ended)| has_partial(&step.before.plan, number, &ended.log))
    }),
    event("replay ended with different sets", |step| {
        step.ended().is_some_and(|(_, _, ended)| {
            let sets: BTreeSet<u8> = ended.log.iter().map(|entry| entry.set).collect();
            sets.len() > 1
        })
    }),
    event("Trim that moves what some take, and not all", |step| {
        step.trims(|line, node, run| {
            run > 0 && has_partial(&line.plan, node, &line.nodes[node].log[run..])
        })
    }),
    event("Ask that finds no targets", |step| {
        step.asked(|kept| kept.targets.is_empty())
    }),
    event("Ask that finds targets", |step| {
        step.asked(|kept| !kept.targets.is_empty())
    }),
    event("Ask that finds 64 targets", |step| {
        step.asked(|kept| kept.targets.len() == Line::MOST_TARGETS)
    }),
    event("Ask that finds entries that differ", |step| {
        step.asked(do_entries_differ)
    }),
    event("Ask that finds four entries", |step| {
        step.asked(|kept| kept.restored.len() == Plan::MOST_AT_A_NODE)
    }),
    event("Ask repeated", |step| step.keeps_before(step.to_ask())),
    event("Ask beside another kept answer", |step| {
        step.to_ask().is_some() && step.leaves_kept()
    }),
    event("21: Ask of over 64 targets", |step| {
        step.after == Err(NO_SPACE) && step.to_ask().is_some()
    }),
    event("24: Ask of targets that conflict", |step| {
        step.after == Err(NO_REPLAY)
            && step
                .to_ask()
                .is_some_and(|node| restart(step.before, node).check_targets().is_err())
    }),
    event("24: Ask of rows complete at once", |step| {
        step.after == Err(NO_REPLAY)
            && step
                .to_ask()
                .is_some_and(|node| restart(step.before, node).check_targets().is_ok())
    }),
    event("15: Ask of a node that is not down", |step| {
        step.after == Err(WRONG_STATUS) && step.to_ask().is_some()
    }),
    event("12: Ask of a node that keeps an answer", |step| {
        let kept = step.to_ask().and_then(|node| step.kept_before(node));
        step.after == Err(STEPS_USED_UP) && kept.is_some()
    }),
    event("12: Commit of a kept answer", |step| {
        let kept = step.to_commit().and_then(|node| step.kept_before(node));
        step.after == Err(STEPS_USED_UP) && kept.is_some()
    }),
    event("Commit leaves the node up", |step| {
        step.committed(|kept| kept.targets.is_empty())
    }),
    event("Commit begins a replay", |step| {
        step.committed(|kept| !kept.targets.is_empty())
    }),
    event("Commit begins a replay with 64 targets", |step| {
        step.committed(|kept| kept.targets.len() == Line::MOST_TARGETS)
    }),
    event("Commit of entries that differ", |step| {
        step.committed(do_entries_differ)
    }),
    event("Commit with low above 0 and below high", |step| {
        step.committed(|kept| 0 < kept.low && kept.low < kept.high)
    }),
    event("Commit beside another kept answer", |step| {
        step.to_commit().is_some() && step.leaves_kept()
    }),
    event("27: the node is down", |step| {
        step.commits_nothing(Status::Down)
    }),
    event("15: Commit, and the node is up", |step| {
        step.commits_nothing(Status::Up)
    }),
    event("15: Commit, and the node replays", |step| {
        step.commits_nothing(Status::Replaying)
    }),
    event("Recover discards a kept answer", |step| {
        step.keeps_before(step.to_recover())
    }),
    event("the same, and the node is up at once", |step| {
        step.recovered() == Some(Status::Up) && step.keeps_before(step.to_recover())
    }),
    event("15: Crash of a node that keeps an answer", |step| {
        let Frame::Crash { node } = step.frame else {
            return false;
        };
        step.after == Err(WRONG_STATUS) && step.kept_before(node.into()).is_some()
    }),
    event("Feed while an answer is kept", |step| {
        step.feeds() && step.leaves_kept()
    }),
    event("Send while an answer is kept", |step| {
        matches!(step.frame, Frame::Send { .. }) && step.leaves_kept()
    }),
    event("Take while an answer is kept", |step| {
        step.receiver(Status::Up).is_some() && step.leaves_kept()
    }),
    event("Take of a child of a node that keeps an answer", |step| {
        step.receiver(Status::Up).is_some_and(|child| {
            let mut parents = step.before.plan.parents(child);
            parents.any(|parent| step.kept_before(parent).is_some())
        }) && step.leaves_kept()
    }),
    event("Crash while another answer is kept", |step| {
        step.crashed().is_some() && step.leaves_kept()
    }),
    event("Recover while another answer is kept", |step| {
        step.recovered().is_some() && step.leaves_kept()
    }),
    event("replay ended while an answer is kept", |step| {
        step.ended().is_some() && step.leaves_kept()
    }),
    event("26: Trim while an answer is kept", |step| {
        step.after == Err(SOME_NOT_UP) && step.before.nodes.iter().any(|node| node.kept.is_some())
    }),
    event("Feed that no channel takes", |step| {
        step.feeds() && step.lacks_time(|_| true)
    }),
    event("the same, and the log is full", |step| {
        step.feeds() && step.lacks_time(|node| node.log.len() == Line::MOST_ENTRIES)
    }),
    event("Feed of a node without channels", |step| {
        let is_alone = |plan: &Plan, node, _| plan.is_source(node) && plan.is_sink(node);
        step.feeds() && step.makes(is_alone)
    }),
    event("Take without a time of its own, at time 0", |step| {
        !step.feeds() && step.lacks_time(|node| node.time() == 0)
    }),
    event("Take without a time of its own, above time 0", |step| {
        !step.feeds() && step.lacks_time(|node| node.time() > 0)
    }),
    event("the same of a node that has recovered", |step| {
        !step.feeds() && step.lacks_time(|node| node.crash_marked)
    }),
    event("Take with a time of its own after one without", |step| {
        step.has_time_after_none()
    }),
    event("21: Take without a time of its own", |step| {
        step.after == Err(NO_SPACE) && step.without_time().is_some()
    }),
    event("a rule keeps a record from leaving", |step| {
        step.leaves() == Some((true, false))
    }),
    event("a rule lets a record leave", |step| {
        step.leaves() == Some((false, true))
    }),
    event("Send passes over what has no time of its own", |step| {
        step.passes_over_set(|set| set == 0)
    }),
    event("Trim that drops what has no time of its own", |step| {
        step.trims(|line, node, run| drops(line, node, run, |_| true))
    }),
    event("the same, at time 0", |step| {
        step.trims(|line, node, run| drops(line, node, run, |time| time == 0))
    }),
    event("Recover told by what has no time of its own", |step| {
        step.recovered().is_some() && step.is_told_by_silent(step.to_recover())
    }),
    event("Ask told by what has no time of its own", |step| {
        step.after.is_ok() && step.is_told_by_silent(step.to_ask())
    }),
];

impl Stepped<'_> {
    fn to_recover(&self) -> Option<usize> {
        match self.frame {
            Frame::Recover { node } => Some(node.into()),
            _ => None,
        }
    }

    /// What an accepted Recover leaves the node as.
    fn recovered(&self) -> Option<Status> {
        let node = self.to_recover()?;
        Some(self.after.ok()?.nodes[node].status)
    }

    /// The node before an accepted Crash.
    fn crashed(&self) -> Option<&Node> {
        match self.frame {
            Frame::Crash { node } if self.after.is_ok() => {
                Some(&self.before.nodes[usize::from(node)])
            }
            _ => None,
        }
    }

    /// The receiver of a Take, if it was such.
    fn receiver(&self, status: Status) -> Option<usize> {
        let Frame::Take { channel } = self.frame else {
            return None;
        };
        let channel = self.before.plan.channels.get(usize::from(channel))?;
        let is_such = self.before.nodes[channel.receiver].status == status;
        is_such.then_some(channel.receiver)
    }

    /// An accepted Take after which a replay goes on with so many records more.
    fn held(&self, more: usize) -> bool {
        let count = |line: &Line, node: usize| line.nodes[node].buffered.len();
        match (self.receiver(Status::Replaying), self.after) {
            (Some(node), Ok(after)) => {
                after.nodes[node].status == Status::Replaying
                    && count(after, node) == count(self.before, node) + more
            }
            _ => false,
        }
    }

    /// An accepted Feed or Take, and a channel that leaves its node: what the
    /// record is before and after the node's rule.
    fn works(&self, is_such: fn(&Channel, &Record, &Record) -> bool) -> bool {
        let Some((node, came, made)) = self.made() else {
            return false;
        };
        let plan = &self.before.plan;
        let mut leaving = plan.leaving(node);
        self.after.is_ok() && leaving.any(|channel| is_such(&plan.channels[channel], &came, &made))
    }

    /// Of a Feed or Take the node, and the record before and after its rule.
    fn made(&self) -> Option<(usize, Record, Record)> {
        let line = self.before;
        let (node, came) = match self.frame {
            Frame::Feed { node, record } => (usize::from(node), Record::read(record)?),
            Frame::Take { channel } => {
                let number = usize::from(channel);
                let receiver = line.plan.channels.get(number)?.receiver;
                (receiver, line.queues[number].messages.first()?.record)
            }
            _ => return None,
        };
        let rule = line.plan.rules.get(node)?;
        Some((node, came, rule.apply(came)))
    }

    /// An accepted Send: the channel, and the record sent.
    fn sends(&self, is_such: fn(&Channel, &Record) -> bool) -> bool {
        match (self.frame, self.after) {
            (Frame::Send { channel }, Ok(_)) => {
                let number = usize::from(channel);
                let message = self.before.next_to_send(number).expect("it is sent");
                is_such(&self.before.plan.channels[number], &message.record)
            }
            _ => false,
        }
    }

    /// A Send that looks, in vain or before it finds one, at a record that only the
    /// window refuses.
    fn passes_over(&self, is_such: fn(Window, u16) -> bool) -> bool {
        let Frame::Send { channel } = self.frame else {
            return false;
        };
        if !matches!(self.after, Ok(_) | Err(NOTHING_THERE)) {
            return false;
        }
        let (line, number) = (self.before, usize::from(channel));
        let (channel, mark) = (&line.plan.channels[number], line.queues[number].mark);
        let found = line.next_to_send(number);
        let end = found.map_or(u32::MAX, |message| message.time);
        let log = line.nodes[channel.sender].log.iter();
        log.map(|entry| entry.message)
            .filter(|message| mark < message.time && message.time < end)
            .map(|message| message.record)
            .any(|record| refuses_by_mass(channel, &record) && is_such(channel.window, record.mass))
    }

    /// The table that a replay ends with, had the line been changed before.
    fn last_table(&self, change: fn(&mut Line)) -> Option<Table> {
        let (_, number, ended) = self.ended()?;
        let mut complete = self.before.clone();
        complete.nodes[number].buffered = ended.log.iter().map(as_buffered).collect();
        change(&mut complete);
        let (table, _) = complete.replay_table(number);
        Some(table)
    }

    /// A replay's low, its node, and how that is after the end.
    fn ended(&self) -> Option<(u32, usize, &Node)> {
        let number = self.receiver(Status::Replaying)?;
        let ended = &self.after.ok()?.nodes[number];
        let low = self.before.nodes[number].time();
        (ended.status == Status::Up).then_some((low, number, ended))
    }

    /// What the children tell of a Recover that is refused with 24.
    fn told_in_vain(&self) -> Option<Restart> {
        let node = self.to_recover()?;
        (self.after == Err(NO_REPLAY)).then(|| restart(self.before, node))
    }

    /// Whether two of the targets there have one key.
    fn has_two_targets(&self, key: fn(&Target) -> (usize, u32)) -> bool {
        self.told_in_vain().is_some_and(|told| {
            let keys: BTreeSet<(usize, u32)> = told.targets.iter().map(key).collect();
            keys.len() < told.targets.len()
        })
    }

    /// Whether a target is neither held nor the record of the Take, which may be
    /// one that no channel takes.
    fn misses_target(&self) -> Option<bool> {
        let number = self.receiver(Status::Replaying)?;
        let (record, last) = self.taken()?;
        let last = self.before.plan.passes_on(number, &record).then_some(last);
        let node = &self.before.nodes[number];
        let held = node.buffered.iter().map(|held| held.made_from);
        let held: Vec<Origin> = held.chain(last).collect();
        let mut targets = node.targets.iter().map(input);
        Some(targets.any(|input| !held.contains(&input)))
    }

    /// The record of a Take after the receiver's rule, and what it is made from.
    fn taken(&self) -> Option<(Record, Origin)> {
        let Frame::Take { channel } = self.frame else {
            return None;
        };
        let (_, _, record) = self.made()?;
        let number = usize::from(channel);
        let input = Origin {
            sender: self.before.plan.channels[number].sender,
            time: self.before.queues[number].messages[0].time,
        };
        Some((record, input))
    }
}

fn input(target: &Target) -> Origin {
    Origin {
        sender: target.parent,
        time: target.parent_time,
    }
}

fn open_windows(line: &mut Line) {
    for channel in &mut line.plan.channels {
        channel.window = Window::ALL;
    }
}

fn as_buffered(entry: &Entry) -> Buffered {
    Buffered {
        record: entry.message.record,
        made_from: entry.message.made_from.expect("a router's input"),
        input_made_from: entry.input_made_from,
    }
}
