//! Routers down between sources and sinks whose logs and low clocks no frames leave
//! so. Their Recover finds targets that agree, that conflict, that are too many or
//! whose rows are complete at once; what the sources then send can be placed, or not.
//! In half of the cases times are late, in some those of the router far apart.

use super::late::each_time;
use super::{age, give_sets, greatest_time, or_tick, reach};
use crate::line::{Entry, Line, Message, Node, Origin, Status};
use crate::plan::practice::{keeping, sort_some_by_mass, MASSES};
use crate::plan::{Channel, Plan};
use crate::random::Random;
use crate::record::Record;
use crate::rule::Rule;

/// Sink `c` takes the materials that have bit `c`.
const MASKS: [u16; Plan::MOST_AT_A_NODE] = [0xAAAA, 0xCCCC, 0xF0F0, 0xFF00];

/// What a router did before it crashed.
pub(super) struct Past {
    router: usize,
    parents: Vec<usize>,
    high: u32,
    /// One record in so many is a tick.
    ticks: u32,
    made: Vec<Made>,
}

/// What a router logged at one of its times.
struct Made {
    time: u32,
    input: Origin,
    record: Record,
}

/// The line, and its router.
pub fn torn(random: &mut Random) -> (Line, usize) {
    let sources = random.between(1, 4) as usize;
    let sinks = random.pick(&[1, 2, 3, 3, 4, 4]);
    let mut line = Line::of(plan(random, sources, sinks));
    let high = random.pick(&[2, 4, 8, 20, 100]);
    let past = Past::drawn(random, &line.plan, sources, high);
    for source in 0..sources {
        past.fill_source(random, &mut line.nodes[source], source);
    }
    past.fill_children(random, &mut line);
    if random.one_in(3) {
        for sink in sources + 1..line.nodes.len() {
            trim_some(random, &mut line.nodes[sink]);
        }
    }
    give_sets(&mut line);
    line.nodes[sources].status = Status::Down;
    line.nodes[sources].crash_marked = true;
    if random.one_in(24) {
        let stride = 3_500_000 / high;
        each_time(&mut line, &mut |node, time| {
            *time *= if node == sources { stride } else { 1 };
        });
    }
    give_steps(random, &mut line);
    (line, sources)
}

/// As many as the times want, and late times in half of the cases.
pub(super) fn give_steps(random: &mut Random, line: &mut Line) {
    if random.one_in(2) {
        let accepted = greatest_time(line).max(1_000);
        reach(random, line, accepted);
    } else {
        age(random, line);
    }
}

fn plan(random: &mut Random, sources: usize, sinks: usize) -> Plan {
    let entering = (0..sources).map(|source| Channel::between(source, sources));
    let leaving = (0..sinks).map(|sink| Channel {
        mask: MASKS[sink],
        ..Channel::between(sources, sources + 1 + sink)
    });
    let mut plan = keeping(sources + 1 + sinks, entering.chain(leaving));
    plan.rules[sources] = random.pick(&[
        Rule::Keep,
        Rule::Keep,
        Rule::Cap { greatest: 50 },
        Rule::Relabel { from: 5, to: 0 },
    ]);
    sort_some_by_mass(random, &mut plan);
    plan
}

impl Past {
    pub(super) fn drawn(random: &mut Random, plan: &Plan, router: usize, high: u32) -> Past {
        let ticks = random.pick(&[8, 1_000, 1_000]);
        let parents: Vec<usize> = plan.parents(router).collect();
        let made = drawn_made(random, &parents, high, ticks);
        Past {
            router,
            parents,
            high,
            ticks,
            made,
        }
    }

    /// All that was made from the source, and what was between, as far as there is
    /// room.
    fn fill_source(&self, random: &mut Random, node: &mut Node, source: usize) {
        let of_source = self.made.iter().filter(|made| made.input.sender == source);
        let last = of_source.clone().map(|made| made.input.time).max();
        let misses = random.pick(&[8, 1_000, 1_000]);
        for time in 1..=last.unwrap_or(0) + random.between(0, 70) {
            let known = of_source.clone().find(|made| made.input.time == time);
            let any = drawn_record(random, self.ticks, 0);
            if node.log.len() < Line::MOST_ENTRIES && !random.one_in(misses) {
                let record = known.map_or(any, |made| made.record);
                node.log.push(entry(time, record, None, None));
            }
            node.clock.time = time;
        }
    }

    /// Each child has taken what its channel takes, up to some time.
    pub(super) fn fill_children(&self, random: &mut Random, line: &mut Line) {
        let is_right = !random.one_in(4);
        let rule = if is_right {
            line.plan.rules[self.router]
        } else {
            Rule::Keep
        };
        for channel in line.plan.leaving(self.router) {
            let channel = &line.plan.channels[channel];
            let any = random.between(0, self.high);
            let entry = random.pick(&[any, any, self.high]);
            let node = &mut line.nodes[channel.receiver];
            node.clock.raise_taken(self.router, entry);
            let made = self.made.iter().filter(|made| made.time <= entry);
            for made in made.filter(|made| channel.takes(&rule.apply(made.record))) {
                self.log_made(random, node, made, is_right);
            }
        }
    }

    /// A child logs what it took, if there is room. One in some is told otherwise than
    /// it was, unless all is to be right.
    fn log_made(&self, random: &mut Random, node: &mut Node, made: &Made, is_right: bool) {
        if node.log.len() == Line::MOST_ENTRIES {
            return;
        }
        let (mut time, mut input) = (made.time, made.input);
        if !is_right && random.one_in(6) {
            match random.index(3) {
                0 => time = random.between(1, node.clock.taken(self.router)),
                1 => input.time = random.between(1, 20),
                _ => input.sender = random.pick(&self.parents),
            }
        }
        let sender = Origin {
            sender: self.router,
            time,
        };
        node.clock
            .raise_heard(self.router, input.sender, input.time);
        node.clock.time += 1;
        let own = node.clock.time;
        node.log
            .push(entry(own, made.record, Some(sender), Some(input)));
    }
}

/// Most times up to high, each from another input; along a parent inputs rise.
fn drawn_made(random: &mut Random, parents: &[usize], high: u32, ticks: u32) -> Vec<Made> {
    let mut last = [0; Plan::MOST_NODES];
    let gap = random.pick(&[1, 1, 1, 1, 2, 3]);
    let empty = random.pick(&[2, 4, 16]);
    let mut made = Vec::new();
    for time in 1..=high {
        if random.one_in(empty) {
            continue;
        }
        let sender = random.pick(parents);
        last[sender] += random.between(1, gap);
        made.push(Made {
            time,
            input: Origin {
                sender,
                time: last[sender],
            },
            record: drawn_record(random, ticks, 1),
        });
    }
    made
}

/// The first entries are gone from the log and kept as the low clock, or there is a
/// low clock that no entries leave.
pub(super) fn trim_some(random: &mut Random, node: &mut Node) {
    let most = random.pick(&[0, node.log.len() / 2, node.log.len()]);
    for entry in node.log.drain(..random.between(0, most as u32) as usize) {
        let input = entry.message.made_from.expect("a child's input");
        node.low_clock.raise_by(input, entry.input_made_from);
    }
    if random.one_in(8) {
        node.low_clock.parents = node.clock.parents.clone();
    }
}

fn drawn_record(random: &mut Random, ticks: u32, least_material: u32) -> Record {
    let record = Record {
        piece: random.draw() as u32,
        material: random.between(least_material, 15) as u8,
        mass: random.pick(&MASSES),
    };
    or_tick(random, ticks, record)
}

/// Its set comes later.
fn entry(
    time: u32,
    record: Record,
    made_from: Option<Origin>,
    input_made_from: Option<Origin>,
) -> Entry {
    Entry {
        message: Message {
            record,
            time,
            made_from,
        },
        input_made_from,
        set: 0,
    }
}
