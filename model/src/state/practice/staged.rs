//! Lines that hold nothing, a little of everything, or as much as they can,
//! reached by frames: as lines, or as the sheets that lead there.

use super::pick::channel_between;
use super::Played;
use crate::line::practice::{give_sets, make_late};
use crate::line::{Frame, Line, Status};
use crate::plan::practice::keeping;
use crate::plan::{Channel, Plan, Version};
use crate::random::Random;
use crate::record::Record;

pub trait Staged: Played + From<Plan> {}

impl<T: Played + From<Plan>> Staged for T {}

/// Two nodes, one channel, no step.
pub fn fresh<T: Staged>() -> T {
    plan_of(2, vec![(0, 1)]).into()
}

/// A little of everything, of version 2: node 3 replays and holds a tick and a record
/// from node 1, a tick waits before it, node 7 is down and asked, messages wait before node
/// 11.
pub fn mixed<T: Staged>() -> T {
    let replay = [(0, 1), (1, 3), (2, 3), (3, 4), (3, 5)];
    let others = [(6, 7), (7, 8), (9, 10), (10, 11)];
    let mut line: T = windowed(plan_of(12, [&replay[..], &others[..]].concat())).into();
    for record in [piece(1), piece(2), Record::TICK, piece(3)] {
        feed(&mut line, 0, record);
        pass(&mut line, 0);
        pass(&mut line, 1);
    }
    feed(&mut line, 2, piece(4));
    pass(&mut line, 2);
    for channel in [3, 3, 3, 3, 3, 4, 4] {
        pass(&mut line, channel);
    }
    restart(&mut line, 3);
    feed(&mut line, 0, Record::TICK);
    for channel in [0, 1, 1] {
        pass(&mut line, channel);
    }
    accept(&mut line, Frame::Send { channel: 1 });
    accept(&mut line, Frame::Send { channel: 2 });
    feed(&mut line, 6, piece(5));
    pass(&mut line, 5);
    pass(&mut line, 6);
    accept(&mut line, Frame::Crash { node: 7 });
    accept(&mut line, Frame::Ask { node: 7 });
    for number in 6..=9 {
        feed(&mut line, 9, piece(number));
        pass(&mut line, 7);
        accept(&mut line, Frame::Send { channel: 8 });
    }
    accept(&mut line, Frame::Take { channel: 8 });
    line
}

/// Twelve full logs and 24 full channels: two sources, then nodes that take
/// from the two or three before them.
pub fn full<T: Staged>() -> T {
    let near = (2..12).flat_map(|node| [(node - 2, node), (node - 1, node)]);
    let far = (8..12).map(|node| (node - 3, node));
    let mut line: T = plan_of(12, near.chain(far).collect()).into();
    for node in 0..12 {
        if line.line().plan.is_source(node) {
            fill_source(&mut line, node);
        }
        let room = Line::MOST_ENTRIES - line.line().nodes[node].log.len();
        take_in_turn(&mut line, node, room);
    }
    fill_channels(&mut line);
    line
}

/// All but full: node 0 can be fed once more, the last channel holds 7 messages
/// of 8, and its receiver can take one of them.
pub fn nearly_full() -> Line {
    let mut line: Line = full();
    let last = line.queues.len() - 1;
    for node in [0, line.plan.channels[last].receiver] {
        line.nodes[node].log.pop();
        line.nodes[node].clock.time -= 1;
    }
    let queue = &mut line.queues[last];
    queue.messages.pop();
    queue.mark = queue.messages[Line::MOST_MESSAGES - 2].time;
    line
}

/// All but full and by piece: router 5 can take, on the first channel that enters it, what
/// none of its channels takes; that of node 0 does not take odd pieces.
pub fn silent() -> Line {
    let mut line = by_piece(nearly_full());
    let router = 5;
    line.nodes[router].log.pop();
    line.nodes[router].clock.time -= 1;
    let record = Record {
        material: 5,
        ..piece(2)
    };
    assert!(!line.plan.is_timed(router, &record));
    let entering = line.plan.entering(router).next().expect("a parent");
    line.queues[entering].messages[0].record = record;
    line
}

/// The full line, by hand as if every node had heard of all that there is: a Trim
/// drops all of a log.
pub fn heard_by_all() -> Line {
    let mut line: Line = full();
    let times: Vec<u32> = line.nodes.iter().map(|node| node.time()).collect();
    for (number, channel) in line.plan.channels.clone().into_iter().enumerate() {
        let clock = &mut line.nodes[channel.receiver].clock;
        clock.raise_taken(channel.sender, times[channel.sender]);
        for before in line.plan.parents(channel.sender) {
            clock.raise_heard(channel.sender, before, times[before]);
        }
        line.queues[number].mark = times[channel.sender];
        line.queues[number].messages.clear();
    }
    line
}

/// The same after a Trim of every node, and half a log more in each source.
pub fn trimmed() -> Line {
    let mut line = heard_by_all();
    for node in 0..line.nodes.len() as u8 {
        accept(&mut line, Frame::Trim { node });
    }
    for node in 0..line.nodes.len() {
        if line.plan.is_source(node) {
            for number in 0..Line::MOST_ENTRIES as u32 / 2 {
                feed(&mut line, node, piece(number));
            }
        }
    }
    line
}

/// Four routers between four sources and four sinks: each takes from all of the
/// sources and sends to two of the sinks.
pub fn routers_plan() -> Plan {
    let entering = (0..4).flat_map(|source| (4..8).map(move |router| (source, router)));
    let leaving = (4..8).flat_map(|router| [(router, router + 4), (router, 8 + (router + 1) % 4)]);
    plan_of(12, entering.chain(leaving).collect())
}

/// The routers replay, and one Take more ends the replay of each.
pub fn replaying<T: Staged>() -> T {
    holding(Line::MOST_TARGETS - 1)
}

/// One of them is down instead: its children tell 64 targets.
pub fn down<T: Staged>() -> T {
    let mut line = replaying();
    accept(&mut line, Frame::Crash { node: 4 });
    line
}

/// The same, asked: it keeps the 64 targets.
pub fn asked<T: Staged>() -> T {
    let mut line = down();
    accept(&mut line, Frame::Ask { node: 4 });
    line
}

/// All four are down and keep what was asked. Of each, one sink has taken 54 and the other
/// 10: so 44 targets, and entries that are not alike.
pub fn all_asked<T: Staged>() -> T {
    let mut line: T = filled_routers();
    for router in 4..8 {
        for (sink, count) in [(router + 4, 54), (8 + (router + 1) % 4, 10)] {
            let channel = channel_between(line.line(), router, sink);
            for _ in 0..count {
                pass(&mut line, channel);
            }
        }
    }
    for node in 4..8 {
        accept(&mut line, Frame::Crash { node });
        accept(&mut line, Frame::Ask { node });
    }
    line
}

/// The routers replay with 64 targets each, of which so many are held. The
/// sources' and sinks' logs are full, and so are the channels that enter the
/// routers.
pub fn holding<T: Staged>(held: usize) -> T {
    replaying_by(take_in_turn, held)
}

/// The same, but each router has taken again all of one source, then of the next.
pub fn holding_by_rows<T: Staged>(held: usize) -> T {
    replaying_by(take_by_rows, held)
}

/// The sources', routers' and sinks' logs are full, and a Trim drops nothing: of each
/// router one sink has taken all, the other nothing.
pub fn half_heard<T: Staged>() -> T {
    let mut line: T = filled_routers();
    for router in 4..8 {
        // To its own sink only, so that the other one has heard nothing.
        let own = channel_between(line.line(), router, router + 4);
        for _ in 0..Line::MOST_ENTRIES {
            pass(&mut line, own);
        }
    }
    line
}

/// The sources' and the routers' logs are full.
fn filled_routers<T: Staged>() -> T {
    let mut line: T = routers_plan().into();
    for source in 0..4 {
        fill_source(&mut line, source);
    }
    for router in 4..8 {
        take_in_turn(&mut line, router, Line::MOST_ENTRIES);
    }
    line
}

fn replaying_by<T: Staged>(take: fn(&mut T, usize, usize), held: usize) -> T {
    let mut line: T = half_heard();
    for router in 4..8 {
        restart(&mut line, router);
        take(&mut line, router, held);
    }
    fill_channels(&mut line);
    line
}

/// How many steps a worn line's console has left at the most.
pub const STEPS_LEFT: u32 = 60;

/// Of console 0 all steps but about fifty are used up: a router between a source
/// and two sinks, one of which has taken more than the other, crashes, recovers,
/// replays and goes on, time and again.
pub fn worn<T: Staged>() -> T {
    let mut line: T = plan_of(4, vec![(0, 1), (1, 2), (1, 3)]).into();
    for number in 0..4 {
        feed(&mut line, 0, piece(number));
    }
    for channel in [0, 1, 0, 1, 0, 1, 2] {
        pass(&mut line, channel);
    }
    while line.line().steps[0] < Line::MOST_STEPS - STEPS_LEFT {
        restart(&mut line, 1);
        for _ in 0..3 {
            pass(&mut line, 0);
        }
        accept(&mut line, Frame::Send { channel: 2 });
    }
    line
}

/// The worn line, by hand as worn by the other consoles, or more; some have all of
/// their steps left. Times are late.
pub fn worn_by_all(random: &mut Random, worn: &Line) -> Line {
    let mut line = worn.clone();
    let is_spared = random.one_in(4);
    for count in &mut line.steps[1..] {
        let few = Line::MOST_STEPS - random.between(0, STEPS_LEFT);
        let spared = if is_spared { 0 } else { few };
        *count = random.pick(&[few, few, few, spared]);
    }
    make_late(random, &mut line);
    line
}

/// Rules keep, channels take all.
pub fn plan_of(node_count: usize, mut ends: Vec<(usize, usize)>) -> Plan {
    ends.sort_unstable();
    let channels = ends
        .into_iter()
        .map(|(from, to)| Channel::between(from, to));
    keeping(node_count, channels)
}

/// The line with channels that sort by piece number and material, by hand. Of a
/// node's first two, one or both take what is fed here. Those to nodes that are not up
/// take all, so that replays end.
pub fn by_piece(mut line: Line) -> Line {
    for node in 0..line.nodes.len() {
        let leaving: Vec<usize> = line.plan.leaving(node).collect();
        for (place, number) in leaving.into_iter().enumerate() {
            let channel = &mut line.plan.channels[number];
            if line.nodes[channel.receiver].status != Status::Up {
                continue;
            }
            match place {
                0 => (channel.modulus, channel.remainder) = (2, (node % 2) as u8),
                1 => channel.mask = [0xAFAF, 0x5F5F][node % 2],
                _ => (channel.modulus, channel.mask) = (3, 0x7FFE),
            }
        }
    }
    give_sets(&mut line);
    line
}

/// The line with its plan in version 2, windows and all.
pub fn by_mass(mut line: Line) -> Line {
    line.plan = windowed(line.plan);
    line
}

/// In version 2, with windows that have every mass that is fed here.
fn windowed(mut plan: Plan) -> Plan {
    plan.version = Version::Second;
    for channel in &mut plan.channels {
        channel.window.greatest = 999;
    }
    plan
}

fn accept(line: &mut impl Played, frame: Frame) {
    assert_eq!(line.step(&frame.write()), 0, "{frame:?}");
}

pub fn piece(number: u32) -> Record {
    Record {
        piece: number,
        material: (number % 16) as u8,
        mass: (number % 1000) as u16,
    }
}

fn feed(line: &mut impl Played, node: usize, record: Record) {
    let frame = Frame::Feed {
        node: node as u8,
        record: record.write(),
    };
    accept(line, frame);
}

fn fill_source(line: &mut impl Played, node: usize) {
    for number in 0..Line::MOST_ENTRIES as u32 {
        feed(line, node, piece(1000 * node as u32 + number));
    }
}

fn restart(line: &mut impl Played, router: usize) {
    let node = router as u8;
    accept(line, Frame::Crash { node });
    accept(line, Frame::Recover { node });
    assert_eq!(line.line().nodes[router].status, Status::Replaying);
}

fn pass(line: &mut impl Played, channel: usize) {
    let channel = channel as u8;
    accept(line, Frame::Send { channel });
    accept(line, Frame::Take { channel });
}

/// So many messages, parents in turn.
fn take_in_turn(line: &mut impl Played, node: usize, messages: usize) {
    let entering: Vec<usize> = line.line().plan.entering(node).collect();
    for channel in entering.iter().cycle().take(messages) {
        pass(line, *channel);
    }
}

/// So many messages, as many from each parent before the next one's come.
fn take_by_rows(line: &mut impl Played, node: usize, messages: usize) {
    let entering: Vec<usize> = line.line().plan.entering(node).collect();
    let each = Line::MOST_TARGETS / entering.len();
    for place in 0..messages {
        pass(line, entering[place / each]);
    }
}

/// Sends on every channel for as long as there is something and room for it.
fn fill_channels(line: &mut impl Played) {
    for channel in 0..line.line().queues.len() as u8 {
        while line.step(&Frame::Send { channel }.write()) == 0 {}
    }
}
