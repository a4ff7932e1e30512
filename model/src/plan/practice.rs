//! Plans of both versions to practise on: for runs, and as bytes that are sound,
//! mutated and random.

use std::collections::BTreeSet;

use super::{Channel, Plan, Version, Window};
use crate::answer::{PLAN_CHANNEL, PLAN_LENGTH, PLAN_SIZE};
use crate::random::Random;
use crate::record::Record;
use crate::rule::Rule;

/// Each wrong in one way.
pub const WRONG_RULES: [[u8; Rule::LENGTH]; 10] = [
    [0, 1, 0, 0],
    [0, 0, 0, 1],
    [0, 0, 1, 0],
    [1, 16, 0, 0],
    [1, 0, 0, 16],
    [1, 0, 1, 0],
    [2, 0, 0, 0],
    [2, 1, 0, 1],
    [3, 0, 0, 0],
    [255, 0, 0, 0],
];

/// Masses of records, caps and ends of windows: beside most of them stands another
/// that is one more or less.
pub const MASSES: [u16; 10] = [0, 1, 49, 50, 51, 99, 100, 101, 65_534, 65_535];

/// In most cases with a node whose crash can lead to a replay: one with parents
/// and two children.
pub fn any_plan(random: &mut Random) -> Plan {
    loop {
        let mut plan = match random.index(3) {
            0 => deep(random),
            1 => fan(random),
            _ => net(random),
        };
        let mut routers = (0..plan.node_count()).filter(|&node| !plan.is_source(node));
        if routers.any(|node| plan.leaving(node).count() >= 2) || random.one_in(32) {
            sort_some_by_mass(random, &mut plan);
            return plan;
        }
    }
}

/// Makes one in two a plan of version 2. In most of those some channels have
/// windows, above all those to sinks, and some nodes caps.
pub fn sort_some_by_mass(random: &mut Random, plan: &mut Plan) {
    if random.one_in(2) {
        return;
    }
    plan.version = Version::Second;
    if random.one_in(8) {
        return;
    }
    for number in 0..plan.channels.len() {
        let is_last = plan.is_sink(plan.channels[number].receiver);
        if random.one_in(4) != is_last {
            plan.channels[number].window = drawn_window(random);
        }
    }
    for rule in &mut plan.rules {
        if *rule == Rule::Keep && random.one_in(4) {
            let greatest = random.pick(&MASSES[1..]);
            *rule = Rule::Cap { greatest };
        }
    }
}

fn drawn_window(random: &mut Random) -> Window {
    let any = random.draw() as u16;
    let [near, other] = [(); 2].map(|()| random.pick(&MASSES));
    let one = if random.one_in(8) { any } else { near };
    let other = if random.one_in(4) { one } else { other };
    Window {
        least: one.min(other),
        greatest: one.max(other),
    }
}

/// The plan in the other version, where that can say it too.
pub fn in_other_version(plan: &Plan) -> Option<Plan> {
    let mut channels = plan.channels.iter();
    let other = match plan.version {
        Version::First => Version::Second,
        Version::Second => Version::First,
    };
    let is_sayable = channels.all(|channel| channel.window == Window::ALL);
    is_sayable.then(|| Plan {
        version: other,
        ..plan.clone()
    })
}

/// Whether nothing but its mass keeps the record off the channel.
pub fn refuses_by_mass(channel: &Channel, record: &Record) -> bool {
    let open = Channel {
        window: Window::ALL,
        ..*channel
    };
    open.takes(record) && !channel.takes(record)
}

/// The set of all channels that leave the node.
pub fn all_leaving(plan: &Plan, node: usize) -> u8 {
    (1 << plan.leaving(node).count()) - 1
}

/// Whether it has some of them, and not all.
pub fn is_partial(plan: &Plan, node: usize, set: u8) -> bool {
    set != 0 && set != all_leaving(plan, node)
}

/// Of version 1; rules keep.
pub fn keeping(node_count: usize, channels: impl IntoIterator<Item = Channel>) -> Plan {
    Plan {
        version: Version::First,
        rules: vec![Rule::Keep; node_count],
        channels: channels.into_iter().collect(),
    }
}

/// Sources, a router and three or four sinks, each of which takes one material or a
/// few only: the router's children part ways so far that free records and floors come up
/// in its replays. Now and then a node without channels.
fn fan(random: &mut Random) -> Plan {
    let sources = random.between(2, 4) as usize;
    let sinks = random.between(3, 4) as usize;
    let alone = usize::from(random.one_in(8));
    let is_by_one = random.one_in(2);
    let entering = (0..sources).map(|source| Channel::between(source, sources));
    let leaving = (1..=sinks).map(|sink| Channel {
        mask: match is_by_one {
            true => 1 << (sink - 1),
            false => 1 << random.index(4) | 1 << random.index(4),
        },
        ..Channel::between(sources, sources + sink)
    });
    keeping(sources + 1 + sinks + alone, entering.chain(leaving))
}

/// Sources, two to four routers, a router that all of them send to, and sinks
/// that take a few materials each: in the last router's replays all that is held
/// was itself made from something.
fn deep(random: &mut Random) -> Plan {
    let sources = random.between(1, 2) as usize;
    let routers = random.between(2, 4) as usize;
    let last = sources + routers;
    let sinks = random.between(3, 4) as usize;
    let entering = (0..sources).flat_map(|source| (sources..last).map(move |node| (source, node)));
    let between = (sources..last).map(|router| (router, last));
    let before = entering
        .chain(between)
        .map(|(from, to)| Channel::between(from, to));
    let leaving = (last + 1..=last + sinks).map(|sink| {
        let modulus = random.pick(&[1, 2, 2, 3]);
        Channel {
            mask: 1 << random.index(3) | 1 << random.index(3),
            modulus,
            remainder: random.index(usize::from(modulus)) as u8,
            ..Channel::between(last, sink)
        }
    });
    keeping(last + 1 + sinks, before.chain(leaving))
}

/// Any nodes and channels between them.
fn net(random: &mut Random) -> Plan {
    let most_nodes = random.pick(&[5, 8, Plan::MOST_NODES as u32]);
    let node_count = random.between(Plan::LEAST_NODES as u32, most_nodes) as usize;
    let most_channels = random.pick(&[2 * most_nodes, Plan::MOST_CHANNELS as u32]);
    let wanted = random.between(1, most_channels) as usize;
    let reach = random.pick(&[1, 2, 3, Plan::MOST_NODES]);
    let ends = drawn_ends(random, node_count, wanted, reach);
    let kinds = random.pick(&[1, 2, 3]);
    let channels = ends
        .into_iter()
        .map(|(sender, receiver)| drawn_channel(random, kinds, sender, receiver));
    let mut plan = keeping(node_count, channels);
    plan.rules.fill_with(|| drawn_rule(random, 4, 8));
    plan
}

/// Senders and receivers, rising, no more at a node than it may have.
fn drawn_ends(
    random: &mut Random,
    node_count: usize,
    wanted: usize,
    reach: usize,
) -> BTreeSet<(usize, usize)> {
    let mut ends = BTreeSet::new();
    let mut entering = vec![0; node_count];
    let mut leaving = vec![0; node_count];
    for _ in 0..4 * wanted {
        let sender = random.index(node_count - 1);
        let receiver = sender + 1 + random.index(reach.min(node_count - 1 - sender));
        let fits = leaving[sender] < Plan::MOST_AT_A_NODE
            && entering[receiver] < Plan::MOST_AT_A_NODE
            && ends.len() < wanted;
        if fits && ends.insert((sender, receiver)) {
            leaving[sender] += 1;
            entering[receiver] += 1;
        }
    }
    ends
}

/// A relabel of one of so many materials, or a cap, each once in so many times.
fn drawn_rule(random: &mut Random, materials: usize, times: usize) -> Rule {
    let [from, to] = [(); 2].map(|()| random.index(materials) as u8);
    let any = random.between(1, 65_535) as u16;
    let near = random.pick(&MASSES[1..]);
    match random.index(times) {
        0 => Rule::Relabel { from, to },
        1 => Rule::Cap {
            greatest: random.pick(&[any, near, near]),
        },
        _ => Rule::Keep,
    }
}

/// `kinds` materials are told apart, besides those that every channel takes.
fn drawn_channel(random: &mut Random, kinds: u32, sender: usize, receiver: usize) -> Channel {
    let few = random.between(1, (1 << (kinds + 1)) - 1) as u16;
    let many = random.between(1, 0xFFFF) as u16;
    let mask = random.pick(&[0xFFFF, 0xFFFF, few, few, few, few, few, many]);
    let modulus = random.pick(&[1, 1, 1, 1, 1, 2, 3, 255]);
    Channel {
        mask,
        modulus,
        remainder: random.index(usize::from(modulus.min(3))) as u8,
        ..Channel::between(sender, receiver)
    }
}

/// Sound but for its degrees: channels in order, each pair once; some nodes may
/// have more than four.
pub fn plan(random: &mut Random) -> Vec<u8> {
    let node_count = random.between(2, 12) as usize;
    let mut channels = Vec::new();
    let often = random.between(1, 4);
    for sender in 0..node_count - 1 {
        for receiver in sender + 1..node_count {
            if channels.len() < Plan::MOST_CHANNELS && random.one_in(often) {
                let modulus = random.between(1, 255);
                channels.push(Channel {
                    mask: random.between(1, 65_535) as u16,
                    modulus: modulus as u8,
                    remainder: random.between(0, modulus - 1) as u8,
                    ..Channel::between(sender, receiver)
                });
            }
        }
    }
    if channels.is_empty() {
        channels.push(Channel::between(0, 1));
    }
    let mut plan = keeping(node_count, channels);
    plan.rules.fill_with(|| drawn_rule(random, 16, 3));
    sort_some_by_mass(random, &mut plan);
    plan.write()
}

pub fn mutate(random: &mut Random, bytes: &mut Vec<u8>) {
    match random.between(0, 7) {
        0 => bytes.truncate(random.index(bytes.len() + 1)),
        1 => bytes.push(random.draw() as u8),
        2 if bytes.len() > 5 => {
            // Two channels or parts of them change places.
            let (a, b) = (random.index(bytes.len()), random.index(bytes.len()));
            bytes.swap(a, b);
        }
        3 if bytes.len() > 5 => {
            // A number of two bytes becomes one more than the next.
            let at = random.index(bytes.len() - 3);
            let next = u16::from_be_bytes([bytes[at + 2], bytes[at + 3]]);
            bytes[at..at + 2].copy_from_slice(&next.wrapping_add(1).to_be_bytes());
        }
        _ => {
            for _ in 0..random.between(1, 3) {
                let any = random.index(bytes.len());
                let head = random.index(bytes.len().min(Plan::HEADER));
                let at = random.pick(&[head, any, any, any]);
                bytes[at] = match random.between(0, 3) {
                    0 => random.draw() as u8,
                    1 => random.between(0, 16) as u8,
                    2 => bytes[at].wrapping_add(1),
                    _ => bytes[at].wrapping_sub(1),
                };
            }
        }
    }
}

/// Small numbers that may begin as a plan does.
pub fn noise(random: &mut Random) -> Vec<u8> {
    let length = random.index(70);
    (0..length).map(|_| random.between(0, 12) as u8).collect()
}

/// What the bytes of a plan may be that a practice must not miss.
pub type Case = (&'static str, fn(&[u8], &Result<Plan, u32>) -> bool);

pub const CASES: [Case; 10] = [
    ("version 1, accepted", |bytes, plan| {
        bytes[2] == 1 && plan.is_ok()
    }),
    ("version 1, refused", |bytes, plan| {
        bytes[2] == 1 && plan.is_err()
    }),
    ("version 2, accepted", |bytes, plan| {
        bytes[2] == 2 && plan.is_ok()
    }),
    ("version 2, refused", |bytes, plan| {
        bytes[2] == 2 && plan.is_err()
    }),
    ("version 0", |bytes, _| bytes[2] == 0),
    ("version 3", |bytes, _| bytes[2] == 3),
    ("a window of one mass, accepted", |_, plan| {
        let windows = plan.iter().flat_map(|plan| &plan.channels);
        let mut windows = windows.map(|channel| channel.window);
        windows.any(|window| window.least == window.greatest)
    }),
    ("4 for a length of the other version", |bytes, plan| {
        let (nodes, channels) = (usize::from(bytes[3]), usize::from(bytes[4]));
        let lengths = Version::ALL.map(|version| version.plan_length(nodes, channels));
        *plan == Err(PLAN_SIZE) && lengths.contains(&bytes.len())
    }),
    ("6 for a window alone", |bytes, plan| {
        !wrong_windows(bytes, plan).is_empty()
    }),
    (
        "6 for a least mass one above the greatest",
        |bytes, plan| {
            let mut windows = wrong_windows(bytes, plan).into_iter();
            windows.any(|window| window.least - 1 == window.greatest)
        },
    ),
];

/// The names of the cases that the bytes are, if they are as long as they say.
pub fn cases(bytes: &[u8]) -> Vec<&'static str> {
    let plan = Plan::read(bytes);
    if plan == Err(PLAN_LENGTH) {
        return Vec::new();
    }
    let cases = CASES.iter().filter(|(_, is_it)| is_it(bytes, &plan));
    cases.map(|(name, _)| *name).collect()
}

/// The windows for which alone a plan is refused with 6.
fn wrong_windows(bytes: &[u8], plan: &Result<Plan, u32>) -> Vec<Window> {
    if bytes[2] != 2 || *plan != Err(PLAN_CHANNEL) {
        return Vec::new();
    }
    let mut open = bytes.to_vec();
    let mut wrong = Vec::new();
    let start = Plan::HEADER + Rule::LENGTH * usize::from(bytes[3]);
    for channel in open[start..].chunks_exact_mut(Version::Second.channel_length()) {
        let window = Channel::spelled(Version::Second, channel).window;
        if window.least > window.greatest {
            wrong.push(window);
        }
        channel[6..].copy_from_slice(&[0, 0, 255, 255]);
    }
    match Plan::read(&open) {
        Err(PLAN_CHANNEL) => Vec::new(),
        _ => wrong,
    }
}
