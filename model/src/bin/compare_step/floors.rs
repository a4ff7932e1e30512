// The rows of the counts and the least count of each.

use std::fmt::Display;

use model::answer::ACCEPTED;
use model::compare::{answer, under, EitherOrder, Floor};
use model::line::practice::EVENTS;
use model::line::{Caller, Frame};
use model::plan::{Plan, Version};
use model::state::practice::{Kind, AFTER_A_SET, HARMLESS, OTHER_SETS};

/// What the rows stand under.
pub mod section {
    pub const CALLS: &str = "calls, by their states";
    pub const FRAMES: &str = "calls, by their frames";
    pub const ANSWERS: &str = "answers";
    pub const VERSIONS: &str = "frames as long as their field says, by the version byte";
    pub const KINDS: &str = "frames of the right form on undamaged states";
    pub const CALLERS: &str = "the same, by who sends them";
    pub const PLANS: &str = "the same, by the version of the plan";
    pub const BOTH: &str = "the same step with the plan in either version";
    pub const FROM_ALL: &str = "the same step from every caller";
    pub const RESTARTS: &str = "Commit and Recover on the same state";
    pub const EITHER: &str = "two restarts in either order";
    pub const EITHER_NODES: &str = "the same, by how the nodes stand to each other";
    pub const EITHER_KINDS: &str = "the same, by their kinds, the lower node's first";
    pub const EITHER_CALLERS: &str = "the same, by who sends them";
    pub const EITHER_LEFT: &str = "the same where both are accepted, by what they leave";
    pub const BETWEEN: &str = "Commits, by the accepted steps since the Ask";
    pub const EVENTS: &str = "what steps do and why they are refused";
    pub const TIMES: &str = "times, where they count what leaves, after accepted steps";
    pub const BESIDE: &str = "full logs where a Feed that no channel takes is accepted";
    pub const REFILLED: &str = "accepted where the log has been full and was trimmed";
    pub const HARMLESS: &str = "undamaged states that no run leads to, each with every frame";
    pub const DAMAGED: &str = "damaged states";
    pub const SETS: &str = "damaged by one set, with a frame that was accepted before";
}

pub const ALL: &str = "all";

/// What the states of the calls are.
pub mod on {
    pub const LOADED: &str = "on runs from Load";
    pub const LATE: &str = "on runs from late times";
    pub const WORN: &str = "to the end of a console's steps";
    pub const STAGED: &str = "on the fullest lines";
    pub const TORN: &str = "replays of what no run leaves";
    pub const CHANGED: &str = "undamaged, no run leads there";
    pub const DAMAGED: &str = "damaged";
}

/// How their frames are made.
pub mod with {
    pub const PLAYED: &str = "drawn in a run";
    pub const EVERY: &str = "every kind at every place";
    pub const TYPED: &str = "as people type";
    pub const CUT: &str = "cut or too long";
    pub const RANDOM: &str = "random bytes";
}

pub fn all() -> Vec<Floor> {
    let mut floors = under(section::CALLS, 1_000_000, [ALL]);
    floors.extend(under(section::CALLS, 300_000, [on::LOADED, on::LATE]));
    floors.extend(under(section::CALLS, 10_000, [on::WORN]));
    floors.extend(under(section::CALLS, 10_000, [on::STAGED]));
    floors.extend(under(section::CALLS, 300_000, [on::TORN, on::CHANGED]));
    floors.extend(under(section::CALLS, 30_000, [on::DAMAGED]));
    floors.extend(under(section::FRAMES, 300_000, [with::PLAYED, with::EVERY]));
    floors.extend(under(section::FRAMES, 30_000, [with::TYPED]));
    floors.extend(under(section::FRAMES, 5_000, [with::CUT]));
    floors.extend(under(section::FRAMES, 5_000, [with::RANDOM]));
    floors.extend(under(section::ANSWERS, 100_000, [0].map(answer)));
    floors.extend(under(
        section::ANSWERS,
        1_000,
        (8..=21).chain(24..=27).map(answer),
    ));
    floors.extend(under(section::VERSIONS, 1_000, VERSIONS.map(version)));
    floors.extend(under(section::VERSIONS, 1_000, [OTHER_VERSION]));
    let outcomes = KINDS
        .iter()
        .flat_map(|kind| [true, false].map(|is| outcome(kind, is)));
    floors.extend(under(section::KINDS, 2_000, outcomes));
    let outcomes = Caller::ALL
        .iter()
        .flat_map(|caller| [true, false].map(|is| outcome(caller, is)));
    floors.extend(under(section::CALLERS, 20_000, outcomes));
    let outcomes = Version::ALL
        .iter()
        .flat_map(|&version| [true, false].map(|is| plan(version, is)));
    floors.extend(under(section::PLANS, 100_000, outcomes));
    floors.extend(under(section::BOTH, 5_000, [true, false].map(both)));
    floors.extend(under(section::FROM_ALL, 1_000, FROM_ALL));
    floors.extend(under(section::RESTARTS, 2_000, [true, false].map(restarts)));
    floors.extend(either_order());
    floors.extend(under(section::BETWEEN, 100, BETWEEN));
    let events = EVENTS.iter().map(|event| event.name);
    floors.extend(under(section::EVENTS, 100, events));
    floors.extend(under(section::TIMES, 5_000, TIMES));
    floors.extend(under(section::BESIDE, 100, [BESIDE]));
    let [feed, take] = REFILLED;
    floors.extend(under(section::REFILLED, 500, [feed]));
    floors.extend(under(section::REFILLED, 50, [take]));
    let harmless = HARMLESS.iter().map(|harmless| harmless.name);
    floors.extend(under(section::HARMLESS, 20, harmless));
    let damaged = DAMAGED.iter().map(|kind| format!("{kind:?}"));
    floors.extend(under(section::DAMAGED, 500, damaged));
    let others = OTHER_SETS.iter().map(|other| other.name);
    floors.extend(under(section::SETS, 200, others.chain([AFTER_A_SET])));
    floors
}

fn either_order() -> Vec<Floor> {
    let mut floors = Vec::new();
    for (least, row) in EITHER {
        floors.extend(under(section::EITHER, least, [row]));
    }
    for (section, rows) in [
        (section::EITHER_NODES, &RELATIONS[..]),
        (section::EITHER_KINDS, &RESTARTS),
        (section::EITHER_CALLERS, &TWO_CALLERS),
    ] {
        let outcomes = rows
            .iter()
            .flat_map(|row| [true, false].map(|is| outcome(row, is)));
        floors.extend(under(section, 1_000, outcomes));
    }
    floors.extend(under(section::EITHER_LEFT, 2_000, LEFT));
    floors
}

const DAMAGED: &[Kind] = &[
    Kind::Condition,
    Kind::Disturbed,
    Kind::Field,
    Kind::Byte,
    Kind::Bit,
    Kind::Shuffled,
    Kind::Scrambled,
    Kind::Unused,
    Kind::Length,
];

const VERSIONS: [u8; 5] = [0, 1, 2, 3, 255];
const OTHER_VERSION: &str = "another version";

pub fn version(byte: u8) -> String {
    match VERSIONS.contains(&byte) {
        true => format!("version {byte}"),
        false => OTHER_VERSION.to_string(),
    }
}

pub const FROM_ALL: [&str; 4] = [
    "accepted from all",
    "refused from all",
    "12 from some, accepted from others",
    "12 from some, refused from others",
];

/// The node of the step, which no Crash has named.
pub const TIMES: [&str; 4] = [
    "a source, raised",
    "a source, as it was",
    "a node that takes, raised",
    "a node that takes, as it was",
];

pub const BESIDE: &str = "21 for a tick and for another record";

/// Of a source and of a sink: no Crash empties their logs.
pub const REFILLED: [&str; 2] = ["a Feed", "a Take of a sink"];

const KINDS: [&str; 8] = [
    "Feed", "Send", "Take", "Crash", "Recover", "Trim", "Ask", "Commit",
];

pub fn kind(frame: &Frame, is_accepted: bool) -> String {
    let kind = match frame {
        Frame::Feed { .. } => 0,
        Frame::Send { .. } => 1,
        Frame::Take { .. } => 2,
        Frame::Crash { .. } => 3,
        Frame::Recover { .. } => 4,
        Frame::Trim { .. } => 5,
        Frame::Ask { .. } => 6,
        Frame::Commit { .. } => 7,
    };
    outcome(KINDS[kind], is_accepted)
}

pub fn plan(version: Version, is_accepted: bool) -> String {
    outcome(format!("version {}", version as u8), is_accepted)
}

pub fn both(is_accepted: bool) -> String {
    outcome("in both", is_accepted)
}

pub fn restarts(is_accepted: bool) -> String {
    outcome("both", is_accepted)
}

const EITHER: [(usize, &str); 11] = [
    (10_000, "both accepted"),
    (100, "one accepted, the other 12"),
    (50, "one accepted, the other 21"),
    (300, "one accepted, the other 24"),
    (2_000, "one accepted, the other 27"),
    (1_000, "both refused with one number"),
    (200, "both refused with two numbers"),
    (1_000, "accepted as the first, 12 as the second"),
    (10, "one accepted, the other 21 or after it 12"),
    (50, "one accepted, the other 24 or after it 12"),
    (300, "one accepted, the other 27 or after it 12"),
];

pub fn either(either: &EitherOrder) -> String {
    let mut answers = either.answers;
    answers.sort_unstable();
    match (answers, either.is_last_step) {
        ([ACCEPTED, ACCEPTED], false) => "both accepted".to_string(),
        ([ACCEPTED, ACCEPTED], true) => "accepted as the first, 12 as the second".to_string(),
        ([ACCEPTED, refusal], false) => format!("one accepted, the other {refusal}"),
        ([_, refusal], true) => format!("one accepted, the other {refusal} or after it 12"),
        ([one, other], false) if one == other => "both refused with one number".to_string(),
        _ => "both refused with two numbers".to_string(),
    }
}

const RELATIONS: [&str; 4] = [
    "they share a child",
    "they share a parent",
    "one is the other's grandparent",
    "none of these",
];

/// Of two nodes that no channel joins, the lower one first.
pub fn relations(plan: &Plan, [one, other]: [usize; 2]) -> Vec<&'static str> {
    let mut hold = vec![
        do_meet(plan.children(one), plan.children(other)),
        do_meet(plan.parents(one), plan.parents(other)),
        do_meet(plan.children(one), plan.parents(other)),
    ];
    hold.push(!hold.contains(&true));
    let rows = RELATIONS.into_iter().zip(hold);
    rows.filter_map(|(row, holds)| holds.then_some(row))
        .collect()
}

fn do_meet(mut ones: impl Iterator<Item = usize>, others: impl Iterator<Item = usize>) -> bool {
    let others: Vec<usize> = others.collect();
    ones.any(|node| others.contains(&node))
}

const RESTARTS: [&str; 4] = [
    "Recover and Recover",
    "Recover and Commit",
    "Commit and Recover",
    "Commit and Commit",
];

pub fn two_restarts(frames: [Frame; 2]) -> &'static str {
    let commits = frames.map(|frame| usize::from(matches!(frame, Frame::Commit { .. })));
    RESTARTS[2 * commits[0] + commits[1]]
}

const TWO_CALLERS: [&str; 3] = ["one caller", "one console in two versions", "two consoles"];

pub fn two_callers([one, other]: [Caller; 2]) -> &'static str {
    TWO_CALLERS[match one.console() == other.console() {
        true => usize::from(one != other),
        false => 2,
    }]
}

const LEFT: [&str; 3] = ["both are up", "one replays", "both replay"];

pub fn left(replaying: usize) -> &'static str {
    LEFT[replaying]
}

const BETWEEN: [&str; 3] = ["none", "1 to 7", "8 or more"];

pub fn between(steps: u32) -> &'static str {
    BETWEEN[match steps {
        0 => 0,
        1..8 => 1,
        _ => 2,
    }]
}

pub fn outcome(of: impl Display, is_accepted: bool) -> String {
    let outcome = if is_accepted { "accepted" } else { "refused" };
    format!("{of}, {outcome}")
}
