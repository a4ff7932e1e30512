// The least count of each row.

use std::collections::BTreeSet;

use model::compare::{answer, under, Floor};
use model::line::Line;
use model::plan::practice::CASES;
use model::plan::Version;
use model::state::practice::{
    kept_places, places, staged, Kind, Place, AFTER_A_SET, CLAUSES, FEATURES, HARMLESS, OTHER_SETS,
    SCRAMBLES, SHUFFLES,
};

use crate::section;

pub const DIFFERENT: &str = "different ones";

/// Accepted and damaged.
const KINDS: &[(Kind, [usize; 2])] = &[
    (Kind::Reached, [10_000, 0]),
    (Kind::Condition, [0, 150_000]),
    (Kind::Harmless, [30_000, 0]),
    (Kind::Disturbed, [5_000, 5_000]),
    (Kind::Field, [50_000, 100_000]),
    (Kind::Byte, [2_000, 15_000]),
    (Kind::Bit, [2_000, 15_000]),
    (Kind::Shuffled, [2_000, 15_000]),
    (Kind::Scrambled, [0, 20_000]),
    (Kind::Set, [0, 10_000]),
    (Kind::Kept, [0, 50_000]),
    (Kind::Unused, [0, 100_000]),
    (Kind::Length, [0, 15_000]),
];

pub fn all() -> Vec<Floor> {
    let mut floors = kinds();
    floors.extend(reached());
    for clause in CLAUSES {
        let names = clause.conditions.iter().map(|condition| condition.name);
        floors.extend(under(clause.words, 20, names));
    }
    let harmless = HARMLESS.iter().map(|harmless| harmless.name);
    floors.extend(under(section::HARMLESS, 100, harmless));
    floors.extend(under(section::FIELDS, 100, field_names()));
    let others = OTHER_SETS.iter().map(|other| other.name);
    floors.extend(under(section::SETS, 400, others));
    floors.extend(under(section::SETS, 2_000, [AFTER_A_SET]));
    floors.extend(under(section::KEPT, 3, kept_names()));
    let shuffles = SHUFFLES.iter().map(|shuffle| shuffle.name);
    floors.extend(under(section::SHUFFLES, 500, shuffles));
    let scrambles = SCRAMBLES.iter().map(|scramble| scramble.name);
    floors.extend(under(section::SCRAMBLES, 1_000, scrambles));
    floors.extend(calls());
    floors
}

fn kinds() -> Vec<Floor> {
    let mut floors = Vec::new();
    for &(kind, [accepted, damaged]) in KINDS {
        for (is_accepted, least) in [(true, accepted), (false, damaged)] {
            let names = [outcome(kind, is_accepted)];
            floors.extend(under(section::STATES, least, names));
        }
    }
    floors
}

fn reached() -> Vec<Floor> {
    let mut floors = under(section::REACHED, 10_000, [DIFFERENT]);
    let features = FEATURES.iter().map(|feature| feature.name);
    floors.extend(under(section::REACHED, 300, features));
    floors
}

fn field_names() -> BTreeSet<&'static str> {
    let used = |place: &Place| place.is_used;
    staged_places(places)
        .filter(used)
        .map(|place| place.name)
        .collect()
}

fn kept_names() -> BTreeSet<&'static str> {
    staged_places(kept_places).map(|place| place.name).collect()
}

/// One of these staged lines has every field but those of kept targets, the other these.
fn staged_places(places: fn(&Line) -> Vec<Place>) -> impl Iterator<Item = Place> {
    let lines = [staged::mixed(), staged::all_asked()];
    lines.into_iter().flat_map(move |line| places(&line))
}

fn calls() -> Vec<Floor> {
    let mut floors = under(section::LOAD, 500, (0..=8).map(answer));
    floors.extend(under(section::LOAD, 5_000, PLANS));
    floors.extend(under(section::LOAD, 5_000, LENGTHS));
    floors.extend(under(section::LOADED, 50, CASES.map(|(name, _)| name)));
    let by_version = |answer| Version::ALL.map(|version| written(answer, version as u8));
    let answers = [0, 8, 23].into_iter().flat_map(by_version);
    floors.extend(under(section::WRITE, 1_000, answers));
    floors.extend(under(section::WRITE, 2_000, LENGTHS));
    let answers = [0, 23].into_iter().flat_map(by_version);
    floors.extend(under(section::WRITE_AGAIN, 500, answers));
    floors
}

/// The answer to Write, by the version of the plan.
pub fn written(given: u32, version: u8) -> String {
    format!("{}, version {version}", answer(given))
}

pub fn outcome(kind: Kind, is_accepted: bool) -> String {
    let outcome = if is_accepted { "accepted" } else { "damaged" };
    format!("{kind:?}, {outcome}")
}

/// How the plan of a Load is made.
pub const PLANS: [&str; 3] = ["sound but for its degrees", "mutated plan", "random plan"];

/// The second buffer of a call beside what is needed.
pub const LENGTHS: [&str; 3] = ["shorter buffer", "buffer as needed", "longer buffer"];
