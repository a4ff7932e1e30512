//! What is made of one undamaged line.

use super::change::Change;
use super::fields::{self, Fields};
use super::{places, Case, Kind, Place, Visit, CLAUSES, HARMLESS, SCRAMBLES, SHUFFLES};
use crate::answer::{ACCEPTED, STATE};
use crate::line::practice::{disturb, reach, retarget};
use crate::line::{Line, Node};
use crate::random::Random;
use crate::state::{check, line_bytes, LENGTH};

/// How many cases of a kind are made of each line.
const DISTURBED: usize = 10;
const FIELDS: usize = 20;
const BYTES: usize = 10;
const SHUFFLED: usize = 10;
const UNUSED: usize = 10;

pub fn undamaged(line: &Line, kind: Kind, visit: Visit) {
    visit(&Case {
        kind,
        clause: "",
        name: "undamaged",
        state: &line_bytes(line),
        expected: Some(ACCEPTED),
    });
}

pub fn made_of(random: &mut Random, line: &Line, visit: Visit) {
    by_name(random, line, visit);
    let mut state = line_bytes(line);
    let (used, unused): (Vec<Place>, Vec<Place>) =
        places(line).into_iter().partition(|place| place.is_used);
    let fields = Fields::new(&used);
    for _ in 0..FIELDS {
        let place = fields.any(random);
        fields::neighbours(&mut state, place, visit);
        fields::edge(random, &mut state, place, line.accepted_steps(), visit);
    }
    for _ in 0..BYTES {
        noise(random, &mut state, &used, visit);
    }
    for _ in 0..SHUFFLED {
        let shuffle = &SHUFFLES[random.index(SHUFFLES.len())];
        changed(random, line, &state, Kind::Shuffled, shuffle, visit);
    }
    for scramble in SCRAMBLES {
        changed(random, line, &state, Kind::Scrambled, scramble, visit);
    }
    for _ in 0..UNUSED {
        one_unused(random, &mut state, &unused, visit);
    }
    lengths(random, &state, visit);
}

/// Each condition of the paper and each harmless change, once.
fn by_name(random: &mut Random, line: &Line, visit: Visit) {
    for clause in CLAUSES {
        for condition in clause.conditions {
            if let Some(state) = condition.apply(random, line) {
                visit(&Case {
                    kind: Kind::Condition,
                    clause: clause.words,
                    name: condition.name,
                    state: &state,
                    expected: Some(STATE),
                });
            }
        }
    }
    for harmless in HARMLESS {
        let mut changed = line.clone();
        if (harmless.change)(random, &mut changed).is_some() {
            visit(&Case {
                kind: Kind::Harmless,
                clause: "",
                name: harmless.name,
                state: &line_bytes(&changed),
                expected: Some(ACCEPTED),
            });
        }
    }
}

/// A byte or a bit, of a used field in half of the cases.
fn noise(random: &mut Random, state: &mut [u8], used: &[Place], visit: Visit) {
    let at = if random.one_in(2) {
        let place = random.pick(used);
        place.at + random.index(place.width)
    } else {
        random.index(state.len())
    };
    let kept = state[at];
    for (kind, byte) in [
        (Kind::Byte, random.draw() as u8),
        (Kind::Bit, kept ^ 1 << random.index(8)),
    ] {
        state[at] = byte;
        visit(&Case {
            kind,
            clause: "",
            name: "any",
            state,
            expected: (byte == kept).then_some(ACCEPTED),
        });
    }
    state[at] = kept;
}

fn changed(
    random: &mut Random,
    line: &Line,
    state: &[u8],
    kind: Kind,
    change: &Change,
    visit: Visit,
) {
    let mut changed = state.to_vec();
    if (change.apply)(random, line, &mut changed).is_some() {
        visit(&Case {
            kind,
            clause: "",
            name: change.name,
            state: &changed,
            expected: None,
        });
    }
}

fn one_unused(random: &mut Random, state: &mut [u8], unused: &[Place], visit: Visit) {
    let place = random.pick(unused);
    if place.width > 0 {
        let at = place.at + random.index(place.width);
        state[at] = random.between(1, 255) as u8;
        visit(&unused_case(place, state));
        state[at] = 0;
    }
}

pub fn unused_case(place: Place, state: &[u8]) -> Case<'_> {
    Case {
        kind: Kind::Unused,
        clause: "",
        name: place.name,
        state,
        expected: Some(STATE),
    }
}

fn lengths(random: &mut Random, state: &[u8], visit: Visit) {
    let any = random.index(2 * LENGTH);
    for length in [0, 1, 511, 512, LENGTH - 1, LENGTH + 1, 2 * LENGTH, any] {
        let mut other = state.to_vec();
        other.resize(length, 0);
        visit(&Case {
            kind: Kind::Length,
            clause: "",
            name: "another length",
            state: &other,
            expected: (length != LENGTH).then_some(STATE),
        });
    }
}

/// Disturbs the line time and again and goes on from there for as long as it is
/// undamaged. The last undamaged line.
pub fn disturbed(random: &mut Random, line: &Line, visit: Visit) -> Line {
    let mut last = line.clone();
    reach(random, &mut last, line.accepted_steps() + 20);
    for _ in 0..DISTURBED {
        let mut next = last.clone();
        for _ in 0..random.between(1, 4) {
            disturb(random, &mut next);
        }
        if random.one_in(2) {
            retarget(&mut next);
        }
        let has_too_many = |node: &Node| {
            let kept = node.kept.as_ref().map_or(0, |kept| kept.targets.len());
            node.targets.len().max(kept) > Line::MOST_TARGETS
        };
        if next.nodes.iter().any(has_too_many) {
            continue;
        }
        let state = line_bytes(&next);
        visit(&Case {
            kind: Kind::Disturbed,
            clause: "",
            name: "any",
            state: &state,
            expected: None,
        });
        if check(&state) == ACCEPTED {
            last = next;
        }
    }
    last
}
