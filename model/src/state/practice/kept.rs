//! Each byte of a node that keeps an answer, changed.

use super::{places, Case, Kind, Place, Visit};
use crate::answer::STATE;
use crate::line::Line;
use crate::random::Random;
use crate::state::layout::{node, NODE_LENGTH};
use crate::state::line_bytes;

/// The places of the nodes that keep answers.
pub fn kept_places(line: &Line) -> Vec<Place> {
    let keeps = |at: usize| {
        let mut nodes = line.nodes.iter().enumerate();
        nodes.any(|(number, each)| {
            each.kept.is_some() && (node(number)..node(number) + NODE_LENGTH).contains(&at)
        })
    };
    let mut places = places(line);
    places.retain(|place| keeps(place.at) && place.width > 0);
    places
}

/// One byte at a time. Recover gives all of such a node, and none that is 0 all over.
pub fn kept_bytes(random: &mut Random, line: &Line, visit: Visit) {
    let mut state = line_bytes(line);
    for place in kept_places(line) {
        for at in place.range() {
            let any = random.between(1, 255) as u8;
            for change in [1, 128, any] {
                state[at] ^= change;
                visit(&Case {
                    kind: Kind::Kept,
                    clause: "",
                    name: place.name,
                    state: &state,
                    expected: Some(STATE),
                });
                state[at] ^= change;
            }
        }
    }
}
