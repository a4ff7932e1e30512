//! One field at a time: changed by 1, or set to the edges of its limits.

use std::collections::BTreeMap;

use super::{Case, Kind, Place, Visit};
use crate::random::Random;

/// The fields of a state by their names.
pub struct Fields {
    named: BTreeMap<&'static str, Vec<Place>>,
}

impl Fields {
    pub fn new(used: &[Place]) -> Fields {
        let mut named: BTreeMap<&'static str, Vec<Place>> = BTreeMap::new();
        for &place in used {
            named.entry(place.name).or_default().push(place);
        }
        Fields { named }
    }

    /// Each name as often as another, however many fields it has.
    pub fn any(&self, random: &mut Random) -> Place {
        let drawn = random.index(self.named.len());
        let places = self.named.values().nth(drawn).expect("less than the names");
        random.pick(places)
    }
}

/// One more and one less, around the field's end.
pub fn neighbours(state: &mut [u8], place: Place, visit: Visit) {
    let value = read(state, place);
    for other in [value.wrapping_add(1), value.wrapping_sub(1)] {
        set_to(state, place, other, visit);
    }
}

/// One of its edges.
pub fn edge(random: &mut Random, state: &mut [u8], place: Place, steps: u32, visit: Visit) {
    let edges = edges(read(state, place), place.width, steps);
    set_to(state, place, random.pick(&edges), visit);
}

/// All of its edges, one after the other.
pub fn all_edges(state: &mut [u8], place: Place, steps: u32, visit: Visit) {
    for edge in edges(read(state, place), place.width, steps) {
        set_to(state, place, edge, visit);
    }
}

/// The ends of limits that fields of the width have, and the value with one bit
/// changed.
fn edges(value: u32, width: usize, steps: u32) -> Vec<u32> {
    let mut edges = match width {
        1 => vec![0, 1, 2, 3, 4, 11, 12, 13, 15, 16, 127, 254, 255],
        2 => vec![0, 1, 15, 16, 255, 256, 65_534, 65_535],
        _ => vec![
            0,
            1,
            2,
            8,
            9,
            64,
            65,
            steps.wrapping_sub(1),
            steps,
            steps + 1,
            1_000_000,
            1_000_001,
            4_000_000,
            4_000_001,
            u32::MAX,
            value.swap_bytes(),
        ],
    };
    edges.extend((0..8 * width).map(|bit| value ^ 1 << bit));
    edges
}

fn set_to(state: &mut [u8], place: Place, value: u32, visit: Visit) {
    let kept = state[place.range()].to_vec();
    let bytes = value.to_be_bytes();
    state[place.range()].copy_from_slice(&bytes[bytes.len() - place.width..]);
    visit(&Case {
        kind: Kind::Field,
        clause: "",
        name: place.name,
        state,
        expected: None,
    });
    state[place.range()].copy_from_slice(&kept);
}

fn read(state: &[u8], place: Place) -> u32 {
    state[place.range()]
        .iter()
        .fold(0, |value, &byte| value << 8 | u32::from(byte))
}
