//! States to practise the check on: what frames lead to, and all kinds of
//! damage to it.

mod cases;
mod change;
pub mod conditions;
mod features;
mod fields;
mod harmless;
mod kept;
mod pick;
mod places;
mod runs;
mod scrambles;
mod sets;
mod slots;
pub mod staged;

pub use change::Change;
pub use conditions::CLAUSES;
pub use features::FEATURES;
pub use harmless::HARMLESS;
pub use kept::{kept_bytes, kept_places};
pub use places::{places, Place};
pub use runs::{
    any_record, call, lines, play, play_to_the_end, replay_on, restart, trim_all, Played,
};
pub use scrambles::SCRAMBLES;
pub use sets::{other_sets, AFTER_A_SET, OTHER_SETS};
pub use slots::SHUFFLES;

use super::line_bytes;
use crate::line::Line;
use crate::random::Random;
use cases::{disturbed, made_of, undamaged, unused_case};

#[derive(Clone, Copy, Debug, PartialEq, Eq, PartialOrd, Ord)]
pub enum Kind {
    /// Frames lead to it.
    Reached,
    /// Damaged by a condition of the paper.
    Condition,
    /// Changed in a way that the paper does not call damage.
    Harmless,
    /// Several numbers or parts of a line changed at random.
    Disturbed,
    /// One field changed by 1 or set to an edge.
    Field,
    Byte,
    Bit,
    /// Slots, lists or blocks moved.
    Shuffled,
    /// All bytes, those behind the plan or those of a part drawn at random.
    Scrambled,
    /// The set of one log entry changed.
    Set,
    /// One byte of a node that keeps an answer changed.
    Kept,
    /// One unused byte set.
    Unused,
    Length,
}

pub struct Case<'a> {
    pub kind: Kind,
    /// The paper's words, for a condition.
    pub clause: &'static str,
    pub name: &'static str,
    pub state: &'a [u8],
    /// What the check must answer, where that is known without it.
    pub expected: Option<u32>,
}

pub type Visit<'a> = &'a mut dyn FnMut(&Case);

/// The line as it is: frames lead to it.
pub fn reached(line: &Line, visit: Visit) {
    undamaged(line, Kind::Reached, visit);
}

/// What is made of the lines, and of lines that those are disturbed to.
pub fn damaged(random: &mut Random, lines: &[Line], visit: Visit) {
    for line in lines {
        made_of(random, line, visit);
        let disturbed = disturbed(random, line, visit);
        undamaged(&disturbed, Kind::Disturbed, visit);
        made_of(random, &disturbed, visit);
    }
}

/// The staged lines and what is made of them; every field by one more and one
/// less, those of kept answers and of the smaller lines also set to their edges.
pub fn staged(random: &mut Random, visit: Visit) {
    let small = [staged::fresh(), staged::mixed()].map(|line| (line, true));
    let longest = staged::by_mass(staged::full());
    let large = [
        staged::full(),
        longest,
        staged::by_piece(staged::full()),
        staged::silent(),
        staged::replaying(),
        staged::trimmed(),
        staged::asked(),
        staged::all_asked(),
    ];
    let large = large.map(|line| (line, false));
    for (line, is_small) in small.into_iter().chain(large) {
        reached(&line, visit);
        made_of(random, &line, visit);
        let mut state = line_bytes(&line);
        for place in places(&line).into_iter().filter(|place| place.is_used) {
            fields::neighbours(&mut state, place, visit);
            if is_small || place.name.starts_with("kept") {
                fields::all_edges(&mut state, place, line.accepted_steps(), visit);
            }
        }
    }
}

/// Every byte that is unused in any state is unused in the smallest one: each of
/// them set, one at a time.
pub fn unused(random: &mut Random, line: &Line, visit: Visit) {
    let mut state = line_bytes(line);
    for place in places(line).into_iter().filter(|place| !place.is_used) {
        for at in place.range() {
            state[at] = random.pick(&[1, 2, 127, 128, 255]);
            visit(&unused_case(place, &state));
            state[at] = 0;
        }
    }
}
