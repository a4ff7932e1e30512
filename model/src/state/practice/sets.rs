//! The set of each log entry, changed in every way.

use super::{Case, Kind, Visit};
use crate::answer::STATE;
use crate::line::Line;
use crate::plan::practice::all_leaving;
use crate::state::layout::{node, ENTRY_SET, LOG};
use crate::state::line_bytes;

pub struct OtherSet {
    pub name: &'static str,
    /// Of a set, and of that of all channels that leave the node.
    others: fn(u8, u8) -> Vec<u8>,
}

pub const OTHER_SETS: &[OtherSet] = &[
    other("a channel more", |set, all| {
        bits(all & !set).map(|bit| set | bit).collect()
    }),
    other("a channel less", |set, _| {
        bits(set).map(|bit| set ^ bit).collect()
    }),
    other("no channel", |_, _| vec![0]),
    other("all channels", |_, all| vec![all]),
    other("a bit past the channels", |set, all| {
        let past = if all == 0 { 0 } else { !all };
        bits(past).map(|bit| set | bit).collect()
    }),
    other("a bit in a sink's", |set, all| {
        let past = if all == 0 { !all } else { 0 };
        bits(past).map(|bit| set | bit).collect()
    }),
    other("all bits", |_, _| vec![u8::MAX]),
];

/// What is set there is no set.
pub const AFTER_A_SET: &str = "the byte after it";

const fn other(name: &'static str, others: fn(u8, u8) -> Vec<u8>) -> OtherSet {
    OtherSet { name, others }
}

fn bits(set: u8) -> impl Iterator<Item = u8> {
    let each = (0..u8::BITS).map(|place| 1 << place);
    each.filter(move |bit| set & bit != 0)
}

/// One at a time.
pub fn other_sets(line: &Line, visit: Visit) {
    let mut state = line_bytes(line);
    for (number, each) in line.nodes.iter().enumerate() {
        let all = all_leaving(&line.plan, number);
        for (index, entry) in each.log.iter().enumerate() {
            let at = node(number) + LOG.slot(index) + ENTRY_SET;
            for other in OTHER_SETS {
                let others = (other.others)(entry.set, all);
                for set in others.into_iter().filter(|&set| set != entry.set) {
                    set_to(&mut state, at, set, other.name, visit);
                }
            }
            for byte in [1, entry.set.max(1), u8::MAX] {
                set_to(&mut state, at + 1, byte, AFTER_A_SET, visit);
            }
        }
    }
}

fn set_to(state: &mut [u8], at: usize, byte: u8, name: &'static str, visit: Visit) {
    let kept = state[at];
    state[at] = byte;
    visit(&Case {
        kind: Kind::Set,
        clause: "",
        name,
        state,
        expected: Some(STATE),
    });
    state[at] = kept;
}
