//! The paragraph "Damaged" of document 01 and requests 2026-04 and 2026-06 to 2026-08, clause by
//! clause: ways to damage a line or its bytes, each with other places and values as it is
//! drawn.

mod clocks;
mod crash_marks;
mod emptied;
mod limits;
mod logs;
mod low_clocks;
mod made_from;
mod plan;
mod queues;
pub mod recovered;
mod rows;
mod senders;
mod sets;
mod steps;
mod unused;
mod zeros;

use super::pick;
use super::places::places;
use crate::line::practice::reach;
use crate::line::Line;
use crate::plan::Plan;
use crate::random::Random;
use crate::state::line_bytes;

pub struct Clause {
    /// The paper's words.
    pub words: &'static str,
    pub conditions: &'static [Condition],
}

pub struct Condition {
    pub name: &'static str,
    damage: Damage,
}

/// None where the line has no place for the damage.
type OnLine = fn(&mut Random, &mut Line) -> Option<()>;
type OnBytes = fn(&mut Random, &Line, &mut [u8]) -> Option<()>;

enum Damage {
    Line(OnLine),
    Bytes(OnBytes),
    /// An unused byte of the condition's name.
    Unused,
}

const fn line(name: &'static str, damage: OnLine) -> Condition {
    Condition {
        name,
        damage: Damage::Line(damage),
    }
}

const fn bytes(name: &'static str, damage: OnBytes) -> Condition {
    Condition {
        name,
        damage: Damage::Bytes(damage),
    }
}

const fn unused(name: &'static str) -> Condition {
    Condition {
        name,
        damage: Damage::Unused,
    }
}

impl Condition {
    /// The bytes of an undamaged line, damaged.
    pub fn apply(&self, random: &mut Random, line: &Line) -> Option<Vec<u8>> {
        match self.damage {
            Damage::Line(damage) => {
                let mut damaged = line.clone();
                damage(random, &mut damaged)?;
                Some(line_bytes(&damaged))
            }
            Damage::Bytes(damage) => {
                let mut state = line_bytes(line);
                damage(random, line, &mut state)?;
                Some(state)
            }
            Damage::Unused => {
                let mut state = line_bytes(line);
                let named = places(line)
                    .into_iter()
                    .filter(|place| !place.is_used && place.name == self.name)
                    .flat_map(|place| place.range());
                let at = pick::any(random, named)?;
                state[at] = random.pick(&[1, 2, 127, 128, 255]);
                Some(state)
            }
        }
    }
}

/// So that nothing but the condition is damaged, where that can be.
fn more_steps(random: &mut Random, line: &mut Line, more: u32) {
    reach(random, line, line.accepted_steps() + more);
}

pub const CLAUSES: &[Clause] = &[
    plan::REFUSED,
    limits::OUTSIDE,
    senders::WRONG,
    steps::EXCEEDED,
    zeros::ZERO,
    made_from::MISSING_OR_PRESENT,
    logs::NOT_RISING,
    clocks::PASSED,
    low_clocks::ABOVE,
    sets::DIFFERENT,
    rows::NOT_RISING,
    rows::NOT_TAKEN,
    queues::UNSOUND,
    crash_marks::WRONG,
    recovered::NOT_RECOVERED,
    recovered::UP_AT_ONCE,
    recovered::STALE,
    recovered::KEPT_NUMBERS,
    emptied::HOLDING,
    unused::NOT_ZERO,
];
