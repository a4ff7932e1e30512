//! A change to the bytes of a line's state that may leave it undamaged or not.

use crate::line::Line;
use crate::random::Random;

pub struct Change {
    pub name: &'static str,
    /// None where the line has no place for it.
    pub apply: fn(&mut Random, &Line, &mut [u8]) -> Option<()>,
}

pub const fn change(
    name: &'static str,
    apply: fn(&mut Random, &Line, &mut [u8]) -> Option<()>,
) -> Change {
    Change { name, apply }
}
