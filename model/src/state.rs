//! Document 01, "State: a lent buffer of 61,440 bytes, its layout laid down in
//! docs/": a line and its bytes, and the functions that are lent them.

pub mod direct;
pub mod layout;
pub mod practice;
mod reading;
#[cfg(test)]
mod tests;
mod writing;

pub use layout::LENGTH;
pub use reading::read_line;
pub use writing::line_bytes;

use crate::answer::{ACCEPTED, SHORT_OUTPUT, STATE};
use crate::line::{damaged, stepped, Line};

/// 0 or 8: "state not 61,440 bytes, or damaged".
pub fn check(state: &[u8]) -> u32 {
    match undamaged(state) {
        Some(_) => ACCEPTED,
        None => STATE,
    }
}

/// The line of a state that is not damaged.
pub fn undamaged(state: &[u8]) -> Option<Line> {
    read_line(state).filter(|line| !damaged(line))
}

/// "Load checks 1 to 8." Accepted, the state is the line before any step;
/// refused, it stays as it was.
pub fn load(plan: &[u8], state: &mut [u8]) -> u32 {
    let line = match Line::load(plan) {
        Ok(line) => line,
        Err(refusal) => return refusal,
    };
    if state.len() != LENGTH {
        return STATE;
    }
    state.copy_from_slice(&line_bytes(&line));
    ACCEPTED
}

/// "Step 8 to 21 and then 24", with 25 after 11, 26 after 13 and 27 after 16.
pub fn step(state: &mut [u8], frame: &[u8]) -> u32 {
    let line = undamaged(state).ok_or(STATE);
    match line.and_then(|line| stepped(&line, frame)) {
        Ok(line) => {
            state.copy_from_slice(&line_bytes(&line));
            ACCEPTED
        }
        Err(refusal) => refusal,
    }
}

/// "Write 8 and 23": writes the plan that was loaded and leaves the bytes past
/// it as they were.
pub fn write(state: &[u8], plan: &mut [u8]) -> u32 {
    let Some(line) = undamaged(state) else {
        return STATE;
    };
    let loaded = line.plan.write();
    if plan.len() < loaded.len() {
        return SHORT_OUTPUT;
    }
    plan[..loaded.len()].copy_from_slice(&loaded);
    ACCEPTED
}
