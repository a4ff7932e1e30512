//! "Recover of one and then the other gives the same state, byte for byte, whichever is
//! first, when both are accepted; and one's refusal, 12 excepted, never depends on whether
//! the other went first." Commit too.

use super::Compared;
use crate::answer::{ACCEPTED, STEPS_USED_UP};
use crate::line::{Frame, Line};
use crate::state::layout::{number_at, steps};

/// How two restarts were answered, whichever is first.
pub struct EitherOrder {
    /// Of each, where it is the first.
    pub answers: [u32; 2],
    /// Whether the first took the last step of their console, so that the second was
    /// answered 12.
    pub is_last_step: bool,
}

/// Two right frames that restart two nodes which are down.
pub fn in_either_order(
    step: impl Fn(&mut [u8], &[u8]) -> u32,
    state: &[u8],
    frames: [&[u8]; 2],
) -> Compared<EitherOrder> {
    let [one, other] = frames;
    let forth = in_turn(&step, state, [one, other])?;
    let back = in_turn(&step, state, [other, one])?;
    let answers = [forth.answers[0], back.answers[0]];
    let is_one_left = is_one_step_left(state, frames);
    for (second, [first, before]) in [
        (back.answers[1], answers),
        (forth.answers[1], [answers[1], answers[0]]),
    ] {
        let expected = match is_one_left && before == ACCEPTED {
            true => STEPS_USED_UP,
            false => first,
        };
        if second != expected {
            return Err(format!(
                "{first} as the first, {second} as the second, not {expected}"
            ));
        }
    }
    let are_both_accepted = answers == [ACCEPTED; 2];
    if forth.left != back.left && !(is_one_left && are_both_accepted) {
        return Err("the other order leaves another state".to_string());
    }
    Ok(EitherOrder {
        answers,
        is_last_step: is_one_left && answers.contains(&ACCEPTED),
    })
}

/// The answers in this order, and what is left.
struct InTurn {
    answers: [u32; 2],
    left: Vec<u8>,
}

fn in_turn(
    step: impl Fn(&mut [u8], &[u8]) -> u32,
    state: &[u8],
    frames: [&[u8]; 2],
) -> Compared<InTurn> {
    let mut left = state.to_vec();
    let mut answers = [ACCEPTED; 2];
    for (answer, frame) in answers.iter_mut().zip(frames) {
        let before = left.clone();
        *answer = step(&mut left, frame);
        if *answer != ACCEPTED && left != before {
            return Err(format!("{answer} changes the state"));
        }
    }
    Ok(InTurn { answers, left })
}

/// Whether both come from one console, and that has one step left.
fn is_one_step_left(state: &[u8], frames: [&[u8]; 2]) -> bool {
    let [console, other] = frames.map(|frame| {
        let (caller, _) = Frame::read(frame).expect("a right frame");
        caller.console()
    });
    console == other && number_at(state, steps(console)) + 1 == Line::MOST_STEPS
}
