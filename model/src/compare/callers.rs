//! "What the line does with a step doesn't depend on who sent it, counts and
//! refusal 12 excepted."

use super::Compared;
use crate::answer::{ACCEPTED, STEPS_USED_UP};
use crate::line::practice::{drawn_steps, greatest_time};
use crate::line::{Caller, Frame, Line};
use crate::random::Random;
use crate::state::layout::{number_at, put_number, steps, STEPS, STEPS_END};

/// How a step was answered, whoever sent it.
pub struct FromAll {
    /// None where every console has used up its steps.
    pub answer: Option<u32>,
    /// Whether one of them has.
    pub is_one_used_up: bool,
}

/// The same frame from every caller, each time to the line's state with other
/// counts that no time exceeds.
pub fn from_all(
    random: &mut Random,
    step: impl Fn(&mut [u8], &[u8]) -> u32,
    line: &Line,
    state: &[u8],
    frame: Frame,
) -> Compared<FromAll> {
    let least = greatest_time(line);
    let mut first: Option<(u32, Vec<u8>)> = None;
    let mut is_one_used_up = false;
    for caller in Caller::ALL {
        let mut left = state.to_vec();
        let mut counts = drawn_steps(random, least);
        put_counts(&mut left, counts);
        let before = left.clone();
        let answer = step(&mut left, &frame.sent_by(caller));
        let count = &mut counts[caller.console()];
        let is_used_up = *count == Line::MOST_STEPS;
        if is_used_up != (answer == STEPS_USED_UP) {
            return Err(format!("{caller}: {answer} at the count {count}"));
        }
        if is_used_up {
            is_one_used_up = true;
            if left != before {
                return Err(format!("{caller}: 12 changes the state"));
            }
            continue;
        }
        *count += u32::from(answer == ACCEPTED);
        if counts_of(&left) != counts {
            return Err(format!("{caller}: counts {:?}", counts_of(&left)));
        }
        left[STEPS..STEPS_END].fill(0);
        match &first {
            None => first = Some((answer, left)),
            Some((other, _)) if *other != answer => {
                return Err(format!("{caller}: {answer}, from another {other}"));
            }
            Some((_, other)) if *other != left => {
                return Err(format!("{caller}: another state is left"));
            }
            _ => {}
        }
    }
    Ok(FromAll {
        answer: first.map(|(answer, _)| answer),
        is_one_used_up,
    })
}

fn put_counts(state: &mut [u8], counts: [u32; Line::CONSOLES]) {
    for (console, count) in counts.into_iter().enumerate() {
        put_number(state, steps(console), count);
    }
}

fn counts_of(state: &[u8]) -> [u32; Line::CONSOLES] {
    std::array::from_fn(|console| number_at(state, steps(console)))
}
