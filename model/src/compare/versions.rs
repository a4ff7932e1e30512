//! A plan of version 1, and the plan of version 2 with the same channels and all
//! masses, run alike.

use super::Compared;
use crate::plan::practice::in_other_version;
use crate::plan::Plan;
use crate::state::layout::{put, PLAN, PLAN_SPACE};

/// The answer to the frame, with the state's plan in either version. None where the
/// other version cannot say the plan.
pub fn in_both_versions(
    step: impl Fn(&mut [u8], &[u8]) -> u32,
    plan: &Plan,
    state: &[u8],
    frame: &[u8],
) -> Compared<Option<u32>> {
    let Some(other) = in_other_version(plan) else {
        return Ok(None);
    };
    let [one, other] = [plan, &other].map(|plan| {
        let mut left = state.to_vec();
        left[PLAN..PLAN_SPACE].fill(0);
        put(&mut left, PLAN, &plan.write());
        let kept = left[..PLAN_SPACE].to_vec();
        let answer = step(&mut left, frame);
        let rest = left.split_off(PLAN_SPACE);
        (answer, left == kept, rest)
    });
    match (one, other) {
        ((answer, ..), (other, ..)) if answer != other => Err(format!(
            "{answer}, with the plan in the other version {other}"
        )),
        ((_, true, rest), (_, true, other)) if rest != other => {
            Err("another state with the plan in the other version".to_string())
        }
        ((answer, true, _), (_, true, _)) => Ok(Some(answer)),
        _ => Err("the plan has changed".to_string()),
    }
}
