//! "Ask and then Commit, with other accepted steps between that leave the node down, ends as
//! Recover at the moment of Commit would."

use super::Compared;
use crate::line::{Caller, Frame};

/// The answer to a Commit of a node that keeps an answer: the same as to a Recover, which
/// leaves the same.
pub fn as_recover(
    step: impl Fn(&mut [u8], &[u8]) -> u32,
    state: &[u8],
    caller: Caller,
    node: u8,
) -> Compared<u32> {
    let [committed, recovered] = [Frame::Commit { node }, Frame::Recover { node }].map(|frame| {
        let mut left = state.to_vec();
        (step(&mut left, &frame.sent_by(caller)), left)
    });
    match (committed, recovered) {
        ((answer, _), (other, _)) if answer != other => {
            Err(format!("Commit is answered {answer}, Recover {other}"))
        }
        ((_, left), (_, other)) if left != other => {
            Err("Commit leaves another state than Recover".to_string())
        }
        ((answer, _), _) => Ok(answer),
    }
}
