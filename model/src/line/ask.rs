//! Request 2026-07: kinds 7, Ask, and 8, Commit.

use super::{restart, Line};
use crate::answer::NOTHING_KEPT;

impl Line {
    /// "Works out what Recover would and keeps it with the down node." "It is refused
    /// just where Recover would be, and then keeps what it kept before."
    pub(super) fn ask(&self, node: usize) -> Result<Line, u32> {
        self.recover(node)?;
        let mut next = self.clone();
        next.nodes[node].kept = Some(restart(self, node));
        Ok(next)
    }

    /// "Applies it": what is kept, whatever the children tell.
    pub(super) fn commit(&self, node: usize) -> Result<Line, u32> {
        self.check_down(node)?;
        let kept = self.nodes[node].kept.as_ref().ok_or(NOTHING_KEPT)?;
        Ok(self.restarted(node, kept))
    }
}
