//! What is asked of Asks and Commits, and of what other steps leave kept.

use super::*;
use crate::answer::NOTHING_KEPT;

impl Stepped<'_> {
    pub(super) fn to_ask(&self) -> Option<usize> {
        match self.frame {
            Frame::Ask { node } => Some(node.into()),
            _ => None,
        }
    }

    pub(super) fn to_commit(&self) -> Option<usize> {
        match self.frame {
            Frame::Commit { node } => Some(node.into()),
            _ => None,
        }
    }

    /// What an accepted Ask keeps.
    pub(super) fn asked(&self, is_such: fn(&Restart) -> bool) -> bool {
        let kept = self.to_ask().and_then(|node| {
            let after = self.after.ok()?;
            after.nodes[node].kept.as_ref()
        });
        kept.is_some_and(is_such)
    }

    /// What an accepted Commit applies.
    pub(super) fn committed(&self, is_such: fn(&Restart) -> bool) -> bool {
        let kept = self.to_commit().and_then(|node| self.kept_before(node));
        self.after.is_ok() && kept.is_some_and(is_such)
    }

    pub(super) fn kept_before(&self, node: usize) -> Option<&Restart> {
        self.before.nodes.get(node)?.kept.as_ref()
    }

    /// An accepted Ask, Commit or Recover of a node that keeps an answer.
    pub(super) fn keeps_before(&self, named: Option<usize>) -> bool {
        self.after.is_ok() && named.is_some_and(|node| self.kept_before(node).is_some())
    }

    /// The status of the node that a Commit without a kept answer names.
    pub(super) fn commits_nothing(&self, status: Status) -> bool {
        let node = self
            .to_commit()
            .and_then(|node| self.before.nodes.get(node));
        let lacks = node.is_some_and(|node| node.status == status && node.kept.is_none());
        let answer = match status {
            Status::Down => NOTHING_KEPT,
            _ => WRONG_STATUS,
        };
        lacks && self.after == Err(answer)
    }

    /// An accepted step that leaves an answer of another node as it was.
    pub(super) fn leaves_kept(&self) -> bool {
        let kept = |line: &Line| line.nodes.iter().filter(|node| node.kept.is_some()).count();
        let named = match self.frame {
            Frame::Ask { node } | Frame::Commit { node } | Frame::Recover { node } => {
                usize::from(self.kept_before(node.into()).is_some())
            }
            _ => 0,
        };
        self.after.is_ok() && kept(self.before) > named
    }
}

/// Two of them, by the parents, are not alike.
pub(super) fn do_entries_differ(kept: &Restart) -> bool {
    let mut entries = kept.restored.windows(2);
    entries.any(|pair| pair[0].time != pair[1].time)
}
