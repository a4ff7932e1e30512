use super::*;
use crate::state::practice::places::{KEPT_OF_NONE, LOW_OF_NONE};

/// By the names of `places`.
pub const NOT_ZERO: Clause = Clause {
    words: "an unused byte is not 0",
    conditions: &[
        unused("after the plan"),
        unused("after the steps"),
        unused("before a node's time"),
        unused("within a record"),
        unused("time of no sender"),
        unused("after an entry"),
        unused("free entries"),
        unused("after a held record"),
        unused("free held records"),
        unused("after a target"),
        unused("free targets"),
        unused("no kept answer"),
        unused(KEPT_OF_NONE),
        unused("after a node's kept answer"),
        unused("nodes that the plan lacks"),
        unused("heard of parents that a sender lacks"),
        unused("after a message"),
        unused("free messages"),
        unused(LOW_OF_NONE),
        unused("after a channel's low clock"),
        unused("channels that the plan lacks"),
        unused("after the channels"),
    ],
};
