use super::*;
use crate::line::Status;

pub const WRONG: Clause = Clause {
    words: "a down or replaying node lacks a crash mark, an infeed or outfeed bears one, or two \
            joined nodes do",
    conditions: &[
        line("down without", |random, line| {
            let node = pick::node_that_is(random, line, Status::Down)?;
            line.nodes[node].crash_marked = false;
            Some(())
        }),
        line("replaying without", |random, line| {
            let node = pick::node_that_is(random, line, Status::Replaying)?;
            line.nodes[node].crash_marked = false;
            Some(())
        }),
        line("source", |random, line| {
            let node = pick::node(random, line, |node, _| line.plan.is_source(node))?;
            line.nodes[node].crash_marked = true;
            Some(())
        }),
        line("sink", |random, line| {
            let node = pick::node(random, line, |node, _| {
                line.plan.is_sink(node) && !line.plan.is_source(node)
            })?;
            line.nodes[node].crash_marked = true;
            Some(())
        }),
        line("joined", |random, line| {
            let is_router = |node| !line.plan.is_source(node) && !line.plan.is_sink(node);
            let channel = pick::channel(random, line, |channel| {
                let ends = &line.plan.channels[channel];
                is_router(ends.sender) && is_router(ends.receiver)
            })?;
            let ends = line.plan.channels[channel];
            line.nodes[ends.sender].crash_marked = true;
            line.nodes[ends.receiver].crash_marked = true;
            Some(())
        }),
    ],
};
