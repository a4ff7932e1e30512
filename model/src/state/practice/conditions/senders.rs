use super::*;

pub const WRONG: Clause = Clause {
    words: "a number names a node that is not the right parent",
    conditions: &[
        line("sender of an entry", |random, line| {
            let (node, index) =
                pick::entry(random, line, |_, entry| entry.message.made_from.is_some())?;
            let wrong = no_parent(random, line, node);
            let input = line.nodes[node].log[index].message.made_from.as_mut()?;
            input.sender = wrong;
            Some(())
        }),
        line("sender of an entry's input", |random, line| {
            let (node, index) =
                pick::entry(random, line, |_, entry| entry.input_made_from.is_some())?;
            let entry = &line.nodes[node].log[index];
            let wrong = no_parent(random, line, entry.message.made_from?.sender);
            let origin = line.nodes[node].log[index].input_made_from.as_mut()?;
            origin.sender = wrong;
            Some(())
        }),
        line("sender of a held record", |random, line| {
            let (node, index) = pick::held(random, line, |_, _| true)?;
            let wrong = no_parent(random, line, node);
            let wrong = random.pick(&[wrong, wrong, 255]);
            line.nodes[node].buffered[index].made_from.sender = wrong;
            Some(())
        }),
        line("sender of a held record's input", |random, line| {
            let (node, index) = pick::held(random, line, |node, index| {
                line.nodes[node].buffered[index].input_made_from.is_some()
            })?;
            let sender = line.nodes[node].buffered[index].made_from.sender;
            let wrong = no_parent(random, line, sender);
            let origin = line.nodes[node].buffered[index].input_made_from.as_mut()?;
            origin.sender = wrong;
            Some(())
        }),
        line("sender of a message", |random, line| {
            let (channel, index) = pick::message(random, line, |channel, index| {
                line.queues[channel].messages[index].made_from.is_some()
            })?;
            let wrong = no_parent(random, line, line.plan.channels[channel].sender);
            let origin = line.queues[channel].messages[index].made_from.as_mut()?;
            origin.sender = wrong;
            Some(())
        }),
        line("parent of a target", |random, line| {
            let node = pick::node(random, line, |_, node| !node.targets.is_empty())?;
            let wrong = no_parent(random, line, node);
            let wrong = random.pick(&[wrong, wrong, 255]);
            let index = random.index(line.nodes[node].targets.len());
            line.nodes[node].targets[index].parent = wrong;
            Some(())
        }),
    ],
};

/// A number that names no parent of the node, or no node.
fn no_parent(random: &mut Random, line: &Line, node: usize) -> usize {
    let parents: Vec<usize> = line.plan.parents(node).collect();
    loop {
        let near = random.index(line.nodes.len() + 1);
        let any = random.index(255);
        let drawn = random.pick(&[near, near, near, node, 12, 13, 254, any]);
        if !parents.contains(&drawn) {
            return drawn;
        }
    }
}
