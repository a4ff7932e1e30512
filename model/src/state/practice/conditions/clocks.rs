use super::*;
use crate::line::Origin;

/// The time is raised above the clock, or the clock lowered below the time.
pub const PASSED: Clause = Clause {
    words: "an entry's or held record's other times pass the node's clock",
    conditions: &[
        line("time of an entry's sender", |random, line| {
            let (node, index) =
                pick::entry(random, line, |_, entry| entry.message.made_from.is_some())?;
            more_steps(random, line, 1000);
            let input = line.nodes[node].log[index].message.made_from?;
            let raised = pass_taken(random, line, node, input);
            line.nodes[node].log[index].message.made_from = Some(raised);
            Some(())
        }),
        line("time of an entry's input's sender", |random, line| {
            let (node, index) =
                pick::entry(random, line, |_, entry| entry.input_made_from.is_some())?;
            more_steps(random, line, 1000);
            let entry = line.nodes[node].log[index];
            let sender = entry.message.made_from?.sender;
            let raised = pass_heard(random, line, node, sender, entry.input_made_from?);
            line.nodes[node].log[index].input_made_from = Some(raised);
            Some(())
        }),
        line("time of a held record's sender", |random, line| {
            let (node, index) = pick::held(random, line, |_, _| true)?;
            more_steps(random, line, 1000);
            let input = line.nodes[node].buffered[index].made_from;
            let raised = pass_taken(random, line, node, input);
            line.nodes[node].buffered[index].made_from = raised;
            Some(())
        }),
        line("time of a held record's input's sender", |random, line| {
            let (node, index) = pick::held(random, line, |node, index| {
                line.nodes[node].buffered[index].input_made_from.is_some()
            })?;
            more_steps(random, line, 1000);
            let held = line.nodes[node].buffered[index];
            let sender = held.made_from.sender;
            let raised = pass_heard(random, line, node, sender, held.input_made_from?);
            line.nodes[node].buffered[index].input_made_from = Some(raised);
            Some(())
        }),
    ],
};

fn pass_taken(random: &mut Random, line: &mut Line, node: usize, input: Origin) -> Origin {
    let part = line.nodes[node].clock.part_mut(input.sender);
    pass(random, &mut part.expect("a parent").time, input)
}

fn pass_heard(
    random: &mut Random,
    line: &mut Line,
    node: usize,
    sender: usize,
    origin: Origin,
) -> Origin {
    let part = line.nodes[node].clock.part_mut(sender).expect("a parent");
    let before = part.part_mut(origin.sender).expect("a parent's parent");
    pass(random, &mut before.time, origin)
}

fn pass(random: &mut Random, clock: &mut u32, named: Origin) -> Origin {
    if random.one_in(3) {
        *clock = random.pick(&[named.time - 1, named.time - 1, 0]);
        return named;
    }
    Origin {
        time: *clock + random.pick(&[1, 1, 255, 256]),
        ..named
    }
}
