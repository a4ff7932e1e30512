use super::*;
use crate::line::practice::almost_tick;
use crate::plan::practice::all_leaving;
use crate::record::Record;
use crate::state::layout::*;
use crate::state::practice::harmless::hold_most;

pub const OUTSIDE: Clause = Clause {
    words: "a number is outside its limits",
    conditions: &[
        bytes("status", |random, line, state| {
            let number = random.index(line.nodes.len());
            state[node(number) + STATUS] = random.pick(&[3, 4, 128, 129, 255]);
            Some(())
        }),
        bytes("crash mark", |random, line, state| {
            let number = random.index(line.nodes.len());
            state[node(number) + CRASH_MARK] = random.pick(&[2, 3, 128, 129, 255]);
            Some(())
        }),
        line("steps of a console", |random, line| {
            let console = random.index(Line::CONSOLES);
            line.steps[console] = random.pick(&[1_000_001, 1_000_256, 1 << 24, u32::MAX]);
            Some(())
        }),
        line("steps of a console, the sum as before", |random, line| {
            let total = line.accepted_steps();
            line.steps = [0; Line::CONSOLES];
            line.steps[random.index(Line::CONSOLES)] = total;
            (total > Line::MOST_STEPS).then_some(())
        }),
        line("steps of two consoles whose sum wraps", |random, line| {
            let half = 1 << 31;
            let first = random.index(Line::CONSOLES);
            let second = (first + 1) % Line::CONSOLES;
            (line.steps[first], line.steps[second]) = (line.steps[first] + half, half);
            Some(())
        }),
        bytes("entries in a log", |random, line, state| {
            let number = random.index(line.nodes.len());
            miscount(random, &mut state[node(number)..], LOG)
        }),
        bytes("held records", |random, line, state| {
            let number = random.index(line.nodes.len());
            miscount(random, &mut state[node(number)..], BUFFERED)
        }),
        bytes(
            "held records where all slots are used",
            |random, line, state| {
                let mut full = line.clone();
                hold_most(random, &mut full)?;
                state.copy_from_slice(&line_bytes(&full));
                let number = pick::node(random, &full, |_, node| {
                    node.buffered.len() == Line::MOST_BUFFERED
                })?;
                miscount(random, &mut state[node(number)..], BUFFERED)
            },
        ),
        bytes("targets", |random, line, state| {
            let number = random.index(line.nodes.len());
            miscount(random, &mut state[node(number)..], TARGETS)
        }),
        bytes("kept answers", |random, line, state| {
            let number = random.index(line.nodes.len());
            miscount(random, &mut state[node(number)..], KEPT)
        }),
        bytes("messages on a channel", |random, line, state| {
            let number = random.index(line.queues.len());
            miscount(random, &mut state[channel(number)..], QUEUE)
        }),
        line("material in a log", |random, line| {
            let (node, index) = pick::entry(random, line, |_, _| true)?;
            let set = set_of_none(random, line, node, index);
            let entry = &mut line.nodes[node].log[index];
            give_no_material(random, &mut entry.message.record);
            entry.set = set;
            Some(())
        }),
        line("material of a held record", |random, line| {
            // Among those that a channel takes where materials wrap around.
            let (node, index) = pick::held(random, line, |_, _| true)?;
            let record = &mut line.nodes[node].buffered[index].record;
            if !record.is_tick() && random.one_in(2) {
                record.material += 16;
            } else {
                give_no_material(random, record);
            }
            Some(())
        }),
        line("material on a channel", |random, line| {
            let (channel, index) = pick::message(random, line, |_, _| true)?;
            give_no_material(random, &mut line.queues[channel].messages[index].record);
            Some(())
        }),
        bytes("almost a tick in a log", |random, line, state| {
            let (number, index) = pick::entry(random, line, |_, _| true)?;
            let set = set_of_none(random, line, number, index);
            let block = &mut state[node(number)..];
            put_almost_tick(random, block, LOG.slot(index));
            block[LOG.slot(index) + ENTRY_SET] = set;
            Some(())
        }),
        bytes("almost a tick that is held", |random, line, state| {
            let (number, index) = pick::held(random, line, |_, _| true)?;
            put_almost_tick(random, &mut state[node(number)..], BUFFERED.slot(index));
            Some(())
        }),
        bytes("almost a tick on a channel", |random, line, state| {
            let (number, index) = pick::message(random, line, |_, _| true)?;
            put_almost_tick(random, &mut state[channel(number)..], QUEUE.slot(index));
            Some(())
        }),
    ],
};

/// For an entry that is to have no record: no plan says which channels take it.
fn set_of_none(random: &mut Random, line: &Line, node: usize, index: usize) -> u8 {
    let kept = line.nodes[node].log[index].set;
    random.pick(&[kept, 0, all_leaving(&line.plan, node)])
}

/// A material that makes it neither a record nor a tick.
fn give_no_material(random: &mut Random, record: &mut Record) {
    record.material = random.pick(&[16, 17, 31, 32, 128, 255]);
    if record.is_tick() {
        record.material = 254;
    }
}

fn put_almost_tick(random: &mut Random, block: &mut [u8], slot: usize) {
    put(block, slot + RECORD, &almost_tick(random));
}

/// One more than the slots and far more; also where the last byte is right.
fn miscount(random: &mut Random, block: &mut [u8], slots: Slots) -> Option<()> {
    let count = number_at(block, slots.count);
    let most = slots.most as u32;
    let wrong = random.pick(&[
        most + 1,
        most + 2,
        255,
        count + 256,
        count + 65_536,
        count + (1 << 24),
        count + (1 << 31),
        u32::MAX,
    ]);
    put_number(block, slots.count, wrong);
    Some(())
}
