//! Whether replaying nodes have the time and targets, and down nodes the kept answers,
//! that Recover would give.

use super::*;

impl View<'_> {
    /// The logs have been checked.
    pub(super) fn are_as_recovered(&self) -> bool {
        (0..self.shape.node_count).all(|number| {
            if has(self.replaying, number) {
                self.is_replay_as_recovered(number)
            } else {
                !has(self.keeping, number) || self.is_kept_as_recovered(number)
            }
        })
    }

    fn is_replay_as_recovered(&self, number: usize) -> bool {
        let low = number_at(self.node(number), TIME);
        let told = self.told(number, low);
        told.is_some_and(|told| !told.are_rows_complete)
    }

    fn is_kept_as_recovered(&self, number: usize) -> bool {
        let kept = &self.node(number)[KEPT.slot(0)..KEPT.end()];
        let Some(told) = self.told(number, number_at(kept, KEPT_LOW)) else {
            return false;
        };
        let leaving = self.shape.leaving(number).iter();
        let high = leaving.map(|&channel| self.taken(channel)).max();
        let mut restored = told.restored.iter().enumerate();
        high == Some(number_at(kept, KEPT_HIGH))
            && restored.all(|(row, &time)| number_at(kept, kept_restored(row)) == time)
            && !(told.has_targets && told.are_rows_complete)
    }

    /// What the children tell a node whose low it is and whose targets are all that they
    /// tell, and no others.
    fn told(&self, number: usize, low: u32) -> Option<Told> {
        let leaving = self.shape.leaving(number).iter();
        if leaving.map(|&channel| self.taken(channel)).min() != Some(low) {
            return None;
        }
        let targets = Targets::read(&self.shape, number, self.node(number))?;
        if !targets.do_inputs_differ() {
            return None;
        }
        let restored = self.restored(number, low, &targets)?;
        let mut rows = targets.greatest.iter().zip(restored);
        Some(Told {
            restored,
            has_targets: targets.count > 0,
            are_rows_complete: rows.all(|(greatest, restored)| *greatest <= restored),
        })
    }

    /// The restored entries, if the children tell all the targets and no others.
    fn restored(&self, number: usize, low: u32, targets: &Targets) -> Option<Rows> {
        let mut told: u64 = 0;
        let mut restored = [0; Plan::MOST_AT_A_NODE];
        for &leaving in self.shape.leaving(number) {
            for (row, restored) in restored.iter_mut().enumerate() {
                let trimmed = number_at(self.channel(leaving), low_heard(row));
                *restored = trimmed.max(*restored);
            }
            let block = self.node(self.shape.channels[leaving].receiver);
            let count = number_at(block, LOG.count) as usize;
            for slot in block[LOG.slot(0)..LOG.slot(count)].chunks_exact(LOG.length) {
                if usize::from(slot[MADE_FROM]) != number + 1 {
                    continue;
                }
                let time = number_at(slot, MADE_FROM + 1);
                let input_time = number_at(slot, INPUT_MADE_FROM + 1);
                let entering = self.shape.entering(number, slot[INPUT_MADE_FROM]);
                let row = self.shape.row[entering.expect("logs are checked")];
                if time <= low {
                    restored[row] = input_time.max(restored[row]);
                    continue;
                }
                match targets.find(time) {
                    Some(index) if targets.inputs[index] == input(row, input_time) => {
                        told |= 1 << index;
                    }
                    _ => return None,
                }
            }
        }
        (told.count_ones() as usize == targets.count).then_some(restored)
    }
}

/// Times by the rows of the parents, 0 behind them.
type Rows = [u32; Plan::MOST_AT_A_NODE];

struct Told {
    restored: Rows,
    has_targets: bool,
    /// At once: so too where there are no targets.
    are_rows_complete: bool,
}

/// A node's targets, of which no two have the same time.
struct Targets {
    count: usize,
    times: [u32; TARGETS.most],
    inputs: [u64; TARGETS.most],
    /// The greatest time of each row.
    greatest: Rows,
    /// Row times rise along each row, as they mostly do.
    do_rows_rise: bool,
}

impl Targets {
    fn read(shape: &Shape, number: usize, block: &[u8]) -> Option<Targets> {
        let mut targets = Targets {
            count: count_in(block, TARGETS)?,
            times: [0; TARGETS.most],
            inputs: [0; TARGETS.most],
            greatest: [0; Plan::MOST_AT_A_NODE],
            do_rows_rise: true,
        };
        let slots = &block[TARGETS.slot(0)..TARGETS.slot(targets.count)];
        let mut last = 0;
        for (index, slot) in slots.chunks_exact(TARGETS.length).enumerate() {
            let time = number_at(slot, TARGET_TIME);
            let input_time = number_at(slot, TARGET_PARENT_TIME);
            let parent = slot[TARGET_PARENT].saturating_add(1);
            let row = shape.row[shape.entering(number, parent)?];
            if time <= last || !is_zero(&slot[TARGET_USED..]) {
                return None;
            }
            last = time;
            targets.times[index] = time;
            targets.inputs[index] = input(row, input_time);
            targets.do_rows_rise &= input_time > targets.greatest[row];
            targets.greatest[row] = input_time.max(targets.greatest[row]);
        }
        is_zero(&block[TARGETS.slot(targets.count)..TARGETS.end()]).then_some(targets)
    }

    fn find(&self, time: u32) -> Option<usize> {
        self.times[..self.count].binary_search(&time).ok()
    }

    fn do_inputs_differ(&self) -> bool {
        if self.do_rows_rise {
            return true;
        }
        let mut inputs = self.inputs;
        let inputs = &mut inputs[..self.count];
        inputs.sort_unstable();
        inputs.windows(2).all(|pair| pair[0] != pair[1])
    }
}

fn input(row: usize, time: u32) -> u64 {
    (row as u64) << 32 | u64::from(time)
}
