//! Trim.

use super::*;

/// By the numbers of the nodes.
type Times = [u32; Plan::MOST_NODES];

impl InPlace<'_> {
    pub(super) fn trim(&mut self, node: usize) -> Result<(), u32> {
        self.check_node(node)?;
        if (0..self.node_count).any(|each| self.status(each) != UP) {
            return Err(SOME_NOT_UP);
        }
        let floors = self.floors();
        let run = slots(self.node(node), LOG).take_while(|slot| {
            let sender = usize::from(slot[MADE_FROM]).checked_sub(1);
            number_at(slot, MESSAGE_TIME) <= floors[node]
                && sender.is_none_or(|sender| number_at(slot, MADE_FROM + 1) <= floors[sender])
        });
        let run = run.count();
        self.keep_low(node, run);
        let block = self.node_mut(node);
        let count = number_at(block, LOG.count) as usize;
        block.copy_within(LOG.slot(run)..LOG.slot(count), LOG.slot(0));
        block[LOG.slot(count - run)..LOG.slot(count)].fill(0);
        put_number(block, LOG.count, (count - run) as u32);
        Ok(())
    }

    /// Floor times: the nodes' own, their children's entries, and what their
    /// children's children have heard.
    fn floors(&self) -> Times {
        let mut floors = [0; Plan::MOST_NODES];
        for (node, floor) in floors.iter_mut().enumerate() {
            *floor = number_at(self.node(node), TIME);
        }
        // Channels rise by their senders: a sender's parents have been met before it.
        let mut parents = [[0; Plan::MOST_AT_A_NODE]; Plan::MOST_NODES];
        let mut counts = [0; Plan::MOST_NODES];
        for channel in 0..self.channel_count {
            let (sender, receiver) = self.ends(channel);
            let block = self.channel(channel);
            floors[sender] = floors[sender].min(number_at(block, TAKEN));
            for (row, &before) in parents[sender][..counts[sender]].iter().enumerate() {
                floors[before] = floors[before].min(number_at(block, heard(row)));
            }
            parents[receiver][counts[receiver]] = sender;
            counts[receiver] += 1;
        }
        floors
    }

    /// Raises the low clock by the first entries of the log.
    fn keep_low(&mut self, node: usize, run: usize) {
        let mut taken: Times = [0; Plan::MOST_NODES];
        let mut heard = [taken; Plan::MOST_NODES];
        for slot in slots(self.node(node), LOG).take(run) {
            let [sender, before] = [MADE_FROM, INPUT_MADE_FROM].map(|at| usize::from(slot[at]));
            let Some(sender) = sender.checked_sub(1) else {
                continue;
            };
            taken[sender] = taken[sender].max(number_at(slot, MADE_FROM + 1));
            if let Some(before) = before.checked_sub(1) {
                let heard = &mut heard[sender][before];
                *heard = (*heard).max(number_at(slot, INPUT_MADE_FROM + 1));
            }
        }
        for channel in 0..self.channel_count {
            let (sender, receiver) = self.ends(channel);
            if receiver == node {
                let mut low: [u8; LOW_END - LOW] = part(self.channel(channel), LOW);
                raise(&mut low, 0, taken[sender]);
                for (row, before) in self.parents(sender).enumerate() {
                    raise(&mut low, low_heard(row) - LOW, heard[sender][before]);
                }
                put(self.channel_mut(channel), LOW, &low);
            }
        }
    }
}
