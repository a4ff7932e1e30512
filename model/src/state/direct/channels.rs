//! A channel's mark and messages, and the parts of the receiver's clock and low
//! clock that stand with it.

use super::*;

impl View<'_> {
    pub(super) fn is_channel_sound(&self, number: usize) -> bool {
        let block = self.channel(number);
        let Channel {
            sender, receiver, ..
        } = self.shape.channels[number];
        if has(self.marked, sender) && has(self.marked, receiver) {
            return false;
        }
        if has(self.down, receiver) {
            return is_zero(block);
        }
        let taken = number_at(block, TAKEN);
        let parents = self.shape.parent_count[sender];
        let is_clock_sound = taken <= self.steps
            && (0..parents).all(|row| number_at(block, heard(row)) <= self.steps)
            && is_zero(&block[heard(parents)..QUEUE.count])
            && is_low_clock_within(block)
            && is_zero(&block[LOW_END..]);
        if !is_clock_sound {
            return false;
        }
        let mark = number_at(block, MARK);
        if has(self.down, sender) {
            return mark == 0 && is_zero(&block[QUEUE.count..LOW]);
        }
        if has(self.replaying, sender) && !is_zero(&block[QUEUE.count..LOW]) {
            return false;
        }
        taken <= mark && mark <= self.steps && self.is_queue_sound(number, taken, mark)
    }

    fn is_queue_sound(&self, number: usize, taken: u32, mark: u32) -> bool {
        let block = self.channel(number);
        let Some(count) = count_in(block, QUEUE) else {
            return false;
        };
        let mut last = taken;
        for slot in block[QUEUE.slot(0)..QUEUE.slot(count)].chunks_exact(QUEUE.length) {
            let time = number_at(slot, MESSAGE_TIME);
            if time <= last || !is_record_sound(slot) || !self.is_message_made(number, slot) {
                return false;
            }
            last = time;
        }
        last <= mark && is_zero(&block[QUEUE.slot(count)..LOW])
    }

    fn is_message_made(&self, number: usize, slot: &[u8]) -> bool {
        let sender = self.shape.channels[number].sender;
        if has(self.shape.sources, sender) {
            return is_zero(&slot[MADE_FROM..]);
        }
        self.shape.entering(sender, slot[MADE_FROM]).is_some()
            && (1..=self.steps).contains(&number_at(slot, MADE_FROM + 1))
            && is_zero(&slot[MESSAGE_USED..])
    }
}

/// Also that parents which the sender lacks have none: their entries are 0.
fn is_low_clock_within(block: &[u8]) -> bool {
    let parts = [LOW..LOW_END, TAKEN..QUEUE.count].map(|part| block[part].chunks_exact(NUMBER));
    let [low, entries] = parts;
    low.zip(entries)
        .all(|(low, entry)| number_at(low, 0) <= number_at(entry, 0))
}
