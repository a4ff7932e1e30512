//! A node's time, log and held records. Targets and kept answers stand in `recovered`.

use super::*;

impl View<'_> {
    pub(super) fn is_node_sound(&self, number: usize) -> bool {
        let block = self.node(number);
        if has(self.keeping, number) {
            return is_zero(&block[TIME..TARGETS.count]) && is_zero(&block[KEPT.end()..]);
        }
        if has(self.down, number) {
            return is_zero(&block[TIME..]);
        }
        if number_at(block, TIME) > self.steps {
            return false;
        }
        if has(self.replaying, number) {
            is_zero(&block[LOG.count..BUFFERED.count])
                && self.is_buffer_sound(number)
                && is_zero(&block[TARGETS.end()..])
        } else {
            self.is_log_sound(number)
        }
    }

    /// The log of a node that is up, which has nothing after it.
    fn is_log_sound(&self, number: usize) -> bool {
        let block = self.node(number);
        let Some(count) = count_in(block, LOG) else {
            return false;
        };
        let sets = self.shape.sets(number);
        // What a router takes and does not pass on has no time of its own.
        let is_router = !has(self.shape.sources | self.shape.sinks, number);
        let mut last = 0;
        for slot in block[LOG.slot(0)..LOG.slot(count)].chunks_exact(LOG.length) {
            let time = number_at(slot, MESSAGE_TIME);
            let may_repeat = is_router && slot[ENTRY_SET] == 0;
            let is_sound = (time > last || may_repeat && time == last)
                && is_record_sound(slot)
                && self.is_entry_heard(number, &slot[..ENTRY_SET])
                && slot[ENTRY_SET..] == [sets.of(slot), 0];
            if !is_sound {
                return false;
            }
            last = time;
        }
        last <= number_at(block, TIME) && is_zero(&block[LOG.slot(count)..])
    }

    /// An entry as far as its set.
    fn is_entry_heard(&self, number: usize, slot: &[u8]) -> bool {
        if has(self.shape.sources, number) {
            return is_zero(&slot[MADE_FROM..]);
        }
        let Some(entering) = self.shape.entering(number, slot[MADE_FROM]) else {
            return false;
        };
        let time = number_at(slot, MADE_FROM + 1);
        (1..=self.taken(entering)).contains(&time)
            && self.is_input_heard(entering, &slot[INPUT_MADE_FROM..])
    }

    /// What an input from the channel was made from.
    fn is_input_heard(&self, entering: usize, origin: &[u8]) -> bool {
        let sender = self.shape.channels[entering].sender;
        if has(self.shape.sources, sender) {
            return is_zero(origin);
        }
        let Some(before) = self.shape.entering(sender, origin[0]) else {
            return false;
        };
        let heard = number_at(self.channel(entering), heard(self.shape.row[before]));
        (1..=heard).contains(&number_at(origin, 1))
    }

    /// The held records of a node that replays.
    fn is_buffer_sound(&self, number: usize) -> bool {
        let block = self.node(number);
        let Some(count) = count_in(block, BUFFERED) else {
            return false;
        };
        let sets = self.shape.sets(number);
        let mut last = [0; Plan::MOST_AT_A_NODE];
        for slot in block[BUFFERED.slot(0)..BUFFERED.slot(count)].chunks_exact(BUFFERED.length) {
            let sender = slot[HELD_SENDER].saturating_add(1);
            let Some(entering) = self.shape.entering(number, sender) else {
                return false;
            };
            let last = &mut last[self.shape.row[entering]];
            let time = number_at(slot, HELD_TIME);
            let is_sound = time > *last
                && time <= self.taken(entering)
                && is_record_sound(slot)
                && self.is_input_heard(entering, &slot[HELD_INPUT_MADE_FROM..HELD_USED])
                && is_zero(&slot[HELD_USED..])
                && sets.of(slot) != 0;
            if !is_sound {
                return false;
            }
            *last = time;
        }
        is_zero(&block[BUFFERED.slot(count)..TARGETS.count])
    }
}
