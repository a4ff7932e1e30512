//! Take, and the end of a replay, which uses placing by its stated result only.

use super::*;
use crate::placing::{self, Item};

/// Held records as items of the replay table, in its order.
struct Table {
    count: usize,
    items: [Item; placing::MOST_ITEMS],
    held: [Held; placing::MOST_ITEMS],
    /// Which leaving channels take them.
    sets: [u8; placing::MOST_ITEMS],
    /// How many of the items are targets.
    fixed: usize,
}

/// A held record's used bytes.
type Held = [u8; HELD_USED];

impl InPlace<'_> {
    pub(super) fn take(&mut self, channel: usize) -> Result<(), u32> {
        let (sender, receiver) = self.check_channel(channel)?;
        let first = slots(self.channel(channel), QUEUE).next();
        let message: [u8; MESSAGE_USED] = part(first.ok_or(NOTHING_THERE)?, 0);
        let record = Record::read(part(&message, RECORD)).expect("a sound record");
        let record = self.worked(receiver, record);
        let [time, origin] = [MESSAGE_TIME, MADE_FROM].map(|at| &message[at..]);
        let (time, origin) = (&time[..NUMBER], &origin[..ORIGIN]);
        if self.status(receiver) == REPLAYING {
            let mut held: Held = [0; HELD_USED];
            put(&mut held, RECORD, &record);
            held[HELD_SENDER] = sender as u8;
            put(&mut held, HELD_TIME, time);
            put(&mut held, HELD_INPUT_MADE_FROM, origin);
            self.hold(receiver, held)?;
        } else {
            let mut origins = [0; 2 * ORIGIN];
            origins[0] = sender as u8 + 1;
            put(&mut origins, 1, time);
            put(&mut origins, ORIGIN, origin);
            let set = self.sets(receiver).of(&record);
            self.log(receiver, &record, set, &origins)?;
        }
        self.raise_clock(channel, sender, &message);
        self.remove_first(channel);
        Ok(())
    }

    /// "Raises its clock by it."
    fn raise_clock(&mut self, channel: usize, sender: usize, message: &[u8]) {
        raise(
            self.channel_mut(channel),
            TAKEN,
            number_at(message, MESSAGE_TIME),
        );
        if let Some(before) = usize::from(message[MADE_FROM]).checked_sub(1) {
            let row = self.parents(sender).position(|parent| parent == before);
            let at = heard(row.expect("a parent"));
            let time = number_at(message, MADE_FROM + 1);
            raise(self.channel_mut(channel), at, time);
        }
    }

    fn remove_first(&mut self, channel: usize) {
        let block = self.channel_mut(channel);
        let count = number_at(block, QUEUE.count) as usize - 1;
        put_number(block, QUEUE.count, count as u32);
        block.copy_within(QUEUE.slot(1)..QUEUE.slot(count + 1), QUEUE.slot(0));
        block[QUEUE.slot(count)..QUEUE.slot(count + 1)].fill(0);
    }

    /// What a Take on a channel into a replaying node does to the node: "a record
    /// that no belt takes is dropped, another is held", and the end.
    fn hold(&mut self, node: usize, held: Held) -> Result<(), u32> {
        let mut entries = self.entries(node);
        let sender = usize::from(held[HELD_SENDER]);
        if self.are_rows_complete(node, &entries, Some(sender)) {
            return Err(ROW_COMPLETE);
        }
        let sets = self.sets(node);
        let is_held = sets.of(&held) != 0;
        let count = number_at(self.node(node), BUFFERED.count) as usize;
        if is_held && count >= BUFFERED.most {
            return Err(NO_SPACE);
        }
        entries[sender] = entries[sender].max(number_at(&held, HELD_TIME));
        if self.are_rows_complete(node, &entries, None) {
            return self.end_replay(node, &sets, is_held.then_some(held));
        }
        if is_held {
            let slot = free_slot(self.node_mut(node), BUFFERED).expect("room for it");
            put(slot, 0, &held);
        }
        Ok(())
    }

    /// The node's entries by the numbers of its parents.
    fn entries(&self, node: usize) -> [u32; Plan::MOST_NODES] {
        let mut entries = [0; Plan::MOST_NODES];
        for channel in self.entering(node) {
            entries[self.ends(channel).0] = self.taken(channel);
        }
        entries
    }

    /// A parent's row, or all of them.
    fn are_rows_complete(
        &self,
        node: usize,
        entries: &[u32; Plan::MOST_NODES],
        parent: Option<usize>,
    ) -> bool {
        slots(self.node(node), TARGETS).all(|target| {
            let each = usize::from(target[TARGET_PARENT]);
            parent.is_some_and(|parent| parent != each)
                || entries[each] >= number_at(target, TARGET_PARENT_TIME)
        })
    }

    /// "Held records are placed, logged in order of column as their times, B's
    /// time becomes high, and B is up, targets and held list emptied."
    fn end_replay(&mut self, node: usize, sets: &Sets, last: Option<Held>) -> Result<(), u32> {
        let entries = self.leaving(node).map(|channel| self.taken(channel));
        let high = entries.max().expect("a child");
        let low = number_at(self.node(node), TIME);
        let table = self.table(node, sets, last);
        if table.fixed < number_at(self.node(node), TARGETS.count) as usize {
            return Err(NO_REPLAY);
        }
        let items = &table.items[..table.count];
        let columns = placing::walk(low, high, items).ok_or(NO_REPLAY)?;
        let mut order = [0; placing::MOST_ITEMS];
        let order = &mut order[..table.count];
        for (index, place) in order.iter_mut().enumerate() {
            *place = index;
        }
        order.sort_unstable_by_key(|&index| columns[index]);
        let block = self.node_mut(node);
        for &index in order.iter() {
            let slot = free_slot(block, LOG).expect("no more than can be held");
            write_entry(slot, &table.held[index], columns[index]);
            slot[ENTRY_SET] = table.sets[index];
        }
        block[BUFFERED.count..TARGETS.end()].fill(0);
        put_number(block, TIME, high);
        block[STATUS] = UP;
        Ok(())
    }

    /// The replay table of what the node holds and of the last record. Along a
    /// row times rise as they stand.
    fn table(&self, node: usize, sets: &Sets, last: Option<Held>) -> Table {
        let mut table = Table {
            count: 0,
            items: [Item::default(); placing::MOST_ITEMS],
            held: [[0; HELD_USED]; placing::MOST_ITEMS],
            sets: [0; placing::MOST_ITEMS],
            fixed: 0,
        };
        for (row, parent) in self.parents(node).enumerate() {
            let stored = slots(self.node(node), BUFFERED).map(|slot| part(slot, 0));
            for held in stored.chain(last) {
                if usize::from(held[HELD_SENDER]) == parent {
                    let set = sets.of(&held);
                    table.add(self.item(node, row, &held, set), held, set);
                }
            }
        }
        table
    }

    fn item(&self, node: usize, row: usize, held: &Held, set: u8) -> Item {
        let time = number_at(held, HELD_TIME);
        let target = slots(self.node(node), TARGETS).find(|target| {
            target[TARGET_PARENT] == held[HELD_SENDER]
                && number_at(target, TARGET_PARENT_TIME) == time
        });
        let (fixed, floor) = match target {
            Some(target) => (number_at(target, TARGET_TIME), 0),
            None => (0, self.floor(node, set)),
        };
        Item {
            row: row as u32,
            time,
            fixed,
            floor,
        }
    }

    fn floor(&self, node: usize, set: u8) -> u32 {
        let leaving = self.leaving(node).enumerate();
        let taking = leaving.filter(|(place, _)| set >> place & 1 == 1);
        let entries = taking.map(|(_, channel)| self.taken(channel));
        entries.max().expect("a held record is taken")
    }
}

impl Table {
    fn add(&mut self, item: Item, held: Held, set: u8) {
        self.items[self.count] = item;
        self.held[self.count] = held;
        self.sets[self.count] = set;
        self.count += 1;
        self.fixed += usize::from(!item.is_free());
    }
}

fn write_entry(slot: &mut [u8], held: &Held, time: u32) {
    put(slot, RECORD, &held[..Record::LENGTH]);
    put_number(slot, MESSAGE_TIME, time);
    slot[MADE_FROM] = held[HELD_SENDER] + 1;
    put(slot, MADE_FROM + 1, &held[HELD_TIME..HELD_USED]);
}
