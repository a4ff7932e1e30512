//! Document 01, "Clocks and steps", the paragraph on replay: rows, held
//! records and the end by placing, which is used by its stated result only.

use super::{Buffered, Entry, Line, Message, Origin, Status};
use crate::answer::{NO_REPLAY, NO_SPACE};
use crate::placing::{self, Item, Mark, Table};
use crate::record::Record;

/// Columns for the table of a replay that ends, from anybody who is told of it and of the
/// chosen ones.
pub type Propose<'a> = &'a mut dyn FnMut(&Table, &[u32]) -> Vec<u32>;

/// What the engine's own step logs.
pub(super) fn chosen(_: &Table, chosen: &[u32]) -> Vec<u32> {
    chosen.to_vec()
}

impl Line {
    /// "A parent's row is complete when B's entry for it reaches the greatest
    /// A-time of its targets (at once if it has none)."
    pub(super) fn is_row_complete(&self, node: usize, parent: usize) -> bool {
        let node = &self.nodes[node];
        node.targets
            .iter()
            .filter(|target| target.parent == parent)
            .all(|target| node.clock.taken(parent) >= target.parent_time)
    }

    /// "A record that no belt takes is dropped, another is held." The node's
    /// rule has been applied to it.
    pub(super) fn buffer(
        &mut self,
        node: usize,
        record: Record,
        made_from: Origin,
        input_made_from: Option<Origin>,
    ) -> Result<(), u32> {
        if !self.plan.passes_on(node, &record) {
            return Ok(());
        }
        let buffered = &mut self.nodes[node].buffered;
        if buffered.len() >= Line::MOST_BUFFERED {
            return Err(NO_SPACE);
        }
        buffered.push(Buffered {
            record,
            made_from,
            input_made_from,
        });
        Ok(())
    }

    /// "When all rows are complete, held records are placed, logged in order of
    /// column as their times, B's time becomes high, and B is up, targets and
    /// held list emptied." "In that same step (a Recover too)." What is proposed and gets a
    /// yes is logged "instead of the chosen placing".
    pub(super) fn end_replay_if_complete(
        &mut self,
        node: usize,
        propose: Propose,
    ) -> Result<(), u32> {
        let mut parents = self.plan.parents(node);
        if !parents.all(|parent| self.is_row_complete(node, parent)) {
            return Ok(());
        }
        if !self.targets_are_buffered(node) {
            return Err(NO_REPLAY);
        }
        let (table, records) = self.replay_table(node);
        let mut columns = placed(&table).ok_or(NO_REPLAY)?;
        let proposed = propose(&table, &columns);
        if table.mark(&proposed) == Mark::Yes {
            columns = proposed;
        }
        let mut log: Vec<Entry> = records
            .iter()
            .zip(columns)
            .map(|(held, column)| held.logged_at(column, self.plan.set_of(node, &held.record)))
            .collect();
        log.sort_by_key(|entry| entry.message.time);
        let node = &mut self.nodes[node];
        node.log = log;
        node.clock.time = table.high;
        node.status = Status::Up;
        node.targets.clear();
        node.buffered.clear();
        Ok(())
    }

    /// Not: "a target not held when rows are complete".
    fn targets_are_buffered(&self, node: usize) -> bool {
        let node = &self.nodes[node];
        node.targets.iter().all(|target| {
            let input = Origin {
                sender: target.parent,
                time: target.parent_time,
            };
            node.buffered.iter().any(|held| held.made_from == input)
        })
    }

    /// "The replay table lists items by row (0..3, parents in rising number),
    /// then by row time." Beside each item its held record.
    pub(super) fn replay_table(&self, node: usize) -> (Table, Vec<Buffered>) {
        let mut records = self.nodes[node].buffered.clone();
        records.sort_by_key(|held| (held.made_from.sender, held.made_from.time));
        let table = Table {
            low: self.nodes[node].time(),
            high: self.taken_by_children(node).max().expect("a child"),
            items: records.iter().map(|held| self.item(node, held)).collect(),
        };
        (table, records)
    }

    /// "A target is fixed at its B-time with floor 0. A free record's floor is
    /// the greatest entry for B among children whose belts take it."
    fn item(&self, node: usize, held: &Buffered) -> Item {
        let Origin { sender, time } = held.made_from;
        let row = self.plan.parents(node).position(|parent| parent == sender);
        let target = self.nodes[node]
            .targets
            .iter()
            .find(|target| (target.parent, target.parent_time) == (sender, time));
        let floor = self
            .plan
            .leaving(node)
            .map(|channel| &self.plan.channels[channel])
            .filter(|channel| channel.takes(&held.record))
            .map(|channel| self.nodes[channel.receiver].clock.taken(node))
            .max()
            .expect("a held record is one that some leaving channel takes");
        Item {
            row: row.expect("a parent") as u32,
            time,
            fixed: target.map_or(0, |target| target.time),
            floor: if target.is_some() { 0 } else { floor },
        }
    }
}

impl Buffered {
    fn logged_at(&self, column: u32, set: u8) -> Entry {
        Entry {
            message: Message {
                record: self.record,
                time: column,
                made_from: Some(self.made_from),
            },
            input_made_from: self.input_made_from,
            set,
        }
    }
}

/// The columns, or None if no placing exists.
pub(super) fn placed(table: &Table) -> Option<Vec<u32>> {
    let mut columns = vec![0; table.items.len()];
    let answer = table.place(&mut columns);
    assert_ne!(
        answer,
        placing::MALFORMED,
        "an undamaged line gives a well-formed table: {table:?}"
    );
    (answer == placing::ACCEPTED).then_some(columns)
}
