//! Request 2026-09: the marker. Rests on the item alone, not on the walk.

use super::{well_formed, Item, ACCEPTED, MALFORMED};

/// "It refuses with 28 a list whose length is not the table's, after 22."
pub const LIST_LENGTH: u32 = 28;

/// The engine's number for a no of item 0; those of the others follow it.
pub const FIRST_NO: u32 = 256;

/// "Given a table and columns, it says yes exactly if they keep the placing rules."
#[derive(Clone, Copy, Debug, PartialEq, Eq)]
pub enum Mark {
    Yes,
    /// "The number, from 0, of the first item, in table order, that breaks a rule by itself
    /// or with an earlier item."
    No(usize),
    Refused(u32),
}

impl Mark {
    pub fn number(self) -> u32 {
        match self {
            Mark::Yes => ACCEPTED,
            Mark::No(item) => FIRST_NO + item as u32,
            Mark::Refused(number) => number,
        }
    }
}

/// The whole call on number slices.
pub fn mark(
    low: u32,
    high: u32,
    rows: &[u32],
    times: &[u32],
    fixed: &[u32],
    floors: &[u32],
    columns: &[u32],
) -> Mark {
    let Some(items) = well_formed(low, high, rows, times, fixed, floors) else {
        return Mark::Refused(MALFORMED);
    };
    let table = &items[..rows.len()];
    if columns.len() != table.len() {
        return Mark::Refused(LIST_LENGTH);
    }
    for (number, (item, &column)) in table.iter().zip(columns).enumerate() {
        let mut earlier = table[..number].iter().zip(columns);
        if breaks_alone(low, high, item, column)
            || earlier.any(|(other, &its)| clash(other, its, item, column))
        {
            return Mark::No(number);
        }
    }
    Mark::Yes
}

/// Not: "fixed items at theirs, free ones above their floors", "columns run from low + 1 to
/// high".
fn breaks_alone(low: u32, high: u32, item: &Item, column: u32) -> bool {
    let is_off = match item.is_free() {
        true => column <= item.floor,
        false => column != item.fixed,
    };
    is_off || column <= low || column > high
}

/// Not: "distinct columns, rising along each row", of an earlier item and a later one.
fn clash(earlier: &Item, its: u32, item: &Item, column: u32) -> bool {
    its == column || earlier.row == item.row && its > column
}
