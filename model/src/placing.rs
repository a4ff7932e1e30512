//! Document 01, "Placing": the replay table, its check, the chosen walk and
//! the whole call. The marker of request 2026-09 stands in `marking`.

mod marking;
mod rules;
pub mod tables;
#[cfg(test)]
mod tests;
pub mod vectors;

pub use marking::{mark, Mark, FIRST_NO, LIST_LENGTH};
pub use rules::{exists_placing, keeps_rules};

pub const ACCEPTED: u32 = 0;
pub const MALFORMED: u32 = 22;
pub const SHORT_OUTPUT: u32 = 23;
pub const NO_PLACING: u32 = 24;

/// "At most 64 items."
pub const MOST_ITEMS: usize = 64;
/// "The limits of a replay table on columns, row times and floors rise to
/// 4,000,000."
pub const GREATEST: u32 = 4_000_000;

/// "Row (0..3, parents in rising number)."
pub const ROWS: usize = 4;

/// "Each item is a row, a row time, a fixed column (0 is free) and a floor."
#[derive(Clone, Copy, Debug, Default, PartialEq, Eq)]
pub struct Item {
    pub row: u32,
    pub time: u32,
    pub fixed: u32,
    pub floor: u32,
}

impl Item {
    pub fn is_free(&self) -> bool {
        self.fixed == 0
    }
}

/// Columns from low + 1 to high, and the items to place in them.
#[derive(Clone, Debug, PartialEq, Eq)]
pub struct Table {
    pub low: u32,
    pub high: u32,
    pub items: Vec<Item>,
}

impl Table {
    /// Rows, row times, fixed columns and floors.
    pub fn slices(&self) -> [Vec<u32>; 4] {
        let parts: [fn(&Item) -> u32; 4] = [
            |item| item.row,
            |item| item.time,
            |item| item.fixed,
            |item| item.floor,
        ];
        parts.map(|part| self.items.iter().map(part).collect())
    }

    pub fn place(&self, columns: &mut [u32]) -> u32 {
        let [rows, times, fixed, floors] = self.slices();
        place(self.low, self.high, &rows, &times, &fixed, &floors, columns)
    }

    pub fn mark(&self, columns: &[u32]) -> Mark {
        let [rows, times, fixed, floors] = self.slices();
        mark(self.low, self.high, &rows, &times, &fixed, &floors, columns)
    }
}

/// The whole call on number slices. A refusal leaves `columns` as it was.
pub fn place(
    low: u32,
    high: u32,
    rows: &[u32],
    times: &[u32],
    fixed: &[u32],
    floors: &[u32],
    columns: &mut [u32],
) -> u32 {
    let count = rows.len();
    let Some(items) = well_formed(low, high, rows, times, fixed, floors) else {
        return MALFORMED;
    };
    let table = &items[..count];
    if columns.len() < count {
        return SHORT_OUTPUT;
    }
    match walk(low, high, table) {
        None => NO_PLACING,
        Some(chosen) => {
            columns[..count].copy_from_slice(&chosen[..count]);
            ACCEPTED
        }
    }
}

/// The items of the slices, as many as rows, unless they are 22.
fn well_formed(
    low: u32,
    high: u32,
    rows: &[u32],
    times: &[u32],
    fixed: &[u32],
    floors: &[u32],
) -> Option<[Item; MOST_ITEMS]> {
    let count = rows.len();
    let equal = times.len() == count && fixed.len() == count && floors.len() == count;
    if !equal || count > MOST_ITEMS {
        return None;
    }
    let mut items = [Item::default(); MOST_ITEMS];
    for index in 0..count {
        items[index] = Item {
            row: rows[index],
            time: times[index],
            fixed: fixed[index],
            floor: floors[index],
        };
    }
    is_well_formed(low, high, &items[..count]).then_some(items)
}

/// The limits and the order of the table. Fixed columns that meet or fall
/// along a row are no fault of its form.
pub fn is_well_formed(low: u32, high: u32, table: &[Item]) -> bool {
    table.len() <= MOST_ITEMS
        && low <= high
        && high <= GREATEST
        && table.iter().all(|item| is_within_limits(low, high, item))
        && table
            .windows(2)
            .all(|pair| (pair[0].row, pair[0].time) < (pair[1].row, pair[1].time))
}

fn is_within_limits(low: u32, high: u32, item: &Item) -> bool {
    (item.row as usize) < ROWS
        && (1..=GREATEST).contains(&item.time)
        && item.floor <= GREATEST
        && (item.is_free() || (low < item.fixed && item.fixed <= high && item.floor == 0))
}

/// "The one chosen walks columns upwards." None if the walk leaves an item
/// over. The table is well formed.
pub fn walk(low: u32, high: u32, table: &[Item]) -> Option<[u32; MOST_ITEMS]> {
    let last = last_columns(high, table);
    let (mut next, end) = row_borders(table);
    let mut columns = [0; MOST_ITEMS];
    let mut left = table.len();
    for column in low + 1..=high {
        if left == 0 {
            break;
        }
        if let Some(row) = chosen_row(table, &last, &next, &end, column) {
            columns[next[row]] = column;
            next[row] += 1;
            left -= 1;
        }
    }
    (left == 0).then_some(columns)
}

/// "A fixed item takes its column; else, of the rows whose next unplaced item
/// is free with a floor below the column, the item with the least last column,
/// then the lowest row; none leaves it empty." A fixed item that is not the
/// next of its row at its column stays unplaced: there is no placing.
fn chosen_row(
    table: &[Item],
    last: &[i64; MOST_ITEMS],
    next: &[usize; ROWS],
    end: &[usize; ROWS],
    column: u32,
) -> Option<usize> {
    let mut chosen = None;
    let mut least = i64::MAX;
    for row in 0..ROWS {
        if next[row] == end[row] {
            continue;
        }
        let item = &table[next[row]];
        if item.fixed == column {
            return Some(row);
        }
        if item.is_free() && item.floor < column && last[next[row]] < least {
            chosen = Some(row);
            least = last[next[row]];
        }
    }
    chosen
}

/// "An item's last column is the next fixed column in its row (high + 1 if
/// none) minus the number of row items from it up to there." It may fall
/// below 1. The number counts the item itself and not the fixed one.
fn last_columns(high: u32, table: &[Item]) -> [i64; MOST_ITEMS] {
    let mut last = [0; MOST_ITEMS];
    let mut border_column = 0;
    let mut border_index = 0;
    for (index, item) in table.iter().enumerate().rev() {
        let ends_row = table.get(index + 1).is_none_or(|next| next.row != item.row);
        if ends_row {
            border_column = i64::from(high) + 1;
            border_index = index + 1;
        }
        last[index] = border_column - (border_index - index) as i64;
        if !item.is_free() {
            border_column = i64::from(item.fixed);
            border_index = index;
        }
    }
    last
}

/// Where the items of each row begin and end in the table.
fn row_borders(table: &[Item]) -> ([usize; ROWS], [usize; ROWS]) {
    let mut begin = [0; ROWS];
    let mut end = [0; ROWS];
    let mut index = 0;
    for row in 0..ROWS {
        begin[row] = index;
        while index < table.len() && table[index].row as usize == row {
            index += 1;
        }
        end[row] = index;
    }
    (begin, end)
}
