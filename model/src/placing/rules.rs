//! What a placing is, and a search through all of them for small tables.
//! Rests on the item alone, not on the walk.

use super::Item;

/// "A placing gives distinct columns, rising along each row, fixed items at
/// theirs, free ones above their floors." "Columns run from low + 1 to high."
pub fn keeps_rules(low: u32, high: u32, table: &[Item], columns: &[u32]) -> bool {
    if columns.len() != table.len() {
        return false;
    }
    for (index, item) in table.iter().enumerate() {
        let column = columns[index];
        if column <= low || column > high {
            return false;
        }
        if item.fixed != 0 && column != item.fixed {
            return false;
        }
        if item.fixed == 0 && column <= item.floor {
            return false;
        }
        for earlier in 0..index {
            if columns[earlier] == column {
                return false;
            }
            if table[earlier].row == item.row && columns[earlier] > column {
                return false;
            }
        }
    }
    true
}

/// Tries every column for every item. Columns for the first items that break a
/// rule are not continued: no later item can mend them.
pub fn exists_placing(low: u32, high: u32, table: &[Item]) -> bool {
    can_continue(low, high, table, &mut Vec::new())
}

fn can_continue(low: u32, high: u32, table: &[Item], columns: &mut Vec<u32>) -> bool {
    let count = columns.len();
    if !keeps_rules(low, high, &table[..count], columns) {
        return false;
    }
    if count == table.len() {
        return true;
    }
    for column in low + 1..=high {
        columns.push(column);
        let found = can_continue(low, high, table, columns);
        columns.pop();
        if found {
            return true;
        }
    }
    false
}
