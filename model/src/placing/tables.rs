//! Replay tables: random ones, well formed, with and without a placing; other placings
//! than the chosen one; all small ones.

use std::collections::BTreeSet;

use super::{keeps_rules, Item, Table, GREATEST, ROWS};
use crate::random::Random;

/// Numbers that do not heed one another.
pub fn unrelated(random: &mut Random, low: u32, high: u32, count: usize) -> Table {
    let mut rows: Vec<u32> = (0..count).map(|_| random.index(ROWS) as u32).collect();
    rows.sort();
    let fixed_share = random.pick(&[0, 1, 2, 4]);
    let floor_share = random.pick(&[0, 1, 2, 4]);
    let mut items: Vec<Item> = rows
        .into_iter()
        .map(|row| {
            let mut item = Item {
                row,
                ..Item::default()
            };
            if low < high && random.index(8) < fixed_share {
                item.fixed = random.between(low + 1, high);
            } else if random.index(4) < floor_share {
                item.floor = random.between(0, high);
            }
            item
        })
        .collect();
    give_times(random, &mut items);
    Table { low, high, items }
}

/// Made around a placing, so that there is one. `count` is at most the number
/// of columns.
pub fn placeable(random: &mut Random, low: u32, high: u32, count: usize) -> Table {
    let mut parts: [Vec<Item>; ROWS] = Default::default();
    let rows_used = random.between(1, ROWS as u32) as usize;
    let first_row = random.index(ROWS);
    let fixed_share = random.pick(&[0, 1, 4, 7]);
    let floor_kind = random.index(4);
    for column in distinct_columns(random, low, high, count) {
        let row = (first_row + random.index(rows_used)) % ROWS;
        let mut item = Item {
            row: row as u32,
            ..Item::default()
        };
        if random.index(8) < fixed_share {
            item.fixed = column;
        } else {
            item.floor = match floor_kind {
                0 => 0,
                1 => column - 1,
                2 => (column - 1).saturating_sub(random.between(0, 4)),
                _ => random.between(0, column - 1),
            };
        }
        parts[row].push(item);
    }
    let mut items = parts.concat();
    give_times(random, &mut items);
    Table { low, high, items }
}

/// A placeable table with a few numbers changed; still well formed.
pub fn nearly_placeable(random: &mut Random, low: u32, high: u32, count: usize) -> Table {
    let mut table = placeable(random, low, high, count);
    for _ in 0..random.between(1, 3) {
        change(random, &mut table);
    }
    table
}

fn change(random: &mut Random, table: &mut Table) {
    if table.low == table.high || random.one_in(4) {
        let needed = table.items.iter().map(|item| item.fixed).max().unwrap_or(0);
        let less = table.high.saturating_sub(random.between(1, 3));
        table.high = less.max(needed).max(table.low);
        return;
    }
    if table.items.is_empty() {
        return;
    }
    let index = random.index(table.items.len());
    let item = &mut table.items[index];
    if random.one_in(3) {
        item.fixed = random.between(table.low + 1, table.high);
        item.floor = 0;
    } else if item.is_free() {
        let greatest = if random.one_in(4) {
            GREATEST
        } else {
            item.floor + 3
        };
        item.floor = random.between(item.floor, greatest).min(GREATEST);
    } else if random.one_in(2) {
        item.floor = item.fixed - random.between(0, 1);
        item.fixed = 0;
    } else {
        let nearby = if random.one_in(2) {
            item.fixed + 1
        } else {
            item.fixed - 1
        };
        item.fixed = nearby.clamp(table.low + 1, table.high);
    }
}

/// From a placing to another, if a few moves of an item to a column of which it has the
/// choice, where a free item that is there goes to its own, lead to one.
pub fn another_placing(random: &mut Random, table: &Table, placing: &[u32]) -> Vec<u32> {
    let Table { low, high, items } = table;
    let mut columns = placing.to_vec();
    for _ in 0..random.between(1, 8) {
        let Some(index) = (!items.is_empty()).then(|| random.index(items.len())) else {
            break;
        };
        let its = columns[index];
        let (first, last) = match random.one_in(2) {
            true => (low + 1, *high),
            false => ((low + 1).max(its.saturating_sub(3)), (its + 3).min(*high)),
        };
        let column = random.between(first, last);
        let mut moved = columns.clone();
        if let Some(other) = columns.iter().position(|&other| other == column) {
            moved[other] = its;
        }
        moved[index] = column;
        if keeps_rules(*low, *high, items, &moved) {
            columns = moved;
        }
    }
    columns
}

/// Rising columns, often crowded into a part of them.
fn distinct_columns(random: &mut Random, low: u32, high: u32, count: usize) -> BTreeSet<u32> {
    let width = high - low;
    let needed = count as u32;
    assert!(needed <= width);
    let crowd = match random.index(4) {
        0 => needed,
        1 => needed + random.between(0, 8),
        2 => needed + random.between(0, 100),
        _ => width,
    }
    .min(width);
    let before = match random.index(4) {
        0 => 0,
        1 => width - crowd,
        _ => random.between(0, width - crowd),
    };
    let first = low + before + 1;
    let mut columns = BTreeSet::new();
    while columns.len() < count {
        columns.insert(random.between(first, first + crowd - 1));
    }
    columns
}

/// Row times that rise strictly along each row, now and then up to the limit.
fn give_times(random: &mut Random, items: &mut [Item]) {
    let greatest_gap = GREATEST / items.len().max(1) as u32;
    let gap = random.pick(&[1, 3, greatest_gap]);
    for part in items.chunk_by_mut(|item, next| item.row == next.row) {
        let mut time = 0;
        for item in part.iter_mut() {
            time += random.between(1, gap);
            item.time = time;
        }
        if random.one_in(8) {
            part.iter_mut()
                .for_each(|item| item.time += GREATEST - time);
        }
    }
}

/// All tables of up to three items in three rows over up to three columns, row times aside.
pub fn all_small() -> Vec<Table> {
    let ranges = [(0, 0), (1, 1), (0, 3), (1, 4)];
    let tables = ranges.into_iter().flat_map(|(low, high)| {
        let lists = (0..=3).flat_map(move |count| all_lists(count, &all_items(low, high)));
        lists
            .filter(|items| items.is_sorted_by_key(|item| item.row))
            .map(move |items| in_time(low, high, items))
    });
    tables.collect()
}

/// All lists of so many of the choices.
pub fn all_lists<T: Copy>(length: usize, choices: &[T]) -> Vec<Vec<T>> {
    let one_longer = |lists: Vec<Vec<T>>, _| {
        let longer = lists.iter().flat_map(|list| {
            let with = |&choice| [&list[..], &[choice]].concat();
            choices.iter().map(with)
        });
        longer.collect()
    };
    (0..length).fold(vec![Vec::new()], one_longer)
}

/// Free ones with every floor and fixed ones at every column, without row times.
fn all_items(low: u32, high: u32) -> Vec<Item> {
    let free = (0..=high).map(|floor| (0, floor));
    let kinds = free.chain((low + 1..=high).map(|fixed| (fixed, 0)));
    let in_rows = kinds.flat_map(|(fixed, floor)| {
        (0..3).map(move |row| Item {
            row,
            time: 0,
            fixed,
            floor,
        })
    });
    in_rows.collect()
}

fn in_time(low: u32, high: u32, mut items: Vec<Item>) -> Table {
    for (item, time) in items.iter_mut().zip(1..) {
        item.time = time;
    }
    Table { low, high, items }
}
