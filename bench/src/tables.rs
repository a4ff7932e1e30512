// The tables that are timed.

use std::collections::BTreeSet;

use model::placing::tables::placeable;
use model::placing::{Item, Table, ACCEPTED, MOST_ITEMS, ROWS};
use model::random::Random;

pub struct Input {
    pub low: u32,
    pub high: u32,
    pub rows: Vec<u32>,
    pub times: Vec<u32>,
    pub fixed: Vec<u32>,
    pub floors: Vec<u32>,
    /// To be marked.
    pub columns: Vec<u32>,
}

impl Input {
    fn new(table: &Table) -> Input {
        let [rows, times, fixed, floors] = table.slices();
        Input {
            low: table.low,
            high: table.high,
            rows,
            times,
            fixed,
            floors,
            columns: Vec::new(),
        }
    }
}

pub fn few_columns(random: &mut Random) -> Vec<Input> {
    let table = |_| {
        let high = random.between(MOST_ITEMS as u32, 100);
        Input::new(&placeable(random, 0, high, MOST_ITEMS))
    };
    (0..200).map(table).collect()
}

/// With the chosen columns.
pub fn chosen_columns(random: &mut Random, count: usize) -> Vec<Input> {
    let table = |_| {
        let high = random.between(count as u32, 100);
        let table = placeable(random, 0, high, count);
        let mut columns = vec![0; count];
        assert_eq!(table.place(&mut columns), ACCEPTED);
        Input {
            columns,
            ..Input::new(&table)
        }
    };
    (0..200).map(table).collect()
}

/// The same, but the last item has the column of the first.
pub fn columns_that_meet(random: &mut Random, count: usize) -> Vec<Input> {
    let mut inputs = chosen_columns(random, count);
    for input in &mut inputs {
        input.columns[count - 1] = input.columns[0];
    }
    inputs
}

/// Evenly over all columns, so that the walk goes over all of them.
pub fn spread_items(random: &mut Random, high: u32) -> Vec<Input> {
    let step = high / MOST_ITEMS as u32;
    let columns: Vec<u32> = (1..=MOST_ITEMS as u32)
        .map(|number| number * step)
        .collect();
    (0..4).map(|_| around(random, high, &columns)).collect()
}

/// Half of the items at the first columns, half at the last.
pub fn late_items(random: &mut Random, high: u32) -> Vec<Input> {
    let half = MOST_ITEMS as u32 / 2;
    let columns: Vec<u32> = (1..=half).chain(high - half + 1..=high).collect();
    (0..4).map(|_| around(random, high, &columns)).collect()
}

/// The same items for every `high`: 64 of 100 columns, stretched over all.
pub fn stretched_items(high: u32) -> Vec<Input> {
    let mut random = Random::new(2);
    let table = |_| {
        let columns = some_columns(&mut random, high, MOST_ITEMS);
        around(&mut random, high, &columns)
    };
    (0..8).map(table).collect()
}

/// Few items, far from one another.
pub fn sparse_items(random: &mut Random, high: u32) -> Vec<Input> {
    let table = |_| {
        let columns = some_columns(random, high, 8);
        around(random, high, &columns)
    };
    (0..8).map(table).collect()
}

/// Two rows begin with an item fixed at one column, so that one of them waits
/// to the end and no placing exists.
pub fn unplaceable_items(random: &mut Random, high: u32) -> Vec<Input> {
    let table = |_| {
        let columns = some_columns(random, high, MOST_ITEMS - 2);
        let mut parts = held_at(random, &columns);
        for part in &mut parts[..2] {
            part.insert(0, Item::default());
            part[0].fixed = 1;
        }
        in_rows(high, parts)
    };
    (0..8).map(table).collect()
}

/// Some of 100 columns, stretched over all.
fn some_columns(random: &mut Random, high: u32, count: usize) -> Vec<u32> {
    let mut chosen = BTreeSet::new();
    while chosen.len() < count {
        chosen.insert(random.between(1, 100));
    }
    chosen.iter().map(|column| column * (high / 100)).collect()
}

fn around(random: &mut Random, high: u32, columns: &[u32]) -> Input {
    let parts = held_at(random, columns);
    in_rows(high, parts)
}

/// Items held at the columns by a fixed column or by a floor.
fn held_at(random: &mut Random, columns: &[u32]) -> [Vec<Item>; ROWS] {
    let mut parts: [Vec<Item>; ROWS] = Default::default();
    for &column in columns {
        let row = random.index(ROWS);
        let mut item = Item::default();
        if random.one_in(4) {
            item.fixed = column;
        } else {
            item.floor = column - 1;
        }
        parts[row].push(item);
    }
    parts
}

fn in_rows(high: u32, mut parts: [Vec<Item>; ROWS]) -> Input {
    for (row, part) in parts.iter_mut().enumerate() {
        for (index, item) in part.iter_mut().enumerate() {
            item.row = row as u32;
            item.time = index as u32 + 1;
        }
    }
    Input::new(&Table {
        low: 0,
        high,
        items: parts.concat(),
    })
}
