mod marking;

use super::tables::{nearly_placeable, placeable, unrelated};
use super::*;
use crate::random::Random;

/// Answer and columns, with three more places lent than needed.
fn placed(table: &Table) -> (u32, Vec<u32>) {
    let mut columns = vec![7; table.items.len() + 3];
    let answer = table.place(&mut columns);
    let needed = if answer == ACCEPTED {
        table.items.len()
    } else {
        0
    };
    assert!(columns[needed..].iter().all(|place| *place == 7));
    columns.truncate(needed);
    (answer, columns)
}

fn table(low: u32, high: u32, items: &[(u32, u32, u32, u32)]) -> Table {
    let items = items
        .iter()
        .map(|&(row, time, fixed, floor)| Item {
            row,
            time,
            fixed,
            floor,
        })
        .collect();
    Table { low, high, items }
}

fn small_table(random: &mut Random) -> Table {
    let low = random.between(0, 4);
    let width = random.between(0, 8);
    let count = random.between(0, width.min(6)) as usize;
    match random.index(4) {
        0 => placeable(random, low, low + width, count),
        1 | 2 => nearly_placeable(random, low, low + width, count),
        _ => unrelated(random, low, low + width, count),
    }
}

#[test]
fn marked_sheets() {
    let third = table(
        1,
        6,
        &[(1, 1, 0, 3), (1, 2, 5, 0), (2, 1, 0, 1), (2, 2, 6, 0)],
    );
    assert_eq!(placed(&third), (ACCEPTED, vec![4, 5, 2, 6]));
    let fourth = table(
        1,
        6,
        &[(1, 1, 0, 4), (1, 2, 5, 0), (2, 1, 0, 1), (2, 2, 6, 0)],
    );
    assert_eq!(placed(&fourth), (NO_PLACING, vec![]));
    let fifth = table(0, 3, &[(0, 1, 0, 0), (1, 1, 0, 0), (1, 2, 2, 0)]);
    assert_eq!(placed(&fifth), (ACCEPTED, vec![3, 1, 2]));
    let sixth = table(0, 2, &[(0, 1, 0, 0), (1, 1, 0, 0)]);
    assert_eq!(placed(&sixth), (ACCEPTED, vec![1, 2]));
    let seventh = table(4, 4, &[]);
    assert_eq!(placed(&seventh), (ACCEPTED, vec![]));
    let eighth = table(4, 4, &[(0, 1, 0, 0)]);
    assert_eq!(placed(&eighth), (NO_PLACING, vec![]));
}

#[test]
fn limits_of_the_table() {
    let answer = |low, high, items: &[(u32, u32, u32, u32)]| placed(&table(low, high, items)).0;
    let at_the_end = |item| answer(3_999_999, 4_000_000, &[item]);
    assert_eq!(at_the_end((3, 4_000_000, 0, 3_999_999)), ACCEPTED);
    assert_eq!(at_the_end((3, 4_000_000, 4_000_000, 0)), ACCEPTED);
    assert_eq!(at_the_end((3, 4_000_000, 0, 4_000_000)), NO_PLACING);
    assert_eq!(at_the_end((3, 4_000_000, 0, 4_000_001)), MALFORMED);
    assert_eq!(at_the_end((3, 4_000_001, 0, 0)), MALFORMED);
    assert_eq!(at_the_end((3, 0, 0, 0)), MALFORMED);
    assert_eq!(at_the_end((4, 1, 0, 0)), MALFORMED);
    assert_eq!(answer(4_000_000, 4_000_000, &[]), ACCEPTED);
    assert_eq!(answer(0, 4_000_001, &[]), MALFORMED);
    assert_eq!(answer(u32::MAX, u32::MAX, &[]), MALFORMED);
    assert_eq!(answer(1, 0, &[]), MALFORMED);
    assert_eq!(answer(2, 4, &[(0, 1, 2, 0)]), MALFORMED);
    assert_eq!(answer(2, 4, &[(0, 1, 3, 0)]), ACCEPTED);
    assert_eq!(answer(2, 4, &[(0, 1, 4, 0)]), ACCEPTED);
    assert_eq!(answer(2, 4, &[(0, 1, 5, 0)]), MALFORMED);
    assert_eq!(answer(2, 4, &[(0, 1, 4, 1)]), MALFORMED);
    assert_eq!(answer(0, 4, &[(0, 1, 0, 0), (0, 1, 0, 0)]), MALFORMED);
    assert_eq!(answer(0, 4, &[(0, 2, 0, 0), (0, 1, 0, 0)]), MALFORMED);
    assert_eq!(answer(0, 4, &[(1, 1, 0, 0), (0, 2, 0, 0)]), MALFORMED);
    assert_eq!(answer(0, 4, &[(0, 1, 0, 0), (1, 1, 0, 0)]), ACCEPTED);
    let many: Vec<_> = (1..=65).map(|time| (0, time, 0, 0)).collect();
    assert_eq!(answer(0, 100, &many), MALFORMED);
    assert_eq!(answer(0, 64, &many[..64]), ACCEPTED);
    assert_eq!(answer(0, 63, &many[..64]), NO_PLACING);
}

#[test]
fn fixed_columns_that_meet_or_fall() {
    let meet = table(0, 4, &[(0, 1, 2, 0), (1, 1, 2, 0)]);
    assert_eq!(placed(&meet), (NO_PLACING, vec![]));
    let fall = table(0, 4, &[(0, 1, 3, 0), (0, 2, 2, 0)]);
    assert_eq!(placed(&fall), (NO_PLACING, vec![]));
}

#[test]
fn unequal_lengths() {
    let numbers = [1, 2];
    let mut columns = [7; 2];
    for short in 0..4 {
        let length = |slice| if slice == short { 1 } else { 2 };
        let answer = place(
            0,
            9,
            &numbers[..length(0)],
            &numbers[..length(1)],
            &[0, 0][..length(2)],
            &[0, 0][..length(3)],
            &mut columns,
        );
        assert_eq!((answer, columns), (MALFORMED, [7; 2]));
    }
}

#[test]
fn order_of_refusals() {
    let malformed = table(0, 4, &[(0, 0, 0, 0)]);
    assert_eq!(malformed.place(&mut []), MALFORMED);
    let full = table(4, 4, &[(0, 1, 0, 0)]);
    assert_eq!(full.place(&mut []), SHORT_OUTPUT);
    assert_eq!(full.place(&mut [7]), NO_PLACING);
}

#[test]
fn walk_finds_a_placing_if_there_is_one() {
    let mut random = Random::new(1);
    let mut found = [0; 2];
    for _ in 0..40_000 {
        let table = small_table(&mut random);
        let exists = exists_placing(table.low, table.high, &table.items);
        let (answer, columns) = placed(&table);
        assert_eq!(
            answer,
            if exists { ACCEPTED } else { NO_PLACING },
            "{table:?}"
        );
        if exists {
            assert!(
                keeps_rules(table.low, table.high, &table.items, &columns),
                "{table:?}"
            );
        }
        found[usize::from(exists)] += 1;
    }
    assert!(found[0] > 5_000 && found[1] > 5_000, "{found:?}");
}

#[test]
fn made_tables_are_well_formed_and_placeable() {
    let mut random = Random::new(2);
    for _ in 0..4_000 {
        let count = random.index(MOST_ITEMS + 1);
        let low = random.between(0, GREATEST - 1_000);
        let high = low + count as u32 + random.between(0, 100);
        let table = placeable(&mut random, low, high, count);
        assert_eq!(placed(&table).0, ACCEPTED, "{table:?}");
        let table = nearly_placeable(&mut random, low, high, count);
        assert!(
            is_well_formed(table.low, table.high, &table.items),
            "{table:?}"
        );
        let table = unrelated(&mut random, low, high, count);
        assert!(
            is_well_formed(table.low, table.high, &table.items),
            "{table:?}"
        );
    }
}

/// The paper's words once more, with everything searched anew at each column.
fn walk_by_search(table: &Table) -> Option<Vec<u32>> {
    let items = &table.items;
    let mut columns = vec![0; items.len()];
    for column in table.low + 1..=table.high {
        if let Some(index) = items.iter().position(|item| item.fixed == column) {
            columns[index] = column;
            continue;
        }
        let chosen = (0..ROWS as u32)
            .filter_map(|row| {
                (0..items.len()).find(|&index| items[index].row == row && columns[index] == 0)
            })
            .filter(|&index| items[index].is_free() && items[index].floor < column)
            .min_by_key(|&index| (last_column_by_search(table, index), items[index].row));
        if let Some(index) = chosen {
            columns[index] = column;
        }
    }
    keeps_rules(table.low, table.high, items, &columns).then_some(columns)
}

fn last_column_by_search(table: &Table, index: usize) -> i64 {
    let row = table.items[index].row;
    let after = table.items[index + 1..]
        .iter()
        .take_while(|item| item.row == row);
    let free = after.clone().take_while(|item| item.is_free()).count() as i64;
    let fixed = after
        .clone()
        .find(|item| !item.is_free())
        .map(|item| item.fixed);
    i64::from(fixed.unwrap_or(table.high + 1)) - (free + 1)
}

#[test]
fn walk_chooses_as_the_words_do() {
    let mut random = Random::new(3);
    for round in 0..8_000 {
        let count = if round % 2 == 0 {
            random.index(9)
        } else {
            random.index(MOST_ITEMS + 1)
        };
        let low = random.between(0, 50);
        let high = low + count as u32 + random.between(0, 30);
        let table = match random.index(3) {
            0 => placeable(&mut random, low, high, count),
            1 => nearly_placeable(&mut random, low, high, count),
            _ => unrelated(&mut random, low, high, count),
        };
        let (answer, columns) = placed(&table);
        match walk_by_search(&table) {
            Some(expected) => assert_eq!((answer, columns), (ACCEPTED, expected), "{table:?}"),
            None => assert_eq!(answer, NO_PLACING, "{table:?}"),
        }
    }
}

#[test]
fn kept_vectors() {
    let lines = vectors::read(include_str!("../../vectors/placing.txt"));
    assert!(!lines.is_empty());
    for line in lines {
        assert_eq!(
            placed(&line.table),
            (line.answer, line.columns),
            "{:?}",
            line.table
        );
    }
}
