//! Request 2026-09: the marker against the rules.

use super::*;
use crate::placing::tables::{all_lists, all_small, another_placing};

/// No i: the first i items keep the rules and the first i + 1 do not.
fn by_rules(table: &Table, columns: &[u32]) -> Mark {
    let Table { low, high, items } = table;
    let is_kept = |first: usize| keeps_rules(*low, *high, &items[..first], &columns[..first]);
    let count = items.len();
    match (0..count).find(|&item| is_kept(item) && !is_kept(item + 1)) {
        Some(item) => Mark::No(item),
        None => {
            assert!(is_kept(count));
            Mark::Yes
        }
    }
}

#[test]
fn all_lists_for_all_small_tables() {
    // Yes, and no by its item.
    let mut marks = [0; 4];
    for table in all_small() {
        let columns: Vec<u32> = (0..=table.high + 1).collect();
        let mut is_any = false;
        for columns in all_lists(table.items.len(), &columns) {
            let mark = table.mark(&columns);
            assert_eq!(mark, by_rules(&table, &columns), "{table:?} {columns:?}");
            is_any |= mark == Mark::Yes;
            marks[match mark {
                Mark::No(item) => item + 1,
                _ => 0,
            }] += 1;
        }
        let exists = exists_placing(table.low, table.high, &table.items);
        assert_eq!(is_any, exists, "{table:?}");
        if exists {
            let (_, chosen) = placed(&table);
            assert_eq!(table.mark(&chosen), Mark::Yes, "{table:?}");
        }
    }
    println!("{marks:?}");
    assert!(marks.iter().all(|&marks| marks > 2_000), "{marks:?}");
}

#[test]
fn placings_get_yes() {
    let mut random = Random::new(5);
    let mut others = 0;
    for _ in 0..8_000 {
        let count = random.index(MOST_ITEMS + 1);
        let low = random.between(0, GREATEST - 1_000);
        let high = low + count as u32 + random.between(0, 100);
        let table = placeable(&mut random, low, high, count);
        let (_, chosen) = placed(&table);
        assert_eq!(table.mark(&chosen), Mark::Yes, "{table:?}");
        let other = another_placing(&mut random, &table, &chosen);
        assert_eq!(table.mark(&other), Mark::Yes, "{table:?} {other:?}");
        others += usize::from(other != chosen);
    }
    println!("{others} others");
    assert!(others > 2_000, "{others}");
}

#[test]
fn first_item_that_breaks_a_rule() {
    let third = table(
        1,
        6,
        &[(1, 1, 0, 3), (1, 2, 5, 0), (2, 1, 0, 1), (2, 2, 6, 0)],
    );
    for (columns, mark) in [
        ([4, 5, 2, 6], Mark::Yes),
        ([4, 5, 3, 6], Mark::Yes),
        ([3, 5, 2, 6], Mark::No(0)),
        ([6, 5, 2, 6], Mark::No(1)),
        ([4, 4, 2, 6], Mark::No(1)),
        ([4, 5, 1, 6], Mark::No(2)),
        ([4, 5, 5, 6], Mark::No(2)),
        ([4, 5, 6, 6], Mark::No(3)),
        ([4, 5, 2, 7], Mark::No(3)),
        ([4, 5, 2, 0], Mark::No(3)),
        ([u32::MAX, 5, 2, 6], Mark::No(0)),
        ([u32::MAX, 0, u32::MAX, 0], Mark::No(0)),
    ] {
        assert_eq!(third.mark(&columns), mark, "{columns:?}");
    }
    let at_the_end = table(3_999_999, 4_000_000, &[(3, 4_000_000, 0, 4_000_000)]);
    for column in [0, 3_999_999, 4_000_000, 4_000_001, u32::MAX] {
        assert_eq!(at_the_end.mark(&[column]), Mark::No(0));
    }
}

#[test]
fn table_before_list() {
    let malformed = table(0, 4, &[(0, 0, 0, 0)]);
    let sound = table(0, 4, &[(0, 1, 0, 0)]);
    for columns in [&[][..], &[1], &[1, 2]] {
        assert_eq!(malformed.mark(columns), Mark::Refused(MALFORMED));
    }
    for columns in [&[][..], &[1, 2], &[0; 65]] {
        assert_eq!(sound.mark(columns), Mark::Refused(LIST_LENGTH));
    }
    for length in [0, 1, 2] {
        let mark = mark(0, 4, &[0], &[1], &[0], &[0, 0], &[1, 2][..length]);
        assert_eq!(mark, Mark::Refused(MALFORMED));
    }
    let empty = table(4, 4, &[]);
    assert_eq!(empty.mark(&[]), Mark::Yes);
    assert_eq!(empty.mark(&[4]), Mark::Refused(LIST_LENGTH));
}

#[test]
fn numbers_of_marks() {
    let marks = [Mark::Yes, Mark::No(0), Mark::No(63), Mark::Refused(28)];
    assert_eq!(marks.map(Mark::number), [0, 256, 319, 28]);
}

#[test]
fn kept_vectors() {
    let lines = vectors::read_marks(include_str!("../../../vectors/marks.txt"));
    assert!(!lines.is_empty());
    for line in lines {
        let mark = line.table.mark(&line.columns);
        assert_eq!(mark, line.mark, "{:?} {:?}", line.table, line.columns);
    }
}
