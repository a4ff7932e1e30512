//! Reads replay tables with their answers, one a line:
//! `low high | row time fixed floor ; .. | answer | columns`, of the marker
//! `low high | row time fixed floor ; .. | columns | answer`.

use super::{Item, Mark, Table};

pub struct Line {
    pub table: Table,
    pub answer: u32,
    pub columns: Vec<u32>,
}

pub struct Marked {
    pub table: Table,
    pub columns: Vec<u32>,
    pub mark: Mark,
}

/// Panics on a line of another form.
pub fn read(text: &str) -> Vec<Line> {
    let line = |(table, answer, columns)| Line {
        table,
        answer: read_number(answer),
        columns: read_numbers(columns),
    };
    text.lines().map(read_table).map(line).collect()
}

/// Panics on a line of another form.
pub fn read_marks(text: &str) -> Vec<Marked> {
    let line = |(table, columns, answer)| Marked {
        table,
        columns: read_numbers(columns),
        mark: read_mark(answer),
    };
    text.lines().map(read_table).map(line).collect()
}

/// The two parts behind the table as they stand.
fn read_table(line: &str) -> (Table, &str, &str) {
    let parts: Vec<&str> = line.split('|').collect();
    assert_eq!(parts.len(), 4, "four parts: {line}");
    let range = read_numbers(parts[0]);
    assert_eq!(range.len(), 2, "low and high: {line}");
    let items = parts[1]
        .split(';')
        .map(read_numbers)
        .filter(|numbers| !numbers.is_empty());
    let items = items.map(|numbers| {
        assert_eq!(numbers.len(), 4, "four numbers an item: {line}");
        Item {
            row: numbers[0],
            time: numbers[1],
            fixed: numbers[2],
            floor: numbers[3],
        }
    });
    let table = Table {
        low: range[0],
        high: range[1],
        items: items.collect(),
    };
    (table, parts[2], parts[3])
}

/// `yes`, `no I` or a refusal.
fn read_mark(text: &str) -> Mark {
    match text.trim().strip_prefix("no ") {
        Some(item) => Mark::No(read_number(item) as usize),
        None if text.trim() == "yes" => Mark::Yes,
        None => Mark::Refused(read_number(text)),
    }
}

fn read_number(text: &str) -> u32 {
    let numbers = read_numbers(text);
    assert_eq!(numbers.len(), 1, "one number: {text}");
    numbers[0]
}

fn read_numbers(text: &str) -> Vec<u32> {
    text.split_whitespace()
        .map(|word| word.parse().expect("a number"))
        .collect()
}
