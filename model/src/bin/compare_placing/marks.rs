// The marker: lists of columns for the tables, and what the marks are counted as.

use model::compare::{under, Floor};
use model::placing::tables::{all_lists, all_small, another_placing};
use model::placing::{vectors, Item, Mark, Table, GREATEST, LIST_LENGTH, MALFORMED, MOST_ITEMS};

use crate::call::Call;
use crate::{extreme, fail, read, Run};

const MARKS: &str = "marks";
const NOES: &str = "noes, by the item named";
const REASONS: &str = "noes, by the only rule that the item breaks";
const TABLES: &str = "marked tables that are well formed";

const NONE: &str = "yes to no columns for no items";
const CHOSEN: &str = "yes to the chosen columns";
const OTHERS: &str = "yes to other columns";
const NO: &str = "no";
const LONGER: &str = "28, a list too long";
const SHORTER: &str = "28, a list too short";
const TABLE: &str = "22";
const TABLE_FIRST: &str = "22 where 28 applies too";

const ITEMS: [&str; 2] = ["the first of several", "the last of several"];

const RULES: [&str; 5] = [
    "outside low + 1..high",
    "not at the fixed column",
    "not above the floor",
    "the column of an earlier item in another row",
    "not above an earlier item in the row",
];

const KINDS: [&str; 4] = ["no items", "up to 3 items", "64 items", "high at 4,000,000"];

pub fn floors() -> Vec<Floor> {
    let mut floors = under(MARKS, 20_000, [NONE, CHOSEN, OTHERS, NO]);
    floors.extend(under(MARKS, 50_000, [LONGER, SHORTER, TABLE, TABLE_FIRST]));
    floors.extend(under(NOES, 20_000, ITEMS));
    floors.extend(under(REASONS, 20_000, RULES));
    floors.extend(under(TABLES, 5_000, KINDS));
    floors
}

impl Run {
    pub fn kept_marks(&mut self, path: &str) -> usize {
        let lines = vectors::read_marks(&read(path));
        for line in &lines {
            let call = Call::new(&mut self.random, &line.table, 0).with(&line.columns);
            let mark = self.compare_marks(&call, &chosen(&line.table));
            if mark != line.mark {
                fail(&format!(
                    "both differ from the vector {:?}\n{call}",
                    line.mark
                ));
            }
        }
        lines.len()
    }

    pub fn all_lists(&mut self) -> usize {
        let tables = all_small();
        for table in &tables {
            let columns: Vec<u32> = (0..=table.high + 1).collect();
            let call = Call::new(&mut self.random, table, 0);
            let chosen = chosen(table);
            for columns in all_lists(table.items.len(), &columns) {
                self.compare_marks(&call.with(&columns), &chosen);
            }
        }
        tables.len()
    }

    /// The chosen columns, another placing, and each of them with a change.
    pub fn mark_placings(&mut self, call: &Call, table: &Table, chosen: &[u32]) {
        let other = another_placing(&mut self.random, table, chosen);
        for columns in [chosen, &other] {
            let changed = self.one_changed(table, columns);
            let resized = self.resized(columns);
            for list in [columns, &changed, &resized] {
                self.compare_marks(&call.with(list), chosen);
            }
        }
    }

    /// Each item keeps the rules by itself, if it can.
    pub fn mark_unrelated(&mut self, call: &Call, table: &Table, chosen: &[u32]) {
        let random = &mut self.random;
        let column = |item: &Item| {
            let least = item.floor.max(table.low).min(table.high);
            let near = least + random.between(1, 8).min(table.high - least);
            let any = random.between(least, table.high);
            match item.is_free() {
                true => random.pick(&[near, any]),
                false => item.fixed,
            }
        };
        let columns: Vec<u32> = table.items.iter().map(column).collect();
        self.compare_marks(&call.with(&columns), chosen);
    }

    /// To where a rule begins or ends, to an item's, or anywhere.
    fn one_changed(&mut self, table: &Table, columns: &[u32]) -> Vec<u32> {
        let mut changed = columns.to_vec();
        if columns.is_empty() {
            return changed;
        }
        let random = &mut self.random;
        let index = random.index(columns.len());
        let (item, its) = (&table.items[index], columns[index]);
        let others = random.pick(columns);
        let between = random.between(table.low, table.high + 1);
        changed[index] = match random.index(8) {
            0 => random.pick(&[0, table.low, table.high + 1, u32::MAX]),
            1 => random.pick(&[item.floor, item.floor.saturating_sub(1), item.floor + 1]),
            2 => random.pick(&[its - 1, its + 1]),
            3 => extreme(random),
            4 | 5 => others,
            _ => between,
        };
        changed
    }

    fn resized(&mut self, columns: &[u32]) -> Vec<u32> {
        let mut resized = columns.to_vec();
        if columns.is_empty() || self.random.one_in(2) {
            for _ in 0..self.random.between(1, 3) {
                resized.push(columns.first().map_or(0, |column| column + 1));
            }
        } else {
            resized.truncate(self.random.index(columns.len()));
        }
        resized
    }

    /// Also counts the mark.
    pub fn compare_marks(&mut self, call: &Call, chosen: &[u32]) -> Mark {
        let compared = call.compare_marks(&mut self.random);
        let mark = compared.unwrap_or_else(|told| fail(&told));
        let (count, columns) = (call.rows.lent, call.columns.passed());
        let name = match mark {
            Mark::Yes if count == 0 => NONE,
            Mark::Yes if columns == chosen => CHOSEN,
            Mark::Yes => OTHERS,
            Mark::No(_) => NO,
            Mark::Refused(LIST_LENGTH) if columns.len() > count => LONGER,
            Mark::Refused(LIST_LENGTH) => SHORTER,
            Mark::Refused(_) if columns.len() != count => TABLE_FIRST,
            Mark::Refused(_) => TABLE,
        };
        self.counts.add(MARKS, name);
        if mark != Mark::Refused(MALFORMED) {
            let is_limit = call.high == GREATEST;
            let are = [
                count == 0,
                (1..4).contains(&count),
                count == MOST_ITEMS,
                is_limit,
            ];
            for kind in named(KINDS, are) {
                self.counts.add(TABLES, kind);
            }
        }
        if let Mark::No(item) = mark {
            let (is_first, is_last) = (item == 0, item + 1 == count);
            for item in named(ITEMS, [is_first && !is_last, is_last && !is_first]) {
                self.counts.add(NOES, item);
            }
            if let [rule] = broken(call, item)[..] {
                self.counts.add(REASONS, rule);
            }
        }
        mark
    }
}

/// Or zeros, if there are none.
fn chosen(table: &Table) -> Vec<u32> {
    let mut columns = vec![0; table.items.len()];
    table.place(&mut columns);
    columns
}

/// The rules that the item breaks by itself or with an earlier item.
fn broken(call: &Call, item: usize) -> Vec<&'static str> {
    let (columns, rows) = (call.columns.passed(), call.rows.passed());
    let (column, row) = (columns[item], rows[item]);
    let (fixed, floor) = (call.fixed.passed()[item], call.floors.passed()[item]);
    let is_free = fixed == 0;
    let earlier = || rows[..item].iter().zip(columns);
    let are_broken = [
        !(call.low + 1..=call.high).contains(&column),
        !is_free && column != fixed,
        is_free && column <= floor,
        earlier().any(|(&its, &other)| its != row && other == column),
        earlier().any(|(&its, &other)| its == row && other >= column),
    ];
    named(RULES, are_broken)
}

fn named<const COUNT: usize>(
    names: [&'static str; COUNT],
    are: [bool; COUNT],
) -> Vec<&'static str> {
    let each = names.into_iter().zip(are);
    each.filter_map(|(name, is)| is.then_some(name)).collect()
}
