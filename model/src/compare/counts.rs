//! How often each row was met, beside the least number that it must reach.

use std::collections::BTreeMap;

pub struct Floor {
    pub section: &'static str,
    pub name: String,
    pub least: usize,
}

pub fn under<Name: Into<String>>(
    section: &'static str,
    least: usize,
    names: impl IntoIterator<Item = Name>,
) -> Vec<Floor> {
    let floor = |name: Name| Floor {
        section,
        name: name.into(),
        least,
    };
    names.into_iter().map(floor).collect()
}

pub fn answer(answer: u32) -> String {
    format!("answer {answer}")
}

type Row = (&'static str, String);

#[derive(Default)]
pub struct Counts {
    rows: BTreeMap<Row, usize>,
}

impl Counts {
    pub fn add(&mut self, section: &'static str, name: impl Into<String>) {
        *self.rows.entry((section, name.into())).or_default() += 1;
    }

    pub fn join(&mut self, other: Counts) {
        for (row, count) in other.rows {
            *self.rows.entry(row).or_default() += count;
        }
    }

    /// Prints every row, and fails where one has too few or has no floor.
    pub fn hold_to(&self, floors: &[Floor]) {
        let mut section = "";
        println!("{:>10}{:>10}", "count", "at least");
        for floor in floors {
            if floor.section != section {
                section = floor.section;
                println!("\n{section}");
            }
            let count = self.count(floor);
            println!("{count:>10}{:>10}  {}", floor.least, floor.name);
        }
        for floor in floors {
            let is_enough = self.count(floor) >= floor.least;
            assert!(is_enough, "too few: {}: {}", floor.section, floor.name);
        }
        let has_floor = |(section, name): &Row| {
            let mut floors = floors.iter();
            floors.any(|floor| floor.section == *section && floor.name == *name)
        };
        let without = self.rows.keys().find(|row| !has_floor(row));
        assert_eq!(without, None, "counted, but with no least number");
    }

    fn count(&self, floor: &Floor) -> usize {
        let row = (floor.section, floor.name.clone());
        self.rows.get(&row).copied().unwrap_or(0)
    }
}
