// One call: its inputs, its output places, and whether engine and model agree.

use std::fmt;

use model::placing::{self, Mark, Table};
use model::random::Random;

use crate::engine::{marking_mark, placing_place, OnTable};
use crate::items::{placing_place_items, WORDS_OF_AN_ITEM};

/// The first `lent` numbers are passed; the others lie right behind them.
#[derive(Clone)]
pub struct Numbers {
    pub held: Vec<u32>,
    pub lent: usize,
}

impl Numbers {
    fn all(held: Vec<u32>) -> Numbers {
        let lent = held.len();
        Numbers { held, lent }
    }

    pub fn passed(&self) -> &[u32] {
        &self.held[..self.lent]
    }
}

#[derive(Clone)]
pub struct Call {
    pub low: u32,
    pub high: u32,
    pub rows: Numbers,
    pub times: Numbers,
    pub fixed: Numbers,
    pub floors: Numbers,
    pub columns: Numbers,
}

impl Call {
    /// Lends `places` output places.
    pub fn new(random: &mut Random, table: &Table, places: usize) -> Call {
        let [rows, times, fixed, floors] = table.slices().map(Numbers::all);
        let count = table.items.len();
        let held = (0..places.max(count))
            .map(|_| random.draw() as u32)
            .collect();
        Call {
            low: table.low,
            high: table.high,
            rows,
            times,
            fixed,
            floors,
            columns: Numbers { held, lent: places },
        }
    }

    /// The same with these columns.
    pub fn with(&self, columns: &[u32]) -> Call {
        Call {
            columns: Numbers::all(columns.to_vec()),
            ..self.clone()
        }
    }

    /// Lends as many places as needed, more, or too few.
    pub fn with_any_places(random: &mut Random, table: &Table) -> Call {
        let count = table.items.len();
        let places = match random.index(8) {
            0 if count > 0 => count - 1,
            1 if count > 0 => random.index(count),
            2 | 3 => count + random.between(1, 8) as usize,
            _ => count,
        };
        Call::new(random, table, places)
    }

    /// The model's answer and the columns that it leaves.
    pub fn expected(&self) -> (u32, Vec<u32>) {
        let mut columns = self.columns.passed().to_vec();
        let answer = placing::place(
            self.low,
            self.high,
            self.rows.passed(),
            self.times.passed(),
            self.fixed.passed(),
            self.floors.passed(),
            &mut columns,
        );
        (answer, columns)
    }

    /// Calls engine and model, and the engine a second time through its slice
    /// of items, where the slices have one length. All answer alike, leave the
    /// same columns, and the engine changes nothing else in the memory around
    /// what it was lent.
    pub fn compare(&self, random: &mut Random) -> Result<(u32, Vec<u32>), String> {
        let expected = self.expected();
        self.on_slices(random, "four slices", placing_place, &expected)?;
        if let Some(items) = self.items() {
            let mut items = Memory::around(random, &items);
            let mut columns = Memory::around(random, &self.columns);
            let answer = unsafe {
                placing_place_items(
                    self.low,
                    self.high,
                    items.pointer().cast(),
                    self.rows.lent,
                    columns.pointer(),
                    self.columns.lent,
                )
            };
            let inputs = [("items", &items)];
            self.hold("a slice of items", &expected, answer, &columns, &inputs)?;
        }
        Ok(expected)
    }

    /// Calls the markers of engine and model. Both answer alike, and nothing changes.
    pub fn compare_marks(&self, random: &mut Random) -> Result<Mark, String> {
        let columns = self.columns.passed();
        let mark = placing::mark(
            self.low,
            self.high,
            self.rows.passed(),
            self.times.passed(),
            self.fixed.passed(),
            self.floors.passed(),
            columns,
        );
        let expected = (mark.number(), columns.to_vec());
        self.on_slices(random, "marker", marking_mark, &expected)?;
        Ok(mark)
    }

    fn on_slices(
        &self,
        random: &mut Random,
        form: &str,
        function: OnTable,
        expected: &(u32, Vec<u32>),
    ) -> Result<(), String> {
        let mut rows = Memory::around(random, &self.rows);
        let mut times = Memory::around(random, &self.times);
        let mut fixed = Memory::around(random, &self.fixed);
        let mut floors = Memory::around(random, &self.floors);
        let mut columns = Memory::around(random, &self.columns);
        let answer = unsafe {
            function(
                self.low,
                self.high,
                rows.pointer(),
                self.rows.lent,
                times.pointer(),
                self.times.lent,
                fixed.pointer(),
                self.fixed.lent,
                floors.pointer(),
                self.floors.lent,
                columns.pointer(),
                self.columns.lent,
            )
        };
        let inputs = [
            ("rows", &rows),
            ("times", &times),
            ("fixed", &fixed),
            ("floors", &floors),
        ];
        self.hold(form, expected, answer, &columns, &inputs)
    }

    /// The slices as items, one after the other, where they have one length.
    pub fn items(&self) -> Option<Numbers> {
        let parts = [&self.rows, &self.times, &self.fixed, &self.floors];
        if parts.iter().any(|part| part.lent != self.rows.lent) {
            return None;
        }
        let held = parts.iter().map(|part| part.held.len()).min().unwrap_or(0);
        let words = (0..held).flat_map(|index| parts.map(|part| part.held[index]));
        Some(Numbers {
            held: words.collect(),
            lent: self.rows.lent * WORDS_OF_AN_ITEM,
        })
    }

    fn hold(
        &self,
        form: &str,
        (expected, expected_columns): &(u32, Vec<u32>),
        answer: u32,
        columns: &Memory,
        inputs: &[(&str, &Memory)],
    ) -> Result<(), String> {
        let left = columns.lent(self.columns.lent);
        let told = |what: &str| {
            format!(
                "{form}: {what}\n{self}model  {expected} {expected_columns:?}\nengine {answer} {left:?}"
            )
        };
        if answer != *expected {
            return Err(told("answers differ"));
        }
        if left != expected_columns {
            return Err(told("columns differ"));
        }
        if !columns.unchanged_but(expected_columns) {
            return Err(told("memory around the columns changed"));
        }
        for (name, input) in inputs {
            if !input.unchanged_but(&[]) {
                return Err(told(&format!("memory of or around {name} changed")));
            }
        }
        Ok(())
    }
}

impl fmt::Display for Call {
    fn fmt(&self, out: &mut fmt::Formatter) -> fmt::Result {
        writeln!(out, "low {} high {}", self.low, self.high)?;
        for (name, numbers) in [
            ("rows", &self.rows),
            ("times", &self.times),
            ("fixed", &self.fixed),
            ("floors", &self.floors),
            ("columns before", &self.columns),
        ] {
            writeln!(out, "{name} ({}) {:?}", numbers.lent, numbers.passed())?;
        }
        Ok(())
    }
}

/// Numbers in the middle of a larger piece of memory.
struct Memory {
    words: Vec<u32>,
    before: Vec<u32>,
    start: usize,
}

impl Memory {
    fn around(random: &mut Random, numbers: &Numbers) -> Memory {
        let start = random.between(1, 9) as usize;
        let behind = random.between(1, 9) as usize;
        let mut words = Vec::with_capacity(start + numbers.held.len() + behind);
        words.extend((0..start).map(|_| margin_word(random)));
        words.extend(&numbers.held);
        words.extend((0..behind).map(|_| margin_word(random)));
        Memory {
            before: words.clone(),
            words,
            start,
        }
    }

    fn pointer(&mut self) -> *mut u32 {
        unsafe { self.words.as_mut_ptr().add(self.start) }
    }

    fn lent(&self, length: usize) -> &[u32] {
        &self.words[self.start..self.start + length]
    }

    /// Apart from `written` at the start of what was lent.
    fn unchanged_but(&self, written: &[u32]) -> bool {
        let end = self.start + written.len();
        self.words[..self.start] == self.before[..self.start]
            && self.words[self.start..end] == *written
            && self.words[end..] == self.before[end..]
    }
}

/// Some pass for numbers of a table, some do not.
fn margin_word(random: &mut Random) -> u32 {
    match random.index(3) {
        0 => random.between(0, 4),
        1 => random.between(0, placing::GREATEST),
        _ => random.draw() as u32,
    }
}
