// Compares the engine's placing and its marker with the model's: the kept vectors and many
// random tables, sound and malformed; the marker also on all small tables. Run in model/:
//   cargo run --release --offline --bin compare_placing [vectors/placing.txt vectors/marks.txt]

mod call;
mod engine;
mod fault;
mod items;
mod marks;

use std::process::exit;
use std::{env, fs};

use model::compare::Counts;
use model::placing::tables::{nearly_placeable, placeable, unrelated};
use model::placing::{
    exists_placing, keeps_rules, vectors, Table, ACCEPTED, GREATEST, MALFORMED, MOST_ITEMS,
    NO_PLACING, SHORT_OUTPUT,
};
use model::random::Random;

use call::Call;
use fault::Fault;

const SMALL_TABLES: usize = 200_000;
const LARGE_TABLES: usize = 100_000;
const WIDE_TABLES: usize = 400;
const CALLS_A_FAULT: usize = 4_000;
const EXTREME_TABLES: usize = 100_000;
const LEAST_CALLS: usize = 1_000;

struct Run {
    random: Random,
    answers: [usize; 4],
    calls_with_items: usize,
    counts: Counts,
}

impl Run {
    /// Also marks the columns as they were lent.
    fn compare(&mut self, call: &Call) -> (u32, Vec<u32>) {
        let (answer, columns) = call
            .compare(&mut self.random)
            .unwrap_or_else(|told| fail(&told));
        let kind = [ACCEPTED, MALFORMED, SHORT_OUTPUT, NO_PLACING]
            .iter()
            .position(|each| *each == answer)
            .expect("the model gives no other answer");
        self.answers[kind] += 1;
        self.calls_with_items += usize::from(call.items().is_some());
        self.compare_marks(call, &[]);
        (answer, columns)
    }

    /// Also holds an accepted placing against the rules, and marks it and others.
    fn compare_table(&mut self, table: &Table) -> u32 {
        let call = Call::with_any_places(&mut self.random, table);
        let (answer, columns) = self.compare(&call);
        let mut chosen = &columns[..0];
        if answer == ACCEPTED {
            chosen = &columns[..table.items.len()];
            if !keeps_rules(table.low, table.high, &table.items, chosen) {
                fail(&format!("columns break the rules\n{call}{columns:?}"));
            }
            self.mark_placings(&call, table, chosen);
        }
        if answer != SHORT_OUTPUT {
            self.mark_unrelated(&call, table, chosen);
        }
        answer
    }

    fn any_table(&mut self, low: u32, high: u32, count: usize) -> Table {
        match self.random.index(4) {
            0 => placeable(&mut self.random, low, high, count),
            1 => unrelated(&mut self.random, low, high, count),
            _ => nearly_placeable(&mut self.random, low, high, count),
        }
    }

    fn kept_vectors(&mut self, path: &str) -> usize {
        let lines = vectors::read(&read(path));
        for line in &lines {
            let count = line.table.items.len();
            for places in [count, count + 5] {
                let call = Call::new(&mut self.random, &line.table, places);
                let (answer, columns) = self.compare(&call);
                let same = answer != ACCEPTED || columns[..count] == line.columns;
                if answer != line.answer || !same {
                    fail(&format!(
                        "both differ from the vector {}\n{call}",
                        line.answer
                    ));
                }
            }
        }
        lines.len()
    }

    fn small_tables(&mut self) {
        for _ in 0..SMALL_TABLES {
            let low = self.random.between(0, 4);
            let width = self.random.between(0, 8);
            let count = self.random.between(0, width.min(6)) as usize;
            let table = self.any_table(low, low + width, count);
            let answer = self.compare_table(&table);
            let exists = exists_placing(table.low, table.high, &table.items);
            if (answer == ACCEPTED && !exists) || (answer == NO_PLACING && exists) {
                fail(&format!("the search finds otherwise: {answer}, {table:?}"));
            }
        }
    }

    /// Up to 64 items over some hundred columns.
    fn large_tables(&mut self) {
        for _ in 0..LARGE_TABLES {
            let count = match self.random.index(4) {
                0 => MOST_ITEMS,
                _ => self.random.index(MOST_ITEMS + 1),
            };
            let most_spare = self.random.pick(&[0, 3, 40, 300]);
            let width = count as u32 + self.random.between(0, most_spare);
            let low = match self.random.index(3) {
                0 => 0,
                1 => GREATEST - width,
                _ => self.random.between(0, GREATEST - width),
            };
            let table = self.any_table(low, low + width, count);
            self.compare_table(&table);
        }
    }

    /// Up to 64 items over up to four million columns.
    fn wide_tables(&mut self) {
        for _ in 0..WIDE_TABLES {
            let count = self.random.index(MOST_ITEMS + 1);
            let low = match self.random.index(2) {
                0 => 0,
                _ => self.random.between(0, GREATEST - 1_000),
            };
            let high = match self.random.index(2) {
                0 => GREATEST,
                _ => self.random.between(low + 64, GREATEST),
            };
            let table = self.any_table(low, high, count);
            self.compare_table(&table);
        }
    }

    /// The number of calls made for each fault.
    fn malformed_tables(&mut self) -> Vec<(Fault, usize)> {
        let mut tried = Vec::new();
        for fault in Fault::ALL {
            let mut calls = 0;
            for _ in 0..CALLS_A_FAULT {
                let table = fault.sound_table(&mut self.random);
                let mut call = Call::with_any_places(&mut self.random, &table);
                fault.apply(&mut self.random, &mut call);
                let (answer, _) = self.compare(&call);
                if answer != MALFORMED {
                    fail(&format!("{fault:?} is answered {answer}\n{call}"));
                }
                calls += 1;
            }
            tried.push((fault, calls));
        }
        tried
    }

    /// Numbers at and beyond every border: one or a few in a sound table, or
    /// all of them.
    fn extreme_tables(&mut self) {
        for round in 0..EXTREME_TABLES {
            let count = self.random.index(9);
            let width = count as u32 + self.random.between(0, 20);
            let low = self
                .random
                .pick(&[0, 1, 1000, GREATEST - 100, GREATEST - width]);
            let table = self.any_table(low, low + width, count);
            let mut call = Call::with_any_places(&mut self.random, &table);
            let share = if round % 4 == 0 { 1 } else { 16 };
            if share == 1 || self.random.one_in(4) {
                call.low = extreme(&mut self.random);
            }
            if share == 1 || self.random.one_in(4) {
                call.high = extreme(&mut self.random);
            }
            // Walks over many columns take long: only a few here.
            let is_wide = call.high <= GREATEST && call.high > call.low.saturating_add(1000);
            if is_wide && !self.random.one_in(32) {
                call.low = call.high - self.random.between(0, 20);
            }
            for numbers in [
                &mut call.rows,
                &mut call.times,
                &mut call.fixed,
                &mut call.floors,
            ] {
                for number in &mut numbers.held {
                    if self.random.one_in(share) {
                        *number = extreme(&mut self.random);
                    }
                }
            }
            self.compare(&call);
        }
    }
}

fn extreme(random: &mut Random) -> u32 {
    let any = random.draw() as u32;
    let limit = random.pick(&[1_000_000, GREATEST]);
    let around = random.pick(&[0, 4, 64, 1 << 16, limit, 1 << 31, u32::MAX, any]);
    let away = random.between(0, 4);
    around.wrapping_add(away).wrapping_sub(2)
}

fn read(path: &str) -> String {
    fs::read_to_string(path).unwrap_or_else(|told| fail(&format!("{path}: {told}")))
}

fn fail(told: &str) -> ! {
    println!("{told}");
    exit(1);
}

fn main() {
    let kept = concat!(env!("CARGO_MANIFEST_DIR"), "/vectors/");
    let path = |number, name| env::args().nth(number).unwrap_or(format!("{kept}{name}"));
    let mut run = Run {
        random: Random::new(1),
        answers: [0; 4],
        calls_with_items: 0,
        counts: Counts::default(),
    };
    let lines = run.kept_vectors(&path(1, "placing.txt"));
    let marked = run.kept_marks(&path(2, "marks.txt"));
    let small = run.all_lists();
    run.small_tables();
    run.large_tables();
    run.wide_tables();
    let tried = run.malformed_tables();
    run.extreme_tables();

    println!(
        "tables: {lines} kept, {SMALL_TABLES} small, {LARGE_TABLES} large, {WIDE_TABLES} wide, \
         {CALLS_A_FAULT} for each of {} faults, {EXTREME_TABLES} extreme",
        tried.len()
    );
    let [accepted, malformed, short_output, no_placing] = run.answers;
    println!(
        "answers: {accepted} of 0, {malformed} of 22, {short_output} of 23, {no_placing} of 24"
    );
    println!(
        "{} of the calls also as a slice of items",
        run.calls_with_items
    );
    assert!(run.calls_with_items >= LEAST_CALLS, "too few as items");
    for calls in run.answers {
        assert!(calls >= LEAST_CALLS, "an answer came too seldom");
    }
    for (fault, calls) in tried {
        assert!(calls >= LEAST_CALLS, "{fault:?} was tried too seldom");
    }
    println!("{marked} kept marks; {small} small tables, with all lists of columns");
    run.counts.hold_to(&marks::floors());
    println!("engine and model agree");
}
