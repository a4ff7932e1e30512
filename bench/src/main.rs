// Times the engine's placing and marker and the model's on the same tables. Run in bench/:
//   cargo run --release --offline

#[path = "../../model/src/bin/compare_placing/engine.rs"]
mod engine;
mod tables;

use std::hint::black_box;
use std::time::Instant;

use model::placing::{self, ACCEPTED, FIRST_NO, GREATEST, MOST_ITEMS, NO_PLACING};
use model::random::Random;

use tables::Input;

const ROUNDS: usize = 41;

/// A timing takes at least about so many nanoseconds.
const LEAST_TIME: f64 = 4e6;

type Function = fn(&Input, &mut [u32]) -> u32;

/// The engine's and the model's.
type Both = [Function; 2];

/// They write the columns that are lent.
const PLACE: Both = [engine_place, model_place];
/// They read the input's.
const MARK: Both = [engine_mark, model_mark];

fn engine_place(input: &Input, columns: &mut [u32]) -> u32 {
    on_slices(
        engine::placing_place,
        input,
        columns.as_mut_ptr(),
        columns.len(),
    )
}

fn engine_mark(input: &Input, _: &mut [u32]) -> u32 {
    let columns = input.columns.as_ptr().cast_mut();
    on_slices(engine::marking_mark, input, columns, input.columns.len())
}

fn on_slices(function: engine::OnTable, input: &Input, columns: *mut u32, length: usize) -> u32 {
    unsafe {
        function(
            input.low,
            input.high,
            input.rows.as_ptr(),
            input.rows.len(),
            input.times.as_ptr(),
            input.times.len(),
            input.fixed.as_ptr(),
            input.fixed.len(),
            input.floors.as_ptr(),
            input.floors.len(),
            columns,
            length,
        )
    }
}

fn model_place(input: &Input, columns: &mut [u32]) -> u32 {
    placing::place(
        input.low,
        input.high,
        &input.rows,
        &input.times,
        &input.fixed,
        &input.floors,
        columns,
    )
}

fn model_mark(input: &Input, _: &mut [u32]) -> u32 {
    let mark = placing::mark(
        input.low,
        input.high,
        &input.rows,
        &input.times,
        &input.fixed,
        &input.floors,
        &input.columns,
    );
    mark.number()
}

/// Nanoseconds a call.
fn time(function: Function, inputs: &[Input], repeats: usize) -> f64 {
    let mut columns = [0; MOST_ITEMS];
    let start = Instant::now();
    for _ in 0..repeats {
        for input in inputs {
            let answer = function(black_box(input), black_box(&mut columns));
            black_box(answer);
        }
    }
    start.elapsed().as_nanos() as f64 / (repeats * inputs.len()) as f64
}

/// How often the inputs are gone through in one timing.
fn repeats(function: Function, inputs: &[Input]) -> usize {
    let once = time(function, inputs, 1) * inputs.len() as f64;
    (LEAST_TIME / once).ceil() as usize
}

fn assert_same(both: Both, input: &Input, answer: u32) {
    let [engine, model] = both.map(|function| {
        let mut columns = [0; MOST_ITEMS];
        (function(input, &mut columns), columns)
    });
    assert_eq!(engine.0, answer);
    assert_eq!(engine, model);
}

fn median(mut times: Vec<f64>) -> f64 {
    times.sort_by(f64::total_cmp);
    times[times.len() / 2]
}

fn report(name: &str, both: Both, inputs: &[Input], answer: u32) {
    inputs
        .iter()
        .for_each(|input| assert_same(both, input, answer));
    let repeats = both.map(|function| repeats(function, inputs));
    let mut times = [Vec::new(), Vec::new()];
    for round in 0..ROUNDS {
        for turn in [round % 2, (round + 1) % 2] {
            times[turn].push(time(both[turn], inputs, repeats[turn]));
        }
    }
    let items: usize = inputs.iter().map(|input| input.rows.len()).sum();
    let items = items as f64 / inputs.len() as f64;
    let [engine, model] = times.map(median);
    println!(
        "{name:<38}{:>12.3}{:>12.3}{:>16.5}{:>12.1}{:>12.1}",
        engine / 1000.0,
        model / 1000.0,
        engine / model,
        engine / items,
        model / items
    );
}

fn main() {
    let mut random = Random::new(1);
    println!("median of {ROUNDS} rounds");
    println!(
        "{:<38}{:>40}{:>24}",
        "", "microseconds a call", "nanoseconds an item"
    );
    println!(
        "{:<38}{:>12}{:>12}{:>16}{:>12}{:>12}",
        "64 items, or as said", "engine", "model", "engine / model", "engine", "model"
    );
    let few = tables::few_columns(&mut random);
    report("64..100 columns", PLACE, &few, ACCEPTED);
    for (high, told) in [(1_000_000, "1,000,000"), (GREATEST, "4,000,000")] {
        let spread = tables::spread_items(&mut random, high);
        report(
            &format!("{told} columns, spread over all"),
            PLACE,
            &spread,
            ACCEPTED,
        );
        let late = tables::late_items(&mut random, high);
        report(
            &format!("{told} columns, late ones crowded"),
            PLACE,
            &late,
            ACCEPTED,
        );
    }
    for (high, told) in [(100, "100"), (GREATEST, "4,000,000")] {
        let same = tables::stretched_items(high);
        report(
            &format!("{told} columns, the same items"),
            PLACE,
            &same,
            ACCEPTED,
        );
    }
    let sparse = tables::sparse_items(&mut random, GREATEST);
    report("4,000,000 columns, 8 items", PLACE, &sparse, ACCEPTED);
    let unplaceable = tables::unplaceable_items(&mut random, GREATEST);
    report(
        "4,000,000 columns, no placing",
        PLACE,
        &unplaceable,
        NO_PLACING,
    );
    let chosen = tables::chosen_columns(&mut random, MOST_ITEMS);
    report("marked: yes", MARK, &chosen, ACCEPTED);
    let meet = tables::columns_that_meet(&mut random, MOST_ITEMS);
    let last = FIRST_NO + MOST_ITEMS as u32 - 1;
    report("marked: no to the last item", MARK, &meet, last);
    let few = tables::chosen_columns(&mut random, 8);
    report("marked: yes, 8 items", MARK, &few, ACCEPTED);
}
