// Compares the engine's Step, and the model's own step in place, with the
// model's step on lines: on runs from Load and from late times, on undamaged
// states that no run leads to, and on damaged ones; and the engine's Step with
// itself, on the same step from every caller and with the plan in either version, on a
// Commit beside a Recover and on two restarts in either order. Times have to count what
// leaves.
// Run in model/:
//   cargo run --release --offline --features engine-state --bin compare_step [seed]

mod floors;
mod run;
mod states;

use model::compare::seed;
use model::state::practice::staged;

use floors::on;
use run::Run;

const RUNS: u64 = 600;
const CHANGED_RUNS: u64 = 80;
const LAST_RUNS: u64 = 200;
const TORN: u64 = 20_000;
const PAIRED: u64 = 1_500;

fn main() {
    let mut run = Run::new();
    match seed() {
        Some(seed) => one(&mut run, seed),
        None => all(&mut run),
    }
    println!("{} and the model's step agree", states::names());
}

fn one(run: &mut Run, seed: u64) {
    let lines = run.play(seed);
    run.change(seed, on::LOADED, &lines);
    let lines = run.play_late(seed);
    run.change(seed, on::LATE, &lines);
    run.play_to_the_end(seed, &staged::worn());
    run.tear(seed);
    run.restart_pairs(seed);
}

fn all(run: &mut Run) {
    for seed in 0..RUNS {
        let (kind, lines) = match seed % 2 {
            0 => (on::LOADED, run.play(seed)),
            _ => (on::LATE, run.play_late(seed)),
        };
        if seed < CHANGED_RUNS {
            run.change(seed, kind, &lines);
        }
    }
    let worn = staged::worn();
    for seed in 0..LAST_RUNS {
        run.play_to_the_end(seed, &worn);
    }
    for seed in 0..TORN {
        run.tear(seed);
    }
    for seed in 0..PAIRED {
        run.restart_pairs(seed);
    }
    run.stage();
    run.spoil_sets();
    run.counts.hold_to(&floors::all());
}
