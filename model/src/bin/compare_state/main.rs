// Compares the engine's Check, Load and Write with the model's: states that
// frames lead to, damaged in every way of the practice, and plans of all kinds.
// Run in model/:
//   cargo run --release --offline --features engine-state --bin compare_state [seed]

mod call;
mod floors;
mod run;
mod section;

use model::compare::seed;
use model::state::practice::staged;

use run::Run;

const RUNS: u64 = 4_200;
const DAMAGED_RUNS: u64 = 300;
const LAST_RUNS: u64 = 500;
const LOADS: u64 = 60_000;

fn main() {
    let mut run = Run::new();
    match seed() {
        Some(seed) => one(&mut run, seed),
        None => all(&mut run),
    }
    println!("engine and model agree");
}

fn one(run: &mut Run, seed: u64) {
    let lines = run.reach(seed);
    run.damage(seed, &lines);
    run.reach_last(seed, &staged::worn());
    run.load(seed);
}

fn all(run: &mut Run) {
    for seed in 0..RUNS {
        let lines = run.reach(seed);
        if seed < DAMAGED_RUNS {
            run.damage(seed, &lines);
        }
    }
    let worn = staged::worn();
    for seed in 0..LAST_RUNS {
        run.reach_last(seed, &worn);
    }
    run.damage_staged();
    for seed in 0..LOADS {
        run.load(seed);
    }
    run.counts.hold_to(&floors::all());
}
