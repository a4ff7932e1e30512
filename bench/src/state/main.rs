// Times the engine's check of a state and the model's on the same buffers, and
// a plain pass over their bytes. Run in bench/:
//   cargo run --release --offline --features engine-state --bin bench_state

use std::hint::black_box;
use std::time::Instant;

use model::engine;
use model::line::Line;
use model::state::practice::staged;
use model::state::{direct, line_bytes};

const ROUNDS: usize = 41;
const REPEATS: usize = 200;

type Pass = fn(&[u8]) -> u32;

fn sum(state: &[u8]) -> u32 {
    state.iter().map(|&byte| u32::from(byte)).sum()
}

/// Microseconds a call.
fn time(pass: Pass, state: &[u8]) -> f64 {
    let start = Instant::now();
    for _ in 0..REPEATS {
        black_box(pass(black_box(state)));
    }
    start.elapsed().as_nanos() as f64 / 1000.0 / REPEATS as f64
}

/// The least of all rounds. The passes come in turn, each round beginning with
/// another one.
fn least_times(passes: [Pass; 3], state: &[u8]) -> [f64; 3] {
    let mut least = [f64::INFINITY; 3];
    for round in 0..ROUNDS {
        for place in 0..passes.len() {
            let number = (round + place) % passes.len();
            least[number] = time(passes[number], state).min(least[number]);
        }
    }
    least
}

fn report(name: &str, line: &Line) {
    let state = line_bytes(line);
    assert_eq!(engine::check(&state), 0);
    assert_eq!(direct::check(&state), 0);
    let [engine, model, sum] = least_times([engine::check, direct::check, sum], &state);
    println!(
        "{name:<36}{engine:>10.3}{model:>10.3}{sum:>10.3}{:>16.2}{:>14.2}",
        engine / model,
        engine / sum
    );
}

fn main() {
    println!("microseconds a call, the least of {ROUNDS} rounds of {REPEATS}");
    println!(
        "{:<36}{:>10}{:>10}{:>10}{:>16}{:>14}",
        "check of a state", "engine", "model", "sum", "engine / model", "engine / sum"
    );
    report("2 nodes, no step", &staged::fresh());
    report("12 full logs, 24 full channels", &staged::full());
    let by_piece = staged::by_piece(staged::full());
    report("12 full logs, channels by piece", &by_piece);
    report("4 replays, 64 targets, 63 held", &staged::replaying());
    let by_mass = staged::by_mass(staged::replaying());
    report("the same, plan of version 2", &by_mass);
    report("3 replays, one asked, 64 targets", &staged::asked());
}
