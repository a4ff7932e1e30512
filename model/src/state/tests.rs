//! The bytes of a state, and the functions that are lent them.

mod bytes;
mod calls;
mod damage;
mod round_trips;

use std::sync::OnceLock;

use super::practice::{lines, play_to_the_end, staged};
use crate::line::Line;
use crate::random::Random;

const RUNS: u64 = 360;
const LAST_RUNS: u64 = 40;

/// The lines of each run, made once for all tests.
fn runs() -> &'static [Vec<Line>] {
    static LINES: OnceLock<Vec<Vec<Line>>> = OnceLock::new();
    LINES.get_or_init(|| {
        let worn: Line = staged::worn();
        let runs = (0..RUNS).map(|seed| lines(&mut Random::new(seed)));
        let last = (0..LAST_RUNS).map(|seed| {
            let mut random = Random::new(seed);
            let mut line = staged::worn_by_all(&mut random, &worn);
            play_to_the_end(&mut random, &mut line)
        });
        runs.chain(last).collect()
    })
}
