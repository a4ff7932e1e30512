//! What the programs that compare the engine with the model have in common:
//! lent buffers, the same step from every caller, with the plan in either version and
//! by Commit as by Recover, two restarts in either order, times that count what leaves, and
//! counts that have to reach their floors.

mod callers;
mod commits;
mod counts;
mod departures;
mod either_order;
mod lent;
mod versions;

use std::process::exit;
use std::{env, fs};

pub use callers::{from_all, FromAll};
pub use commits::as_recover;
pub use counts::{answer, under, Counts, Floor};
pub use departures::Departures;
pub use either_order::{in_either_order, EitherOrder};
pub use lent::Lent;
pub use versions::in_both_versions;

/// What both give, or what went wrong.
pub type Compared<T> = Result<T, String>;

pub fn same_answers(name: &str, answer: u32, model: u32) -> Compared<()> {
    if answer == model {
        return Ok(());
    }
    Err(format!("the {name} answers {answer}, the model {model}"))
}

/// Keeps the bytes in a file.
pub fn fail(told: &str, wrong: &str, bytes: &[u8]) -> ! {
    println!("{told}: {wrong}");
    let path = env::temp_dir().join("compared.bin");
    if fs::write(&path, bytes).is_ok() {
        println!("the bytes stand in {}", path.display());
    }
    exit(1);
}

/// A number that the program was called with.
pub fn seed() -> Option<u64> {
    let seed = env::args().nth(1)?;
    Some(seed.parse().expect("a seed is a number"))
}
