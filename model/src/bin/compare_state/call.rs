// One call of the engine beside the model's, on the same bytes.

use model::compare::{same_answers, Compared, Lent};
use model::random::Random;
use model::{engine, state};

/// What the engine answers, and the bytes that it leaves in the second buffer.
pub struct Left {
    pub answer: u32,
    pub bytes: Vec<u8>,
}

pub fn check(random: &mut Random, bytes: &[u8]) -> Compared<u32> {
    let lent = Lent::new(random, bytes);
    let answer = engine::check(lent.bytes());
    same_answers("engine", answer, state::check(bytes))?;
    lent.holds("state", bytes)?;
    Ok(answer)
}

pub fn load(random: &mut Random, plan: &[u8], before: &[u8]) -> Compared<Left> {
    read_and_write(random, engine::load, state::load, plan, before)
}

pub fn write(random: &mut Random, state: &[u8], before: &[u8]) -> Compared<Left> {
    read_and_write(random, engine::write, state::write, state, before)
}

type Call = fn(&[u8], &mut [u8]) -> u32;

fn read_and_write(
    random: &mut Random,
    engine: Call,
    model: Call,
    from: &[u8],
    before: &[u8],
) -> Compared<Left> {
    let lent = Lent::new(random, from);
    let mut left = Lent::new(random, before);
    let answer = engine(lent.bytes(), left.bytes_mut());
    let mut expected = before.to_vec();
    same_answers("engine", answer, model(from, &mut expected))?;
    lent.holds("first buffer", from)?;
    left.holds("second buffer", &expected)?;
    Ok(Left {
        answer,
        bytes: expected,
    })
}
