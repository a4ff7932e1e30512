// The engine's plan check beside the model's, on plans of both versions that are
// right, mutated and random.

use model::compare::{self, answer, same_answers, under, Counts};
use model::plan::practice::{cases, mutate, noise, plan, CASES};
use model::plan::Plan;
use model::random::Random;

#[link(name = "plan", kind = "static")]
extern "C" {
    fn plan_check(plan: *const u8, plan_length: usize) -> u32;
}

const RIGHT: usize = 40_000;
const MUTATED: usize = 400_000;
const RANDOM: usize = 100_000;

const MADE: &str = "plans";
const ANSWERS: &str = "answers";
const CASE: &str = "plans as long as their field says";

fn engine(plan: &[u8]) -> u32 {
    unsafe { plan_check(plan.as_ptr(), plan.len()) }
}

fn compare(counts: &mut Counts, made: &'static str, bytes: &[u8]) {
    let kept = bytes.to_vec();
    let answered = engine(bytes);
    let expected = match Plan::read(bytes) {
        Ok(read) => {
            assert_eq!(read.write(), bytes, "the model writes another plan");
            0
        }
        Err(number) => number,
    };
    same_answers("engine", answered, expected)
        .unwrap_or_else(|wrong| compare::fail(&format!("{bytes:?}"), &wrong, bytes));
    assert_eq!(kept, bytes, "the engine changes a plan");
    counts.add(MADE, made);
    counts.add(ANSWERS, answer(expected));
    for case in cases(bytes) {
        counts.add(CASE, case);
    }
}

fn main() {
    let mut random = Random::new(7);
    let mut counts = Counts::default();
    let made = ["made right", "mutated", "random"];
    for _ in 0..RIGHT {
        compare(&mut counts, made[0], &plan(&mut random));
    }
    for _ in 0..MUTATED {
        let mut bytes = plan(&mut random);
        mutate(&mut random, &mut bytes);
        compare(&mut counts, made[1], &bytes);
    }
    for _ in 0..RANDOM {
        compare(&mut counts, made[2], &noise(&mut random));
    }
    let mut floors = under(MADE, RIGHT, made);
    floors.extend(under(ANSWERS, 100, (0..=7).map(answer)));
    floors.extend(under(CASE, 500, CASES.map(|(name, _)| name)));
    counts.hold_to(&floors);
    println!("engine and model agree");
}
