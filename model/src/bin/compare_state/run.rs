// Calls on lines, states and plans as they are drawn, counted.

use std::collections::HashSet;
use std::hash::{DefaultHasher, Hash, Hasher};

use model::compare::{self, Counts};
use model::line::Line;
use model::plan::practice::{cases, mutate, noise, plan};
use model::random::Random;
use model::state::practice::{self, lines, play_to_the_end, staged, Case, Kind, FEATURES};
use model::state::{line_bytes, read_line, LENGTH};

use crate::call::{self, Left};
use crate::floors::{self, LENGTHS, PLANS};
use crate::section;

pub struct Run {
    /// Of what is drawn for the calls, the practice's draws aside.
    random: Random,
    pub counts: Counts,
    /// Hashes of the states that frames led to.
    reached: HashSet<u64>,
}

impl Run {
    pub fn new() -> Run {
        Run {
            random: Random::new(1),
            counts: Counts::default(),
            reached: HashSet::new(),
        }
    }

    /// The lines of a run as frames lead to them.
    pub fn reach(&mut self, seed: u64) -> Vec<Line> {
        let mut random = Random::new(seed);
        let lines = lines(&mut random);
        self.reached(seed, &mut random, &lines);
        lines
    }

    /// The lines of the last steps that consoles can have.
    pub fn reach_last(&mut self, seed: u64, worn: &Line) {
        let mut random = Random::new(seed);
        let mut line = staged::worn_by_all(&mut random, worn);
        let lines = play_to_the_end(&mut random, &mut line);
        self.reached(seed, &mut random, &lines);
    }

    fn reached(&mut self, seed: u64, random: &mut Random, lines: &[Line]) {
        for line in lines {
            practice::reached(line, &mut |case| self.check(seed, case));
            self.write_plan(seed, random, line);
        }
    }

    pub fn damage(&mut self, seed: u64, lines: &[Line]) {
        // Not what the lines were drawn by.
        let mut random = Random::new(!seed);
        practice::damaged(&mut random, lines, &mut |case| self.check(seed, case));
    }

    pub fn damage_staged(&mut self) {
        let mut random = Random::new(0);
        practice::staged(&mut random, &mut |case| self.check(0, case));
        for line in [staged::fresh(), staged::mixed(), staged::replaying()] {
            practice::unused(&mut random, &line, &mut |case| self.check(0, case));
        }
        for line in [staged::mixed(), staged::full(), staged::half_heard()] {
            let line = staged::by_piece(line);
            practice::other_sets(&line, &mut |case| self.check(0, case));
        }
        for line in [staged::mixed(), staged::all_asked()] {
            practice::kept_bytes(&mut random, &line, &mut |case| self.check(0, case));
        }
    }

    fn check(&mut self, seed: u64, case: &Case) {
        let told = || format!("{:?} {} {}", case.kind, case.clause, case.name);
        let answer = call::check(&mut self.random, case.state)
            .unwrap_or_else(|wrong| fail(seed, &told(), &wrong, case.state));
        if case.expected.is_some_and(|expected| expected != answer) {
            let wrong = format!("both answer {answer}, unexpectedly");
            fail(seed, &told(), &wrong, case.state);
        }
        self.count(case, answer);
    }

    fn count(&mut self, case: &Case, answer: u32) {
        let outcome = floors::outcome(case.kind, answer == 0);
        self.counts.add(section::STATES, outcome);
        match case.kind {
            Kind::Reached => self.count_reached(case.state),
            Kind::Condition => self.counts.add(case.clause, case.name),
            Kind::Harmless => self.counts.add(section::HARMLESS, case.name),
            Kind::Field => self.counts.add(section::FIELDS, case.name),
            Kind::Shuffled => self.counts.add(section::SHUFFLES, case.name),
            Kind::Scrambled => self.counts.add(section::SCRAMBLES, case.name),
            Kind::Set => self.counts.add(section::SETS, case.name),
            Kind::Kept => self.counts.add(section::KEPT, case.name),
            Kind::Disturbed | Kind::Byte | Kind::Bit | Kind::Unused | Kind::Length => {}
        }
    }

    /// Each state once, however often it is reached.
    fn count_reached(&mut self, state: &[u8]) {
        let mut hasher = DefaultHasher::new();
        state.hash(&mut hasher);
        if !self.reached.insert(hasher.finish()) {
            return;
        }
        self.counts.add(section::REACHED, floors::DIFFERENT);
        let line = read_line(state).expect("a reached line");
        for feature in FEATURES.iter().filter(|feature| (feature.is_in)(&line)) {
            self.counts.add(section::REACHED, feature.name);
        }
    }

    /// A plan that is right, mutated or random, into a state of any length; what is
    /// loaded is written again.
    pub fn load(&mut self, seed: u64) {
        let mut random = Random::new(seed);
        let plan = self.drawn_plan(&mut random);
        let any = random.index(1000);
        let length = random.pick(&[LENGTH, LENGTH, LENGTH, LENGTH - 1, LENGTH + 1, 0, any]);
        let before = random.bytes(length);
        let left = call::load(&mut self.random, &plan, &before)
            .unwrap_or_else(|wrong| fail(seed, "Load", &wrong, &plan));
        self.counts.add(section::LOAD, compare::answer(left.answer));
        self.counts.add(section::LOAD, beside(length, LENGTH));
        for case in cases(&plan) {
            self.counts.add(section::LOADED, case);
        }
        if left.answer == 0 {
            self.write_again(seed, &mut random, &left.bytes, &plan);
        }
    }

    fn drawn_plan(&mut self, random: &mut Random) -> Vec<u8> {
        let mut bytes = plan(random);
        let [sound, mutated, any] = PLANS;
        let made = match random.index(8) {
            0 => {
                bytes = noise(random);
                any
            }
            1..4 => sound,
            _ => {
                mutate(random, &mut bytes);
                mutated
            }
        };
        self.counts.add(section::LOAD, made);
        bytes
    }

    /// The state is the engine's own: it gives back the bytes that it was loaded
    /// with, and leaves those past them.
    fn write_again(&mut self, seed: u64, random: &mut Random, state: &[u8], plan: &[u8]) {
        let before = output(random, plan.len());
        let left = self.write(seed, state, &before);
        let has_room = before.len() >= plan.len();
        let mut expected = before;
        if has_room {
            expected[..plan.len()].copy_from_slice(plan);
        }
        if left.bytes != expected || (left.answer == 0) != has_room {
            fail(seed, "Write", "not the plan that was loaded", state);
        }
        let row = floors::written(left.answer, plan[2]);
        self.counts.add(section::WRITE_AGAIN, row);
    }

    /// The line's plan, also of a damaged state.
    fn write_plan(&mut self, seed: u64, random: &mut Random, line: &Line) {
        let mut state = line_bytes(line);
        match random.index(8) {
            0 => state[random.index(LENGTH)] ^= 1 << random.index(8),
            1 => state.truncate(random.pick(&[0, LENGTH - 1])),
            2 => state.push(0),
            _ => {}
        }
        let needed = line.plan.write().len();
        let before = output(random, needed);
        let left = self.write(seed, &state, &before);
        let row = floors::written(left.answer, line.plan.version as u8);
        self.counts.add(section::WRITE, row);
        self.counts
            .add(section::WRITE, beside(before.len(), needed));
    }

    fn write(&mut self, seed: u64, state: &[u8], before: &[u8]) -> Left {
        call::write(&mut self.random, state, before)
            .unwrap_or_else(|wrong| fail(seed, "Write", &wrong, state))
    }
}

/// About as long as is needed, or of another length.
fn output(random: &mut Random, needed: usize) -> Vec<u8> {
    let any = random.index(700);
    let length = random.pick(&[0, needed - 1, needed, needed, needed + 1, 512, any]);
    random.bytes(length)
}

fn beside(length: usize, needed: usize) -> &'static str {
    LENGTHS[1 + usize::from(length > needed) - usize::from(length < needed)]
}

fn fail(seed: u64, name: &str, wrong: &str, bytes: &[u8]) -> ! {
    compare::fail(&format!("seed {seed}, {name}"), wrong, bytes)
}
