// Calls on states and frames as they are drawn, counted.

use model::answer::{ACCEPTED, FRAME_LENGTH, NO_REPLAY, NO_SPACE, STATE};
use model::compare::{self, as_recover, from_all, in_both_versions, in_either_order, Counts};
use model::engine;
use model::line::practice::{
    age, caller, cut_frames, every_frame, random_frames, several_down, stray, torn, Practice,
    Stepped, TwoRestarts, EVENTS,
};
use model::line::{restart as told, stepped, Caller, Frame, Line};
use model::plan::practice::any_plan;
use model::random::Random;
use model::record::Record;
use model::state::practice::{
    self, any_record, call, replay_on, restart, staged, trim_all, Case, Kind, Played,
};
use model::state::{self, direct, line_bytes};

use crate::floors::{self, on, section, with};
use crate::states::States;

/// How often each staged line's replays are played.
const STAGED_RUNS: usize = 100;
/// How often wrong frames are drawn for a state.
const WRONG: usize = 8;
/// One call in so many is made from every caller, one with the plan in either
/// version.
const AGAIN: u32 = 64;
/// One with a kept answer in so many: a Commit of it and a Recover are made.
const RESTARTED: u32 = 8;
/// One state in so many: two of the nodes that are down are restarted in either order.
const PAIRED: u32 = 16;

pub struct Run {
    /// Of what is drawn for the calls, the practice's draws aside.
    random: Random,
    pub counts: Counts,
    /// What is said of a call that goes wrong.
    seed: u64,
}

/// States that frames are played on.
struct Playing<'a> {
    run: &'a mut Run,
    states: States,
    /// What they are counted as.
    kind: &'static str,
}

impl Played for Playing<'_> {
    fn line(&self) -> &Line {
        self.states.line.as_ref().expect("an undamaged state")
    }

    fn step(&mut self, frame: &[u8]) -> u32 {
        self.run
            .call(&mut self.states, self.kind, with::PLAYED, frame, true)
    }
}

fn play_on(random: &mut Random, playing: &mut Playing, frames: usize) {
    let mut practice = Practice::new(random);
    for _ in 0..frames {
        let frame = practice.frame(random, playing.line());
        playing.step(&frame);
    }
}

impl Run {
    pub fn new() -> Run {
        Run {
            random: Random::new(1),
            counts: Counts::default(),
            seed: 0,
        }
    }

    /// A run from Load. Lines on the way.
    pub fn play(&mut self, seed: u64) -> Vec<Line> {
        self.seed = seed;
        let mut random = Random::new(seed);
        let plan = any_plan(&mut random);
        let states = States::load(&mut self.random, &plan)
            .unwrap_or_else(|wrong| compare::fail("Load", &wrong, &plan.write()));
        practice::play(&mut random, &mut self.playing(states, on::LOADED))
    }

    /// A run from late times.
    pub fn play_late(&mut self, seed: u64) -> Vec<Line> {
        self.seed = seed;
        let mut random = Random::new(seed);
        let mut line = Line::of(any_plan(&mut random));
        age(&mut random, &mut line);
        let states = States::of(&mut self.random, &line_bytes(&line));
        practice::play(&mut random, &mut self.playing(states, on::LATE))
    }

    /// The last steps that consoles can have, and one more of each kind.
    pub fn play_to_the_end(&mut self, seed: u64, worn: &Line) {
        self.seed = seed;
        let mut random = Random::new(seed);
        let line = staged::worn_by_all(&mut random, worn);
        let states = States::of(&mut self.random, &line_bytes(&line));
        let mut playing = self.playing(states, on::WORN);
        practice::play_to_the_end(&mut random, &mut playing);
        let mut states = playing.states;
        self.try_every_frame(&mut random, &mut states, on::WORN);
    }

    fn playing(&mut self, states: States, kind: &'static str) -> Playing<'_> {
        Playing {
            run: self,
            states,
            kind,
        }
    }

    /// What is made of the lines: undamaged states that no run leads to, and
    /// damaged ones.
    pub fn change(&mut self, seed: u64, kind: &'static str, lines: &[Line]) {
        self.seed = seed;
        let mut random = Random::new(!seed);
        for line in lines {
            let mut states = States::of(&mut self.random, &line_bytes(line));
            self.try_every_frame(&mut random, &mut states, kind);
            self.try_wrong_frames(&mut random, &mut states, kind);
        }
        let mut drawn = Random::new(seed);
        practice::damaged(&mut random, lines, &mut |case| {
            self.case(&mut drawn, case, &lines[0])
        });
    }

    fn case(&mut self, random: &mut Random, case: &Case, line: &Line) {
        let mut states = States::of(&mut self.random, case.state);
        if states.line.is_none() {
            self.counts
                .add(section::DAMAGED, format!("{:?}", case.kind));
            let frame = stray(random, line);
            self.call(&mut states, on::DAMAGED, with::TYPED, &frame, false);
            return;
        }
        match case.kind {
            Kind::Harmless => {
                self.counts.add(section::HARMLESS, case.name);
                self.try_every_frame(random, &mut states, on::CHANGED);
            }
            Kind::Disturbed => self.try_every_frame(random, &mut states, on::CHANGED),
            _ => {
                let mut playing = self.playing(states, on::CHANGED);
                play_on(random, &mut playing, 4);
            }
        }
    }

    /// A router that recovers from what no run leaves its children, and the
    /// replay as far as it goes.
    pub fn tear(&mut self, seed: u64) {
        self.seed = seed;
        let mut random = Random::new(seed);
        let (line, router) = torn(&mut random);
        let mut states = States::of(&mut self.random, &line_bytes(&line));
        if states.line.is_none() {
            compare::fail("torn", "damaged", &states.bytes);
        }
        if random.one_in(4) {
            self.try_every_frame(&mut random, &mut states, on::TORN);
        }
        let mut playing = self.playing(states, on::TORN);
        let node = router as u8;
        if !random.one_in(4) {
            call(&mut random, &mut playing, Frame::Ask { node });
            let frames = random.pick(&[0, 4, 16]);
            play_on(&mut random, &mut playing, frames);
        }
        let keeps = playing.line().nodes[router].kept.is_some();
        let frame = match keeps && random.one_in(2) {
            true => Frame::Commit { node },
            false => Frame::Recover { node },
        };
        call(&mut random, &mut playing, frame);
        for _ in 0..random.pick(&[8, 150, 150]) {
            let taken = replay_on(&mut random, &mut playing);
            if taken.is_none_or(|answer| answer == NO_REPLAY) {
                break;
            }
        }
        let mut states = playing.states;
        if random.one_in(4) {
            self.try_every_frame(&mut random, &mut states, on::TORN);
        }
    }

    /// Several routers that are down: each two of them restarted in either order, and then
    /// all.
    pub fn restart_pairs(&mut self, seed: u64) {
        self.seed = seed;
        let mut random = Random::new(seed);
        let line = several_down(&mut random);
        let states = States::of(&mut self.random, &line_bytes(&line));
        if states.line.is_none() {
            compare::fail("several down", "damaged", &states.bytes);
        }
        for two in TwoRestarts::all(&mut random, &line) {
            self.call_in_either_order(&line, &states.bytes, &two);
        }
        let mut playing = self.playing(states, on::TORN);
        for node in 0..line.nodes.len() as u8 {
            restart(&mut random, &mut playing, node);
        }
    }

    /// The staged lines in both versions and with channels by piece, with every frame;
    /// most nodes restarted, replays to the end, a Trim of each node and some steps more.
    pub fn stage(&mut self) {
        self.seed = 0;
        let mut random = Random::new(0);
        let lines = [
            staged::fresh(),
            staged::mixed(),
            staged::full(),
            staged::nearly_full(),
            staged::silent(),
            staged::replaying(),
            staged::down(),
            staged::half_heard(),
            staged::heard_by_all(),
            staged::trimmed(),
            staged::asked(),
            staged::all_asked(),
        ];
        let by_mass = lines.clone().map(staged::by_mass);
        let by_piece = lines.clone().map(staged::by_piece);
        for line in lines.into_iter().chain(by_mass).chain(by_piece) {
            let state = line_bytes(&line);
            let mut states = States::of(&mut self.random, &state);
            self.try_every_frame(&mut random, &mut states, on::STAGED);
            for _ in 0..STAGED_RUNS {
                let states = States::of(&mut self.random, &state);
                let mut playing = self.playing(states, on::STAGED);
                for node in 0..line.nodes.len() as u8 {
                    if !random.one_in(4) {
                        restart(&mut random, &mut playing, node);
                    }
                }
                while replay_on(&mut random, &mut playing).is_some() {}
                trim_all(&mut random, &mut playing);
                play_on(&mut random, &mut playing, 16);
            }
        }
    }

    /// Staged lines with each set changed: a frame that the line accepts is answered 8,
    /// and all stays as it was.
    pub fn spoil_sets(&mut self) {
        self.seed = 0;
        let mut random = Random::new(0);
        for line in [staged::mixed(), staged::nearly_full(), staged::holding(8)] {
            let line = staged::by_piece(line);
            let frames = every_frame(&mut random, &line).into_iter().flatten();
            let accepted: Vec<Vec<u8>> = frames
                .filter(|frame| stepped(&line, frame).is_ok())
                .collect();
            practice::other_sets(&line, &mut |case| {
                let mut states = States::of(&mut self.random, case.state);
                let frame = &accepted[random.index(accepted.len())];
                let answer = self.call(&mut states, on::DAMAGED, with::EVERY, frame, false);
                if answer != STATE {
                    compare::fail(case.name, "a wrong set is not answered 8", case.state);
                }
                self.counts.add(section::SETS, case.name);
            });
        }
    }

    fn try_every_frame(&mut self, random: &mut Random, states: &mut States, kind: &'static str) {
        let line = states.line.as_ref().expect("an undamaged state");
        for versions in every_frame(random, line) {
            let frame = &versions[random.index(versions.len())];
            self.call(states, kind, with::EVERY, frame, false);
        }
    }

    fn try_wrong_frames(&mut self, random: &mut Random, states: &mut States, kind: &'static str) {
        let line = states.line.as_ref().expect("an undamaged state");
        for frame in cut_frames(random, line) {
            self.call(states, kind, with::CUT, &frame, false);
        }
        for _ in 0..WRONG {
            for frame in random_frames(random) {
                self.call(states, kind, with::RANDOM, &frame, false);
            }
            let line = states.line.as_ref().expect("an undamaged state");
            let frame = stray(random, line);
            self.call(states, kind, with::TYPED, &frame, false);
        }
    }

    /// The answer. Goes on from an accepted step, or back to before it.
    fn call(
        &mut self,
        states: &mut States,
        kind: &'static str,
        made: &'static str,
        frame: &[u8],
        goes_on: bool,
    ) -> u32 {
        let after = states
            .call(&mut self.random, frame)
            .unwrap_or_else(|wrong| {
                let told = format!("seed {}, {kind}, frame {frame:02X?}", self.seed);
                compare::fail(&told, &wrong, &states.bytes)
            });
        self.counts.add(section::CALLS, floors::ALL);
        self.counts.add(section::CALLS, kind);
        self.counts.add(section::FRAMES, made);
        let answer = after.as_ref().err().copied().unwrap_or(0);
        self.counts.add(section::ANSWERS, compare::answer(answer));
        if Frame::read(frame) != Err(FRAME_LENGTH) {
            let version = floors::version(frame[2]);
            self.counts.add(section::VERSIONS, version);
        }
        if let (Some(before), Ok((caller, asked))) = (&states.line, Frame::read(frame)) {
            let outcome = after.as_ref().map(|(line, _)| line);
            self.count(&Stepped {
                before,
                caller,
                frame: asked,
                after: outcome.map_err(|&refusal| refusal),
            });
            if let Ok((line, _)) = &after {
                self.count_times(before, asked, line);
                self.count_refilled(states, before, asked, line);
                if let Frame::Feed { node, .. } = asked {
                    self.call_beside(before, &states.bytes, caller, node);
                }
                if let Frame::Commit { node } = asked {
                    let row = floors::between(states.since_ask(node.into()));
                    self.counts.add(section::BETWEEN, row);
                }
            }
            if self.random.one_in(RESTARTED) {
                self.call_as_recover(before, &states.bytes);
            }
            if self.random.one_in(PAIRED) {
                let all = TwoRestarts::all(&mut self.random, before);
                if !all.is_empty() {
                    let two = &all[self.random.index(all.len())];
                    self.call_in_either_order(before, &states.bytes, two);
                }
            }
            if self.random.one_in(AGAIN) {
                self.call_from_all(before, &states.bytes, asked);
            }
            if self.random.one_in(AGAIN) {
                self.call_in_both_versions(before, &states.bytes, frame);
            }
        }
        match after {
            Ok((line, bytes)) if goes_on => states.go_on(line, bytes, frame),
            Ok(_) => states.go_back(),
            Err(_) => {}
        }
        answer
    }

    /// The engine does the same whoever sends the frame.
    fn call_from_all(&mut self, line: &Line, state: &[u8], frame: Frame) {
        let from = from_all(&mut self.random, engine::step, line, state, frame);
        let from = from.unwrap_or_else(|wrong| {
            let told = format!("seed {}, {frame:?} from every caller", self.seed);
            compare::fail(&told, &wrong, state)
        });
        let [accepted, refused, some_accepted, some_refused] = floors::FROM_ALL;
        let row = match (from.is_one_used_up, from.answer) {
            (false, Some(ACCEPTED)) => accepted,
            (false, _) => refused,
            (true, Some(ACCEPTED)) => some_accepted,
            (true, _) => some_refused,
        };
        self.counts.add(section::FROM_ALL, row);
    }

    /// The engine does the same, and so does the model, where both versions can say
    /// the plan.
    fn call_in_both_versions(&mut self, line: &Line, bytes: &[u8], frame: &[u8]) {
        for step in [engine::step, direct::step, state::step] {
            let answer = in_both_versions(step, &line.plan, bytes, frame);
            let answer = answer.unwrap_or_else(|wrong| {
                let told = format!("seed {}, {frame:02X?} in both versions", self.seed);
                compare::fail(&told, &wrong, bytes)
            });
            if let Some(answer) = answer {
                let row = floors::both(answer == ACCEPTED);
                self.counts.add(section::BOTH, row);
            }
        }
    }

    /// Of each node that keeps an answer: the engine does the same by a Commit as by a
    /// Recover, and so does the model.
    fn call_as_recover(&mut self, line: &Line, bytes: &[u8]) {
        let keeping = (0..line.nodes.len()).filter(|&node| line.nodes[node].kept.is_some());
        for node in keeping {
            let caller = caller(&mut self.random, line);
            for step in [engine::step, direct::step, state::step] {
                let answer = as_recover(step, bytes, caller, node as u8);
                let answer = answer.unwrap_or_else(|wrong| {
                    let told = format!("seed {}, a restart of {node}, {caller}", self.seed);
                    compare::fail(&told, &wrong, bytes)
                });
                let row = floors::restarts(answer == ACCEPTED);
                self.counts.add(section::RESTARTS, row);
            }
        }
    }

    /// The engine does the same whichever is first, and so does the model.
    fn call_in_either_order(&mut self, line: &Line, bytes: &[u8], two: &TwoRestarts) {
        let [one, other] = two.bytes();
        for step in [engine::step, direct::step, state::step] {
            let either = in_either_order(step, bytes, [&one, &other]);
            let either = either.unwrap_or_else(|wrong| {
                let told = format!("seed {}, {one:02X?} and {other:02X?}", self.seed);
                compare::fail(&told, &wrong, bytes)
            });
            self.counts.add(section::EITHER, floors::either(&either));
            if either.is_last_step {
                continue;
            }
            let is_accepted = either.answers == [ACCEPTED; 2];
            for relation in floors::relations(&line.plan, two.nodes) {
                let row = floors::outcome(relation, is_accepted);
                self.counts.add(section::EITHER_NODES, row);
            }
            let row = floors::outcome(floors::two_restarts(two.frames), is_accepted);
            self.counts.add(section::EITHER_KINDS, row);
            let row = floors::outcome(floors::two_callers(two.callers), is_accepted);
            self.counts.add(section::EITHER_CALLERS, row);
            if is_accepted {
                let replays = |node: &&usize| !told(line, **node).targets.is_empty();
                let row = floors::left(two.nodes.iter().filter(replays).count());
                self.counts.add(section::EITHER_LEFT, row);
            }
        }
    }

    /// Of an accepted Feed that leaves nothing, where the log is full: what a channel takes is
    /// refused with 21 in the same state.
    fn call_beside(&mut self, before: &Line, bytes: &[u8], caller: Caller, node: u8) {
        let number = usize::from(node);
        if before.nodes[number].log.len() < Line::MOST_ENTRIES {
            return;
        }
        let mut records = (0..64).map(|_| any_record(&mut self.random));
        let taken = records.find(|record| {
            let made = before.plan.rules[number].apply(*record);
            before.plan.passes_on(number, &made)
        });
        for record in [Some(Record::TICK), taken].into_iter().flatten() {
            let record = record.write();
            let frame = Frame::Feed { node, record }.sent_by(caller);
            for step in [engine::step, direct::step, state::step] {
                let mut left = bytes.to_vec();
                let answer = step(&mut left, &frame);
                if answer != NO_SPACE || left != bytes {
                    let told = format!("seed {}, frame {frame:02X?}", self.seed);
                    compare::fail(&told, &format!("{answer}, and the log is full"), bytes);
                }
            }
        }
        self.counts.add(section::BESIDE, floors::BESIDE);
    }

    /// Of a node that no Crash has named.
    fn count_times(&mut self, before: &Line, accepted: Frame, after: &Line) {
        let [fed, fed_quietly, taken, taken_silently] = floors::TIMES;
        let (rows, node) = match accepted {
            Frame::Feed { node, .. } => ([fed, fed_quietly], usize::from(node)),
            Frame::Take { channel } => {
                let receiver = before.plan.channels[usize::from(channel)].receiver;
                ([taken, taken_silently], receiver)
            }
            _ => return,
        };
        if !before.nodes[node].crash_marked {
            let is_same = after.nodes[node].time() == before.nodes[node].time();
            self.counts.add(section::TIMES, rows[usize::from(is_same)]);
        }
    }

    fn count_refilled(&mut self, states: &States, before: &Line, accepted: Frame, after: &Line) {
        let [feed, take] = floors::REFILLED;
        let (row, node) = match accepted {
            Frame::Feed { node, .. } => (feed, usize::from(node)),
            Frame::Take { channel } => {
                let receiver = before.plan.channels[usize::from(channel)].receiver;
                (take, receiver)
            }
            _ => return,
        };
        let is_kept = before.plan.is_source(node) || before.plan.is_sink(node);
        let is_logged = after.nodes[node].log.len() > before.nodes[node].log.len();
        if is_kept && is_logged && states.has_been_full(node) {
            self.counts.add(section::REFILLED, row);
        }
    }

    fn count(&mut self, step: &Stepped) {
        let is_accepted = step.after.is_ok();
        let row = floors::plan(step.before.plan.version, is_accepted);
        self.counts.add(section::PLANS, row);
        let row = floors::kind(&step.frame, is_accepted);
        self.counts.add(section::KINDS, row);
        let row = floors::outcome(step.caller, is_accepted);
        self.counts.add(section::CALLERS, row);
        for event in EVENTS.iter().filter(|event| (event.is_it)(step)) {
            self.counts.add(section::EVENTS, event.name);
        }
    }
}
