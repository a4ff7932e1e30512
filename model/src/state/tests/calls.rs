//! Load and Write: every answer, and what is left in the buffers. Step: the same
//! from every caller, and with the plan in either version; two restarts in either order.

use std::collections::BTreeMap;

use crate::compare::{from_all, in_both_versions, in_either_order};
use crate::line::practice::{caller, every_frame, several_down, torn, TwoRestarts};
use crate::line::{damaged, Frame, Line};
use crate::plan::practice::{any_plan, mutate, plan};
use crate::plan::Plan;
use crate::random::Random;
use crate::state::practice::staged;
use crate::state::tests::runs;
use crate::state::{direct, line_bytes, load, read_line, step, write, LENGTH};

#[test]
fn loaded_plans() {
    let mut random = Random::new(3);
    let mut answers = [0; 9];
    for _ in 0..20_000 {
        let mut bytes = plan(&mut random);
        if random.one_in(2) {
            mutate(&mut random, &mut bytes);
        }
        let length = random.pick(&[LENGTH, LENGTH, LENGTH - 1, LENGTH + 1, 0]);
        let before = vec![random.draw() as u8; length];
        let mut state = before.clone();
        let answer = load(&bytes, &mut state);
        answers[answer as usize] += 1;
        match (Plan::read(&bytes), length) {
            (Err(refusal), _) => assert_eq!((answer, state), (refusal, before)),
            (Ok(_), LENGTH) => {
                assert_eq!(answer, 0);
                assert_eq!(read_line(&state), Some(Line::load(&bytes).unwrap()));
            }
            _ => assert_eq!((answer, state), (8, before)),
        }
    }
    println!("{answers:?}");
    assert!(answers.iter().all(|&count| count > 20), "{answers:?}");
}

/// "The first that applies": the plan is looked at before the state.
#[test]
fn refused_plan_before_a_short_state() {
    assert_eq!(load(&[0, 5, 1], &mut []), 1);
    assert_eq!(load(&any_plan(&mut Random::new(1)).write(), &mut []), 8);
}

#[test]
fn written_plans() {
    let mut random = Random::new(4);
    let mut answers = [0; 24];
    for line in runs().iter().flatten() {
        let mut state = line_bytes(line);
        let is_damaged = random.one_in(4);
        if is_damaged {
            state[LENGTH - 1] = 1;
        }
        let loaded = line.plan.write();
        let needed = loaded.len();
        let length = random.pick(&[0, needed - 1, needed, needed + 1, 512]);
        let before = random.bytes(length);
        let mut written = before.clone();
        let answer = write(&state, &mut written);
        answers[answer as usize] += 1;
        if is_damaged {
            assert_eq!((answer, written), (8, before));
        } else if length < needed {
            assert_eq!((answer, written), (23, before));
        } else {
            assert_eq!(answer, 0);
            assert_eq!(written[..needed], loaded);
            assert_eq!(written[needed..], before[needed..]);
        }
    }
    assert!([0, 8, 23].iter().all(|&answer| answers[answer] > 100));
}

/// 8 comes before 23.
#[test]
fn damaged_state_before_a_short_output() {
    let state = line_bytes(&staged::fresh());
    assert_eq!(write(&state, &mut []), 23);
    assert_eq!(write(&state[1..], &mut []), 8);
    assert_eq!(write(&state[1..], &mut [0; 512]), 8);
}

/// The step in place answers as the step on lines, and leaves the same bytes.
#[test]
fn same_step_in_place() {
    let mut random = Random::new(8);
    let mut seen = [0; 2];
    for line in runs().iter().flatten() {
        let before = line_bytes(line);
        let frames = every_frame(&mut random, line);
        for _ in 0..8 {
            let [frame, _] = &frames[random.index(frames.len())];
            let [mut state, mut in_place] = [before.clone(), before.clone()];
            let answer = step(&mut state, frame);
            assert_eq!(direct::step(&mut in_place, frame), answer, "{frame:?}");
            assert!(in_place == state, "{frame:?} {line:?}");
            seen[usize::from(answer == 0)] += 1;
        }
    }
    println!("{seen:?}");
    assert!(seen.iter().all(|&times| times > 1_000), "{seen:?}");
}

/// The same of a restart from what no run leaves a router's children: by Recover, and by
/// Ask and Commit.
#[test]
fn same_restart_in_place() {
    let mut answers = [0; 28];
    for seed in 0..4_000 {
        let (line, router) = torn(&mut Random::new(seed));
        let node = router as u8;
        let caller = caller(&mut Random::new(seed), &line);
        for frames in [
            vec![Frame::Recover { node }],
            vec![
                Frame::Ask { node },
                Frame::Ask { node },
                Frame::Commit { node },
            ],
        ] {
            let mut states = [line_bytes(&line), line_bytes(&line)];
            for frame in frames {
                let frame = frame.sent_by(caller);
                let [state, in_place] = &mut states;
                let answer = step(state, &frame);
                assert_eq!(direct::step(in_place, &frame), answer, "{frame:?} {line:?}");
                assert!(in_place == state, "{frame:?} {line:?}");
                answers[answer as usize] += 1;
            }
        }
    }
    println!("{answers:?}");
    assert!(
        [0, 24, 27].iter().all(|&answer| answers[answer] > 200),
        "{answers:?}"
    );
    assert!(answers[21] > 20, "{answers:?}");
}

/// Two restarts end alike, whichever is first.
#[test]
fn same_restarts_in_either_order() {
    let mut seen = BTreeMap::new();
    for seed in 0..300 {
        let mut random = Random::new(seed);
        let line = several_down(&mut random);
        assert!(!damaged(&line), "{line:?}");
        let state = line_bytes(&line);
        for two in TwoRestarts::all(&mut random, &line) {
            let [one, other] = two.bytes();
            for step in [step, direct::step] {
                let either = in_either_order(step, &state, [&one, &other]);
                let either =
                    either.unwrap_or_else(|wrong| panic!("{wrong}: {:?} {line:?}", two.frames));
                let mut answers = either.answers;
                answers.sort_unstable();
                *seen.entry((answers, either.is_last_step)).or_insert(0) += 1;
            }
        }
    }
    println!("{seen:?}");
    for (least, answers, is_last_step) in [
        (1_000, [0, 0], false),
        (200, [0, 0], true),
        (100, [0, 24], false),
        (20, [0, 24], true),
        (400, [0, 27], false),
        (100, [0, 27], true),
        (20, [24, 27], false),
    ] {
        let seen = seen.get(&(answers, is_last_step));
        assert!(seen.is_some_and(|&times| times > least), "{answers:?}");
    }
}

#[test]
fn same_step_from_every_caller() {
    let mut random = Random::new(6);
    let mut seen = [0; 4];
    for line in runs().iter().flatten() {
        let state = line_bytes(line);
        let frames = every_frame(&mut random, line);
        let [frame, _] = &frames[random.index(frames.len())];
        let (_, frame) = Frame::read(frame).expect("the right form");
        for step in [step, direct::step] {
            let from = from_all(&mut random, step, line, &state, frame);
            let from = from.unwrap_or_else(|wrong| panic!("{wrong}: {frame:?} {line:?}"));
            let is_accepted = from.answer == Some(0);
            seen[2 * usize::from(is_accepted) + usize::from(from.is_one_used_up)] += 1;
        }
    }
    println!("{seen:?}");
    assert!(seen.iter().all(|&times| times > 40), "{seen:?}");
}

#[test]
fn same_step_in_both_versions() {
    let mut random = Random::new(7);
    let mut seen = [0; 3];
    for line in runs().iter().flatten() {
        let state = line_bytes(line);
        let frames = every_frame(&mut random, line);
        let [frame, _] = &frames[random.index(frames.len())];
        for step in [step, direct::step] {
            let answer = in_both_versions(step, &line.plan, &state, frame);
            let answer = answer.unwrap_or_else(|wrong| panic!("{wrong}: {frame:?} {line:?}"));
            seen[answer.map_or(2, |answer| usize::from(answer != 0))] += 1;
        }
    }
    println!("{seen:?}");
    assert!(seen.iter().all(|&times| times > 100), "{seen:?}");
}
