//! The check answers as it must where that is known beforehand, and the direct
//! check answers as the reading one on every state of the practice.

use std::collections::BTreeMap;

use crate::line::Line;
use crate::random::Random;
use crate::state::practice::{
    self, staged, Case, Kind, AFTER_A_SET, CLAUSES, HARMLESS, OTHER_SETS, SHUFFLES,
};
use crate::state::tests::runs;
use crate::state::{check, direct, line_bytes, LENGTH};

const RUNS: usize = 120;

/// The number of cases, and of those accepted.
type Counts = BTreeMap<(Kind, &'static str, &'static str), (usize, usize)>;

fn compare(case: &Case, counts: &mut Counts) {
    let answer = check(case.state);
    let told = || format!("{:?} {} {}", case.kind, case.clause, case.name);
    assert!(
        case.expected.is_none_or(|expected| expected == answer),
        "{answer}: {}",
        told()
    );
    assert_eq!(direct::check(case.state), answer, "{}", told());
    let (cases, accepted) = counts
        .entry((case.kind, case.clause, case.name))
        .or_default();
    *cases += 1;
    *accepted += usize::from(answer == 0);
}

#[test]
fn practised_states() {
    let mut counts = Counts::new();
    let mut random = Random::new(2);
    for lines in &runs()[..RUNS] {
        practice::damaged(&mut random, lines, &mut |case| compare(case, &mut counts));
    }
    practice::staged(&mut random, &mut |case| compare(case, &mut counts));
    let conditions = CLAUSES.iter().flat_map(|clause| {
        let names = clause.conditions.iter().map(|condition| condition.name);
        names.map(|name| (Kind::Condition, clause.words, name))
    });
    let seldom: Vec<_> = conditions
        .map(|key| (key, counts.get(&key).map_or(0, |count| count.0)))
        .filter(|(_, cases)| *cases < 5)
        .collect();
    assert!(seldom.is_empty(), "too few of {seldom:#?}");
    for harmless in HARMLESS {
        let key = (Kind::Harmless, "", harmless.name);
        let (cases, accepted) = counts.get(&key).copied().unwrap_or_default();
        assert!(cases >= 5 && accepted == cases, "too few of {key:?}");
    }
    for shuffle in SHUFFLES {
        let key = (Kind::Shuffled, "", shuffle.name);
        assert!(counts.contains_key(&key), "none of {key:?}");
    }
    let accepted_fields = counts
        .iter()
        .filter(|((kind, _, _), _)| *kind == Kind::Field)
        .map(|(_, (_, accepted))| accepted)
        .sum::<usize>();
    assert!(accepted_fields > 1_000);
    for (key, count) in counts {
        println!("{key:?} {count:?}");
    }
}

/// Each byte but those of the plan, the steps, the two nodes' statuses, marks,
/// times and counts (of kept answers too), and the channel's mark, entry, count and low clock.
#[test]
fn every_unused_byte() {
    let mut counts = Counts::new();
    let fresh = staged::fresh();
    practice::unused(&mut Random::new(1), &fresh, &mut |case| {
        compare(case, &mut counts)
    });
    let cases: usize = counts.values().map(|(cases, _)| cases).sum();
    assert_eq!(cases, LENGTH - 19 - 16 - 2 * 22 - 16);
}

/// Of every log entry, the channels alike or not, with a tick among them.
#[test]
fn every_set() {
    let mut counts = Counts::new();
    for line in [staged::mixed(), staged::full(), staged::half_heard()] {
        let line = staged::by_piece(line);
        assert_eq!(check_both(&line), 0);
        practice::other_sets(&line, &mut |case| compare(case, &mut counts));
    }
    println!("{counts:?}");
    let names = OTHER_SETS.iter().map(|other| other.name);
    for name in names.chain([AFTER_A_SET]) {
        let (cases, accepted) = counts[&(Kind::Set, "", name)];
        assert!(cases > 100 && accepted == 0, "{name}: {cases}");
    }
}

/// Of nodes that keep an answer, with and without targets.
#[test]
fn every_kept_byte() {
    let mut counts = Counts::new();
    let mut random = Random::new(3);
    for line in [staged::mixed(), staged::all_asked()] {
        assert_eq!(check_both(&line), 0);
        practice::kept_bytes(&mut random, &line, &mut |case| compare(case, &mut counts));
    }
    let cases: usize = counts.values().map(|(cases, _)| cases).sum();
    assert_eq!(cases, 5 * 3 * 4096);
}

/// A step count above the limit is damage even where no time needs it and the
/// others have room.
#[test]
fn limits_of_the_steps() {
    for console in 0..Line::CONSOLES {
        for others in [0, Line::MOST_STEPS] {
            let mut line: Line = staged::fresh();
            line.steps = [others; Line::CONSOLES];
            line.steps[console] = Line::MOST_STEPS;
            line.nodes[0].clock.time = line.accepted_steps();
            assert_eq!(check_both(&line), 0);
            line.nodes[0].clock.time += 1;
            assert_eq!(check_both(&line), 8);
            line.steps[console] += 1;
            assert_eq!(check_both(&line), 8);
        }
    }
}

fn check_both(line: &Line) -> u32 {
    let state = line_bytes(line);
    assert_eq!(direct::check(&state), check(&state));
    check(&state)
}
