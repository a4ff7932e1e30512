// The rows of the counts and the least count of each.

use model::compare::{answer, under, Floor};
use model::line::practice::FIELDS;
use model::line::Caller;
use model::plan::practice::CASES;
use model::sheet::practice::SHIFTS;

/// What the rows stand under.
pub mod section {
    pub const SHEETS: &str = "sheets";
    pub const PIECES: &str = "passed to the program";
    pub const PLANS: &str = "sheets with plans as long as their field says";
    pub const ANSWERS: &str = "answers";
    pub const CALLERS: &str = "accepted frames, by who sends them";
    pub const TICKS: &str = "Feeds of ticks and of what is almost one";
    pub const SETS: &str = "Feeds and Takes, by the leaving channels that take what is made";
    pub const LINES: &str = "lines of nodes";
}

pub mod kind {
    pub const KEPT: &str = "kept in model/vectors, in pieces of every size";
    pub const RIGHT: &str = "mostly accepted, with crashes and replays";
    pub const SLIPPED: &str = "typed with slips";
    pub const RAW: &str = "raw bytes";
    pub const LIMITS: &str = "at the limits";
    pub const LONG: &str = "with a long frame or plan, whole or cut";
    pub const CUT: &str = "short ones cut at every byte";
    pub const EDGES: &str = "length fields at their edges";
    pub const MANY: &str = "over 65,536 frames, at every shift";
    pub const MILLION: &str = "1,000,000 accepted steps of a console and more frames";
}

pub const WHOLE: &str = "in one piece";
pub const PIECES: [(&str, usize); 5] = [
    ("in pieces of 1 byte", 1),
    ("in pieces of 2 bytes", 2),
    ("in pieces of 3 bytes", 3),
    ("in pieces of 61 bytes", 61),
    ("in pieces of 4,096 bytes", 4_096),
];

pub const IN_BOTH: &str = "written alike with the plan in the other version";
pub const AFTER_ANOTHERS_LAST: &str = "after 12 from another console";
pub const TRIM: &str = "Trims, from any";
pub const ASK: &str = "Asks, from any";
pub const COMMIT: &str = "Commits, from any";
pub const TICK: &str = "a tick, accepted";
/// By the field for which it is none.
pub const ALMOST: [&str; FIELDS.len()] = [
    "17 for the piece",
    "17 for the material",
    "17 for the zero byte",
    "17 for the mass",
];

/// Of the set of what a Feed or Take makes.
pub mod set {
    pub const NONE: &str = "none of them, by a Take";
    pub const NONE_FED: &str = "none of them, by a Feed";
    pub const SOME: &str = "some of them, and not all";
    pub const ALL: &str = "all of them";
    pub const SINK: &str = "a sink has none";
}

/// Lines of the text, by the first that they are.
pub mod line {
    pub type Kind = (&'static str, fn(&str) -> bool);

    pub const KINDS: &[Kind] = &[
        ("N up", |line| line.contains(" up ")),
        ("N down", |line| line.contains(" down ")),
        ("N replay", |line| line.contains(" replay ")),
        ("L of a tick", |line| {
            line.starts_with("L ") && line.ends_with(" 0 255 0")
        }),
        ("L at time 0", |line| {
            line.starts_with("L ") && line.split(' ').nth(2) == Some("0")
        }),
        ("L of a source", |line| line.contains(" - - ")),
        ("L made from a message", |line| line.starts_with("L ")),
        ("Q without targets", |line| {
            line.starts_with("Q ") && !line.contains('[')
        }),
        ("Q of over 16 targets", |line| {
            line.starts_with("Q ") && line.matches('[').count() > 16
        }),
        ("Q of two entries or more and targets", |line| {
            line.starts_with("Q ") && line.matches(':').count() > line.matches('[').count() + 1
        }),
        ("Q of one entry and targets", |line| line.starts_with("Q ")),
        ("T of one layer", |line| layers(line) == Some(1)),
        ("T of two layers", |line| layers(line) == Some(2)),
        ("T of three layers", |line| layers(line) == Some(3)),
    ];

    /// Of such a line, with the one before it.
    pub const AGAIN: &str = "L with the time of the one before it";

    pub fn is_again(before: &str, line: &str) -> bool {
        let mut heads = before.split(' ').zip(line.split(' ')).take(3);
        line.starts_with("L ") && heads.all(|(before, word)| before == word)
    }

    fn layers(line: &str) -> Option<usize> {
        let clock = line.strip_prefix("T ")?;
        let opened = clock.bytes().take_while(|&byte| byte != b']');
        Some(1 + opened.filter(|&byte| byte == b'[').count())
    }
}

pub fn all() -> Vec<Floor> {
    let mut floors = under(
        section::SHEETS,
        4_000,
        [
            kind::RIGHT,
            kind::SLIPPED,
            kind::RAW,
            kind::CUT,
            kind::EDGES,
        ],
    );
    floors.extend(under(section::SHEETS, 200, [kind::LIMITS, kind::LONG]));
    floors.extend(under(section::SHEETS, 315, [kind::KEPT]));
    floors.extend(under(section::SHEETS, SHIFTS, [kind::MANY]));
    floors.extend(under(section::SHEETS, 1, [kind::MILLION]));
    floors.extend(under(section::PIECES, 20_000, [WHOLE]));
    floors.extend(under(section::PIECES, 1_000, PIECES.map(|(name, _)| name)));
    floors.extend(under(section::PLANS, 5, CASES.map(|(name, _)| name)));
    floors.extend(under(section::PLANS, 1_000, [IN_BOTH]));
    floors.extend(under(section::ANSWERS, 1_000_000, [0].map(answer)));
    floors.extend(under(
        section::ANSWERS,
        20,
        (1..=7).chain(9..=21).chain(25..=27).map(answer),
    ));
    let callers = Caller::ALL.iter().map(Caller::to_string);
    floors.extend(under(section::CALLERS, 20_000, callers));
    floors.extend(under(section::CALLERS, 20, [AFTER_ANOTHERS_LAST]));
    floors.extend(under(section::CALLERS, 20_000, [TRIM]));
    floors.extend(under(section::CALLERS, 3_000, [ASK, COMMIT]));
    floors.extend(under(section::TICKS, 20_000, [TICK]));
    floors.extend(under(section::TICKS, 200, ALMOST));
    let sets = [set::NONE, set::NONE_FED, set::SOME, set::ALL, set::SINK];
    floors.extend(under(section::SETS, 20_000, sets));
    let lines = line::KINDS.iter().map(|(name, _)| *name);
    let (kept, others): (Vec<_>, Vec<_>) = lines.partition(|name| name.starts_with('Q'));
    floors.extend(under(section::LINES, 1_000, others));
    floors.extend(under(section::LINES, 1_000, [line::AGAIN]));
    floors.extend(under(section::LINES, 100, kept));
    floors
}
