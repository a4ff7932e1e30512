// Compares what a program writes for sheets with what the model writes, byte for
// byte. The program reads from a pipe, in one piece and in small ones. Run in
// model/:
//   cargo run --release --offline --bin compare_sheet [program]

mod floors;
mod program;

use std::path::Path;
use std::{env, fs, io, thread};

use model::answer::{ACCEPTED, STEPS_USED_UP, WRONG_RECORD};
use model::compare::{self, answer, Counts};
use model::line::practice::{is_tick_but_for, FIELDS};
use model::line::{Frame, Line};
use model::plan::practice::{cases, in_other_version, is_partial};
use model::plan::Plan;
use model::random::Random;
use model::record::Record;
use model::sheet::vectors::answers;
use model::sheet::{parts, practice, sheet, sheet_in_place, sheet_told};

use floors::{
    kind, line, section, set, AFTER_ANOTHERS_LAST, ALMOST, ASK, COMMIT, IN_BOTH, PIECES, TICK,
    TRIM, WHOLE,
};

/// Each has its share of the sheets.
const WORKERS: usize = 2;

const RIGHT: usize = 8_000;
const SLIPPED: usize = 6_000;
const RAW: usize = 4_000;
const LIMITS: usize = 200;
const LONG: usize = 400;
/// Short sheets: each is cut at every byte and has its length fields changed.
const SHORT: usize = 60;
const SHORT_LENGTH: usize = 160;
/// One sheet in so many is also passed with its plan in the other version.
const IN_OTHER: usize = 4;
/// No made-up sheet is passed in more pieces than these.
const MOST_PIECES: usize = 1_300;

fn main() {
    let built = concat!(env!("CARGO_MANIFEST_DIR"), "/../target/bin/sheet");
    let program = &env::args().nth(1).unwrap_or(built.to_string());
    let counts = thread::scope(|scope| {
        let workers: Vec<_> = (0..WORKERS)
            .map(|number| scope.spawn(move || worked(program, number)))
            .collect();
        let mut counts = Counts::default();
        for worker in workers {
            counts.join(worker.join().expect("no panic"));
        }
        counts
    });
    counts.hold_to(&floors::all());
    println!("{program} and the model write the same sheets");
}

fn worked(program: &str, number: usize) -> Counts {
    let mut work = Work {
        program,
        counts: Counts::default(),
        passed: 0,
    };
    let random = &mut Random::new(number as u64);
    let share = |of: usize| (number..of).step_by(WORKERS);
    let kept = kept().expect("the folders of kept sheets");
    for place in share(kept.len()) {
        work.compare_in_all(kind::KEPT, &kept[place]);
    }
    for _ in share(RIGHT) {
        work.compare(kind::RIGHT, &practice::right(random));
    }
    for _ in share(SLIPPED) {
        work.compare(kind::SLIPPED, &practice::slipped(random));
    }
    for _ in share(RAW) {
        work.compare(kind::RAW, &practice::raw(random));
    }
    for _ in share(LIMITS) {
        work.compare(kind::LIMITS, &practice::at_the_limits(random));
    }
    for _ in share(LONG) {
        work.compare(kind::LONG, &practice::long_frame(random));
    }
    for _ in share(SHORT) {
        let short = practice::short(random, SHORT_LENGTH);
        for length in 0..=short.len() {
            work.compare(kind::CUT, &short[..length]);
        }
        for edge in practice::edges(&short) {
            work.compare(kind::EDGES, &edge);
        }
    }
    for shift in share(practice::SHIFTS) {
        work.compare(kind::MANY, &practice::many(random, shift));
    }
    for _ in share(1) {
        // The sheet that is timed.
        let million = practice::million(&mut Random::new(1));
        work.compare(kind::MILLION, &million);
    }
    work.counts
}

/// What is read for the kept sheets.
fn kept() -> io::Result<Vec<Vec<u8>>> {
    let mut sheets = Vec::new();
    for folder in ["own", "sheets"] {
        let vectors = Path::new(env!("CARGO_MANIFEST_DIR")).join("vectors");
        for file in fs::read_dir(vectors.join(folder))? {
            let path = file?.path();
            if path.extension().is_some_and(|end| end == "in") {
                sheets.push(fs::read(path)?);
            }
        }
    }
    // The workers have to agree on the order.
    sheets.sort();
    Ok(sheets)
}

type Piece = (&'static str, usize);

struct Work<'a> {
    program: &'a str,
    counts: Counts,
    /// How many sheets: pieces come in turn.
    passed: usize,
}

impl Work<'_> {
    /// Whole, and in one kind of pieces.
    fn compare(&mut self, kind: &'static str, input: &[u8]) {
        let fit: Vec<Piece> = PIECES
            .into_iter()
            .filter(|&(_, piece)| piece < input.len())
            .filter(|&(_, piece)| input.len() <= MOST_PIECES * piece)
            .collect();
        self.passed += 1;
        let pieces = fit.get(self.passed % fit.len().max(1)).copied();
        self.compare_in(kind, input, pieces);
    }

    /// Whole, and in every kind of pieces that are shorter.
    fn compare_in_all(&mut self, kind: &'static str, input: &[u8]) {
        let shorter = PIECES.into_iter().filter(|&(_, piece)| piece < input.len());
        self.compare_in(kind, input, shorter);
    }

    fn compare_in(
        &mut self,
        kind: &'static str,
        input: &[u8],
        pieces: impl IntoIterator<Item = Piece>,
    ) {
        let mut is_one_used_up = false;
        let text = sheet_told(input, |frame, answer, line| {
            is_one_used_up |= answer == STEPS_USED_UP;
            self.count_frame(frame, answer, is_one_used_up);
            if answer == ACCEPTED {
                self.count_set(frame, line);
            }
        });
        if sheet_in_place(input) != text {
            compare::fail(kind, "the model's two sheets differ", input);
        }
        for (name, piece) in [(WHOLE, usize::MAX)].into_iter().chain(pieces) {
            self.pass(kind, input, name, piece, &text);
            self.counts.add(section::PIECES, name);
        }
        self.counts.add(section::SHEETS, kind);
        for case in cases(parts(input).0) {
            self.counts.add(section::PLANS, case);
        }
        if self.passed % IN_OTHER == 0 {
            self.compare_in_other_version(kind, input, &text);
        }
        self.count_lines(&text);
    }

    fn pass(&self, kind: &str, input: &[u8], name: &str, piece: usize, text: &[u8]) {
        match program::written(self.program, input, piece) {
            Ok(written) if written == text => {}
            Ok(_) => compare::fail(kind, &format!("{name}: another text"), input),
            Err(error) => compare::fail(kind, &format!("{name}: {error}"), input),
        }
    }

    /// The same text, where both versions can say the plan.
    fn compare_in_other_version(&mut self, kind: &str, input: &[u8], text: &[u8]) {
        let (plan, frames) = parts(input);
        let other = Plan::read(plan).ok().as_ref().and_then(in_other_version);
        if let Some(other) = other {
            let input = [&other.write(), frames].concat();
            if sheet(&input) != text {
                compare::fail(kind, "the model's sheets differ in both versions", &input);
            }
            self.pass(kind, &input, IN_BOTH, usize::MAX, text);
            self.counts.add(section::PLANS, IN_BOTH);
        }
    }

    fn count_frame(&mut self, frame: &[u8], answer: u32, is_one_used_up: bool) {
        let Ok((caller, asked)) = Frame::read(frame) else {
            return;
        };
        if let Frame::Feed { record, .. } = asked {
            self.count_tick(record, answer);
        }
        if answer != ACCEPTED {
            return;
        }
        self.counts.add(section::CALLERS, caller.to_string());
        let row = match asked {
            Frame::Trim { .. } => Some(TRIM),
            Frame::Ask { .. } => Some(ASK),
            Frame::Commit { .. } => Some(COMMIT),
            _ => None,
        };
        if let Some(row) = row {
            self.counts.add(section::CALLERS, row);
        }
        if is_one_used_up {
            self.counts.add(section::CALLERS, AFTER_ANOTHERS_LAST);
        }
    }

    fn count_tick(&mut self, record: [u8; Record::LENGTH], answer: u32) {
        if answer == ACCEPTED && record == Record::TICK.write() {
            self.counts.add(section::TICKS, TICK);
        }
        for (row, field) in ALMOST.into_iter().zip(FIELDS) {
            if answer == WRONG_RECORD && is_tick_but_for(field, record) {
                self.counts.add(section::TICKS, row);
            }
        }
    }

    /// Of an accepted frame, if it leaves a node up with what it makes.
    fn count_set(&mut self, frame: &[u8], after: &Line) {
        let plan = &after.plan;
        let (node, made, none) = match Frame::read(frame) {
            Ok((_, Frame::Feed { node, record })) => {
                let record = Record::read(record).expect("an accepted record");
                let made = plan.rules[usize::from(node)].apply(record);
                (usize::from(node), Some(made), set::NONE_FED)
            }
            Ok((_, Frame::Take { channel })) => {
                let node = plan.channels[usize::from(channel)].receiver;
                // The log of one that replays is empty.
                let last = after.nodes[node].log.last();
                (node, last.map(|entry| entry.message.record), set::NONE)
            }
            _ => return,
        };
        if let Some(made) = made {
            let row = match plan.set_of(node, &made) {
                _ if plan.is_sink(node) => set::SINK,
                0 => none,
                some if is_partial(plan, node, some) => set::SOME,
                _ => set::ALL,
            };
            self.counts.add(section::SETS, row);
        }
    }

    fn count_lines(&mut self, text: &[u8]) {
        for number in answers(text) {
            self.counts.add(section::ANSWERS, answer(number));
        }
        let text = String::from_utf8_lossy(text);
        let mut before = "";
        for line in text.lines() {
            if line::is_again(before, line) {
                self.counts.add(section::LINES, line::AGAIN);
            }
            before = line;
            if let Some((name, _)) = line::KINDS.iter().find(|(_, is_it)| is_it(line)) {
                self.counts.add(section::LINES, *name);
            }
        }
    }
}
