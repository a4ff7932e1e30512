// Times the engine's step and the model's step in place on the same buffers, and
// the check alone. Run in bench/:
//   cargo run --release --offline --features engine-state --bin bench_step

use std::hint::black_box;
use std::time::Instant;

use model::engine;
use model::line::{step, Frame, Line};
use model::record::Record;
use model::state::practice::staged;
use model::state::{direct, line_bytes, LENGTH};

const ROUNDS: usize = 2_001;
/// A call changes its buffer, so each round calls on so many that are alike.
const BUFFERS: usize = 8;

type Buffer = [u8; LENGTH];
type Call = fn(&mut Buffer, &[u8]) -> u32;

/// In the order of the columns.
const CALLS: [Call; 5] = [
    |state, frame| engine::step(state, frame),
    |state, frame| direct::step(state, frame),
    |state, _| engine::check(state),
    |state, _| direct::check(state),
    direct::step_unchecked,
];

/// The least microseconds of each call, over all rounds. The calls come in turn,
/// each round beginning with another one.
fn least_times(state: &Buffer, frame: &[u8], buffers: &mut [Buffer]) -> [f64; CALLS.len()] {
    let mut least = [f64::INFINITY; CALLS.len()];
    for round in 0..ROUNDS {
        for place in 0..CALLS.len() {
            let number = (round + place) % CALLS.len();
            buffers.fill(*state);
            let start = Instant::now();
            for buffer in buffers.iter_mut() {
                black_box(CALLS[number](black_box(buffer), black_box(frame)));
            }
            let time = start.elapsed().as_nanos() as f64 / 1000.0 / BUFFERS as f64;
            least[number] = time.min(least[number]);
        }
    }
    least
}

fn report(name: &str, line: &Line, frame: Frame, buffers: &mut [Buffer]) {
    let state: &Buffer = &line_bytes(line).try_into().expect("a state's length");
    let frame = frame.write();
    let mut after = line.clone();
    assert_eq!(step(&mut after, &frame), 0);
    let after = line_bytes(&after);
    for call in [CALLS[0], CALLS[1], CALLS[4]] {
        let buffer = &mut buffers[0];
        *buffer = *state;
        assert_eq!(call(buffer, &frame), 0);
        assert_eq!(buffer[..], after);
    }
    let [engine, model, engine_check, model_check, model_rest] =
        least_times(state, &frame, buffers);
    println!(
        "{name:<34}{engine:>9.3}{model:>9.3}{:>16.2}{engine_check:>10.3}{model_check:>9.3}{:>10.3}{model_rest:>9.3}",
        engine / model,
        engine - engine_check
    );
}

fn main() {
    println!("microseconds a call, the least of {ROUNDS} rounds of {BUFFERS} calls");
    println!("the engine's step without the check is the difference of the two least times");
    println!(
        "aims: engine / model at most 1; without the check at most 1, the end of a replay aside,"
    );
    println!("and under 0.2 for Feed, Send and Take");
    println!(
        "{:<34}{:>34}{:>19}{:>19}",
        "", "the step", "the check", "without the check"
    );
    println!(
        "{:<34}{:>9}{:>9}{:>16}{:>10}{:>9}{:>10}{:>9}",
        "", "engine", "model", "engine / model", "engine", "model", "engine", "model"
    );
    let mut buffers = vec![[0; LENGTH]; BUFFERS];
    let mut row = |name: &str, line: &Line, frame| report(name, line, frame, &mut buffers);
    let nearly = staged::nearly_full();
    let last = nearly.queues.len() as u8 - 1;
    let record = Record {
        piece: 7,
        material: 1,
        mass: 250,
    };
    let feed = Frame::Feed {
        node: 0,
        record: record.write(),
    };
    row("Feed, full line", &nearly, feed);
    row("Send, full line", &nearly, Frame::Send { channel: last });
    row("Take, full line", &nearly, Frame::Take { channel: last });
    let silent = staged::silent();
    let entering = silent.plan.entering(5).next().expect("a parent") as u8;
    row("Feed that no channel takes", &silent, feed);
    row(
        "Take without a time of its own",
        &silent,
        Frame::Take { channel: entering },
    );
    row("Crash, full line", &nearly, Frame::Crash { node: 5 });
    row(
        "Recover, 64 targets",
        &staged::down(),
        Frame::Recover { node: 4 },
    );
    // The same line, and the same asked.
    let (ask, commit) = (Frame::Ask { node: 4 }, Frame::Commit { node: 4 });
    row("Ask, 64 targets", &staged::down(), ask);
    row("Commit, 64 targets", &staged::asked(), commit);
    // The routers have taken from the four sources in turn.
    let from = |source: usize, line: &Line| {
        let mut entering = line.plan.entering(4);
        let channel = entering.nth(source).expect("four sources") as u8;
        Frame::Take { channel }
    };
    let holding = staged::holding(62);
    row(
        "Take that holds the 63rd record",
        &holding,
        from(2, &holding),
    );
    let ending = staged::replaying();
    row("Take that ends with 64 records", &ending, from(3, &ending));
    let by_rows = staged::holding_by_rows(Line::MOST_TARGETS - 1);
    row("the same, taken row by row", &by_rows, from(3, &by_rows));
    let trim = Frame::Trim { node: 5 };
    row("Trim that drops 64", &staged::heard_by_all(), trim);
    row("Trim that drops nothing of 64", &staged::half_heard(), trim);
    // The same lines as those above.
    row("Feed, plan of version 2", &staged::by_mass(nearly), feed);
    let take = from(3, &ending);
    row("Take that ends, version 2", &staged::by_mass(ending), take);
}
