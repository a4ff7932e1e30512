// A state as the model's line, and as the bytes of those that are compared with
// it.

use model::answer::{ACCEPTED, STATE};
use model::compare::{same_answers, Compared, Departures, Lent};
use model::engine;
use model::line::{stepped, Frame, Line};
use model::plan::Plan;
use model::random::Random;
use model::state::{self, direct, line_bytes, undamaged, LENGTH};

struct Beside {
    name: &'static str,
    load: fn(&[u8], &mut [u8]) -> u32,
    step: fn(&mut [u8], &[u8]) -> u32,
}

const BESIDE: &[Beside] = &[
    Beside {
        name: "step in place",
        load: state::load,
        step: direct::step,
    },
    Beside {
        name: "engine",
        load: engine::load,
        step: engine::step,
    },
];

pub fn names() -> String {
    let names: Vec<&str> = BESIDE.iter().map(|beside| beside.name).collect();
    names.join(", ")
}

pub struct States {
    /// None where the state is damaged.
    pub line: Option<Line>,
    pub bytes: Vec<u8>,
    /// One for each of those beside the model.
    lent: Vec<Lent>,
    /// A bit for each node whose log has been full.
    full: u32,
    /// Of each node, the accepted steps since an Ask of it, or since there are these states.
    since_ask: [u32; Plan::MOST_NODES],
    /// None where the state is damaged.
    departures: Option<Departures>,
}

/// The line after an accepted step with its bytes, or the refusal.
pub type After = Result<(Line, Vec<u8>), u32>;

impl States {
    /// All of them by Load.
    pub fn load(random: &mut Random, plan: &Plan) -> Compared<States> {
        let line = Line::of(plan.clone());
        let bytes = line_bytes(&line);
        let mut loaded = Vec::new();
        for beside in BESIDE {
            let before = random.bytes(LENGTH);
            let mut lent = Lent::new(random, &before);
            let answer = (beside.load)(&plan.write(), lent.bytes_mut());
            same_answers(beside.name, answer, ACCEPTED)?;
            lent.holds("state", &bytes)?;
            loaded.push(lent);
        }
        Ok(States {
            departures: Some(Departures::new(&line)),
            line: Some(line),
            bytes,
            lent: loaded,
            full: 0,
            since_ask: [0; Plan::MOST_NODES],
        })
    }

    pub fn of(random: &mut Random, bytes: &[u8]) -> States {
        let lent = BESIDE.iter().map(|_| Lent::new(random, bytes));
        let line = undamaged(bytes);
        States {
            lent: lent.collect(),
            full: line.as_ref().map_or(0, full),
            departures: line.as_ref().map(Departures::new),
            line,
            bytes: bytes.to_vec(),
            since_ask: [0; Plan::MOST_NODES],
        }
    }

    /// The call of each beside the model's, on its own bytes; times have to count what
    /// leaves. The line stays.
    pub fn call(&mut self, random: &mut Random, frame: &[u8]) -> Compared<After> {
        let after = match &self.line {
            None => Err(STATE),
            Some(line) => stepped(line, frame),
        };
        let after = after.map(|line| {
            let bytes = line_bytes(&line);
            (line, bytes)
        });
        let (answer, expected) = match &after {
            Ok((_, bytes)) => (ACCEPTED, bytes),
            Err(refusal) => (*refusal, &self.bytes),
        };
        let lent_frame = Lent::new(random, frame);
        for (beside, lent) in BESIDE.iter().zip(&mut self.lent) {
            let given = (beside.step)(lent.bytes_mut(), lent_frame.bytes());
            same_answers(beside.name, given, answer)?;
            lent.holds("state", expected)?;
            lent_frame.holds("frame", frame)?;
        }
        if let Ok((line, _)) = &after {
            let wrong = self.departed(frame).and_then(|left| left.wrong(line));
            if let Some(node) = wrong {
                return Err(format!("the time of {node} does not count what leaves"));
            }
        }
        Ok(after)
    }

    /// Whether the node's log has been full and now is not.
    pub fn has_been_full(&self, node: usize) -> bool {
        let full = self.line.as_ref().map_or(0, full);
        (self.full & !full) >> node & 1 == 1
    }

    pub fn since_ask(&self, node: usize) -> u32 {
        self.since_ask[node]
    }

    pub fn go_on(&mut self, line: Line, bytes: Vec<u8>, frame: &[u8]) {
        self.full |= full(&line);
        for steps in &mut self.since_ask {
            *steps += 1;
        }
        if let Ok((_, Frame::Ask { node })) = Frame::read(frame) {
            self.since_ask[usize::from(node)] = 0;
        }
        self.departures = self.departed(frame);
        self.line = Some(line);
        self.bytes = bytes;
    }

    /// What has left after an accepted step.
    fn departed(&self, frame: &[u8]) -> Option<Departures> {
        let mut departures = self.departures.clone()?;
        departures.follow(self.line.as_ref()?, frame);
        Some(departures)
    }

    /// To before the call.
    pub fn go_back(&mut self) {
        for lent in &mut self.lent {
            lent.bytes_mut().copy_from_slice(&self.bytes);
        }
    }
}

/// A bit for each node whose log is full.
fn full(line: &Line) -> u32 {
    let nodes = line.nodes.iter().enumerate();
    nodes
        .filter(|(_, node)| node.log.len() == Line::MOST_ENTRIES)
        .fold(0, |full, (number, _)| full | 1 << number)
}
