//! A script of `relay` steps while it is being written, with what the second program prints.

use std::collections::BTreeMap;

use super::tape::Tape;
use crate::controls::Control;
use crate::relay::{self, Printed};
use crate::requests::State;
use crate::ways::Way;

/// How often each clause and each kind of answer was reached.
#[derive(Clone, Debug, Default)]
pub struct Reach {
    /// Refusals by clause.
    pub ways: BTreeMap<Way, usize>,
    /// Other answers by their first word.
    pub answers: BTreeMap<String, usize>,
    /// Plug-in steps.
    pub configurations: usize,
    /// All other steps of `relay`.
    pub steps: usize,
    /// Steps of `lend`.
    pub lent: usize,
    /// Pairs among the steps of `sheets`.
    pub pairs: usize,
    /// Moves among the steps of `sheets`.
    pub moves: usize,
    /// Steps of `routes`.
    pub routes: usize,
    /// Steps of `writer`.
    pub lists: usize,
    /// Steps of `duet`.
    pub duets: usize,
    /// Steps of `lend3`.
    pub thirds: usize,
}

impl Reach {
    /// Counts one answer of `relay`.
    pub fn count(&mut self, kind: u8, printed: &Printed) {
        match kind {
            relay::PLUG_IN => self.configurations += 1,
            _ => self.steps += 1,
        }
        self.count_answer(printed);
    }

    /// Counts one answer of `lend`.
    pub fn count_lent(&mut self, printed: &Printed) {
        self.lent += 1;
        self.count_answer(printed);
    }

    /// Counts one answer of `sheets` to a pair.
    pub fn count_pair(&mut self, printed: &Printed) {
        self.pairs += 1;
        self.count_answer(printed);
    }

    /// Counts one answer of `sheets` to a move.
    pub fn count_move(&mut self, printed: &Printed) {
        self.moves += 1;
        self.count_answer(printed);
    }

    /// Counts one answer of `routes`.
    pub fn count_route(&mut self, printed: &Printed) {
        self.routes += 1;
        self.count_answer(printed);
    }

    /// Counts one answer of `writer`.
    pub fn count_list(&mut self, printed: &Printed) {
        self.lists += 1;
        self.count_answer(printed);
    }

    /// Counts one answer of `duet`.
    pub fn count_duet(&mut self, printed: &Printed) {
        self.duets += 1;
        self.count_answer(printed);
    }

    /// Counts one answer of `lend3`.
    pub fn count_third(&mut self, printed: &Printed) {
        self.thirds += 1;
        self.count_answer(printed);
    }

    fn count_answer(&mut self, printed: &Printed) {
        match printed.way {
            Some(way) => *self.ways.entry(way).or_default() += 1,
            None => {
                let word = printed.lines.split_whitespace().next().unwrap_or_default();
                *self.answers.entry(word.to_string()).or_default() += 1;
            }
        }
    }

    /// Takes in the counts of another.
    pub fn add(&mut self, other: &Reach) {
        for (way, count) in &other.ways {
            *self.ways.entry(*way).or_default() += count;
        }
        for (word, count) in &other.answers {
            *self.answers.entry(word.clone()).or_default() += count;
        }
        self.configurations += other.configurations;
        self.steps += other.steps;
        self.lent += other.lent;
        self.pairs += other.pairs;
        self.moves += other.moves;
        self.routes += other.routes;
        self.lists += other.lists;
        self.duets += other.duets;
        self.thirds += other.thirds;
    }
}

/// One step's bytes, from its kind on.
pub fn step_bytes(kind: u8, body: &[u8]) -> Vec<u8> {
    let [low, high] = (body.len() as u16).to_le_bytes();
    [&[kind, low, high][..], body].concat()
}

/// The body of a load.
pub fn load_body(name: (u8, u8, u8), numbers: [u16; 4]) -> Vec<u8> {
    let mut body = vec![name.0, name.1, name.2];
    numbers.iter().for_each(|number| body.extend(number.to_le_bytes()));
    body
}

/// The body of a request.
pub fn request_body(room: u16, setup: &[u8], data: &[u8]) -> Vec<u8> {
    [&room.to_le_bytes()[..], &[setup.len() as u8], setup, data].concat()
}

/// The setup of a request.
pub fn setup(pair: (u8, u8), number: u8, name: (u8, u8, u8), length: u16) -> [u8; 8] {
    let [low, high] = length.to_le_bytes();
    [pair.0, pair.1, name.1, name.2, number, name.0, low, high]
}

/// The body of a put: a number, a count and the places given.
pub fn put_body(number: u8, count: u16, places: &[Control]) -> Vec<u8> {
    let mut body = vec![number];
    body.extend(count.to_le_bytes());
    for one in places {
        body.extend([one.unit, one.channel, one.selector, one.pins, u8::from(one.loaded)]);
        for held in [one.min, one.max, one.res, one.cur] {
            body.extend(held.to_le_bytes());
        }
    }
    body
}

/// The script.
#[derive(Clone, Debug)]
pub struct Script {
    /// The steps, with what the program prints for them.
    pub tape: Tape,
    /// The state after the last step.
    pub state: State,
    /// What was reached.
    pub reach: Reach,
}

impl Script {
    /// With no step.
    pub fn new() -> Script {
        Script { tape: Tape::default(), state: State::empty(), reach: Reach::default() }
    }

    /// Adds a step, which has to be a good one.
    pub fn step(&mut self, kind: u8, body: &[u8]) -> Printed {
        let printed = relay::step(&mut self.state, kind, body).expect("a good step");
        self.tape.push(&step_bytes(kind, body), &printed.lines);
        self.reach.count(kind, &printed);
        printed
    }

    /// Adds a step that has to print this line.
    pub fn says(&mut self, kind: u8, body: &[u8], line: &str) {
        let printed = self.step(kind, body);
        assert_eq!(printed.lines.trim_end(), line, "step {kind} {body:02X?}");
    }

    /// Adds a step that has to be refused for this clause.
    pub fn fails(&mut self, kind: u8, body: &[u8], way: Way) {
        let printed = self.step(kind, body);
        assert_eq!(printed.way, Some(way), "step {kind} {body:02X?}: {}", printed.lines);
    }
}
