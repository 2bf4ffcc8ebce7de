//! A script of `duet` steps while it is being written, with what the second program prints.

use std::collections::BTreeSet;

use super::script::{put_body, step_bytes, Reach};
use super::tape::Tape;
use crate::controls::Control;
use crate::duet::{self, LOAD, PLUG_IN, PUT, REQUEST, STRETCH, UNPLUG};
use crate::relay::Printed;
use crate::requests::State;
use crate::sides::{Duet, Side};
use crate::ways::Way;

/// What a request has for a side where its setup names none.
const NO_SIDE: u8 = 2;

/// The body of a step that opens with a side.
pub fn sided(side: Side, rest: &[u8]) -> Vec<u8> {
    [&[side.number()][..], rest].concat()
}

/// One side of a put: a number, a count and the places given.
pub fn put_side(number: u8, count: u16, places: &[Control]) -> Vec<u8> {
    let body = put_body(number, count, places);
    let given = (places.len() as u16).to_le_bytes();
    [&[1][..], &body[..3], &given, &body[3..]].concat()
}

/// One side of a put that is this state, the places in use given; all of them where the count is
/// over their number.
fn put_state(state: Option<&State>) -> Vec<u8> {
    state.map_or(vec![0], |State { number, table }| {
        put_side(*number, table.count, table.controls().unwrap_or(&table.places))
    })
}

/// The body of a put that is this box.
pub fn put_duet(duet: &Duet) -> Vec<u8> {
    Side::BOTH.map(|side| put_state(duet.side(side))).concat()
}

/// The body of a stretch.
pub fn stretch_body(side: Side, id: u8, left: &[u8], right: &[u8]) -> Vec<u8> {
    let length = (left.len() as u16).to_le_bytes();
    [&[side.number(), id][..], &length, left, right].concat()
}

/// The script.
#[derive(Clone, Debug)]
pub struct Duets {
    /// The steps, with what the program prints for them.
    pub tape: Tape,
    /// The box after the last step.
    pub duet: Duet,
    /// What was reached.
    pub reach: Reach,
    /// Refusals by kind of step, side and number.
    met: BTreeSet<(u8, u8, u16)>,
}

impl Duets {
    /// With no step.
    pub fn new() -> Duets {
        let (tape, reach) = (Tape::default(), Reach::default());
        Duets { tape, duet: Duet::empty(), reach, met: BTreeSet::new() }
    }

    /// Adds a step, which has to be a good one. A refusal leaves the box as it was.
    pub fn step(&mut self, kind: u8, body: &[u8]) -> Printed {
        let before = self.duet.clone();
        let printed = duet::step(&mut self.duet, kind, body).expect("a good step");
        self.tape.push(&step_bytes(kind, body), &printed.lines);
        self.reach.count_duet(&printed);
        if let Some(way) = printed.way {
            assert_eq!(self.duet, before, "step {kind} {body:02X?}");
            self.met.insert((kind, side_of(kind, body), way.number()));
        }
        printed
    }

    /// Adds a step that has to print this.
    pub fn says(&mut self, kind: u8, body: &[u8], lines: &str) {
        let printed = self.step(kind, body);
        assert_eq!(printed.lines.trim_end(), lines, "step {kind} {body:02X?}");
    }

    /// Adds a step that has to be refused for this clause.
    pub fn fails(&mut self, kind: u8, body: &[u8], way: Way) {
        let printed = self.step(kind, body);
        assert_eq!(printed.way, Some(way), "step {kind} {body:02X?}: {}", printed.lines);
    }

    /// Puts an empty box.
    pub fn clear(&mut self) {
        self.says(PUT, &[0, 0], "put");
    }

    /// What the papers name and these steps do not reach; empty if all is well.
    pub fn missing(&self) -> Vec<String> {
        let reader = || (1..=15).chain([17]);
        let all = [
            (PLUG_IN, "plug-in", reader().chain([30, 61, 62]).collect::<Vec<u16>>()),
            (LOAD, "load", vec![20, 21, 30, 63]),
            (REQUEST, "request", vec![30, 31, 33, 34, 35, 36, 37, 38, 39, 63]),
            (UNPLUG, "unplugging", vec![30, 63]),
            (STRETCH, "stretch", reader().chain([64]).collect()),
        ];
        let mut missing = Vec::new();
        for (kind, word, numbers) in all {
            for side in Side::BOTH {
                for &number in &numbers {
                    if !self.met.contains(&(kind, side.number(), number)) {
                        missing.push(format!("duet: {number} of a {word}, side {side:?}"));
                    }
                }
            }
        }
        missing
    }
}

/// The side that a step is for, as far as it names one.
fn side_of(kind: u8, body: &[u8]) -> u8 {
    match kind {
        REQUEST if body[2] == 8 => body[7].min(NO_SIDE),
        REQUEST => NO_SIDE,
        _ => body[0],
    }
}
