//! Steps of `lend`: configurations made on purpose and at random, with sheets that just hold their
//! records, just do not, or are far from it.

use std::collections::{BTreeMap, BTreeSet};

use super::build::Plan;
use super::configs::{self, input, selector};
use super::random;
use super::rng::Rng;
use super::script::Reach;
use super::tape::Tape;
use crate::lend;
use crate::numbers::{ENTITIES, LENT, MARK, PINS, RECORD, SHEET, STEP};
use crate::reader;
use crate::relay::Printed;
use crate::ways::Way;

/// Configurations at random for each count of entities.
const EACH_COUNT: usize = 3;
/// Configurations at random with a length at random.
const RANDOM: usize = 400;
/// Lengths for configurations that are refused whatever is lent.
pub const ANY_LENGTH: [usize; 6] = [0, SHEET, RECORD - 1, LENT, 1, 47];

/// One step's bytes.
pub fn lent_bytes(m: usize, config: &[u8]) -> Vec<u8> {
    let number = |n: usize| (n as u16).to_le_bytes();
    [&number(m)[..], &number(config.len()), config].concat()
}

/// Clauses met with a sheet that holds no record, and with one that holds 32.
#[derive(Clone, Debug, Default)]
pub struct Rooms {
    none: BTreeSet<Way>,
    full: BTreeSet<Way>,
}

impl Rooms {
    /// Notes what a step with so many lent bytes met.
    pub fn note(&mut self, m: usize, printed: &Printed) {
        let Some(way) = printed.way else { return };
        if m < RECORD {
            self.none.insert(way);
        } else if m >= SHEET {
            self.full.insert(way);
        }
    }

    /// Whether a clause was met with both.
    pub fn both(&self, way: Way) -> bool {
        self.none.contains(&way) && self.full.contains(&way)
    }

    /// Those of these clauses that were not met with both.
    pub fn missing<'a>(&self, ways: impl Iterator<Item = &'a Way>) -> Vec<String> {
        let mut missing = Vec::new();
        for way in ways {
            for (seen, sheet) in [(&self.none, "no record"), (&self.full, "32 records")] {
                if !seen.contains(way) {
                    let (number, words) = (way.number(), way.words());
                    missing.push(format!("{number} {words}, with a sheet of {sheet}"));
                }
            }
        }
        missing
    }
}

/// A length near what the records of an accepted configuration need, or any.
pub fn near(rng: &mut Rng, entities: Option<usize>) -> usize {
    let near = match entities {
        Some(entities) if !rng.one_in(4) => {
            (RECORD * entities) as i32
                + *rng.pick(&[-32, -31, -16, -2, -1, 0, 1, 2, 16, 31, 32, 33])
        }
        _ => rng.below(LENT + 1) as i32,
    };
    near.clamp(0, LENT as i32) as usize
}

/// The steps while they are being written, with what the second program prints.
#[derive(Clone, Debug, Default)]
pub struct Lent {
    /// The steps, with what the program prints for them.
    pub tape: Tape,
    /// What was reached.
    pub reach: Reach,
    /// What was reached on purpose, before anything at random.
    pub named: Reach,
    rooms: Rooms,
    /// Configurations that were tried on both sides of their length, by their count of entities.
    edges: BTreeMap<usize, usize>,
}

impl Lent {
    /// Adds a step.
    pub fn step(&mut self, m: usize, config: &[u8]) -> Printed {
        let printed = lend::step(m, config);
        self.tape.push(&lent_bytes(m, config), &printed.lines);
        self.reach.count_lent(&printed);
        self.rooms.note(m, &printed);
        printed
    }

    /// Adds a configuration that keeps every rule but 16, with each length at which its answer
    /// could turn: "sheet shorter than" 32 "bytes for each entity".
    fn edges(&mut self, config: &[u8]) {
        let entities = entities(config).expect("kept but for the sheet");
        let need = 32 * entities;
        let lengths = BTreeSet::from([0, need / 2, need - 1, need, need + 1, SHEET, LENT]);
        for m in lengths {
            let printed = self.step(m, config);
            let way = if m < need { Some(Way::SheetShort) } else { None };
            assert_eq!(printed.way, way, "{entities} entities, {m} bytes");
        }
        *self.edges.entry(entities).or_default() += 1;
    }

    /// Adds a configuration that a rule other than 16 refuses, with this length.
    fn refused(&mut self, m: usize, config: &[u8], way: Way, place: usize) {
        let printed = self.step(m, config);
        let lines = format!("refused {} at {place}\nrest {m}\n", way.number());
        assert_eq!((printed.way, printed.lines), (Some(way), lines));
    }

    /// What the papers name and these steps do not reach; empty if all is well.
    pub fn missing(&self) -> Vec<String> {
        let own = Way::ALL.iter().filter(|way| way.is_of_configuration());
        let mut missing = self.rooms.missing(own);
        for count in 1..=ENTITIES {
            if self.edges.get(&count).copied().unwrap_or(0) < EACH_COUNT {
                missing.push(format!("{EACH_COUNT} sheets just long enough for {count} entities"));
            }
        }
        missing
    }
}

/// How many entities an acceptable configuration has.
fn entities(config: &[u8]) -> Option<usize> {
    let answer = reader::read(config, &mut [0; LENT]);
    answer.refusal.is_none().then_some(answer.entities)
}

/// A configuration whose last record ends in the byte that the sheet is full of, so that what is
/// shown of it is a shorter line.
pub fn ends_in_marks() -> Vec<u8> {
    Plan::new(vec![input(MARK, (1, 0, 0)), selector(2, &[MARK; PINS])], vec![]).bytes()
}

/// All steps: these configurations, every one made on purpose, and more at random.
pub fn all(seed: u64, examples: &[&[u8]]) -> Lent {
    let mut lent = Lent::default();
    for config in examples.iter().filter(|config| config.len() <= STEP) {
        match entities(config) {
            Some(_) => lent.edges(config),
            None => {
                lent.step(0, config);
                lent.step(SHEET, config);
            }
        }
    }
    named(&mut lent);
    lent.edges(&ends_in_marks());
    for m in [0, LENT] {
        lent.refused(m, &[], Way::LengthLow, 0);
        lent.refused(m, &[0; STEP], Way::LengthHigh, 0);
    }
    lent.named = lent.reach.clone();
    let mut rng = Rng::new(seed);
    each_count(&mut rng, &mut lent);
    for _ in 0..RANDOM {
        random(&mut rng, &mut lent);
    }
    lent
}

/// The configurations made on purpose: an accepted one with the sheet of `sheet`, a refused one with
/// one length after another, the first of each clause with a sheet of no record and one of 32.
fn named(lent: &mut Lent) {
    let mut lengths = ANY_LENGTH.iter().cycle();
    for case in configs::all() {
        let Some((way, place)) = case.expect else {
            let printed = lent.step(SHEET, &case.bytes);
            assert_eq!(printed.way, None, "{}", case.name);
            assert!(case.shown(), "{}", case.name);
            continue;
        };
        let both = lent.rooms.both(way);
        let tried = if both { vec![*lengths.next().expect("a cycle")] } else { vec![0, SHEET] };
        for m in tried {
            lent.refused(m, &case.bytes, way, place);
        }
    }
}

/// Good configurations at random, so many of each count of entities.
fn each_count(rng: &mut Rng, lent: &mut Lent) {
    let mut made: BTreeMap<usize, usize> = BTreeMap::new();
    while made.len() < ENTITIES || made.values().any(|&count| count < EACH_COUNT) {
        let config = random::good(rng).bytes();
        let Some(count) = entities(&config) else { continue };
        let made = made.entry(count).or_default();
        if *made < EACH_COUNT {
            *made += 1;
            lent.edges(&config);
        }
    }
}

/// Adds a configuration at random, with a length near what its records need, or any.
pub fn random(rng: &mut Rng, lent: &mut Lent) {
    let config = random::configuration(rng);
    random_length(rng, lent, &config);
}

/// Adds this configuration, with a length near what its records need, or any.
pub fn random_length(rng: &mut Rng, lent: &mut Lent, config: &[u8]) {
    lent.step(near(rng, entities(config)), config);
}

#[cfg(test)]
mod tests {
    use super::*;
    use crate::generator::rng::steps;

    #[test]
    fn steps_at_random_are_steps() {
        let lent: Lent = steps(3, 300, random);
        assert_eq!(lend::program(&lent.tape.bytes), lent.tape.printed);
        assert!(lent.reach.ways.contains_key(&Way::SheetShort));
    }
}
