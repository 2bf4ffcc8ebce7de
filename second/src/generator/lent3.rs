//! Steps of `lend3`: configurations of both editions made on purpose and at random, with their cluster
//! buffers and sheets that just hold their records, just do not, or are far from it.

use std::collections::BTreeSet;

use super::build3::Third;
use super::cases3::{self, Case3};
use super::lent::{near, Rooms, ANY_LENGTH};
use super::random;
use super::random3;
use super::rng::Rng;
use super::script::Reach;
use super::tape::Tape;
use crate::edition3;
use crate::lend;
use crate::lend3;
use crate::numbers::{ENTITIES, LENT, MARK, RECORD, SHEET};
use crate::relay::Printed;
use crate::ways::Way;

/// Steps at random.
const RANDOM: usize = 240;

/// One step's bytes.
pub fn step3_bytes(m: usize, config: &[u8], clusters: &[u8]) -> Vec<u8> {
    let number = |n: usize| (n as u16).to_le_bytes();
    let head = [number(m), number(config.len()), number(clusters.len())].concat();
    [&head[..], config, clusters].concat()
}

/// The steps while they are being written, with what the second program prints.
#[derive(Clone, Debug, Default)]
pub struct Lent3 {
    /// The steps, with what the program prints for them.
    pub tape: Tape,
    /// What was reached.
    pub reach: Reach,
    /// What was reached on purpose, before anything at random.
    pub named: Reach,
    rooms: Rooms,
    /// Counts of entities that were tried on both sides of the length that they need.
    counts: BTreeSet<usize>,
}

impl Lent3 {
    /// Adds a step.
    pub fn step(&mut self, m: usize, config: &[u8], clusters: &[u8]) -> Printed {
        let printed = lend3::step(m, config, clusters);
        self.tape.push(&step3_bytes(m, config, clusters), &printed.lines);
        self.reach.count_third(&printed);
        self.rooms.note(m, &printed);
        printed
    }

    /// Adds a case made on purpose, held to what is written there: an accepted one with room for 32
    /// records, a refused one with one length after another, the first of each clause with room for
    /// none and for 32.
    fn case(&mut self, case: &Case3, any: usize) {
        let Some((way, place)) = case.expect else {
            let printed = self.step(SHEET, &case.config, &case.clusters);
            assert_eq!(printed.way, None, "{}", case.name);
            if !case.shows.is_empty() {
                let mut lent = vec![MARK; SHEET];
                lent[..RECORD * case.shows.len()].copy_from_slice(&case.shows.concat());
                let lines = format!("accepted {}\n{}", case.shows.len(), lend::shown(&lent));
                assert_eq!(printed.lines, lines, "{}", case.name);
            }
            return;
        };
        for m in if self.rooms.both(way) { vec![any] } else { vec![0, SHEET] } {
            let printed = self.step(m, &case.config, &case.clusters);
            let lines = format!("refused {} at {place}\nrest {m}\n", way.number());
            assert_eq!((printed.way, printed.lines), (Some(way), lines), "{}", case.name);
        }
    }

    /// Adds a plan that keeps every rule but 16, with each length at which its answer could turn.
    fn edges(&mut self, third: &Third) {
        let (config, clusters) = (third.config(), third.buffer());
        let count = third.plan.parts.len();
        let need = RECORD * count;
        for m in BTreeSet::from([0, need - 1, need, need + 33]) {
            let printed = self.step(m, &config, &clusters);
            let way = (m < need).then_some(Way::SheetShortIn3);
            assert_eq!(printed.way, way, "{count} entities, {m} bytes");
            if way.is_some() {
                let lines = format!("refused 16 at {}\nrest {m}\n", third.header_place());
                assert_eq!(printed.lines, lines);
            }
        }
        self.counts.insert(count);
    }

    /// What the papers name and these steps do not reach; empty if all is well.
    pub fn missing(&self) -> Vec<String> {
        // 16 never comes with room for 32; that it comes is told by the counts.
        let own = |way: &&Way| match way {
            Way::SheetShortIn3 => false,
            _ => way.is_of_edition3() || way.is_of_configuration(),
        };
        let mut missing = self.rooms.missing(Way::ALL.iter().filter(own));
        for count in 1..=ENTITIES {
            if !self.counts.contains(&count) {
                missing.push(format!("sheets just long enough for {count} entities"));
            }
        }
        missing.into_iter().map(|one| format!("lend3: {one}")).collect()
    }
}

/// All steps made on purpose, and more at random.
pub fn all(seed: u64) -> Lent3 {
    let mut lent = Lent3::default();
    let mut lengths = ANY_LENGTH.iter().cycle();
    for case in cases3::all() {
        lent.case(&case, *lengths.next().expect("a cycle"));
    }
    for third in cases3::of_each_count() {
        lent.edges(&third);
    }
    lent.named = lent.reach.clone();
    let mut rng = Rng::new(seed);
    for _ in 0..RANDOM {
        random(&mut rng, &mut lent);
    }
    lent
}

/// Adds a configuration at random, one in eight of them of 1.0, with a length near what its records
/// need, or any.
pub fn random(rng: &mut Rng, lent: &mut Lent3) {
    let (config, clusters) = match rng.below(8) {
        0 => (random::configuration(rng), random3::configuration(rng).1),
        _ => random3::configuration(rng),
    };
    let entities = edition3::read(&config, &clusters, &mut [0; LENT]).ok();
    lent.step(near(rng, entities), &config, &clusters);
}

#[cfg(test)]
mod tests {
    use super::*;
    use crate::generator::rng::steps;

    #[test]
    fn steps_at_random_are_steps() {
        let lent: Lent3 = steps(4, 300, random);
        assert_eq!(lend3::program(&lent.tape.bytes), lent.tape.printed);
        assert!(lent.reach.ways.contains_key(&Way::SheetShortIn3));
    }
}
