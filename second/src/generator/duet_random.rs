//! Steps of `duet` at random, meant for the box that the script has come to.

use super::build::Plan;
use super::configs::{feature_of, input, selector};
use super::duets::{sided, stretch_body, Duets};
use super::orders::{Apart, Step};
use super::random;
use super::rng::Rng;
use crate::duet::{LOAD, PLUG_IN, PUT, SHOW, STRETCH, UNPLUG};
use crate::numbers::{CONTROLS, DUET_CONTROLS};
use crate::relay::{self, PUT_CONTROL, PUT_OPENING};
use crate::requests::{State, NUMBER_AT};
use crate::sides::{Duet, Side};

/// Tables with more rows are not shown.
const SHOWN: usize = 20;

/// One of the two.
pub fn some_side(rng: &mut Rng) -> Side {
    *rng.pick(&Side::BOTH)
}

/// A microphone with exactly so many controls, at most 128, some of them Selectors'.
pub fn exactly(rng: &mut Rng, count: usize) -> Vec<u8> {
    let selectors = rng.below(count.min(9) + 1);
    let mut parts = vec![input(1, (16, 0, 0)), feature_of(2, count - selectors)];
    parts.extend((0..selectors).map(|at| selector(100 + at as u8, &[1, 2])));
    rng.shuffle(&mut parts);
    let mut plan = Plan::new(parts, vec![]);
    plan.control[2] = if rng.one_in(2) { rng.byte() } else { rng.below(2) as u8 };
    plan.bytes()
}

/// A side that is plugged in, or one that is empty, if there is one, but for once in so many times.
fn some_side_that(rng: &mut Rng, duet: &Duet, plugged: bool, but: usize) -> Side {
    let side = some_side(rng);
    if duet.side(side).is_some() == plugged || rng.one_in(but) {
        side
    } else {
        side.other()
    }
}

/// A configuration for a plug-in on this side: with few controls, with many, with as many as there just
/// is room for or one more or less, or any.
pub fn plugged(rng: &mut Rng, duet: &Duet, side: Side) -> Vec<u8> {
    match rng.below(7) {
        0..=1 => random::with_controls(rng),
        2..=3 => {
            let count = CONTROLS - rng.below(CONTROLS / 4);
            exactly(rng, count)
        }
        4..=5 => {
            let room = DUET_CONTROLS - duet.controls(side.other()).min(DUET_CONTROLS);
            let count = (room + rng.below(3)).saturating_sub(1).min(CONTROLS);
            exactly(rng, count)
        }
        _ => random::configuration(rng),
    }
}

/// A load or a request for this side; a request now and then for what is no side.
pub fn load_or_request(rng: &mut Rng, duet: &Duet, side: Side) -> Step {
    let empty = State::empty();
    let state = duet.side(side).unwrap_or(&empty);
    let (kind, mut body) = random::load_or_request(rng, state);
    if kind == relay::LOAD {
        return (LOAD, sided(side, &body));
    }
    if usize::from(body[2]) > NUMBER_AT && body[3 + NUMBER_AT] == state.number {
        body[3 + NUMBER_AT] = side.number();
    }
    (kind, body)
}

/// A put: each side empty, or a table that mostly is one.
fn put(rng: &mut Rng, duet: &Duet) -> Vec<u8> {
    let mut body = Vec::new();
    for side in Side::BOTH {
        if rng.one_in(3) {
            body.push(0);
            continue;
        }
        let put = random::some_put(rng, duet.side(side).unwrap_or(&State::empty()));
        let given = ((put.len() - PUT_OPENING) / PUT_CONTROL) as u16;
        let plugged = 1 + rng.below(255) as u8;
        body.push(plugged);
        body.extend(&put[..PUT_OPENING]);
        body.extend(given.to_le_bytes());
        body.extend(&put[PUT_OPENING..]);
    }
    body
}

/// A stretch: an ID that the side's configuration has more often than not.
fn stretch(rng: &mut Rng) -> Vec<u8> {
    let configs = Side::BOTH.map(|_| match rng.below(4) {
        0 => random::configuration(rng),
        1 => vec![],
        _ => random::good(rng).bytes(),
    });
    let side = some_side(rng);
    let ids = ids(&configs[usize::from(side.number())]);
    let id = if ids.is_empty() || rng.one_in(5) { rng.byte() } else { *rng.pick(&ids) };
    stretch_body(side, id, &configs[0], &configs[1])
}

/// The IDs that a configuration's run seems to have.
fn ids(config: &[u8]) -> Vec<u8> {
    let Some(apart) = Apart::of(config) else { return vec![] };
    apart.run().iter().filter_map(|one| one.get(3)).copied().collect()
}

/// Adds a step at random.
pub fn step(rng: &mut Rng, duets: &mut Duets) {
    if duets.duet.check().is_err() && rng.one_in(4) {
        return duets.clear();
    }
    let empty = some_side_that(rng, &duets.duet, false, 4);
    let taken = some_side_that(rng, &duets.duet, true, 12);
    let shown = Side::BOTH.iter().all(|&side| duets.duet.controls(side) <= SHOWN);
    let (kind, body) = match rng.below(100) {
        0..=7 => (PLUG_IN, sided(empty, &plugged(rng, &duets.duet, empty))),
        8..=10 => (UNPLUG, vec![taken.number()]),
        11..=12 => (PUT, put(rng, &duets.duet)),
        13..=14 if shown => (SHOW, vec![]),
        15..=16 => (STRETCH, stretch(rng)),
        _ => load_or_request(rng, &duets.duet, taken),
    };
    duets.step(kind, &body);
}

#[cfg(test)]
mod tests {
    use super::*;
    use crate::duet;
    use crate::numbers::SHEET;
    use crate::reader;
    use crate::ways::Way;

    #[test]
    fn exactly_so_many_controls() {
        let mut rng = Rng::new(4);
        for count in (0..=CONTROLS).step_by(8) {
            let state = reader::read(&exactly(&mut rng, count), &mut [0; SHEET]).state;
            assert_eq!(usize::from(state.table.count), count);
        }
    }

    #[test]
    fn steps_at_random_are_steps() {
        let mut rng = Rng::new(11);
        let mut duets = Duets::new();
        for _ in 0..4000 {
            step(&mut rng, &mut duets);
        }
        assert_eq!(duet::program(&duets.tape.bytes), duets.tape.printed);
        for way in [Way::SideTaken, Way::SidesFull, Way::RequestEmpty, Way::PresentedNumber] {
            assert!(duets.reach.ways.contains_key(&way), "{way:?}");
        }
    }
}
