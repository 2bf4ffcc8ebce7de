//! Two runs that agree on one side: "Two runs from an empty box that agree on the left side's
//! plug-ins, unpluggings, loads, requests and buffers, and in which each left plug-in met the same
//! count of right-hand controls, give the left the same answers, and so with the sides exchanged"
//! (document 02, No. 11).

use super::duet_random::{exactly, load_or_request, plugged, some_side};
use super::duets::{sided, Duets};
use super::orders::Step;
use super::rng::Rng;
use crate::duet::{LOAD, PLUG_IN, REQUEST, UNPLUG};
use crate::numbers::DUET_CONTROLS;
use crate::requests::NUMBER_AT;
use crate::sides::Side;

/// Plug-ins of the watched side in one run.
const PLUG_INS: usize = 4;
/// The watched side's steps behind each of them.
const STEPS: usize = 8;

/// What the watched side does around one plug-in: the count that this meets, and the steps, the
/// plug-in first.
struct Episode {
    met: usize,
    steps: Vec<Step>,
}

/// Adds a run for the side that is watched, and another that agrees with it, and holds the answers to
/// that side in the second to those in the first.
pub fn two_runs(rng: &mut Rng, duets: &mut Duets) {
    let watched = some_side(rng);
    let (episodes, first) = make(rng, duets, watched);
    let second = follow(rng, duets, watched, &episodes);
    assert_eq!(first, second, "{watched:?}");
}

/// The first run: the watched side's steps as they come, the other side's between them.
fn make(rng: &mut Rng, duets: &mut Duets, watched: Side) -> (Vec<Episode>, Vec<String>) {
    duets.clear();
    let (mut episodes, mut answers) = (Vec::new(), Vec::new());
    for _ in 0..PLUG_INS {
        let room = DUET_CONTROLS - duets.duet.controls(watched);
        let met = (*rng.pick(&[0, 3, 64, 100, 128])).min(room);
        meet(rng, duets, watched.other(), met);
        let config = plugged(rng, &duets.duet, watched);
        let mut steps = vec![(PLUG_IN, sided(watched, &config))];
        answers.push(duets.step(steps[0].0, &steps[0].1).lines);
        for _ in 0..STEPS {
            other_steps(rng, duets, watched.other());
            let step = own_step(rng, duets, watched);
            answers.push(duets.step(step.0, &step.1).lines);
            steps.push(step);
        }
        episodes.push(Episode { met, steps });
    }
    (episodes, answers)
}

/// The second run: the same steps of the watched side, others of the other side.
fn follow(rng: &mut Rng, duets: &mut Duets, watched: Side, all: &[Episode]) -> Vec<String> {
    duets.clear();
    let mut answers = Vec::new();
    for episode in all {
        meet(rng, duets, watched.other(), episode.met);
        for (index, (kind, body)) in episode.steps.iter().enumerate() {
            if index > 0 {
                other_steps(rng, duets, watched.other());
            }
            answers.push(duets.step(*kind, body).lines);
        }
    }
    answers
}

/// Brings the other side to so many controls, for which there is room; none is an empty side or a
/// microphone without controls.
fn meet(rng: &mut Rng, duets: &mut Duets, other: Side, count: usize) {
    if duets.duet.side(other).is_some() {
        duets.says(UNPLUG, &[other.number()], "unplugged");
    }
    if count > 0 || rng.one_in(2) {
        let config = exactly(rng, count);
        assert_eq!(duets.step(PLUG_IN, &sided(other, &config)).way, None);
    }
    assert_eq!(duets.duet.controls(other), count);
}

/// A step of the watched side: not one that names the other, or none.
fn own_step(rng: &mut Rng, duets: &Duets, side: Side) -> Step {
    if rng.one_in(8) {
        return (UNPLUG, vec![side.number()]);
    }
    loop {
        let step = load_or_request(rng, &duets.duet, side);
        if is_for(&step, side) {
            return step;
        }
    }
}

/// Whether a load or a request is for this side: a setup too short to name one is no side's.
fn is_for((kind, body): &Step, side: Side) -> bool {
    match *kind {
        LOAD => body[0] == side.number(),
        REQUEST => body[2] == 8 && body[3 + NUMBER_AT] == side.number(),
        _ => false,
    }
}

/// Some steps of the other side, or of none: loads, requests, unplugging, plugging in.
fn other_steps(rng: &mut Rng, duets: &mut Duets, other: Side) {
    for _ in 0..rng.below(3) {
        match rng.below(6) {
            0 => drop(duets.step(UNPLUG, &[other.number()])),
            1 => {
                let config = plugged(rng, &duets.duet, other);
                duets.step(PLUG_IN, &sided(other, &config));
            }
            _ => {
                let step = load_or_request(rng, &duets.duet, other);
                if !is_for(&step, other.other()) {
                    duets.step(step.0, &step.1);
                }
            }
        }
    }
}

#[cfg(test)]
mod tests {
    use super::*;
    use crate::ways::Way;

    #[test]
    fn a_side_learns_no_more_than_the_count() {
        let mut rng = Rng::new(12);
        let mut duets = Duets::new();
        for _ in 0..300 {
            two_runs(&mut rng, &mut duets);
        }
        for way in [Way::SidesFull, Way::SideTaken, Way::RequestEmpty, Way::ReplyShort] {
            assert!(duets.reach.ways.contains_key(&way), "{way:?}");
        }
    }
}
