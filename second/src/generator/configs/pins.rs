//! Mixers and Selectors of one pin up to twenty-four, and of more (document 02, No. 7).

use super::{input, mixer, output, printed, selector, Cases};
use crate::generator::build::{Part, Plan};
use crate::numbers::{PINS, RECORD};
use crate::ways::Way;

/// IDs of what stands behind the inputs, whose IDs are 1 and up.
const CHOSEN: u8 = 50;
const MIXED: u8 = 51;

/// All of them.
pub fn all(cases: &mut Cases) {
    for count in [1, 2, 7, 8, 9, 15, 16, 17, 23, 24] {
        shown(cases, count);
    }
    too_many(cases);
    lengths(cases);
    last_source(cases);
    last_channels(cases);
}

/// So many inputs of one channel.
fn inputs(count: u8) -> Vec<Part> {
    (1..=count).map(|id| input(id, (1, 0, 0))).collect()
}

/// The record of an entity with one channel: "the first eight as before, then twenty-four source
/// IDs", "unused ones 00".
fn record(id: u8, kind: u8, sources: &[u8]) -> Vec<u8> {
    let mut bytes = vec![id, kind, 1, 0, 0, 0, sources.len() as u8, 0];
    bytes.extend(sources);
    bytes.resize(RECORD, 0);
    bytes
}

/// A Selector and a Mixer of so many pins, by their whole records, sources rising and falling.
fn shown(cases: &mut Cases, count: u8) {
    let rising: Vec<u8> = (1..=count).collect();
    let falling: Vec<u8> = rising.iter().rev().copied().collect();
    for (name, sources) in [("rising", rising), ("falling", falling)] {
        let mut parts = inputs(count);
        parts.push(selector(CHOSEN, &sources));
        parts.push(mixer(MIXED, &sources, usize::from(count), (1, 0, 0)));
        parts.push(output(99, MIXED));
        let shows =
            [record(CHOSEN, 5, &sources), record(MIXED, 4, &sources), record(99, 3, &[MIXED])];
        let name = format!("{count} pins, sources {name}");
        cases.keep_shown(&name, &Plan::new(parts, vec![]), &shows);
    }
}

/// Refusal 9 for more pins, with the lengths that would go with them.
fn too_many(cases: &mut Cases) {
    for count in [25, 26, 32, 64, 128, 200] {
        let sources = vec![1; count];
        let place = |plan: &Plan| plan.part_place(1);
        let plan = Plan::new(vec![input(1, (1, 0, 0)), selector(2, &sources)], vec![]);
        cases.refuse_plan(&format!("Selector of {count}"), &plan, Way::SelectorPins, place(&plan));
        let plan = Plan::new(vec![input(1, (1, 0, 0)), printed(2, &sources)], vec![]);
        cases.refuse_plan(&format!("printed, of {count}"), &plan, Way::SelectorPins, place(&plan));
        let one = mixer(2, &sources, count, (1, 0, 0));
        let plan = Plan::new(vec![input(1, (1, 0, 0)), one], vec![]);
        cases.refuse_plan(&format!("Mixer of {count}"), &plan, Way::MixerPins, place(&plan));
    }
}

/// A part of twenty-four pins in the place of one that keeps the rules.
fn instead(cases: &mut Cases, name: &str, way: Way, part: Part) {
    let mut parts = inputs(PINS as u8);
    parts.push(part);
    let plan = Plan::new(parts, vec![]);
    cases.refuse_plan(name, &plan, way, plan.part_place(PINS));
}

/// Refusals 9 and 17 by the lengths of twenty-four pins.
fn lengths(cases: &mut Cases) {
    let sources = [1; PINS];
    let (chosen, mixed) = (selector(CHOSEN, &sources), mixer(MIXED, &sources, PINS, (1, 0, 0)));
    for length in [PINS + 5, PINS + 8, 14, 255] {
        instead(cases, "24 pins", Way::SelectorLength, chosen.resized(length));
    }
    instead(cases, "24 pins, one byte more", Way::SelectorPad, chosen.resized(PINS + 7));
    instead(cases, "24 pins, printed", Way::SelectorPrinted, printed(CHOSEN, &sources));
    for length in [PINS + 9, 18, 11] {
        instead(cases, "Mixer of 24", Way::MixerLength, mixed.resized(length));
    }
    for length in [PINS + 10, PINS + 12, PINS + 14, 255] {
        instead(cases, "Mixer of 24", Way::MixerControls, mixed.resized(length));
    }
}

/// Refusals 11 and 12 by one pin alone: the ninth, and the twenty-fourth.
fn last_source(cases: &mut Cases) {
    for at in [8, PINS - 1] {
        for (source, way) in [(0, Way::SourceZero), (77, Way::SourceUnknown)] {
            let mut sources = [1; PINS];
            sources[at] = source;
            instead(cases, "Selector's far pin", way, selector(CHOSEN, &sources));
            let part = mixer(MIXED, &sources, PINS, (1, 0, 0));
            instead(cases, "Mixer's far pin", way, part);
        }
        let mut sources = [1; PINS];
        sources[at] = CHOSEN;
        let loops = [selector(CHOSEN, &sources), mixer(CHOSEN, &sources, PINS, (1, 0, 0))];
        for part in loops {
            instead(cases, "a loop by a far pin", Way::ChainOnLoop, part);
        }
    }
}

/// Refusal 13 by the channels of the twenty-fourth pin alone.
fn last_channels(cases: &mut Cases) {
    let sources: Vec<u8> = (1..=PINS as u8).collect();
    let plan = |entering: usize| {
        let mut parts = inputs(PINS as u8);
        parts[PINS - 1] = input(PINS as u8, (9, 0, 0));
        parts.push(mixer(MIXED, &sources, entering, (1, 0, 0)));
        Plan::new(parts, vec![])
    };
    cases.keep_plan("23 channels and 9 by the last pin", &plan(PINS + 8));
    let few = plan(PINS);
    let place = few.part_place(PINS);
    cases.refuse_plan("24 channels of 32", &few, Way::MixerControls, place);
    for (channels, c) in [(8, 8), (16, 4), (9, 8), (3, 16)] {
        let mut parts: Vec<Part> = sources.iter().map(|&id| input(id, (channels, 0, 0))).collect();
        parts.push(mixer(MIXED, &sources, PINS * usize::from(channels), (c, 0, 0)));
        cases.keep_plan(&format!("Mixer of 24, {channels} to {c}"), &Plan::new(parts, vec![]));
    }
}
