//! Entities and clusters: refusals 9 to 13, and 15.

use super::{
    desk, feature, input, mixer, output, selector, Cases, FEATURE, MICROPHONE, MIXER, PLAYBACK,
    SELECTOR, SPEAKER, STEREO, SWITCH, TRIM,
};
use crate::generator::build::{Part, Plan};
use crate::numbers::{ENTITIES, PINS};
use crate::ways::Way;

/// All of them.
pub fn all(cases: &mut Cases) {
    layouts(cases);
    identities(cases);
    chains(cases);
    input_clusters(cases);
    mixer_clusters(cases);
    unit_clusters(cases);
    control_counts(cases);
}

/// Refusal 9.
fn layouts(cases: &mut Cases) {
    let mut wrong = |name: &str, index: usize, way: Way, bytes: Part| {
        cases.refuse(name, way, |plan| {
            plan.parts[index] = bytes;
            plan.part_place(index)
        });
    };
    let parts = desk().parts;
    for (length, bytes) in [(2, vec![2, 0x24]), (3, vec![3, 0x24, 2])] {
        wrong(&format!("length {length}"), TRIM, Way::KindAbsent, Part::Raw(bytes));
    }
    for kind in [0, 1, 7, 8, 9, 0x15, 0x82, 255] {
        let other = parts[SPEAKER].with(2, kind);
        wrong(&format!("kind {kind}"), SPEAKER, Way::KindUnknown, other);
    }
    wrong("kind 7 of four bytes", SPEAKER, Way::KindUnknown, Part::Raw(vec![4, 0x24, 7, 7]));
    for length in [4, 5, 11, 13, 255] {
        let bytes = parts[PLAYBACK].resized(length);
        wrong("Input Terminal of another length", PLAYBACK, Way::InputTerminalLength, bytes);
    }
    for length in [4, 7, 8, 10, 12] {
        let bytes = parts[SPEAKER].resized(length);
        wrong("Output Terminal of another length", SPEAKER, Way::OutputTerminalLength, bytes);
    }
    for pins in [0, PINS as u8 + 1, 32, 255] {
        wrong("Mixer pins", MIXER, Way::MixerPins, parts[MIXER].with(4, pins).resized(60));
        let at = parts[SELECTOR].with(4, pins).resized(usize::from(pins % 200) + 6);
        wrong("Selector pins", SELECTOR, Way::SelectorPins, at);
    }
    for length in [4, 5, 9, 10, 11] {
        wrong("Mixer too short", MIXER, Way::MixerLength, parts[MIXER].resized(length));
    }
    for length in [4, 5, 6, 7, 10, 11, 255] {
        let bytes = parts[SELECTOR].resized(length);
        wrong("Selector of another length", SELECTOR, Way::SelectorLength, bytes);
    }
    for length in [4, 5, 6] {
        wrong("Feature Unit too short", TRIM, Way::FeatureLength, parts[TRIM].resized(length));
    }
    for size in [0, 5, 255] {
        wrong("control size", TRIM, Way::FeatureSize, parts[TRIM].with(5, size));
    }
    cases.refuse("two wrong layouts, the first by place", Way::SelectorLength, |plan| {
        plan.parts[TRIM] = Part::Raw(vec![2, 0x24]);
        plan.parts[SELECTOR] = plan.parts[SELECTOR].resized(4);
        plan.part_place(SELECTOR)
    });
    cases.keep("the name bytes are not read", |plan| {
        plan.parts[SPEAKER] = plan.parts[SPEAKER].with(8, 200);
        plan.parts[SWITCH] = plan.parts[SWITCH].with(7, 200);
        plan.parts[MICROPHONE] = plan.parts[MICROPHONE].with(6, 99).with(11, 200);
    });
    let narrow = Plan::new(
        vec![
            input(1, (1, 0, 0)),
            selector(2, &[1]),
            selector(3, &[2]),
            mixer(4, &[3], 1, (1, 0, 0)),
        ],
        vec![],
    );
    cases.keep_plan("one pin each", &narrow);
    for size in 1..=4u8 {
        let masks = vec![0x02; 3 * usize::from(size)];
        cases.keep("control sizes 1 to 4", |plan| {
            plan.parts[TRIM] = Part::Feature { id: 9, source: 8, size, masks };
        });
    }
}

/// Refusals 10 and 11.
fn identities(cases: &mut Cases) {
    let parts = desk().parts;
    for (index, part) in parts.iter().enumerate() {
        cases.refuse("ID zero", Way::IdZero, |plan| {
            plan.parts[index] = part.with(3, 0);
            plan.part_place(index)
        });
        if index > 0 {
            cases.refuse("ID of the first", Way::IdRepeated, |plan| {
                plan.parts[index] = part.with(3, 1);
                plan.part_place(index)
            });
        }
    }
    cases.refuse("the second bearer is the first such", Way::IdRepeated, |plan| {
        plan.parts[TRIM] = plan.parts[TRIM].with(3, 0);
        plan.parts[SPEAKER] = plan.parts[SPEAKER].with(3, 6);
        plan.part_place(SPEAKER)
    });
    let places = [
        ("Output Terminal", SPEAKER, 7),
        ("Mixer pin 1", MIXER, 5),
        ("Mixer pin 2", MIXER, 6),
        ("Selector pin 1", SELECTOR, 5),
        ("Selector pin 2", SELECTOR, 6),
        ("second Selector pin 1", SWITCH, 5),
        ("second Selector pin 2", SWITCH, 6),
        ("Feature Unit", TRIM, 4),
    ];
    for (name, index, at) in places {
        let sources = [(0, Way::SourceZero), (77, Way::SourceUnknown), (6, Way::SourceOutput)];
        for (source, way) in sources {
            cases.refuse(&format!("{name} sourcing {source}"), way, |plan| {
                plan.parts[index] = plan.parts[index].with(at, source);
                plan.part_place(index)
            });
        }
    }
    cases.refuse("an Output Terminal sourcing itself", Way::SourceOutput, |plan| {
        plan.parts[SPEAKER] = plan.parts[SPEAKER].with(7, 7);
        plan.part_place(SPEAKER)
    });
    cases.refuse("two bad sources, the first by place", Way::SourceUnknown, |plan| {
        plan.parts[TRIM] = plan.parts[TRIM].with(4, 0);
        plan.parts[MIXER] = plan.parts[MIXER].with(6, 99);
        plan.part_place(MIXER)
    });
    cases.keep("two pins with the same source", |plan| {
        plan.parts[MIXER] = plan.parts[MIXER].with(6, 1);
        plan.parts[SELECTOR] = plan.parts[SELECTOR].with(5, 1);
    });
}

/// Refusal 12: loops, what stands below one, and long chains without.
fn chains(cases: &mut Cases) {
    for (name, index, at) in [
        ("Mixer", MIXER, 6),
        ("Feature Unit", FEATURE, 4),
        ("Selector", SELECTOR, 6),
        ("second Selector", SWITCH, 6),
    ] {
        cases.refuse(&format!("{name} sourcing itself"), Way::ChainOnLoop, |plan| {
            let id = plan.parts[index].bytes()[3];
            plan.parts[index] = plan.parts[index].with(at, id);
            plan.part_place(index)
        });
    }
    cases.refuse("a loop of Mixer and Feature Unit", Way::ChainOnLoop, |plan| {
        plan.parts[MIXER] = plan.parts[MIXER].with(5, 4);
        plan.part_place(MIXER)
    });
    for length in [1, 2, 3, 31, 32] {
        let source = |at: usize| (at % length) as u8 + 1;
        let ring: Vec<Part> = (1..=length).map(|id| feature(id as u8, source(id), 2)).collect();
        let plan = Plan::new(ring, vec![]);
        let name = format!("a loop of length {length}");
        cases.refuse_plan(&name, &plan, Way::ChainOnLoop, plan.part_place(0));
        if length < ENTITIES {
            let mut below = plan.clone();
            below.parts.insert(0, output(99, 1));
            let place = below.part_place(0);
            cases.refuse_plan(&format!("below {name}"), &below, Way::ChainBelowLoop, place);
            let mut after = plan.clone();
            after.parts.insert(0, input(99, STEREO));
            let place = after.part_place(1);
            cases.refuse_plan(&format!("after an input, {name}"), &after, Way::ChainOnLoop, place);
        }
    }
    cases.refuse("an entity below a loop stands before it", Way::ChainBelowLoop, |plan| {
        let mut parts = plan.parts.clone();
        parts[FEATURE] = parts[FEATURE].with(4, 4);
        parts.reverse();
        plan.parts = parts;
        plan.part_place(3)
    });
    let mut chain = vec![input(1, (1, 0, 0))];
    chain.extend((2..=31).map(|id| feature(id, id - 1, 1)));
    chain.push(output(32, 31));
    let backward = Plan::new(chain.clone(), vec![]);
    cases.keep_plan("a chain of 31 steps, sources before users", &backward);
    chain.reverse();
    cases.keep_plan("a chain of 31 steps, sources after users", &Plan::new(chain.clone(), vec![]));
    chain[0] = feature(32, 31, 1);
    chain[31] = feature(1, 17, 1);
    let plan = Plan::new(chain, vec![]);
    cases.refuse_plan("a loop of 17 above 15", &plan, Way::ChainBelowLoop, plan.part_place(0));
    let double: Vec<Part> = (1..=32)
        .map(|id| if id == 1 { input(1, (1, 0, 0)) } else { selector(id, &[id - 1, id - 1]) })
        .collect();
    cases.keep_plan("a ladder of 31 Selectors, two to the 31 routes", &Plan::new(double, vec![]));
}

/// Refusal 13 for an Input Terminal.
fn input_clusters(cases: &mut Cases) {
    for (c, bitmap, name, way) in cluster_grid() {
        let mut plan = Plan::new(vec![input(1, (1, 0, 0)), input(2, (c, bitmap, name))], vec![]);
        plan.parts.push(output(3, 2));
        let title = format!("Input Terminal with cluster {c}, {bitmap:#06x}, {name}");
        match way.map(|(input, _)| input) {
            Some(way) => cases.refuse_plan(&title, &plan, way, plan.part_place(1)),
            None => cases.keep_plan(&title, &plan),
        }
    }
}

/// c, the bitmap, the name index, and the clauses that they break.
type Declared = (u8, u16, u8, Option<(Way, Way)>);

/// Clusters on both sides of each bound, with the clause for an Input Terminal and for a Mixer.
fn cluster_grid() -> Vec<Declared> {
    let zero = Some((Way::InputChannelsZero, Way::MixerChannelsZero));
    let high = Some((Way::InputChannelsHigh, Way::MixerChannelsHigh));
    let reserved = Some((Way::InputReserved, Way::MixerReserved));
    let ones = Some((Way::InputOnes, Way::MixerOnes));
    let equal = Some((Way::InputIndexEqual, Way::MixerIndexEqual));
    let index = Some((Way::InputIndexHigh, Way::MixerIndexHigh));
    vec![
        (0, 0, 0, zero),
        (0, 1, 0, zero),
        (1, 0, 0, None),
        (16, 0, 0, None),
        (17, 0, 0, high),
        (255, 0x0FFF, 0, high),
        (16, 0x0800, 0, None),
        (16, 0x1000, 0, reserved),
        (16, 0x2000, 0, reserved),
        (16, 0x4000, 0, reserved),
        (16, 0x8000, 0, reserved),
        (12, 0x0FFF, 0, None),
        (11, 0x0FFF, 0, ones),
        (1, 0x0003, 0, ones),
        (1, 0x0800, 0, None),
        (2, 0x0801, 1, equal),
        (12, 0x0FFF, 255, equal),
        (5, 0x0051, 254, None),
        (5, 0x0051, 255, index),
        (4, 0x0107, 0, None),
        (4, 0x0107, 1, equal),
        (1, 0, 255, None),
        (2, 0, 254, None),
        (2, 0, 255, index),
        (16, 0, 240, None),
        (16, 0, 241, index),
        (13, 0x0FFF, 255, None),
        (14, 0x0FFF, 254, None),
        (14, 0x0FFF, 255, index),
        (5, 0x0051, 0, None),
        (5, 0x0051, 1, None),
    ]
}

/// Refusal 13 for a Mixer.
fn mixer_clusters(cases: &mut Cases) {
    for (c, bitmap, name, way) in cluster_grid() {
        let parts = vec![input(1, (1, 0, 0)), mixer(2, &[1], 1, (c, bitmap, name)), output(3, 2)];
        let plan = Plan::new(parts, vec![]);
        let title = format!("Mixer with cluster {c}, {bitmap:#06x}, {name}");
        match way.map(|(_, mixer)| mixer) {
            Some(way) => cases.refuse_plan(&title, &plan, way, plan.part_place(1)),
            None => cases.keep_plan(&title, &plan),
        }
    }
    // N = i·c/8 rounded up: i and c on both sides of a multiple of 8, and one byte off each way.
    for (i, c) in [(1, 1), (1, 7), (1, 8), (1, 9), (2, 4), (3, 3), (16, 16), (7, 8), (15, 16)] {
        let parts = vec![input(1, (i, 0, 0)), mixer(2, &[1], usize::from(i), (c, 0, 0))];
        let plan = Plan::new(parts, vec![]);
        let length = plan.parts[1].bytes().len();
        cases.keep_plan(&format!("Mixer {i} to {c}"), &plan);
        for changed in [length - 1, length + 1] {
            let mut wrong = plan.clone();
            wrong.parts[1] = plan.parts[1].resized(changed);
            let place = wrong.part_place(1);
            let (name, way) = if changed < 11 {
                ("below 10+p", Way::MixerLength)
            } else {
                ("not 10+p+N", Way::MixerControls)
            };
            cases.refuse_plan(&format!("Mixer {i} to {c}, {name}"), &wrong, way, place);
        }
    }
    // Entering channels are those of all pins, and N does not go round at 256.
    for (pins, i, c, kept) in [(7, 16, 16, true), (8, 15, 15, true), (8, 16, 16, false)] {
        let ids: Vec<u8> = (1..=pins).collect();
        let mut parts: Vec<Part> = ids.iter().map(|&id| input(id, (i, 0, 0))).collect();
        let n = (usize::from(pins) * usize::from(i) * usize::from(c)).div_ceil(8);
        let controls = vec![0; n % 256];
        parts.push(Part::Mixer { id: 20, sources: ids, cluster: (c, 0, 0), controls });
        let plan = Plan::new(parts, vec![]);
        let name = format!("Mixer of {pins} pins, {i} to {c}");
        if kept {
            cases.keep_plan(&name, &plan);
        } else {
            let place = plan.part_place(usize::from(pins));
            cases.refuse_plan(&name, &plan, Way::MixerControls, place);
        }
    }
    let sourced = |c: usize| {
        vec![
            mixer(2, &[1, 1, 3], 2 * c + 2, (3, 7, 0)),
            input(1, (c as u8, 0, 0)),
            input(3, STEREO),
        ]
    };
    cases.keep_plan("Mixer before its sources", &Plan::new(sourced(5), vec![]));
    let broken = Plan::new(sourced(0), vec![]);
    let at = broken.part_place(1);
    cases.refuse_plan("Mixer reads a c of 0 as it stands", &broken, Way::InputChannelsZero, at);
    let mut broken = Plan::new(sourced(200), vec![]);
    let at = broken.part_place(1);
    cases.refuse_plan("Mixer reads a c of 200 as it stands", &broken, Way::InputChannelsHigh, at);
    broken.parts[0] = mixer(2, &[1, 1, 3], 34, (3, 7, 0));
    let at = broken.part_place(0);
    cases.refuse_plan("Mixer takes a c of 200 as 16", &broken, Way::MixerControls, at);
}

/// Refusal 13 for a Feature Unit; Selectors have a file of their own.
fn unit_clusters(cases: &mut Cases) {
    for (c, size) in [(1u8, 1u8), (1, 4), (2, 2), (7, 3), (16, 1), (16, 4)] {
        let masks = vec![0; (usize::from(c) + 1) * usize::from(size)];
        let unit = Part::Feature { id: 2, source: 1, size, masks };
        let plan = Plan::new(vec![input(1, (c, 0, 0)), unit], vec![]);
        let length = plan.parts[1].bytes().len();
        let step = usize::from(size);
        cases.keep_plan(&format!("Feature Unit over {c} by {size}"), &plan);
        for changed in [length - 1, length + 1, length - step, length + step] {
            let mut wrong = plan.clone();
            wrong.parts[1] = plan.parts[1].resized(changed);
            let name = format!("Feature Unit over {c} by {size}, length {changed}");
            cases.refuse_plan(&name, &wrong, Way::FeatureMasks, wrong.part_place(1));
        }
    }
    let over = |c: u8, length: usize| {
        let unit = feature(2, 1, 1).resized(length);
        Plan::new(vec![unit, input(1, (c, 0, 0))], vec![])
    };
    let zero = over(0, 8);
    let at = zero.part_place(1);
    cases.refuse_plan("Feature Unit reads a c of 0", &zero, Way::InputChannelsZero, at);
    let zero = over(0, 9);
    let at = zero.part_place(0);
    cases.refuse_plan("Feature Unit takes a c of 0 as 1", &zero, Way::FeatureMasks, at);
    let high = over(20, 28);
    let at = high.part_place(1);
    cases.refuse_plan("Feature Unit reads a c of 20", &high, Way::InputChannelsHigh, at);
    let round = over(255, 7);
    let at = round.part_place(0);
    cases.refuse_plan("Feature Unit's length does not go round", &round, Way::FeatureMasks, at);
    let through = Plan::new(
        vec![
            feature(6, 5, 3),
            selector(5, &[4, 1]),
            feature(4, 3, 3),
            selector(3, &[1, 2]),
            input(1, (3, 0x0003, 9)),
            input(2, (3, 0x0003, 0)),
            output(7, 6),
        ],
        vec![],
    );
    cases.keep_plan("clusters through Selectors and Feature Units", &through);
    for (index, wrong) in [(0, feature(6, 5, 2)), (2, feature(4, 3, 4))] {
        let mut plan = through.clone();
        plan.parts[index] = wrong;
        let at = plan.part_place(index);
        cases.refuse_plan("a Feature Unit behind a Selector", &plan, Way::FeatureMasks, at);
    }
    cases.refuse("two cluster faults, the first by place", Way::InputIndexEqual, |plan| {
        plan.parts[PLAYBACK] = input(2, (2, 3, 1));
        plan.parts[TRIM] = feature(9, 8, 5);
        plan.part_place(PLAYBACK)
    });
    cases.refuse("two cluster faults, the user stands first", Way::FeatureMasks, |plan| {
        plan.parts[PLAYBACK] = input(2, (2, 3, 1));
        plan.parts.swap(MICROPHONE, TRIM);
        plan.parts[MICROPHONE] = feature(9, 8, 5);
        plan.part_place(MICROPHONE)
    });
}

/// A Feature Unit over the 16 channels of 1 that has `count` controls, at most 153.
pub fn feature_of(id: u8, count: usize) -> Part {
    let mut masks = vec![0; 34];
    let bits = (0..17 * 9).map(|at| (at / 9, [0, 1, 2, 3, 4, 6, 7, 8, 9][at % 9]));
    for (channel, bit) in bits.take(count) {
        masks[2 * channel + bit / 8] |= 1 << (bit % 8);
    }
    Part::Feature { id, source: 1, size: 2, masks }
}

/// Refusal 15.
fn control_counts(cases: &mut Cases) {
    let plan = |counts: &[usize], selectors: u8| {
        let mut parts = vec![input(1, (16, 0, 0))];
        parts.extend(counts.iter().zip(2..).map(|(&count, id)| feature_of(id, count)));
        parts.extend((0..selectors).map(|id| selector(100 + id, &[1])));
        Plan::new(parts, vec![])
    };
    cases.keep_plan("no control", &plan(&[0], 0));
    for (name, counts, selectors) in [
        ("128 controls of one unit", &[128][..], 0),
        ("128 controls of two units", &[64, 64], 0),
        ("128 controls, one a Selector's", &[127], 1),
        ("128 controls, 16 of Selectors", &[100, 12], 16),
    ] {
        cases.keep_plan(name, &plan(counts, selectors));
    }
    for (name, counts, selectors) in [
        ("129 controls of one unit", &[129][..], 0),
        ("129 controls of two units", &[64, 65], 0),
        ("129 controls, one a Selector's", &[128], 1),
        ("153 controls", &[153], 0),
        ("306 controls", &[153, 153], 0),
        ("256 controls", &[128, 128], 0),
        ("257 controls", &[128, 128], 1),
    ] {
        cases.refuse_plan(name, &plan(counts, selectors), Way::ManyControls, 18);
    }
    let mut others = plan(&[128], 0);
    let Part::Feature { masks, .. } = &mut others.parts[1] else { unreachable!() };
    masks.iter_mut().step_by(2).for_each(|mask| *mask |= 0x20);
    masks.iter_mut().skip(1).step_by(2).for_each(|mask| *mask |= 0xFC);
    cases.keep_plan("bits that carry none are not counted", &others);
}

#[cfg(test)]
mod tests {
    use super::*;
    use crate::numbers::{CONTROLS, SHEET};
    use crate::reader;

    #[test]
    fn counts_of_controls() {
        for count in [0, 1, 9, 10, 127, CONTROLS] {
            let plan = Plan::new(vec![input(1, (16, 0, 0)), feature_of(2, count)], vec![]);
            let answer = reader::read(&plan.bytes(), &mut [0; SHEET]);
            assert_eq!(usize::from(answer.state.table.count), count);
        }
    }
}
