//! Steps of `duet` made on purpose: each refusal just kept and just broken, on both sides, with the
//! answers that document 02, No. 11, gives.

use std::collections::BTreeSet;

use super::build::{case_a, Plan};
use super::configs::{self, desk, feature_of, input, selector};
use super::duets::{put_side, sided, stretch_body, Duets};
use super::headsets::{five, five_steps, two_units, unit_steps, Said};
use super::script::{load_body, request_body, setup};
use super::steps::{narrow, signed, CUR, SET};
use crate::controls::Control;
use crate::duet::{LOAD, PLUG_IN, PUT, REQUEST, SHOW, STRETCH, UNPLUG};
use crate::numbers::{CONTROLS, DUET_CONTROLS, ENTITIES, PINS, SHEET};
use crate::reader;
use crate::sides::Side;
use crate::ways::Way;

use Side::{Left, Right};

/// All steps made on purpose, from an empty box.
pub fn all(duets: &mut Duets) {
    empty_box(duets);
    one_side(duets);
    taken(duets);
    refused_readings(duets);
    full(duets);
    room_back(duets);
    spoilt(duets);
    totals(duets);
    same_script(duets);
    own_numbers(duets);
    plugged_again(duets);
    stretches(duets);
    no_stretch(duets);
    refused_stretches(duets);
}

/// A microphone with this AudioControl number and so many controls.
fn with_controls(number: u8, count: usize) -> Vec<u8> {
    let mut plan = Plan::new(vec![input(1, (16, 0, 0)), feature_of(2, count)], vec![]);
    plan.control[2] = number;
    plan.bytes()
}

fn plug(duets: &mut Duets, side: Side, config: &[u8], line: &str) {
    duets.says(PLUG_IN, &sided(side, config), line);
}

/// A load of unit 2's mute, which is no ranged control.
fn any_load(side: Side) -> Vec<u8> {
    sided(side, &load_body((2, 0, 1), [0; 4]))
}

/// A Get of unit 2's mute from this presented interface.
fn get_mute(number: u8) -> Vec<u8> {
    request_body(64, &setup(CUR, number, (2, 0, 1), 1), &[])
}

/// Requests that 31 refuses, for whichever interface.
fn no_setups(duets: &mut Duets) {
    for number in [0, 1, 2] {
        let whole = setup(CUR, number, (2, 0, 1), 1);
        duets.fails(REQUEST, &request_body(64, &whole[..7], &[]), Way::SetupLength);
        let long = [&whole[..], &[0]].concat();
        duets.fails(REQUEST, &request_body(64, &long, &[]), Way::SetupLength);
        let other = setup((0xA1, 0x80), number, (2, 0, 1), 1);
        duets.fails(REQUEST, &request_body(64, &other, &[]), Way::SetupRequest);
    }
    duets.fails(REQUEST, &request_body(0, &[], &[]), Way::SetupLength);
}

/// Presented numbers other than 0 and 1.
fn no_interfaces(duets: &mut Duets) {
    for number in [2, 3, 127, 255] {
        duets.fails(REQUEST, &get_mute(number), Way::PresentedNumber);
    }
}

/// What an empty side answers.
fn is_empty(duets: &mut Duets, side: Side) {
    duets.fails(UNPLUG, &[side.number()], Way::UnplugEmpty);
    duets.fails(LOAD, &any_load(side), Way::LoadEmpty);
    duets.fails(REQUEST, &get_mute(side.number()), Way::RequestEmpty);
}

/// What a side answers that has the controls of case A.
fn is_case_a(duets: &mut Duets, side: Side) {
    duets.fails(LOAD, &any_load(side), Way::LoadUnranged);
    duets.says(REQUEST, &get_mute(side.number()), "got 00");
}

/// "63 for an empty side, a request after 31 and in front of 32".
fn empty_box(duets: &mut Duets) {
    duets.says(SHOW, &[], "left\nempty\nright\nempty");
    for side in Side::BOTH {
        is_empty(duets, side);
    }
    no_setups(duets);
    no_interfaces(duets);
}

/// One side plugged in, the other empty.
fn one_side(duets: &mut Duets) {
    for side in Side::BOTH {
        plug(duets, side, &case_a(), "accepted 0 3 2");
        is_case_a(duets, side);
        is_empty(duets, side.other());
        no_setups(duets);
        no_interfaces(duets);
        duets.step(SHOW, &[]);
        duets.says(UNPLUG, &[side.number()], "unplugged");
        is_empty(duets, side);
    }
    duets.says(SHOW, &[], "left\nempty\nright\nempty");
}

/// "61 if the side is taken, then the reader's": whatever is plugged in.
fn taken(duets: &mut Duets) {
    for side in Side::BOTH {
        plug(duets, side, &case_a(), "accepted 0 3 2");
        let broken = [case_a()[..8].to_vec(), vec![], with_controls(0, 129)];
        for config in [case_a(), with_controls(3, CONTROLS)].into_iter().chain(broken) {
            duets.fails(PLUG_IN, &sided(side, &config), Way::SideTaken);
        }
        is_case_a(duets, side);
        plug(duets, side.other(), &with_controls(9, CONTROLS), "accepted 9 2 128");
        for side in Side::BOTH {
            duets.fails(PLUG_IN, &sided(side, &with_controls(3, CONTROLS)), Way::SideTaken);
        }
        for side in Side::BOTH {
            duets.says(UNPLUG, &[side.number()], "unplugged");
        }
    }
}

/// The first configuration of each clause of the reader, with its answer.
fn refused_configs() -> Vec<(Vec<u8>, Way, String)> {
    let mut seen = BTreeSet::new();
    let mut all = Vec::new();
    for case in configs::all() {
        if let Some((way, place)) = case.expect.filter(|&(way, _)| seen.insert(way)) {
            all.push((case.bytes, way, format!("refused {} at {place}", way.number())));
        }
    }
    all
}

/// "then the reader's": each clause, the other side empty or taken; the side stays empty.
fn refused_readings(duets: &mut Duets) {
    let mut sides = Side::BOTH.into_iter().cycle();
    let mut numbers = BTreeSet::new();
    for (config, way, line) in refused_configs() {
        let side = sides.next().expect("a cycle");
        plug(duets, side, &config, &line);
        if numbers.insert(way.number()) {
            plug(duets, side.other(), &config, &line);
            plug(duets, side.other(), &with_controls(4, CONTROLS), "accepted 4 2 128");
            plug(duets, side, &config, &line);
            duets.fails(REQUEST, &get_mute(side.number()), Way::RequestEmpty);
            duets.says(UNPLUG, &[side.other().number()], "unplugged");
        }
    }
}

/// "62 if both sides' controls would pass 192".
fn full(duets: &mut Duets) {
    let line = |number: u8, count: usize| format!("accepted {number} 2 {count}");
    for first in Side::BOTH {
        for (held, more) in [(128, 64), (64, 128), (96, 96), (65, 127), (127, 65)] {
            plug(duets, first, &with_controls(8, held), &line(8, held));
            let over = with_controls(9, more + 1);
            if more < CONTROLS {
                duets.fails(PLUG_IN, &sided(first.other(), &over), Way::SidesFull);
                is_empty(duets, first.other());
            } else {
                // "more than 128 controls" is the reader's, before 62.
                plug(duets, first.other(), &over, "refused 15 at 18");
            }
            plug(duets, first.other(), &with_controls(9, more), &line(9, more));
            duets.says(REQUEST, &get_mute(0), "got 00");
            duets.says(REQUEST, &get_mute(1), "got 00");
            duets.clear();
        }
        plug(duets, first, &with_controls(8, CONTROLS), &line(8, CONTROLS));
        duets.fails(PLUG_IN, &sided(first.other(), &with_controls(9, CONTROLS)), Way::SidesFull);
        // A Selector's control counts as any other.
        let mut one_more = Plan::new(vec![input(1, (16, 0, 0)), feature_of(2, 64)], vec![]);
        one_more.parts.push(selector(3, &[1]));
        duets.fails(PLUG_IN, &sided(first.other(), &one_more.bytes()), Way::SidesFull);
        plug(duets, first.other(), &case_a(), "accepted 0 3 2");
        duets.clear();
    }
}

/// "Unplugging a side gives its room back."
fn room_back(duets: &mut Duets) {
    for side in Side::BOTH {
        plug(duets, side, &with_controls(8, 100), "accepted 8 2 100");
        duets.fails(PLUG_IN, &sided(side.other(), &with_controls(9, 93)), Way::SidesFull);
        duets.says(UNPLUG, &[side.number()], "unplugged");
        plug(duets, side.other(), &with_controls(9, 93), "accepted 9 2 93");
        duets.fails(PLUG_IN, &sided(side, &with_controls(8, 100)), Way::SidesFull);
        plug(duets, side, &with_controls(8, 99), "accepted 8 2 99");
        duets.says(UNPLUG, &[side.other().number()], "unplugged");
        plug(duets, side.other(), &with_controls(7, 93), "accepted 7 2 93");
        duets.clear();
    }
}

/// A ranged control that is loaded, a yes/no, a Selector's.
fn volume() -> Control {
    let (unit, channel, selector) = (2, 1, 2);
    Control {
        unit,
        channel,
        selector,
        max: 1000,
        res: 10,
        cur: 300,
        loaded: true,
        ..Control::default()
    }
}

fn mute() -> Control {
    Control { unit: 2, channel: 0, selector: 1, ..Control::default() }
}

fn pin() -> Control {
    Control { unit: 3, pins: 2, cur: 1, ..Control::default() }
}

fn bass() -> Control {
    let (min, max, res, cur) = (narrow(-10), 9, 4, 6);
    Control { selector: 3, min, max, res, cur, ..volume() }
}

/// Tables that are none, each with its clause and its count.
fn tables_that_are_none() -> Vec<(Way, u16, Vec<Control>)> {
    let one = |way, control| (way, 1, vec![control]);
    vec![
        (Way::TableCount, 129, vec![mute()]),
        (Way::TableCount, 0xFFFF, vec![]),
        (Way::TableTwice, 2, vec![mute(), Control { cur: 1, ..mute() }]),
        one(Way::TableSelector, Control { selector: 6, ..mute() }),
        one(Way::TableSelector, Control { selector: 11, ..mute() }),
        one(Way::TableChannel, Control { channel: 17, ..mute() }),
        one(Way::TableSelectorChannel, Control { channel: 1, ..pin() }),
        one(Way::TablePins, Control { pins: 0, ..pin() }),
        one(Way::TablePins, Control { pins: PINS as u8 + 1, ..pin() }),
        one(Way::TableOrder, Control { min: 1001, ..volume() }),
        one(Way::TableResZero, Control { res: 0, ..volume() }),
        one(Way::TableResHigh, Control { res: 0x8000, ..volume() }),
        one(Way::TableResHigh, Control { res: 128, ..bass() }),
        one(Way::TableVolumeMin, Control { min: 0x8000, ..volume() }),
        one(Way::TableWideLoaded, Control { max: 256, ..bass() }),
        one(Way::TableWideUnranged, Control { max: 256, ..mute() }),
        one(Way::TableWideUnranged, Control { min: 256, ..pin() }),
        one(Way::TableSettingLoaded, Control { cur: 305, ..volume() }),
        one(Way::TableSettingYesNo, Control { cur: 2, ..mute() }),
        one(Way::TableSettingPin, Control { cur: 0, ..pin() }),
        one(Way::TableSettingPin, Control { cur: 3, ..pin() }),
        (Way::TableSettingPin, 2, vec![volume(), Control { cur: 3, ..pin() }]),
    ]
}

/// Tables that just are ones. The last has a control behind its count that would be none.
fn tables() -> Vec<(u16, Vec<Control>)> {
    let one = |control| (1, vec![control]);
    vec![
        (0, vec![]),
        (2, vec![mute(), Control { channel: 1, ..mute() }]),
        one(Control { selector: 10, ..mute() }),
        one(Control { channel: 16, ..mute() }),
        one(Control { pins: PINS as u8, cur: PINS as u16, ..pin() }),
        one(Control { pins: 1, ..pin() }),
        one(Control { min: 1000, cur: 1000, ..volume() }),
        one(Control { res: 32767, cur: 0, ..volume() }),
        one(Control { res: 127, cur: narrow(-10), ..bass() }),
        one(Control { min: 0x8001, cur: signed(-32768), ..volume() }),
        one(Control { max: 127, ..bass() }),
        one(Control { max: 255, ..mute() }),
        one(Control { loaded: false, res: 0, cur: 999, ..volume() }),
        one(Control { cur: 1, ..mute() }),
        one(Control { cur: 2, ..pin() }),
        (1, vec![mute(), Control { selector: 6, ..mute() }]),
    ]
}

/// A put with this on one side and that on the other.
fn put(duets: &mut Duets, side: Side, one: &[u8], other: &[u8]) {
    let body = match side {
        Left => [one, other].concat(),
        Right => [other, one].concat(),
    };
    duets.says(PUT, &body, "put");
}

/// "30 comes first wherever a state is given": every step that has one, on both sides.
fn all_fail(duets: &mut Duets, way: Way) {
    for side in Side::BOTH {
        duets.fails(PLUG_IN, &sided(side, &[]), way);
        duets.fails(UNPLUG, &[side.number()], way);
        duets.fails(LOAD, &any_load(side), way);
        duets.fails(REQUEST, &get_mute(side.number()), way);
    }
    duets.fails(REQUEST, &get_mute(2), way);
    duets.fails(REQUEST, &request_body(0, &[], &[]), way);
}

/// "for a table that is none", on this side or the other.
fn spoilt(duets: &mut Duets) {
    for side in Side::BOTH {
        for (way, count, controls) in tables_that_are_none() {
            let none = put_side(3, count, &controls);
            for other in [vec![0], put_side(4, 1, &[mute()])] {
                put(duets, side, &none, &other);
                all_fail(duets, way);
            }
            duets.fails(PLUG_IN, &sided(side, &case_a()), way);
            // A stretch takes no state.
            let body = stretch_body(side, 1, &case_a(), &case_a());
            duets.says(STRETCH, &body, "bytes 0C 24 02 01 01 02 00 01 00 00 00 00");
        }
        for (count, controls) in tables() {
            put(duets, side, &put_side(3, count, &controls), &put_side(4, 1, &[mute()]));
            duets.says(REQUEST, &get_mute(side.other().number()), "got 00");
            duets.step(REQUEST, &get_mute(side.number()));
            duets.fails(PLUG_IN, &sided(side, &[]), Way::SideTaken);
            duets.says(UNPLUG, &[side.number()], "unplugged");
            is_empty(duets, side);
        }
    }
    // Both are none: the refusal is the same.
    let none = put_side(3, 129, &[]);
    put(duets, Left, &none, &none);
    all_fail(duets, Way::TableCount);
    duets.says(SHOW, &[], "left\nat 3\ntable 129\nright\nat 3\ntable 129");
    duets.clear();
}

/// So many controls that are ones.
fn many(count: usize) -> Vec<u8> {
    let state = reader::read(&with_controls(0, count), &mut [0; SHEET]).state;
    put_side(5, count as u16, state.table.controls().expect("at most 128"))
}

/// "or over 192 controls in all".
fn totals(duets: &mut Duets) {
    for (left, right) in [(128, 64), (64, 128), (100, 92)] {
        put(duets, Left, &many(left), &many(right));
        duets.says(REQUEST, &get_mute(0), "got 00");
        duets.says(REQUEST, &get_mute(1), "got 00");
        duets.fails(LOAD, &any_load(Right), Way::LoadUnranged);
        duets.says(UNPLUG, &[0], "unplugged");
    }
    for (left, right) in [(128, 65), (65, 128), (93, 100)] {
        assert_eq!(left + right, DUET_CONTROLS + 1);
        put(duets, Left, &many(left), &many(right));
        all_fail(duets, Way::SidesOver);
    }
    duets.clear();
}

/// A step of a headset's script as this side's.
fn as_side(side: Side, (kind, body, line): &Said) -> (u8, Vec<u8>, String) {
    let body = if *kind == LOAD { sided(side, body) } else { body.clone() };
    (*kind, body, line.clone())
}

/// Two microphones with different numbers of their own, the same script on each side: one after the
/// other, and in turn.
fn same_script(duets: &mut Duets) {
    let plug_both = |duets: &mut Duets| {
        duets.clear();
        for (side, number) in [(Left, 6), (Right, 201)] {
            let mut plan = five();
            plan.control[2] = number;
            plug(duets, side, &plan.bytes(), &format!("accepted {number} 5 9"));
        }
    };
    let scripts = Side::BOTH.map(|side| five_steps(side.number(), 6 + side.number()));
    plug_both(duets);
    for (side, steps) in Side::BOTH.into_iter().zip(&scripts) {
        for (kind, body, line) in steps.iter().map(|step| as_side(side, step)) {
            duets.says(kind, &body, &line);
        }
        duets.step(SHOW, &[]);
    }
    plug_both(duets);
    for (left, right) in scripts[0].iter().zip(&scripts[1]) {
        for (side, step) in [(Right, right), (Left, left)] {
            let (kind, body, line) = as_side(side, step);
            duets.says(kind, &body, &line);
        }
    }
    duets.clear();
}

/// Own numbers that are the other side's presented one.
fn own_numbers(duets: &mut Duets) {
    for (left, right) in [(1, 0), (0, 1), (1, 1), (0, 0)] {
        duets.clear();
        for (side, number) in [(Left, left), (Right, right)] {
            let mut plan = two_units();
            plan.groups.clear();
            plan.control[2] = number;
            plug(duets, side, &plan.bytes(), &format!("accepted {number} 4 8"));
        }
        for side in Side::BOTH {
            for step in unit_steps(side.number()).iter().filter(|step| step.0 != SHOW) {
                let (kind, body, line) = as_side(side, step);
                duets.says(kind, &body, &line);
            }
        }
        duets.step(SHOW, &[]);
    }
    duets.clear();
}

/// A side that is plugged in again is as at first; the other keeps what was stored.
fn plugged_again(duets: &mut Duets) {
    let mute_on = |number| request_body(0, &setup(SET, number, (2, 0, 1), 1), &[1]);
    for side in Side::BOTH {
        for each in Side::BOTH {
            plug(duets, each, &case_a(), "accepted 0 3 2");
            duets.says(REQUEST, &mute_on(each.number()), "set");
        }
        duets.says(UNPLUG, &[side.number()], "unplugged");
        is_empty(duets, side);
        duets.says(REQUEST, &get_mute(side.other().number()), "got 01");
        plug(duets, side, &case_a(), "accepted 0 3 2");
        duets.says(REQUEST, &get_mute(side.number()), "got 00");
        duets.says(REQUEST, &get_mute(side.other().number()), "got 01");
        duets.clear();
    }
}

/// The line of a stretch that is these bytes.
fn bytes_line(bytes: &[u8]) -> String {
    let hex: String = bytes.iter().map(|byte| format!(" {byte:02X}")).collect();
    format!("bytes{hex}")
}

/// A stretch of `config` on this side, with these bytes for the other side's configuration.
fn asked(side: Side, id: u8, config: &[u8], other: &[u8]) -> Vec<u8> {
    match side {
        Left => stretch_body(side, id, config, other),
        Right => stretch_body(side, id, other, config),
    }
}

/// "that entity's own descriptor bytes": each of the desk's, which has every kind, the first and the
/// last of others; the other side's configuration good, broken or none.
fn stretches(duets: &mut Duets) {
    let plan = desk();
    let config = plan.bytes();
    let others = [vec![], vec![9; 3], case_a(), config[1..].to_vec()];
    let mut others = others.iter().cycle();
    for side in Side::BOTH {
        for part in &plan.parts {
            let bytes = part.bytes();
            let body = asked(side, bytes[3], &config, others.next().expect("a cycle"));
            duets.says(STRETCH, &body, &bytes_line(&bytes));
        }
        for other in [vec![], case_a()[..108].to_vec(), config.clone()] {
            let first = bytes_line(&case_a()[27..39]);
            duets.says(STRETCH, &asked(side, 1, &case_a(), &other), &first);
            let last = bytes_line(&case_a()[48..57]);
            duets.says(STRETCH, &asked(side, 3, &case_a(), &other), &last);
        }
        // The same ID on both sides, with other bytes.
        let body = asked(side, 2, &case_a(), &config);
        duets.says(STRETCH, &body, &bytes_line(&case_a()[39..48]));
        // An entity that ends the configuration, and as many entities as there may be.
        let last = with_controls(0, 153);
        let plan = Plan::new((1..=ENTITIES as u8).map(|id| input(id, (1, 0, 0))).collect(), vec![]);
        duets.fails(STRETCH, &asked(side, 2, &last, &[]), Way::ManyControls);
        let last = with_controls(0, 5);
        duets.says(STRETCH, &asked(side, 2, &last, &[]), &bytes_line(&feature_of(2, 5).bytes()));
        for id in [1, ENTITIES as u8] {
            let line = bytes_line(&input(id, (1, 0, 0)).bytes());
            duets.says(STRETCH, &asked(side, id, &plan.bytes(), &[]), &line);
        }
    }
}

/// "an unknown ID is 64", 0 too; an ID that only the other side's configuration has.
fn no_stretch(duets: &mut Duets) {
    for side in Side::BOTH {
        for id in [0, 4, 9, 0x24, 255] {
            for other in [vec![], desk().bytes()] {
                duets.fails(STRETCH, &asked(side, id, &case_a(), &other), Way::StretchUnknown);
            }
        }
    }
}

/// "That side's must be one the reader accepts": the reader's refusal first, whatever the ID, and
/// whatever the other side's is.
fn refused_stretches(duets: &mut Duets) {
    let mut numbers = BTreeSet::new();
    for (config, way, line) in refused_configs() {
        if numbers.insert(way.number()) {
            for (side, id) in [(Left, 1), (Right, 0)] {
                duets.says(STRETCH, &asked(side, id, &config, &case_a()), &line);
            }
        }
    }
    for side in Side::BOTH {
        duets.fails(STRETCH, &asked(side, 1, &[], &[]), Way::LengthLow);
    }
}

#[cfg(test)]
mod tests {
    use super::*;
    use crate::duet;

    #[test]
    fn every_refusal_comes_on_both_sides() {
        let mut duets = Duets::new();
        all(&mut duets);
        assert_eq!(duets.missing(), Vec::<String>::new());
        assert_eq!(duet::program(&duets.tape.bytes), duets.tape.printed);
    }
}
