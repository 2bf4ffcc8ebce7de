//! Selectors whose pins are alike and whose pins are not: refusal 13 (document 02, No. 5).

use super::{feature, input, mixer, output, selector, Cases};
use crate::generator::build::{Part, Plan};
use crate::numbers::PINS;
use crate::ways::Way;

/// c, bitmap and name index.
type Pin = (u8, u16, u8);

/// The ID of the Selector that is looked at.
const CHOSEN: u8 = 40;

/// All of them.
pub fn all(cases: &mut Cases) {
    two_pins(cases);
    three_pins(cases);
    single_bits(cases);
    indices(cases);
    many_pins(cases);
    behind(cases);
    ladders(cases);
    read_as_they_stand(cases);
}

/// A microphone for each pin, the Selector that chooses among them, and an Output Terminal.
fn choice(pins: &[Pin]) -> Plan {
    let ids: Vec<u8> = (1..=pins.len() as u8).collect();
    let mut parts: Vec<Part> = ids.iter().zip(pins).map(|(&id, &pin)| input(id, pin)).collect();
    parts.push(selector(CHOSEN, &ids));
    parts.push(output(CHOSEN + 1, CHOSEN));
    Plan::new(parts, vec![])
}

/// How a record opens.
fn opening(id: u8, kind: u8, (channels, bitmap, name): Pin) -> Vec<u8> {
    let [low, high] = bitmap.to_le_bytes();
    vec![id, kind, channels, low, high, name]
}

/// What the answer to a choice among these pins is.
enum Answer {
    /// Accepted: the Selector and what is behind it show this cluster.
    Shown(Pin),
    /// Refused at the Selector.
    Unlike(Way),
}

fn choose(cases: &mut Cases, name: &str, pins: &[Pin], answer: Answer) {
    let mut plan = choice(pins);
    match answer {
        Answer::Shown(pin) => {
            let shows = [opening(CHOSEN, 5, pin), opening(CHOSEN + 1, 3, pin)];
            cases.keep_shown(name, &plan, &shows);
        }
        Answer::Unlike(way) => {
            cases.refuse_plan(name, &plan, way, plan.part_place(pins.len()));
            plan.parts.reverse();
            cases.refuse_plan(&format!("{name}, turned"), &plan, way, plan.part_place(1));
        }
    }
}

/// "A Selector fed by a left and a centre microphone, one channel each, named every take "left"."
fn two_pins(cases: &mut Cases) {
    let (left, centre) = ((1, 0x0001, 0), (1, 0x0004, 0));
    let bitmap = || Answer::Unlike(Way::SelectorBitmap);
    choose(cases, "left and centre", &[left, centre], bitmap());
    choose(cases, "centre and left", &[centre, left], bitmap());
    choose(cases, "left twice", &[left, left], Answer::Shown(left));
    choose(cases, "left and one without a place", &[left, (1, 0, 0)], bitmap());
    choose(cases, "one without a place and left", &[(1, 0, 0), left], bitmap());
    let fronts = (2, 0x0003, 0);
    for other in [0x0005, 0x0006, 0x0300, 0x0030, 0x0C00] {
        choose(cases, "as many ones, elsewhere", &[fronts, (2, other, 0)], bitmap());
    }
    choose(cases, "low byte for high byte", &[(1, 0x0100, 0), (1, 0x0001, 0)], bitmap());
    choose(cases, "one more", &[(3, 0x0003, 0), (3, 0x0007, 0)], bitmap());
    let channels = || Answer::Unlike(Way::SelectorChannels);
    choose(cases, "c differs alone", &[(2, 0x0001, 0), (3, 0x0001, 0)], channels());
    choose(cases, "c and bitmap differ", &[left, fronts], channels());
    choose(cases, "c and index differ", &[(2, 0, 1), (1, 0, 2)], channels());
    choose(cases, "bitmap and index differ", &[(2, 1, 1), (2, 2, 2)], bitmap());
}

/// Each pin of three, in turn, unlike the other two: in c, in the bitmap, in the index alone.
fn three_pins(cases: &mut Cases) {
    let (pin, one) = ((2, 0x0010, 7), (16, 0x0FFF, 0));
    choose(cases, "three alike", &[pin; 3], Answer::Shown(pin));
    choose(cases, "three of 16 alike", &[one; 3], Answer::Shown(one));
    for at in 0..3 {
        let with = |other: Pin| {
            let mut pins = [pin; 3];
            pins[at] = other;
            pins
        };
        let name = |what: &str| format!("pin {} of three, {what}", at + 1);
        let way = Way::SelectorChannels;
        choose(cases, &name("c"), &with((3, 0x0010, 7)), Answer::Unlike(way));
        choose(cases, &name("c less"), &with((1, 0x0010, 0)), Answer::Unlike(way));
        let way = Way::SelectorBitmap;
        choose(cases, &name("bitmap"), &with((2, 0x0020, 7)), Answer::Unlike(way));
        let plain = Answer::Shown((2, 0x0010, 0));
        choose(cases, &name("index"), &with((2, 0x0010, 8)), plain);
        let plain = Answer::Shown((2, 0x0010, 0));
        choose(cases, &name("no index"), &with((2, 0x0010, 0)), plain);
    }
}

/// Bitmaps that differ in one bit, each of the twelve.
fn single_bits(cases: &mut Cases) {
    for bit in 0..12 {
        let way = Way::SelectorBitmap;
        let pins = [(16, 0, 0), (16, 1 << bit, 0)];
        choose(cases, &format!("bit {bit} alone"), &pins, Answer::Unlike(way));
        let pins = [(16, 0x0FFF, 0), (16, 0x0FFF ^ (1 << bit), 0)];
        choose(cases, &format!("all bits but {bit}"), &pins, Answer::Unlike(way));
    }
}

/// "If their name indices differ, the Selector gives out index 0."
fn indices(cases: &mut Cases) {
    for (one, two, given) in
        [(5, 9, 0), (9, 5, 0), (0, 9, 0), (9, 0, 0), (9, 9, 9), (0, 0, 0), (254, 254, 254)]
    {
        let name = format!("indices {one} and {two}");
        let pins = [(3, 0x0003, one), (3, 0x0003, two)];
        choose(cases, &name, &pins, Answer::Shown((3, 0x0003, given)));
    }
    for name in [0, 1, 255] {
        let pin = (1, 0, name);
        choose(cases, &format!("one pin with index {name}"), &[pin], Answer::Shown(pin));
    }
    for (sources, given) in [
        (&[1, 1][..], 9),
        (&[1, 1, 1, 1, 1, 1, 1, 1], 9),
        (&[1, 2, 1], 0),
        (&[1, 1, 2], 0),
        (&[2, 2], 4),
        (&[3, 1, 3], 9),
        (&[2, 3], 0),
    ] {
        let inputs = [(1, 9), (2, 4), (3, 9)].map(|(id, name)| input(id, (1, 0, name)));
        let parts = [&[selector(CHOSEN, sources)][..], &inputs].concat();
        let shows = [opening(CHOSEN, 5, (1, 0, given))];
        cases.keep_shown(&format!("pins {sources:?}"), &Plan::new(parts, vec![]), &shows);
    }
}

/// As many pins as there may be, all alike but the first, the last, or one between.
fn many_pins(cases: &mut Cases) {
    let pin = (4, 0x0033, 0);
    choose(cases, "all pins alike", &[pin; PINS], Answer::Shown(pin));
    for at in [0, PINS / 2, PINS - 1] {
        let mut pins = [pin; PINS];
        pins[at] = (5, 0x0033, 0);
        choose(cases, &format!("pin {at} of all"), &pins, Answer::Unlike(Way::SelectorChannels));
        pins[at] = (4, 0x0330, 0);
        choose(cases, &format!("pin {at} of all"), &pins, Answer::Unlike(Way::SelectorBitmap));
    }
    let mut named = [(5, 0x0033, 3); PINS];
    choose(cases, "all pins named alike", &named, Answer::Shown((5, 0x0033, 3)));
    named[PINS - 1].2 = 4;
    choose(cases, "the last pin named otherwise", &named, Answer::Shown((5, 0x0033, 0)));
}

/// What stands behind a Selector whose pins' indices differ shows index 0, and what is no input may
/// be a pin of it.
fn behind(cases: &mut Cases) {
    let parts = vec![
        output(9, 8),
        feature(8, 6, 3),
        output(7, 6),
        selector(6, &[1, 4, 5]),
        feature(5, 2, 3),
        mixer(4, &[1, 2], 6, (3, 0x0003, 7)),
        input(2, (3, 0x0003, 8)),
        input(1, (3, 0x0003, 9)),
    ];
    let shown = |id, kind, name| opening(id, kind, (3, 0x0003, name));
    let shows = [
        shown(9, 3, 0),
        shown(8, 6, 0),
        shown(7, 3, 0),
        shown(6, 5, 0),
        shown(5, 6, 8),
        shown(4, 4, 7),
    ];
    let mut plan = Plan::new(parts, vec![]);
    cases.keep_shown("behind a Selector of three kinds of pins", &plan, &shows);
    plan.parts.reverse();
    cases.keep_shown("the same, turned", &plan, &shows);
    let place = plan.part_place(4);
    let mut wrong = plan.clone();
    wrong.parts[2] = mixer(4, &[1, 2], 6, (3, 0x0005, 7));
    cases.refuse_plan("a Mixer unlike the other pins", &wrong, Way::SelectorBitmap, place);
    wrong.parts[2] = mixer(4, &[1, 2], 6, (2, 0x0003, 0));
    let place = wrong.part_place(4);
    cases.refuse_plan("a Mixer of another c", &wrong, Way::SelectorChannels, place);
    plan.parts[1] = input(2, (3, 0x0006, 8));
    let place = plan.part_place(4);
    cases.refuse_plan("a Feature Unit unlike the others", &plan, Way::SelectorBitmap, place);
}

/// A Selector behind a Selector.
fn ladders(cases: &mut Cases) {
    for (names, inner, outer) in [
        ([5, 9, 0], 0, 0),
        ([5, 9, 9], 0, 0),
        ([5, 9, 5], 0, 0),
        ([9, 9, 9], 9, 9),
        ([9, 9, 5], 9, 0),
        ([9, 9, 0], 9, 0),
        ([0, 0, 9], 0, 0),
    ] {
        let mut parts: Vec<Part> =
            (1..).zip(names).map(|(id, name)| input(id, (2, 0, name))).collect();
        parts.push(selector(4, &[1, 2]));
        parts.push(selector(5, &[4, 3]));
        parts.push(selector(6, &[5]));
        parts.push(output(7, 6));
        let shown = |id, kind, name| opening(id, kind, (2, 0, name));
        let shows =
            [shown(4, 5, inner), shown(5, 5, outer), shown(6, 5, outer), shown(7, 3, outer)];
        let mut plan = Plan::new(parts, vec![]);
        cases.keep_shown(&format!("Selectors in a row, {names:?}"), &plan, &shows);
        plan.parts.reverse();
        cases.keep_shown(&format!("Selectors in a row, {names:?}, turned"), &plan, &shows);
    }
}

/// "Each rule reads the declared bytes, even where those break a rule themselves": what a Selector
/// with unlike pins gives out to others is pin 1's.
fn read_as_they_stand(cases: &mut Cases) {
    let inner = |one: Pin, two: Pin| [selector(4, &[1, 2]), input(1, one), input(2, two)];
    let mut first = |name: &str, front: Part, one: Pin, two: Pin, refused: (Way, usize)| {
        let plan = Plan::new([&[front][..], &inner(one, two)].concat(), vec![]);
        cases.refuse_plan(name, &plan, refused.0, plan.part_place(refused.1));
    };
    let (left, centre) = ((1, 0x0001, 0), (1, 0x0004, 0));
    let outer = |pin: u8| selector(5, &[4, pin]);
    let bitmap = Way::SelectorBitmap;
    first("pin 1's bitmap is given out", outer(1), left, centre, (bitmap, 1));
    first("pin 2's bitmap is not", outer(2), left, centre, (bitmap, 0));
    let channels = Way::SelectorChannels;
    let (two, three) = ((2, 0x0001, 0), (3, 0x0001, 0));
    first("pin 1's c is given out", outer(1), two, three, (channels, 1));
    first("pin 2's c is not", outer(2), two, three, (channels, 0));
    first("a Feature Unit reads pin 1's c", feature(5, 4, 2), two, three, (channels, 1));
    first("and not pin 2's", feature(5, 4, 3), two, three, (Way::FeatureMasks, 0));
    let entering = |c| mixer(5, &[4], c, (8, 0, 0));
    first("a Mixer reads pin 1's c", entering(2), two, three, (channels, 1));
    first("and not the other's", entering(3), two, three, (Way::MixerControls, 0));
    let reserved = (1, 0x1000, 0);
    first("bit 12 in one pin's bitmap", output(5, 4), reserved, (1, 0, 0), (bitmap, 1));
    first("bit 15 in one pin's bitmap", output(5, 4), (1, 0, 0), (1, 0x8000, 0), (bitmap, 1));
    let input_first = (Way::InputReserved, 2);
    first("bit 12 in both bitmaps", output(5, 4), reserved, reserved, input_first);
}
