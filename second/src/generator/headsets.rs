//! Headsets whose runs are tried in every order (document 02, No. 10): good ones, one of them with a
//! script of loads and requests, and ones that break a rule of the run, of streaming or of the counts,
//! or two. Their answers are written down here from the papers, the same for each order.

use super::build::{
    case_a, idle, microphone, pcm, telephone, working, GroupPlan, Part, Plan, Telephone,
};
use super::configs::{desk, feature, feature_of, input, mixer, output, printed, selector};
use super::lent::Lent;
use super::orders::{
    placeless, random_answers, random_reading, same_answers, same_readings, Apart,
};
use super::rng::Rng;
use super::script::{load_body, request_body, setup, Reach, Script};
use super::steps::{got, narrow, signed, CUR, MIN, SET};
use crate::numbers::{RECORD, SHEET};
use crate::relay::{LOAD, PLUG_IN, REQUEST, SHOW};
use crate::requests::ALL_CHANNELS;

/// Orders of a run with more than five entities.
const SOME_ORDERS: usize = 4;
/// Configurations at random, each with one other order.
const RANDOM: usize = 40;
/// Loads and requests behind each of them.
const RANDOM_STEPS: usize = 12;

const STEREO: (u8, u16, u8) = (2, 0x0003, 0);

/// A step of `relay` with the line that it has to print.
pub type Said = (u8, Vec<u8>, String);

/// A configuration, what every order of its run is answered, and steps that follow it.
struct Headset {
    config: Vec<u8>,
    answer: &'static str,
    steps: Vec<Said>,
}

impl Headset {
    fn new(config: Vec<u8>, answer: &'static str) -> Headset {
        Headset { config, answer, steps: Vec::new() }
    }

    /// Every order of five entities or fewer, and some of more.
    fn orders(&self, rng: &mut Rng) -> Vec<Vec<u8>> {
        let apart = Apart::of(&self.config).expect("two entities at least");
        match apart.count() {
            0..=5 => apart.every_order(),
            _ => (0..SOME_ORDERS).map(|_| apart.shuffled(rng)).collect(),
        }
    }
}

/// Adds all to `lend`: a good one with room to spare and, if it is short, with a byte too few; a
/// broken one with a sheet of no record or of 32.
pub fn lent(seed: u64) -> Lent {
    let mut lent = Lent::default();
    let mut rng = Rng::new(seed);
    for headset in good() {
        let orders = headset.orders(&mut rng);
        let room = RECORD * Apart::of(&headset.config).expect("two entities at least").count();
        let reading = same_readings(&mut lent, room + 40, &orders);
        assert_eq!(reading.answer, headset.answer);
        if orders.len() <= 24 {
            assert_eq!(same_readings(&mut lent, room - 1, &orders).answer, "refused 16");
        }
    }
    for (headset, m) in broken().iter().zip([0, SHEET].into_iter().cycle()) {
        let reading = same_readings(&mut lent, m, &headset.orders(&mut rng));
        assert_eq!(reading.answer, headset.answer, "{:02X?}", headset.config);
    }
    lent.named = lent.reach.clone();
    for _ in 0..RANDOM {
        random_reading(&mut rng, &mut lent);
    }
    lent
}

/// Adds all to `relay`, each order with the headset's steps behind it; and what is reached on
/// purpose.
pub fn relayed(seed: u64) -> (Script, Reach) {
    let mut script = Script::new();
    let mut rng = Rng::new(seed);
    for headset in good().iter().chain(&broken()) {
        let orders = headset.orders(&mut rng);
        let steps: Vec<_> =
            headset.steps.iter().map(|(kind, body, _)| (*kind, body.clone())).collect();
        same_answers(&mut script, &orders, &steps);
        hold(headset);
    }
    let named = script.reach.clone();
    for _ in 0..RANDOM {
        random_answers(&mut rng, &mut script, RANDOM_STEPS);
    }
    (script, named)
}

/// Holds the answers to one order to what is written down; the others have the same.
fn hold(headset: &Headset) {
    let mut script = Script::new();
    let lines = script.step(PLUG_IN, &headset.config).lines;
    assert_eq!(placeless(lines.trim_end()), headset.answer, "{:02X?}", headset.config);
    for (kind, body, line) in &headset.steps {
        if *kind == SHOW {
            script.step(SHOW, &[]);
        } else {
            script.says(*kind, body, line);
        }
    }
}

/// A plan with this AudioControl number and this run; `linked` is streamed with two channels.
fn streamed(number: u8, parts: Vec<Part>, linked: u8) -> Plan {
    let groups = vec![idle(1, 0), working(1, 1, linked, pcm(2, &[48000]))];
    let mut plan = Plan::new(parts, groups);
    plan.control[2] = number;
    plan
}

/// An Output Terminal that is streamed.
fn to_host(id: u8, source: u8) -> Part {
    Part::Output { id, terminal: 0x0101, source }
}

/// Five entities with every kind: a Mixer, a Selector behind it, mute on the master and channel 2,
/// volume on all, bass, delay and loudness on channel 1.
pub fn five() -> Plan {
    let masks = vec![0x03, 0, 0x86, 0x02, 0x03, 0];
    let parts = vec![
        input(9, STEREO),
        mixer(4, &[9], 2, STEREO),
        selector(200, &[9, 4]),
        Part::Feature { id: 2, source: 200, size: 2, masks },
        to_host(5, 2),
    ];
    streamed(6, parts, 5)
}

/// Four entities: a Feature Unit and a Selector of it.
fn four() -> Plan {
    let masks = vec![0x01, 0x02, 0x02];
    let parts = vec![
        input(9, STEREO),
        Part::Feature { id: 4, source: 9, size: 1, masks },
        selector(7, &[9, 4]),
        to_host(2, 7),
    ];
    streamed(5, parts, 2)
}

/// Two Feature Units with the same masks, one behind the other.
pub fn two_units() -> Plan {
    let unit = |id, source| Part::Feature { id, source, size: 1, masks: vec![0x02, 0x03, 0x02] };
    streamed(0, vec![input(9, STEREO), unit(7, 9), unit(4, 7), to_host(2, 4)], 2)
}

/// Two microphones with names of their own: "If their name indices differ, the Selector gives out
/// index 0."
fn two_names() -> Plan {
    let parts =
        vec![input(9, (2, 0, 5)), input(4, (2, 0, 9)), selector(200, &[9, 4]), output(1, 200)];
    Plan::new(parts, vec![])
}

/// The good ones.
fn good() -> Vec<Headset> {
    vec![
        Headset::new(microphone(), "accepted 0 2 0"),
        Headset { steps: case_a_steps(), ..Headset::new(case_a(), "accepted 0 3 2") },
        Headset::new(two_names().bytes(), "accepted 0 4 1"),
        Headset::new(four().bytes(), "accepted 5 4 4"),
        Headset { steps: unit_steps(0), ..Headset::new(two_units().bytes(), "accepted 0 4 8") },
        Headset { steps: five_steps(6, 5), ..Headset::new(five().bytes(), "accepted 6 5 9") },
        Headset::new(telephone(Telephone::Tables, 2, 0x61), "accepted 0 9 3"),
        Headset::new(desk().bytes(), "accepted 0 9 17"),
    ]
}

fn load(name: (u8, u8, u8), numbers: [u16; 4], line: &str) -> Said {
    (LOAD, load_body(name, numbers), line.to_string())
}

/// A request of interface `number` for so many bytes.
fn ask(pair: (u8, u8), number: u8, name: (u8, u8, u8), length: u16, line: &str) -> Said {
    (REQUEST, request_body(64, &setup(pair, number, name, length), &[]), line.to_string())
}

fn set(number: u8, name: (u8, u8, u8), data: &[u8], line: &str) -> Said {
    let setup = setup(SET, number, name, data.len() as u16);
    (REQUEST, request_body(0, &setup, data), line.to_string())
}

fn show() -> Said {
    (SHOW, Vec::new(), String::new())
}

/// "Volume −5120..0 by 256: −300 gives −256, −384 gives −512".
fn case_a_steps() -> Vec<Said> {
    let volume = (2, 1, 2);
    vec![
        ask(CUR, 0, volume, 2, "refused 36"),
        load(volume, [signed(-5120), 0, 256, signed(-300)], "loaded"),
        ask(CUR, 0, volume, 2, "got 00 FF"),
        set(0, volume, &signed(-384).to_le_bytes(), "set"),
        ask(CUR, 0, volume, 64, "got 00 FE"),
        set(0, (2, 0, 1), &[2], "refused 38"),
        set(0, (2, 0, 1), &[1], "set"),
        show(),
    ]
}

/// Both units have the same selectors, and each answers for itself; interface `number`.
pub fn unit_steps(number: u8) -> Vec<Said> {
    let mut steps = Vec::new();
    for (unit, base) in [(4, 100), (7, 200)] {
        for channel in 0..=2 {
            let cur = base + u16::from(channel);
            steps.push(load((unit, channel, 2), [0, 1000, 1, cur], "loaded"));
        }
    }
    steps.push(load((4, 1, 1), [0; 4], "refused 20"));
    for (unit, base) in [(7, 200), (4, 100)] {
        let all = (unit, ALL_CHANNELS, 2);
        steps.push(ask(CUR, number, all, 6, &got(&[base, 0, base + 1, 0, base + 2, 0])));
    }
    steps.extend([
        set(number, (7, ALL_CHANNELS, 2), &[1, 0, 2, 0, 3, 0], "set"),
        ask(CUR, number, (4, 0, 2), 2, "got 64 00"),
        ask(CUR, number, (7, 2, 2), 2, "got 03 00"),
        set(number, (4, ALL_CHANNELS, 1), &[1], "set"),
        ask(CUR, number, (7, 1, 1), 1, "got 00"),
        ask(CUR, number, (4, ALL_CHANNELS, 3), 2, "refused 34"),
        ask(CUR, number, (9, 0, 2), 2, "refused 33"),
        show(),
    ]);
    steps
}

/// Loads and requests over the five entities: blocks and single ones, refused ones among them.
/// `number` is the interface's, `other` is no interface's.
pub fn five_steps(number: u8, other: u8) -> Vec<Said> {
    let (volume, mute, bass, pin) =
        ((2, ALL_CHANNELS, 2), (2, ALL_CHANNELS, 1), (2, 1, 3), (200, 0, 0));
    vec![
        load((2, 0, 2), [signed(-5120), 0, 256, signed(-300)], "loaded"),
        load((2, 1, 2), [signed(-100), 100, 7, 3], "loaded"),
        ask(CUR, number, volume, 6, "refused 36"),
        load((2, 2, 2), [1000, 0, 1000, 501], "refused 21"),
        load((2, 2, 2), [0, 1000, 1000, 501], "loaded"),
        load((2, 3, 2), [0, 1000, 1000, 501], "refused 20"),
        load(pin, [1, 2, 1, 1], "refused 20"),
        load(bass, [narrow(-10), 9, 4, 9], "loaded"),
        ask(CUR, number, volume, 6, "got 00 FF 05 00 E8 03"),
        ask(MIN, number, volume, 3, "got 00 EC 9C"),
        // -384 gives -512; -100 + 28 * 7 is 96; 499 is nearer to 0.
        set(number, volume, &[0x80, 0xFE, 200, 0, 0xF3, 0x01], "set"),
        ask(CUR, number, volume, 64, "got 00 FE 60 00 00 00"),
        set(number, volume, &[0, 0, 0, 0], "refused 37"),
        set(number, mute, &[1, 2], "refused 38"),
        set(number, mute, &[0, 1], "set"),
        ask(CUR, number, mute, 2, "got 00 01"),
        ask(MIN, number, mute, 2, "refused 35"),
        set(number, pin, &[2], "set"),
        set(number, pin, &[3], "refused 38"),
        ask(CUR, number, pin, 1, "got 02"),
        ask(CUR, number, (200, ALL_CHANNELS, 0), 1, "refused 34"),
        ask(CUR, number, (2, 1, 8), 2, "refused 36"),
        ask(CUR, other, bass, 1, "refused 32"),
        ask(CUR, number, (4, 0, 0), 1, "refused 33"),
        ask((0xA1, 0x01), number, bass, 1, "refused 31"),
        (REQUEST, request_body(0, &setup(CUR, number, bass, 1), &[]), "refused 39".to_string()),
        ask(CUR, number, bass, 1, "got 06"),
    ]
}

/// Those that break a rule; the box is empty afterwards.
fn broken() -> Vec<Headset> {
    let mut all: Vec<(Plan, &'static str)> = Vec::new();
    all.extend(broken_fours());
    all.extend(broken_layouts());
    all.extend(broken_identities());
    all.extend(broken_clusters());
    all.extend(broken_streams());
    all.extend(broken_twice());
    let asked = || vec![ask(CUR, 0, (4, 0, 1), 1, "refused 33")];
    let one = |(plan, answer): (Plan, &'static str)| Headset {
        steps: asked(),
        ..Headset::new(plan.bytes(), answer)
    };
    all.into_iter().map(one).collect()
}

/// A run of so few parts with no stream.
fn bare(parts: Vec<Part>) -> Plan {
    Plan::new(parts, vec![])
}

/// Four entities, once for each number.
fn broken_fours() -> Vec<(Plan, &'static str)> {
    let with = |index: usize, part: Part| {
        let mut plan = four();
        plan.parts[index] = part;
        plan
    };
    let mut unlike = four();
    unlike.groups[1].body[1] = pcm(1, &[48000]);
    let mut many = bare(vec![input(1, (16, 0, 0)), feature_of(4, 65), feature_of(7, 64)]);
    many.parts.push(output(2, 7));
    vec![
        (with(3, to_host(2, 7).resized(10)), "refused 9"),
        (with(2, printed(7, &[9, 4])), "refused 17"),
        (with(1, feature(9, 9, 2)), "refused 10"),
        (with(2, selector(7, &[9, 2])), "refused 11"),
        (with(1, feature(4, 7, 2)), "refused 12"),
        (with(1, feature(4, 9, 1)), "refused 13"),
        (unlike, "refused 14"),
        (many, "refused 15"),
    ]
}

/// 9 and 17, in an entity of each kind.
fn broken_layouts() -> Vec<(Plan, &'static str)> {
    let beside = |part: Part| bare(vec![input(9, STEREO), part, output(2, 9)]);
    vec![
        (beside(Part::Raw(vec![3, 0x24, 6])), "refused 9"),
        (beside(feature(4, 9, 2).with(2, 7)), "refused 9"),
        (beside(input(4, STEREO).resized(11)), "refused 9"),
        (beside(mixer(4, &[9], 2, STEREO).with(4, 25)), "refused 9"),
        (beside(printed(4, &[9]).with(5, 1)), "refused 9"),
        (beside(feature(4, 9, 2).with(5, 0)), "refused 9"),
        (beside(printed(4, &[9])), "refused 17"),
    ]
}

/// 10 to 12.
fn broken_identities() -> Vec<(Plan, &'static str)> {
    let three = |one: Part, two: Part| bare(vec![input(9, STEREO), one, two]);
    vec![
        (three(feature(0, 9, 2), output(2, 9)), "refused 10"),
        (three(input(9, STEREO), output(2, 9)), "refused 10"),
        (three(feature(4, 9, 2), output(4, 9)), "refused 10"),
        (three(feature(4, 0, 2), output(2, 9)), "refused 11"),
        (three(selector(4, &[9, 77]), output(2, 4)), "refused 11"),
        (three(output(2, 9), feature(4, 2, 2)), "refused 11"),
        (three(feature(4, 4, 2), output(2, 9)), "refused 12"),
        (three(selector(4, &[9, 4]), output(2, 4)), "refused 12"),
        (three(feature(4, 7, 2), feature(7, 4, 2)), "refused 12"),
    ]
}

/// 13.
fn broken_clusters() -> Vec<(Plan, &'static str)> {
    let over = |cluster, part: Part| bare(vec![input(9, cluster), part, output(2, 4)]);
    let two = |one, other| bare(vec![input(9, one), input(5, other), selector(4, &[9, 5])]);
    let runs = [
        over((0, 0, 0), feature(4, 9, 0)),
        over((17, 0, 0), selector(4, &[9])),
        over((1, 0x0003, 0), selector(4, &[9, 9])),
        over((2, 0x1000, 0), feature(4, 9, 2)),
        over((2, 0x0003, 1), feature(4, 9, 2)),
        over(STEREO, feature(4, 9, 3)),
        over(STEREO, mixer(4, &[9, 9], 2, (8, 0, 0))),
        over(STEREO, mixer(4, &[9], 2, (4, 0x0107, 1))),
        two((1, 0x0001, 0), (2, 0x0001, 0)),
        two((1, 0x0001, 0), (1, 0x0004, 0)),
    ];
    runs.into_iter().map(|plan| (plan, "refused 13")).collect()
}

/// 14, and the most controls that are none too many.
fn broken_streams() -> Vec<(Plan, &'static str)> {
    let three = |output: Part| vec![input(9, STEREO), feature(4, 9, 2), output];
    let mut long = streamed(0, three(to_host(2, 4)), 2);
    long.groups[1].body[1][4] = 3;
    vec![
        (streamed(0, three(to_host(2, 4)), 4), "refused 14"),
        (streamed(0, three(to_host(2, 4)), 77), "refused 14"),
        (streamed(0, three(output(2, 4)), 2), "refused 14"),
        (long, "refused 14"),
        (bare(vec![input(1, (16, 0, 0)), feature_of(4, 128), selector(7, &[1])]), "refused 15"),
    ]
}

/// Two rules broken, by two entities if it can be: "the lowest number that applies is given", but
/// that 17 comes after 9 and before 10.
fn broken_twice() -> Vec<(Plan, &'static str)> {
    let three = |one: Part, two: Part| vec![input(9, STEREO), one, two];
    let clash: Vec<GroupPlan> = vec![working(1, 0, 2, pcm(1, &[48000]))];
    let mut high = Plan::new(vec![input(9, (17, 0, 0)), to_host(2, 9), selector(4, &[9])], clash);
    let mut many = high.clone();
    many.parts = vec![input(1, (16, 0, 0)), feature_of(4, 153), to_host(2, 4)];
    high.control[2] = 3;
    vec![
        (bare(three(printed(4, &[9]), feature(7, 9, 2).with(5, 5))), "refused 9"),
        (bare(three(input(9, STEREO), printed(4, &[9]))), "refused 17"),
        (bare(three(input(9, STEREO), output(2, 77))), "refused 10"),
        (bare(three(feature(4, 4, 2), output(2, 77))), "refused 11"),
        (bare(vec![input(9, (0, 0, 0)), feature(4, 4, 2), output(2, 9)]), "refused 12"),
        (bare(vec![input(9, (0, 0, 0)), feature(4, 9, 3), output(2, 4)]), "refused 13"),
        (high, "refused 13"),
        (many, "refused 14"),
    ]
}

#[cfg(test)]
mod tests {
    use super::*;
    use crate::{lend, relay};
    use std::collections::BTreeSet;

    /// The generator's own assertions run here; and that each number of the run is among them.
    #[test]
    fn every_order_has_the_same_answers() {
        let lent = lent(1);
        let (script, _) = relayed(2);
        assert_eq!(lend::program(&lent.tape.bytes), lent.tape.printed);
        assert_eq!(relay::program(&script.tape.bytes), script.tape.printed);
        for reach in [&lent.named, &script.reach] {
            let numbers: BTreeSet<u16> = reach.ways.keys().map(|way| way.number()).collect();
            assert!(numbers.is_superset(&[9, 10, 11, 12, 13, 14, 15, 17].into()), "{numbers:?}");
        }
        let numbers: BTreeSet<u16> = script.reach.ways.keys().map(|way| way.number()).collect();
        assert!(numbers.is_superset(&(31..=39).chain([20, 21]).collect()), "{numbers:?}");
    }
}
