//! Steps of `routes` (document 02, No. 8), made on purpose, each with its routes written down, and at
//! random; and runs of the program `way`.

use std::collections::BTreeSet;

use super::build::{case_a, microphone, telephone, Part, Plan, Telephone};
use super::configs::{self, desk, feature, input, mixer, output, selector};
use super::random;
use super::rng::Rng;
use super::script::Reach;
use super::tape::Tape;
use crate::lend;
use crate::numbers::{ENTITIES, LIST, MARK, PINS, RECORD, ROUTES, SHEET, STEP, WAY};
use crate::reader;
use crate::relay::Printed;
use crate::routes;
use crate::ways::Way;

/// Steps at random.
const RANDOM: usize = 400;
/// A cluster of one channel.
const ONE: (u8, u16, u8) = (1, 0, 0);
/// The IDs of the Output Terminal and of the Input Terminal in what follows.
const OUT: u8 = 100;
const IN: u8 = 200;

/// One step's bytes.
pub fn route_bytes(id: u8, m: usize, config: &[u8]) -> Vec<u8> {
    let number = |n: usize| (n as u16).to_le_bytes();
    [&[id][..], &number(m), &number(config.len()), config].concat()
}

/// Routes as they are written down: IDs from the output to the input.
type Written = Vec<Vec<u8>>;

/// The steps while they are being written, with what the second program prints.
#[derive(Clone, Debug, Default)]
pub struct Routes {
    /// The steps, with what the program prints for them.
    pub tape: Tape,
    /// What was reached.
    pub reach: Reach,
    /// What was reached on purpose, before anything at random.
    pub named: Reach,
    /// The reader's clauses met with an ID that is no entity's and no byte lent.
    first: BTreeSet<Way>,
    /// Counts of routes that were tried on both sides of the length that they need.
    counts: BTreeSet<usize>,
    /// The lengths of routes that were listed.
    lengths: BTreeSet<usize>,
}

impl Routes {
    /// Adds a step, and holds what is listed to the rewriting of routes.
    pub fn step(&mut self, id: u8, m: usize, config: &[u8]) -> Printed {
        let printed = routes::step(id, m, config);
        if printed.way.is_none() {
            assert_eq!(printed.lines, told(m, &rewritten(id, config).expect("listed")));
        }
        self.tape.push(&route_bytes(id, m, config), &printed.lines);
        self.reach.count_route(&printed);
        printed
    }

    /// Adds a step that has to list these routes and leave the bytes past them.
    fn lists(&mut self, id: u8, m: usize, config: &[u8], written: &[Vec<u8>]) {
        assert_eq!(self.step(id, m, config).lines, told(m, written));
        self.lengths.extend(written.iter().map(Vec::len));
    }

    /// Adds a step that has to be refused and to write nothing.
    fn refused(&mut self, id: u8, m: usize, config: &[u8], way: Way, place: Option<usize>) {
        let printed = self.step(id, m, config);
        let at = place.map(|place| format!(" at {place}")).unwrap_or_default();
        let lines = format!("refused {}{at}\nrest {m}\n", way.number());
        assert_eq!((printed.way, printed.lines), (Some(way), lines), "ID {id}, {m} bytes");
        if id == 0 && m == 0 {
            self.first.insert(way);
        }
    }

    /// Adds these routes with just enough room, with more, with too little and with none.
    fn edges(&mut self, id: u8, plan: &Plan, written: &[Vec<u8>]) {
        let config = plan.bytes();
        let last = written.last().expect("a route").len() + 1;
        let need: usize = written.iter().map(|route| route.len() + 1).sum();
        for m in BTreeSet::from([need, need + 1, need + 17]) {
            self.lists(id, m, &config, written);
        }
        for m in BTreeSet::from([0, 1, need / 2, need - last, need - 2, need - 1]) {
            self.refused(id, m, &config, Way::ListShort, None);
        }
        self.counts.insert(written.len());
    }

    /// Adds a step of an Output Terminal with more than 256 routes, whatever is lent.
    fn too_many(&mut self, id: u8, plan: &Plan) {
        for m in [0, WAY, LIST] {
            self.refused(id, m, &plan.bytes(), Way::ManyRoutes, None);
        }
    }

    /// What the paper names and these steps do not reach; empty if all is well.
    pub fn missing(&self) -> Vec<String> {
        let mut missing = Vec::new();
        for way in Way::ALL.iter().filter(|way| way.is_of_configuration()) {
            if !self.first.contains(way) {
                missing.push(format!("routes of no ID: {} {}", way.number(), way.words()));
            }
        }
        for count in [1, 2, 3, 24, 255, ROUTES] {
            if !self.counts.contains(&count) {
                missing.push(format!("lists just long enough for {count} routes"));
            }
        }
        for length in [2, ENTITIES] {
            if !self.lengths.contains(&length) {
                missing.push(format!("a route of {length} entities"));
            }
        }
        missing
    }
}

/// What is printed of these routes in m bytes: "with 00 after the last", "Bytes past the last route
/// stay".
fn told(m: usize, written: &[Vec<u8>]) -> String {
    let bytes: Vec<u8> = written.iter().flat_map(|route| [&route[..], &[0]].concat()).collect();
    let mut lent = vec![MARK; m];
    lent[..bytes.len()].copy_from_slice(&bytes);
    format!("routes {} {}\n{}", written.len(), bytes.len(), lend::shown(&lent))
}

/// The records of the sheet that the reader writes; none if it refuses.
fn records(config: &[u8]) -> Vec<Vec<u8>> {
    let mut sheet = [0; SHEET];
    let entities = reader::read(config, &mut sheet).entities;
    sheet.chunks(RECORD).take(entities).map(<[u8]>::to_vec).collect()
}

/// The IDs of the Output Terminals among these records.
fn outputs(records: &[Vec<u8>]) -> Vec<u8> {
    records.iter().filter(|record| record[1] == 3).map(|record| record[0]).collect()
}

/// The routes a second time, out of the sheet: each one that has not come to an Input Terminal is
/// rewritten as those that go on from it, in order of pins, until none is left. None if the ID is no
/// Output Terminal's or there are more than 256, since each leads to one at least.
fn rewritten(id: u8, config: &[u8]) -> Option<Written> {
    let records = records(config);
    if !outputs(&records).contains(&id) {
        return None;
    }
    let mut all = vec![vec![id]];
    for _ in 0..ENTITIES {
        let on = |route: &Vec<u8>| -> Written {
            let last = records.iter().find(|record| Some(&record[0]) == route.last());
            let last = last.expect("a known source");
            let pins = &last[8..8 + usize::from(last[6])];
            match pins {
                [] => vec![route.clone()],
                _ => pins.iter().map(|&pin| [&route[..], &[pin]].concat()).collect(),
            }
        };
        all = all.iter().flat_map(on).collect();
        if all.len() > ROUTES {
            return None;
        }
    }
    Some(all)
}

/// A plan of this run and no groups.
fn plan(parts: Vec<Part>) -> Plan {
    Plan::new(parts, vec![])
}

/// An Output Terminal below Selectors or Mixers of so many pins, the lowest first, all pins of each
/// on the one above it, and the last on an Input Terminal; one route, and how many of it there are.
fn tower(mixed: bool, pins: &[usize]) -> (Plan, Vec<u8>, usize) {
    let ids: Vec<u8> = (1..=pins.len() as u8).chain([IN]).collect();
    let mut parts = vec![output(OUT, ids[0]), input(IN, ONE)];
    for (at, &count) in pins.iter().enumerate() {
        let sources = vec![ids[at + 1]; count];
        parts.push(match mixed {
            true => mixer(ids[at], &sources, count, ONE),
            false => selector(ids[at], &sources),
        });
    }
    let routes = pins.iter().fold(1usize, |all, &count| all.saturating_mul(count));
    (plan(parts), [&[OUT][..], &ids].concat(), routes)
}

/// All steps made on purpose, and more at random.
pub fn all(seed: u64) -> Routes {
    let mut routes = Routes::default();
    plain(&mut routes);
    same_sources(&mut routes);
    up_to_256(&mut routes);
    diamonds(&mut routes);
    chains(&mut routes);
    orders(&mut routes);
    identities(&mut routes);
    readers(&mut routes);
    kept(&mut routes);
    for m in [0, LIST] {
        routes.refused(3, m, &[], Way::LengthLow, Some(0));
        routes.refused(3, m, &[0; STEP], Way::LengthHigh, Some(0));
    }
    routes.named = routes.reach.clone();
    let mut rng = Rng::new(seed);
    for _ in 0..RANDOM {
        random(&mut rng, &mut routes);
    }
    routes
}

/// The papers' examples, several outputs, and IDs at their ends.
fn plain(routes: &mut Routes) {
    routes.lists(3, 64, &case_a(), &[vec![3, 2, 1]]);
    routes.lists(2, LIST, &microphone(), &[vec![2, 1]]);
    let telephone = telephone(Telephone::Tables, 2, 0x61);
    for (out, choice, one, two) in [(4, 7, 2, 3), (5, 8, 1, 3), (6, 9, 1, 2)] {
        routes.lists(out, 8, &telephone, &[vec![out, choice, one], vec![out, choice, two]]);
    }
    let recording = [vec![6, 5, 4, 3, 1], vec![6, 5, 4, 3, 2], vec![6, 5, 1]];
    routes.edges(6, &desk(), &recording);
    routes.edges(7, &desk(), &[vec![7, 2]]);
    routes.edges(OUT, &plan(vec![output(OUT, IN), input(IN, ONE)]), &[vec![OUT, IN]]);
    let ends = plan(vec![output(255, 254), feature(254, MARK, 1), input(MARK, ONE)]);
    routes.edges(255, &ends, &[vec![255, 254, MARK]]);
    let marks = plan(vec![output(MARK, 1), input(1, ONE)]);
    routes.edges(MARK, &marks, &[vec![MARK, 1]]);
    let mut many = vec![input(1, ONE)];
    many.extend((2..=ENTITIES as u8).map(|id| output(id, 1)));
    for id in [2, 17, 32] {
        routes.edges(id, &plan(many.clone()), &[vec![id, 1]]);
    }
}

/// "Two pins with the same source are two routes", for Selectors and Mixers of one to 24 pins.
fn same_sources(routes: &mut Routes) {
    let orders: [&[u8]; 8] =
        [&[1], &[1, 1], &[1, 2], &[2, 1], &[1, 2, 1], &[2, 1, 1], &[2, 2, 1, 2], &[3, 1, 2, 3]];
    let long: [Vec<u8>; 2] = [vec![2; PINS], (0..PINS as u8).map(|pin| 1 + pin % 3).collect()];
    for sources in orders.into_iter().chain(long.iter().map(Vec::as_slice)) {
        let written: Written = sources.iter().map(|&source| vec![OUT, 50, source]).collect();
        for unit in [selector(50, sources), mixer(50, sources, sources.len(), ONE)] {
            let inputs = (1..=3).map(|id| input(id, ONE));
            let parts = [output(OUT, 50), unit].into_iter().chain(inputs).collect();
            routes.edges(OUT, &plan(parts), &written);
        }
    }
    // A Mixer's pins on a Selector, on an Input Terminal and on a Feature Unit over the Selector.
    let parts = vec![
        input(1, ONE),
        input(2, ONE),
        selector(3, &[2, 1]),
        feature(4, 3, 1),
        mixer(5, &[3, 1, 4, 3], 4, ONE),
        output(6, 5),
    ];
    let behind = [&[3, 2][..], &[3, 1], &[1], &[4, 3, 2], &[4, 3, 1], &[3, 2], &[3, 1]];
    let written: Written = behind.map(|ids| [&[6, 5], ids].concat()).into();
    routes.edges(6, &plan(parts), &written);
}

/// 255 and 256 routes, which are not too many, and 257, which are, in several shapes.
fn up_to_256(routes: &mut Routes) {
    let shapes: [&[usize]; 8] =
        [&[24], &[2; 8], &[4; 4], &[16, 16], &[1, 16, 1, 16], &[17, 15], &[15, 17], &[3, 5, 17]];
    for pins in shapes {
        for mixed in [false, true] {
            let (plan, route, count) = tower(mixed, pins);
            routes.edges(OUT, &plan, &vec![route; count]);
        }
    }
    // 16 times the same 16 inputs, in order.
    let inner: Vec<u8> = (201..=216).collect();
    let mut parts = vec![output(OUT, 1), selector(1, &[2; 16]), selector(2, &inner)];
    parts.extend(inner.iter().map(|&id| input(id, ONE)));
    let once: Written = inner.iter().map(|&id| vec![OUT, 1, 2, id]).collect();
    routes.edges(OUT, &plan(parts), &vec![once; 16].concat());
    // 240 by one pin, so many by the other, and 240 after them.
    for (more, fits) in [(15, true), (16, true), (17, false), (18, false)] {
        for first in [true, false] {
            let pins = if first { [3, 2] } else { [2, 3] };
            let parts = vec![
                input(IN, ONE),
                output(OUT, 1),
                selector(1, &pins),
                selector(2, &[4; 10]),
                selector(3, &vec![IN; more]),
                selector(4, &[IN; PINS]),
            ];
            let (few, most) = (vec![vec![OUT, 1, 3, IN]; more], vec![vec![OUT, 1, 2, 4, IN]; 240]);
            match fits {
                true if first => routes.edges(OUT, &plan(parts), &[few, most].concat()),
                true => routes.edges(OUT, &plan(parts), &[most, few].concat()),
                false => routes.too_many(OUT, &plan(parts)),
            }
        }
    }
}

/// More than 256 routes, up to so many that nobody could count them one by one.
fn diamonds(routes: &mut Routes) {
    let shapes: [&[usize]; 7] =
        [&[2; 9], &[17, 16], &[24, 11], &[24, 24], &[2; 30], &[1; 29], &[24; 30]];
    for pins in shapes {
        for mixed in [false, true] {
            let (plan, route, count) = tower(mixed, pins);
            match count {
                1 => routes.edges(OUT, &plan, &[route]),
                _ => routes.too_many(OUT, &plan),
            }
        }
    }
    // One more Output Terminal, which has a route of its own; pins before and behind a diamond.
    let (deep, _, _) = tower(false, &[PINS; 26]);
    for pins in [[IN, 1], [1, IN]] {
        let mut parts = deep.parts.clone();
        parts.extend([output(99, 98), selector(98, &pins), output(97, 26), output(96, IN)]);
        parts.rotate_left(7);
        let plan = plan(parts);
        routes.too_many(99, &plan);
        routes.refused(OUT, 8, &plan.bytes(), Way::ManyRoutes, None);
        routes.edges(97, &plan, &vec![vec![97, 26, IN]; PINS]);
        routes.edges(96, &plan, &[vec![96, IN]]);
        for other in [0, 1, 98, IN, 255] {
            let way = if matches!(other, 0 | 255) { Way::RouteUnknown } else { Way::RouteOther };
            routes.refused(other, 0, &plan.bytes(), way, None);
        }
    }
}

/// The longest chains, "never deeper than 32", forward, backward and shuffled; and 256 routes of 32
/// entities each, the longest list that there is.
fn chains(routes: &mut Routes) {
    let mut rng = Rng::new(8);
    for length in [3, 16, 31, ENTITIES as u8] {
        let mut parts = vec![input(1, ONE)];
        parts.extend((2..length).map(|id| match id % 3 {
            0 => selector(id, &[id - 1]),
            1 => mixer(id, &[id - 1], 1, ONE),
            _ => feature(id, id - 1, 1),
        }));
        parts.push(output(length, length - 1));
        let written = [(1..=length).rev().collect()];
        routes.edges(length, &plan(parts.clone()), &written);
        parts.reverse();
        routes.edges(length, &plan(parts.clone()), &written);
        rng.shuffle(&mut parts);
        routes.edges(length, &plan(parts), &written);
    }
    let (longest, route, count) = tower(false, &LONGEST);
    assert_eq!((route.len(), count), (ENTITIES, ROUTES));
    routes.edges(OUT, &longest, &vec![route; count]);
}

/// Eight Selectors of two pins among thirty.
const LONGEST: [usize; 30] = {
    let mut pins = [1; 30];
    let mut at = 2;
    while at < 30 {
        pins[at] = if at % 4 == 2 || at == 29 { 2 } else { 1 };
        at += 1;
    }
    pins
};

/// "Order carries no meaning": the same routes in whatever order the entities stand.
fn orders(routes: &mut Routes) {
    let mut rng = Rng::new(9);
    let recording = [vec![6, 5, 4, 3, 1], vec![6, 5, 4, 3, 2], vec![6, 5, 1]];
    let mut mixed = desk();
    for _ in 0..12 {
        rng.shuffle(&mut mixed.parts);
        routes.lists(6, 16, &mixed.bytes(), &recording);
        routes.refused(6, 15, &mixed.bytes(), Way::ListShort, None);
    }
    let (mut tower, route, count) = tower(true, &[3, 5, 17]);
    for _ in 0..4 {
        rng.shuffle(&mut tower.parts);
        routes.lists(OUT, WAY, &tower.bytes(), &vec![route.clone(); count]);
    }
}

/// 45: "the ID is not an Output Terminal", whatever is lent.
fn identities(routes: &mut Routes) {
    let config = desk().bytes();
    for m in [0, 15, 16, LIST] {
        for id in [1, 2, 3, 4, 5, 8, 9] {
            routes.refused(id, m, &config, Way::RouteOther, None);
        }
        for id in [0, 10, 24, 36, 128, 255] {
            routes.refused(id, m, &config, Way::RouteUnknown, None);
        }
    }
    let lone = plan(vec![input(7, ONE)]).bytes();
    routes.refused(7, 2, &lone, Way::RouteOther, None);
    routes.refused(8, 2, &lone, Way::RouteUnknown, None);
}

/// "the reader's own but 16 for the configuration" come first: each clause once with an ID that is no
/// entity's and no byte lent, and once with the desk's Output Terminal and room.
fn readers(routes: &mut Routes) {
    for case in configs::all() {
        let Some((way, place)) = case.expect else { continue };
        if !routes.first.contains(&way) {
            routes.refused(0, 0, &case.bytes, way, Some(place));
            routes.refused(6, 64, &case.bytes, way, Some(place));
        }
    }
}

/// Some of the configurations made on purpose that are accepted, with their last Output Terminal.
fn kept(routes: &mut Routes) {
    let mut seen = BTreeSet::new();
    for case in configs::all().iter().filter(|case| case.expect.is_none()) {
        let Some(&last) = outputs(&records(&case.bytes)).last() else { continue };
        if case.bytes.len() < 1000 && seen.insert(rewritten(last, &case.bytes)) {
            routes.step(last, 200, &case.bytes);
        }
    }
}

/// A plan whose routes branch: a few inputs of one cluster, Selectors and Mixers of several pins, on
/// the latest more often than not, and some Feature Units between.
fn branching(rng: &mut Rng) -> Plan {
    let mut ids: Vec<u8> = (1..=255).collect();
    rng.shuffle(&mut ids);
    let (inputs, outputs) = (1 + rng.below(3), 1 + rng.below(3));
    let units = match rng.below(8) {
        0 => ENTITIES - inputs - outputs,
        1 => rng.below(3),
        _ => 2 + rng.below(8),
    };
    let mut parts: Vec<Part> = ids[..inputs].iter().map(|&id| input(id, ONE)).collect();
    for made in inputs..inputs + units {
        let source = |rng: &mut Rng| match rng.below(3) {
            0 => ids[rng.below(made)],
            _ => ids[made - 1 - rng.below(made.min(3))],
        };
        let count = match rng.below(12) {
            0 => PINS - rng.below(3),
            1 => 1 + rng.below(8),
            _ => 1 + rng.below(3),
        };
        let pins: Vec<u8> = (0..count).map(|_| source(rng)).collect();
        parts.push(match rng.below(5) {
            0 | 1 => selector(ids[made], &pins),
            2 | 3 => mixer(ids[made], &pins, count, ONE),
            _ => feature(ids[made], pins[0], 1),
        });
    }
    let made = inputs + units;
    for &id in &ids[made..made + outputs] {
        parts.push(output(id, ids[made - 1 - rng.below(made.min(4))]));
    }
    if !rng.one_in(3) {
        rng.shuffle(&mut parts);
    }
    plan(parts)
}

/// Adds a step at random: a configuration whose routes branch, or any; an Output Terminal's ID more
/// often than not; room near what is needed.
pub fn random(rng: &mut Rng, routes: &mut Routes) {
    let config = match rng.below(6) {
        0 => random::configuration(rng),
        1 => random::good(rng).bytes(),
        _ => branching(rng).bytes(),
    };
    let records = records(&config);
    let outputs = outputs(&records);
    let id = match rng.below(10) {
        0 => rng.byte(),
        1 if !records.is_empty() => rng.pick(&records)[0],
        _ if outputs.is_empty() => rng.below(4) as u8,
        _ => *rng.pick(&outputs),
    };
    let need = routes::list(id, &config, &mut [0; WAY]).map_or(0, |listed| listed.bytes);
    let room = match rng.below(8) {
        0 => rng.below(LIST + 1),
        1 => need.max(1) - 1,
        2 => need / 2,
        3 => WAY,
        _ => need + rng.below(3),
    };
    routes.step(id, room, &config);
}

/// A run of `way`: the end of its folder's name, its words, and the configuration.
pub type WayRun = (&'static str, Vec<&'static str>, Vec<u8>);

/// Runs of `way`: the desk's and the telephone's, capital and small letters, as many routes as there
/// may be and more, and each kind of refusal; then words that are not its own.
pub fn way_runs() -> Vec<WayRun> {
    let desk = desk().bytes();
    let letters = plan(vec![input(0xCD, ONE), feature(0xEF, 0xCD, 1), output(0xAB, 0xEF)]).bytes();
    let mut broken = case_a();
    broken[43] = 2;
    let mut runs = vec![
        ("", vec!["06"], desk.clone()),
        ("_speaker", vec!["07"], desk.clone()),
        ("_telephone", vec!["04"], telephone(Telephone::Tables, 2, 0x61)),
        ("_small", vec!["ab"], letters.clone()),
        ("_capital", vec!["AB"], letters.clone()),
        ("_both", vec!["aB"], letters),
        ("_many", vec!["64"], tower(false, &LONGEST).0.bytes()),
        ("_over", vec!["64"], tower(true, &[2; 9]).0.bytes()),
        ("_diamond", vec!["64"], tower(false, &[PINS; 30]).0.bytes()),
        ("_refused", vec!["03"], broken),
        ("_unit", vec!["05"], desk.clone()),
        ("_unknown", vec!["00"], desk.clone()),
        ("_0", vec!["06"], vec![]),
        ("_20000", vec!["06"], configs::desk().padded(20000).bytes()),
    ];
    let words: [(&str, &[&'static str]); 8] = [
        ("_usage_none", &[]),
        ("_usage_other", &["0G"]),
        ("_usage_short", &["6"]),
        ("_usage_long", &["006"]),
        ("_usage_sign", &["+6"]),
        ("_usage_hex", &["0x06"]),
        ("_usage_two", &["06", "07"]),
        ("_usage_twice", &["06", "06"]),
    ];
    runs.extend(words.map(|(name, words)| (name, words.to_vec(), desk.clone())));
    runs
}

#[cfg(test)]
mod tests {
    use super::*;
    use crate::generator::rng::steps;

    #[test]
    fn steps_at_random_are_steps() {
        let routes: Routes = steps(4, 600, random);
        assert_eq!(routes::program(&routes.tape.bytes), routes.tape.printed);
        for way in [Way::RouteUnknown, Way::RouteOther, Way::ManyRoutes, Way::ListShort] {
            assert!(routes.reach.ways.contains_key(&way), "{}", way.words());
        }
    }

    /// What branches is accepted, and often has several routes and not too many.
    #[test]
    fn routes_branch() {
        let mut rng = Rng::new(5);
        let mut several = 0;
        for _ in 0..300 {
            let plan = branching(&mut rng);
            assert!(reader::keep(&plan.bytes()).is_ok());
            let output = |part: &&Part| matches!(part, Part::Output { .. });
            let id = plan.parts.iter().find(output).expect("an output").bytes()[3];
            let found = rewritten(id, &plan.bytes());
            several += usize::from(found.is_some_and(|all| all.len() > 3));
        }
        assert!(several > 100, "{several}");
    }
}
