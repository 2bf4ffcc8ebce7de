//! The same run in other orders: "two configurations that differ only in the order of the
//! descriptors of the run" (document 02, No. 10), and what their answers have to share. The answers
//! are read as they are printed, so that they may be another program's.

use super::lent::Lent;
use super::random;
use super::rng::Rng;
use super::script::Script;
use crate::controls::Control;
use crate::cut::CLASS;
use crate::numbers::{LENT, MARK, RECORD};
use crate::relay::PLUG_IN;

/// A configuration taken apart around its run.
pub struct Apart<'a> {
    before: &'a [u8],
    run: Vec<&'a [u8]>,
    behind: &'a [u8],
}

impl<'a> Apart<'a> {
    /// Finds the run: the descriptors of type 24 behind the header of the first AudioControl group,
    /// whatever rules are broken there or elsewhere. None if fewer than two can be told.
    pub fn of(config: &'a [u8]) -> Option<Apart<'a>> {
        let all = descriptors(config);
        let is_control = |one: &&[u8]| one.len() == 9 && one[1] == 4 && one[5..7] == [1, 1];
        let header = all.iter().position(is_control)? + 1;
        all.get(header).filter(|one| one[1] == CLASS)?;
        let run: Vec<&[u8]> =
            all[header + 1..].iter().take_while(|one| one[1] == CLASS).copied().collect();
        if run.len() < 2 {
            return None;
        }
        let from = all[..=header].concat().len();
        let to = from + run.concat().len();
        Some(Apart { before: &config[..from], run, behind: &config[to..] })
    }

    /// The run's descriptors.
    pub fn run(&self) -> &[&'a [u8]] {
        &self.run
    }

    /// How many descriptors the run has.
    pub fn count(&self) -> usize {
        self.run.len()
    }

    /// The configuration with its run in this order.
    pub fn ordered(&self, order: &[usize]) -> Vec<u8> {
        let run: Vec<&[u8]> = order.iter().map(|&index| self.run[index]).collect();
        [self.before, &run.concat(), self.behind].concat()
    }

    /// The configuration with its run in every order, the first as it stood.
    pub fn every_order(&self) -> Vec<Vec<u8>> {
        every_order(self.count()).iter().map(|order| self.ordered(order)).collect()
    }

    /// The configuration with its run in an order at random.
    pub fn shuffled(&self, rng: &mut Rng) -> Vec<u8> {
        let mut order: Vec<usize> = (0..self.count()).collect();
        rng.shuffle(&mut order);
        self.ordered(&order)
    }
}

/// The descriptors up to the first that is none.
fn descriptors(config: &[u8]) -> Vec<&[u8]> {
    let mut found = Vec::new();
    let mut rest = config;
    while let Some(&length) = rest.first().filter(|&&length| length >= 2) {
        let Some(one) = rest.get(..usize::from(length)) else { break };
        found.push(one);
        rest = &rest[one.len()..];
    }
    found
}

/// Every order of so many, the rising one first.
fn every_order(count: usize) -> Vec<Vec<usize>> {
    let Some(last) = count.checked_sub(1) else { return vec![vec![]] };
    let mut orders = Vec::new();
    for shorter in every_order(last) {
        for at in (0..count).rev() {
            let mut order = shorter.clone();
            order.insert(at, last);
            orders.push(order);
        }
    }
    orders
}

/// What a step of `lend` printed, as far as two orders share it: "the same number, though places may
/// differ"; "the sheets hold the same records in another order"; and the bytes past them.
#[derive(Clone, Debug, PartialEq, Eq)]
pub struct Reading {
    /// `refused N`, or `accepted` with the AudioControl number and the counts.
    pub answer: String,
    /// The records, in the order of their bytes.
    pub records: Vec<Vec<u8>>,
    /// The lent bytes behind them: all of a refusal's.
    pub past: Vec<u8>,
}

impl Reading {
    /// From the lines of a step.
    pub fn of(lines: &str) -> Reading {
        let (first, sheet) = lines.split_once('\n').expect("an answer and a rest");
        let mut lent = sheet_bytes(sheet);
        let entities = match *first.split(' ').collect::<Vec<&str>>() {
            ["accepted", _, entities, _] => entities.parse().expect("a count"),
            _ => 0,
        };
        let past = lent.split_off(RECORD * entities);
        let mut records: Vec<Vec<u8>> = lent.chunks(RECORD).map(<[u8]>::to_vec).collect();
        records.sort();
        Reading { answer: placeless(first), records, past }
    }
}

/// The lent bytes from the lines behind the answer.
fn sheet_bytes(lines: &str) -> Vec<u8> {
    let mut bytes = Vec::new();
    for line in lines.lines() {
        match line.strip_prefix("rest ") {
            Some(count) => bytes.resize(bytes.len() + count.parse::<usize>().unwrap(), MARK),
            None => bytes
                .extend(line.split(' ').map(|byte| u8::from_str_radix(byte, 16).expect("a byte"))),
        }
    }
    bytes
}

/// A line without the place of a refusal.
pub fn placeless(line: &str) -> String {
    line.split(" at ").next().unwrap_or_default().to_string()
}

/// What a step of `relay` printed, as far as two orders share it: the line without a place, and of a
/// table its rows in the order of their text.
fn shared(lines: &str) -> Vec<String> {
    let mut all: Vec<String> = lines.lines().map(placeless).collect();
    all[1..].sort();
    all
}

/// Adds these configurations, each with so many bytes lent, and holds their readings to the first's,
/// which it answers.
pub fn same_readings(lent: &mut Lent, m: usize, configs: &[Vec<u8>]) -> Reading {
    let first = Reading::of(&lent.step(m, &configs[0]).lines);
    for config in &configs[1..] {
        assert_eq!(Reading::of(&lent.step(m, config).lines), first, "{config:02X?}");
    }
    first
}

/// The kind and the bytes of a step.
pub type Step = (u8, Vec<u8>);

/// Adds this configuration and these steps; what is shared of the answers, and the controls that the
/// table has at the end.
pub fn answers(
    script: &mut Script,
    config: &[u8],
    steps: &[Step],
) -> (Vec<Vec<String>>, Vec<Control>) {
    let mut all = vec![shared(&script.step(PLUG_IN, config).lines)];
    for (kind, body) in steps {
        all.push(shared(&script.step(*kind, body).lines));
    }
    (all, by_name(&script.state.table.places))
}

/// Controls by unit, channel and selector.
fn by_name(controls: &[Control]) -> Vec<Control> {
    let mut controls = controls.to_vec();
    controls.sort_by_key(Control::name);
    controls
}

/// Adds these configurations with these steps behind each, and holds their answers to the first's:
/// "the same run of loads and requests gets the same answers".
pub fn same_answers(script: &mut Script, configs: &[Vec<u8>], steps: &[Step]) {
    let first = answers(script, &configs[0], steps);
    for config in &configs[1..] {
        assert_eq!(answers(script, config, steps), first, "{config:02X?}");
    }
}

/// Adds a configuration at random and its run in another order, with as many bytes lent.
pub fn random_reading(rng: &mut Rng, lent: &mut Lent) {
    let config = random::configuration(rng);
    if let Some(apart) = Apart::of(&config) {
        let m = *rng.pick(&[0, RECORD * apart.count(), RECORD * apart.count() + 7, LENT]);
        same_readings(lent, m.min(LENT), &[config.clone(), apart.shuffled(rng)]);
    }
}

/// Adds a good configuration at random and its run in another order, with the same loads and requests
/// behind both.
pub fn random_answers(rng: &mut Rng, script: &mut Script, count: usize) {
    let config = random::with_controls(rng);
    let apart = Apart::of(&config).expect("two entities at least");
    let mut first = Script::new();
    first.step(PLUG_IN, &config);
    let mut steps = Vec::new();
    for _ in 0..count {
        let (kind, body) = random::load_or_request(rng, &first.state);
        first.step(kind, &body);
        steps.push((kind, body));
    }
    same_answers(script, &[config.clone(), apart.shuffled(rng)], &steps);
}

#[cfg(test)]
mod tests {
    use super::*;
    use crate::generator::build::case_a;
    use crate::generator::configs;
    use std::collections::BTreeSet;

    #[test]
    fn every_order_comes_once() {
        for (count, orders) in [(0, 1), (1, 1), (2, 2), (3, 6), (4, 24), (5, 120)] {
            let all: BTreeSet<Vec<usize>> = every_order(count).into_iter().collect();
            assert_eq!((every_order(count).len(), all.len()), (orders, orders));
            assert!(every_order(count)[0].is_sorted());
        }
    }

    #[test]
    fn a_run_is_found_in_its_configuration() {
        let a = case_a();
        let apart = Apart::of(&a).expect("three entities");
        assert_eq!((apart.before.len(), apart.count(), apart.behind.len()), (27, 3, 52));
        let lengths: BTreeSet<usize> = apart.every_order().iter().map(Vec::len).collect();
        assert_eq!(lengths, BTreeSet::from([109]));
        assert!(Apart::of(&a[..39]).is_none());
        assert!(Apart::of(&a[..47]).is_none());
        assert_eq!(Apart::of(&a[..48]).map(|apart| apart.count()), Some(2));
    }

    /// Every configuration made on purpose, whatever is wrong with it, and its run turned round.
    #[test]
    fn turned_round_all_have_the_same_reading() {
        let mut lent = Lent::default();
        for case in configs::all() {
            if let Some(apart) = Apart::of(&case.bytes) {
                let order: Vec<usize> = (0..apart.count()).rev().collect();
                let turned = apart.ordered(&order);
                same_readings(&mut lent, LENT, &[case.bytes.clone(), turned]);
            }
        }
        let refusals: BTreeSet<u16> = lent.reach.ways.keys().map(|way| way.number()).collect();
        let all: BTreeSet<u16> = [2, 3, 4, 6, 7, 8, 9, 10, 11, 12, 13, 14, 15, 17].into();
        assert!(refusals.is_superset(&all), "{refusals:?}");
    }

    #[test]
    fn at_random_the_order_does_not_matter() {
        let mut rng = Rng::new(10);
        let (mut lent, mut script) = (Lent::default(), Script::new());
        for _ in 0..2000 {
            random_reading(&mut rng, &mut lent);
        }
        for _ in 0..200 {
            random_answers(&mut rng, &mut script, 30);
        }
        let mut reach = lent.reach.clone();
        reach.add(&script.reach);
        let met: BTreeSet<u16> = reach.ways.keys().map(|way| way.number()).collect();
        let wanted: BTreeSet<u16> = (2..=17).chain(31..=39).chain([20, 21]).collect();
        assert!(met.is_superset(&wanted), "{met:?}");
    }

    /// What is held is no idle word: another record, byte past the last or count is seen.
    #[test]
    fn a_reading_tells_what_differs() {
        let step = |m| crate::lend::step(m, &case_a()).lines;
        let reading = Reading::of(&step(100));
        assert_eq!((reading.records.len(), reading.past.len()), (3, 4));
        assert_ne!(Reading::of(&step(100).replacen("02 06", "02 05", 1)), reading);
        assert_ne!(Reading::of(&step(100).replace("rest 4", "AB\nrest 3")), reading);
        assert_ne!(Reading::of(&step(100).replace("accepted 0 3 2", "accepted 0 3 1")), reading);
        assert_ne!(
            Reading::of("refused 13 at 5\nrest 3\n"),
            Reading::of("refused 12 at 5\nrest 3\n")
        );
        assert_eq!(
            Reading::of("refused 13 at 5\nrest 3\n"),
            Reading::of("refused 13 at 9\nrest 3\n")
        );
        assert_eq!(shared("table 2\n2 1\n1 2\n"), shared("table 2\n1 2\n2 1\n"));
    }
}
