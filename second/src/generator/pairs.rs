//! Steps of `sheets`: pairs of sheets made on purpose, each with its answer, and at random.

use std::collections::BTreeSet;

use super::rng::Rng;
use super::script::{step_bytes, Reach};
use super::tape::Tape;
use crate::numbers::{ENTITIES, RECORD, SELECTORS, SHEET, STEP};
use crate::relay::Printed;
use crate::sheets::{self, PAIR};
use crate::ways::Way;

/// Pairs at random.
const RANDOM: usize = 1000;
/// The clauses by which a sheet is refused.
const CLAUSES: [Way; 4] = [Way::NewLong, Way::NewUneven, Way::NewIdZero, Way::NewIdTwice];

/// One step's bytes.
pub fn pair_bytes(left: &[u8], right: &[u8]) -> Vec<u8> {
    step_bytes(PAIR, &pair_body(left, right))
}

fn pair_body(left: &[u8], right: &[u8]) -> Vec<u8> {
    [&(left.len() as u16).to_le_bytes()[..], left, right].concat()
}

/// The steps while they are being written, with what the second program prints.
#[derive(Clone, Debug, Default)]
pub struct Pairs {
    /// The steps, with what the program prints for them.
    pub tape: Tape,
    /// What was reached.
    pub reach: Reach,
    /// What was reached on purpose, before anything at random.
    pub named: Reach,
    /// Clauses met on the left, and on the right with a good sheet on the left.
    sides: [BTreeSet<Way>; 2],
    /// Pairs of clauses met at once, the left one's first.
    both: BTreeSet<(Way, Way)>,
    /// Bytes that were the only one to differ.
    single: BTreeSet<usize>,
}

impl Pairs {
    /// Adds a step.
    pub fn step(&mut self, left: &[u8], right: &[u8]) -> Printed {
        let body = pair_body(left, right);
        let printed = sheets::step(PAIR, &body).expect("a good step");
        self.tape.push(&step_bytes(PAIR, &body), &printed.lines);
        self.reach.count_pair(&printed);
        printed
    }

    /// Adds a pair that has to print these lines, by both sides in turn.
    fn says(&mut self, left: &[u8], right: &[u8], lines: &[String]) {
        let turn = |line: &String| match line.split_once(' ') {
            Some(("left", id)) => format!("right {id}"),
            Some(("right", id)) => format!("left {id}"),
            _ => line.clone(),
        };
        let turned: Vec<String> = lines.iter().map(turn).collect();
        for (one, other, wanted) in [(left, right, lines), (right, left, &turned)] {
            let wanted: String = wanted.iter().map(|line| format!("{line}\n")).collect();
            assert_eq!(self.step(one, other).lines, wanted + "end\n");
        }
    }

    /// Adds a sheet that is none for this clause: on the left, on the right, and on both sides with
    /// each other that is none.
    fn refused(&mut self, bad: &[u8], way: Way, others: &[(Vec<u8>, Way)]) {
        let good = sheet(&[7, 9]);
        for (left, right, side) in
            [(bad, &good[..], 0), (bad, &[], 0), (&good, bad, 1), (&[], bad, 1)]
        {
            assert_eq!(self.step(left, right).way, Some(way));
            self.sides[side].insert(way);
        }
        for (other, second) in others {
            assert_eq!(self.step(bad, other).way, Some(way));
            self.both.insert((way, *second));
        }
    }

    /// What the paper names and these steps do not reach; empty if all is well.
    pub fn missing(&self) -> Vec<String> {
        let mut missing = Vec::new();
        for way in CLAUSES {
            for (seen, side) in self.sides.iter().zip(["left", "right"]) {
                if !seen.contains(&way) {
                    missing.push(format!("{} {} on the {side}", way.number(), way.words()));
                }
            }
            for second in CLAUSES {
                if !self.both.contains(&(way, second)) {
                    missing.push(format!(
                        "{} on the left, {} on the right",
                        way.words(),
                        second.words()
                    ));
                }
            }
        }
        for byte in (1..RECORD).filter(|byte| !self.single.contains(byte)) {
            missing.push(format!("byte {byte} alone differs"));
        }
        missing
    }
}

/// A record of this ID whose other bytes go by their numbers.
fn record(id: u8) -> Vec<u8> {
    let mut bytes: Vec<u8> =
        (0..RECORD).map(|n| id.wrapping_mul(17).wrapping_add(n as u8)).collect();
    bytes[0] = id;
    bytes
}

/// A sheet of these records.
fn sheet(ids: &[u8]) -> Vec<u8> {
    ids.iter().flat_map(|&id| record(id)).collect()
}

/// A pair that differs in every way: what the gate runs through `compare`.
pub fn example() -> (Vec<u8>, Vec<u8>) {
    let left = sheet(&[0x21, 0x0A, 0xFF, 0x03, 0x04, 0x80]);
    let mut right = sheet(&[0x80, 0x03, 0x0B, 0x21, 0x04, 0x01]);
    right[RECORD + 2] ^= 1;
    for byte in &mut right[3 * RECORD + 1..4 * RECORD] {
        *byte ^= 0x80;
    }
    right[5 * RECORD - 1] = !right[5 * RECORD - 1];
    (left, right)
}

/// The telephone's Selectors on an old sheet, and on one after the maker has mended them: the first
/// two differ in their kinds alone, the third in a pin besides.
pub fn mended() -> (Vec<u8>, Vec<u8>) {
    let selector = |id: u8, kind: u8, pin: u8| {
        let mut bytes = vec![0; RECORD];
        bytes[..10].copy_from_slice(&[id, kind, 1, 0, 0, 0, 2, 0, pin, 3]);
        bytes
    };
    let old = [selector(7, 0x15, 2), selector(8, 0x15, 1), selector(9, 0x15, 1)].concat();
    let mended = [selector(9, 0x05, 2), selector(8, 0x05, 1), selector(7, 0x05, 2)].concat();
    (old, mended)
}

/// All steps made on purpose, and more at random.
pub fn all(seed: u64) -> Pairs {
    let mut pairs = Pairs::default();
    sides(&mut pairs);
    bytes(&mut pairs);
    kinds(&mut pairs);
    refusals(&mut pairs);
    pairs.named = pairs.reach.clone();
    let mut rng = Rng::new(seed);
    for _ in 0..RANDOM {
        random(&mut rng, &mut pairs);
    }
    pairs
}

fn told(word: &str, ids: &[u8]) -> Vec<String> {
    ids.iter().map(|id| format!("{word} {id:02X}")).collect()
}

/// IDs on one side only, orders, no records and as many as there may be.
fn sides(pairs: &mut Pairs) {
    let full: Vec<u8> = (1..=ENTITIES as u8).collect();
    let high: Vec<u8> = full.iter().map(|id| 255 - (id - 1)).collect();
    let turned: Vec<u8> = full.iter().rev().copied().collect();
    pairs.says(&[], &[], &[]);
    pairs.says(&sheet(&[1]), &[], &told("left", &[1]));
    pairs.says(&sheet(&[255]), &sheet(&[255]), &[]);
    pairs.says(&sheet(&full), &[], &told("left", &full));
    pairs.says(&sheet(&turned), &[], &told("left", &full));
    pairs.says(&sheet(&full), &sheet(&full), &[]);
    pairs.says(&sheet(&full), &sheet(&turned), &[]);
    let mut rising = high.clone();
    rising.sort_unstable();
    let lines = [told("left", &full), told("right", &rising)].concat();
    pairs.says(&sheet(&full), &sheet(&high), &lines);
    pairs.says(&sheet(&turned), &sheet(&high), &lines);
    let lines: Vec<String> =
        ["left 01", "right 02", "right 7F", "left 80", "right 81", "left FE", "right FF"]
            .map(String::from)
            .into();
    pairs.says(&sheet(&[0xFE, 5, 1, 0x80]), &sheet(&[2, 0xFF, 0x81, 5, 0x7F]), &lines);
    let (left, right) = example();
    let changed =
        "changed 21 1 2 3 4 5 6 7 8 9 10 11 12 13 14 15 16 17 18 19 20 21 22 23 24 25 26 \
                   27 28 29 30 31";
    let lines: Vec<String> =
        ["right 01", "changed 03 2", "changed 04 31", "left 0A", "right 0B", changed, "left FF"]
            .map(String::from)
            .into();
    pairs.says(&left, &right, &lines);
}

/// Each byte alone, two of them, and all; in the first and in the last of 1, 2 and 32 records.
fn bytes(pairs: &mut Pairs) {
    for count in [1, 2, ENTITIES as u8] {
        let ids: Vec<u8> = (0..count).map(|index| 7 + 8 * index).collect();
        let left = sheet(&ids);
        for (at, id) in [(0, ids[0]), (left.len() - RECORD, ids[ids.len() - 1])] {
            for n in 1..RECORD {
                let mut right = left.clone();
                right[at + n] ^= 1 << (n % 8);
                pairs.says(&left, &right, &[format!("changed {id:02X} {n}")]);
                pairs.single.insert(n);
                right[at + 1] = left[at + 1].wrapping_add(100);
                let more =
                    if n == 1 { "changed ID 1".to_string() } else { format!("changed ID 1 {n}") };
                pairs.says(&left, &right, &[more.replace("ID", &format!("{id:02X}"))]);
            }
        }
    }
    pairs.says(&[6; RECORD], &record(6), &[changed_all(6)]);
}

/// A record of ID 6 with these bytes in their places.
fn with(bytes: &[(usize, u8)]) -> Vec<u8> {
    let mut one = record(6);
    bytes.iter().for_each(|&(n, byte)| one[n] = byte);
    one
}

/// "counts kinds 05 and 15 as the same byte", and no other two kinds, nor those two anywhere else.
fn kinds(pairs: &mut Pairs) {
    for kind in SELECTORS {
        let left = every_id(|_| kind);
        for first in (0..=255).step_by(ENTITIES) {
            let right = every_id(|at| first + at);
            let differs = |id: &u8| !SELECTORS.contains(&(first + (id - 1)));
            let ids = (1..=ENTITIES as u8).filter(differs);
            let lines: Vec<String> = ids.map(|id| format!("changed {id:02X} 1")).collect();
            pairs.says(&left, &right, &lines);
        }
    }
    for n in 1..RECORD {
        let (plain, printed) = (with(&[(n, 0x05)]), with(&[(n, 0x15)]));
        let line = format!("changed 06 {n}");
        pairs.says(&plain, &printed, if n == 1 { &[] } else { std::slice::from_ref(&line) });
        let (plain, printed) = (with(&[(1, 0x05), (n, 0x05)]), with(&[(1, 0x15), (n, 0x15)]));
        pairs.says(&plain, &printed, if n == 1 { &[] } else { std::slice::from_ref(&line) });
        if n > 1 {
            pairs.says(&with(&[(1, 0x15)]), &with(&[(1, 0x05), (n, 0xEE)]), &[line]);
        }
    }
    pairs.says(&with(&[(1, 0x15)]), &with(&[(1, 0x15)]), &[]);
    let (five, fifteen) = (sheet(&[0x05]), sheet(&[0x15]));
    pairs.says(&five, &fifteen, &["left 05".to_string(), "right 15".to_string()]);
    let telephone = |kind: u8| [sheet(&[1, 2]), with(&[(1, kind)]), sheet(&[0x15, 5])].concat();
    pairs.says(&telephone(0x05), &telephone(0x15), &[]);
    pairs.says(&telephone(0x05), &telephone(0x05), &[]);
    pairs.says(&telephone(0x15), &telephone(0x06), &["changed 06 1".to_string()]);
    let (old, mended) = mended();
    pairs.says(&old, &mended, &["changed 09 8".to_string()]);
}

/// As many records as there may be, alike but for their IDs and these kinds.
fn every_id(kind: impl Fn(u8) -> u8) -> Vec<u8> {
    let one = |at: u8| [&[at + 1, kind(at)][..], &[0x15; RECORD - 2]].concat();
    (0..ENTITIES as u8).flat_map(one).collect()
}

fn changed_all(id: u8) -> String {
    let bytes: Vec<String> = (1..RECORD).map(|byte| byte.to_string()).collect();
    format!("changed {id:02X} {}", bytes.join(" "))
}

/// Each refusal just given and just not, on each side, and each two at once.
fn refusals(pairs: &mut Pairs) {
    let ids: Vec<u8> = (1..=ENTITIES as u8).collect();
    let full = sheet(&ids);
    let more = |id: u8| [&full[..], &record(id)].concat();
    let swapped = |at: usize, id: u8| {
        let mut bytes = full.clone();
        bytes[at * RECORD] = id;
        bytes
    };
    let last = ENTITIES - 1;
    let mut bad = vec![
        (more(33), Way::NewLong),
        (more(0), Way::NewLong),
        (more(1), Way::NewLong),
        (more(33)[..SHEET + 1].to_vec(), Way::NewLong),
        (more(33)[..SHEET + 16].to_vec(), Way::NewLong),
        (vec![9; 2 * SHEET], Way::NewLong),
        (swapped(0, 0), Way::NewIdZero),
        (swapped(last, 0), Way::NewIdZero),
        (sheet(&[0]), Way::NewIdZero),
        (vec![0; SHEET], Way::NewIdZero),
        (swapped(0, ids[last]), Way::NewIdTwice),
        (swapped(last, ids[last - 1]), Way::NewIdTwice),
        (swapped(1, 1), Way::NewIdTwice),
        (sheet(&[5, 255, 255]), Way::NewIdTwice),
    ];
    for length in [1, 16, 31, 33, 48, SHEET / 2 + 16, SHEET - 16, SHEET - 1] {
        bad.push((full[..length].to_vec(), Way::NewUneven));
    }
    bad.push((vec![0; SHEET - 1], Way::NewUneven));
    let firsts: Vec<(Vec<u8>, Way)> = CLAUSES
        .iter()
        .map(|way| bad.iter().find(|one| one.1 == *way).expect("each clause").clone())
        .collect();
    for (bytes, way) in &bad {
        pairs.refused(bytes, *way, &firsts);
    }
    // Nothing else of a record is judged.
    pairs.says(&[0xFF; RECORD], &[], &["left FF".to_string()]);
    let longest = STEP - 2;
    assert_eq!(pairs.step(&vec![1; longest], &[]).way, Some(Way::NewLong));
    assert_eq!(pairs.step(&[], &vec![1; longest]).way, Some(Way::NewLong));
}

/// Adds a pair at random: a sheet and one that was made from it, now and then with something that
/// makes one of them no sheet.
pub fn random(rng: &mut Rng, pairs: &mut Pairs) {
    let mut ids: Vec<u8> = (1..=255).collect();
    rng.shuffle(&mut ids);
    let count = *rng.pick(&[0, 1, 2, 3, 5, 8, 16, 30, 31, 32]);
    let (here, spare) = ids.split_at(count);
    let mut left: Vec<Vec<u8>> = here.iter().map(|&id| some_record(rng, id)).collect();
    let mut right = left.clone();
    if rng.one_in(2) {
        rng.shuffle(&mut right);
    }
    for change in 0..rng.below(8) {
        alter(rng, &mut right, spare[change]);
    }
    right.truncate(ENTITIES);
    if rng.one_in(2) {
        std::mem::swap(&mut left, &mut right);
    }
    let (mut left, mut right) = (left.concat(), right.concat());
    for bytes in [&mut left, &mut right] {
        if rng.one_in(8) {
            spoil(rng, bytes);
        }
    }
    pairs.step(&left, &right);
}

fn some_record(rng: &mut Rng, id: u8) -> Vec<u8> {
    let few = rng.one_in(2);
    let mut bytes: Vec<u8> =
        (0..RECORD).map(|_| if few { rng.byte() & 1 } else { rng.byte() }).collect();
    bytes[0] = id;
    if rng.one_in(3) {
        bytes[1] = *rng.pick(&SELECTORS);
    }
    bytes
}

/// One record gone, one come, or some of its bytes changed, or its kind to a Selector's.
fn alter(rng: &mut Rng, records: &mut Vec<Vec<u8>>, fresh: u8) {
    match rng.below(5) {
        0 => records.insert(rng.below(records.len() + 1), some_record(rng, fresh)),
        _ if records.is_empty() => (),
        1 => drop(records.remove(rng.below(records.len()))),
        2 => {
            let at = rng.below(records.len());
            records[at][1] = *rng.pick(&SELECTORS);
        }
        _ => {
            let at = rng.below(records.len());
            for _ in 0..*rng.pick(&[1, 1, 2, 5, 31]) {
                records[at][1 + rng.below(RECORD - 1)] = rng.byte();
            }
        }
    }
}

/// A length or an ID that no sheet has, or may have.
fn spoil(rng: &mut Rng, bytes: &mut Vec<u8>) {
    let records = bytes.len() / RECORD;
    match rng.below(4) {
        0 => bytes.truncate(rng.below(bytes.len() + 1)),
        1 => bytes.extend(vec![rng.byte(); rng.below(2 * SHEET)]),
        2 if records > 0 => bytes[rng.below(records) * RECORD] = 0,
        _ if records > 1 => bytes[rng.below(records) * RECORD] = bytes[rng.below(records) * RECORD],
        _ => bytes.push(rng.byte()),
    }
}

#[cfg(test)]
mod tests {
    use super::*;
    use crate::generator::rng::steps;

    #[test]
    fn steps_at_random_are_steps() {
        let pairs: Pairs = steps(4, 400, random);
        assert_eq!(sheets::program(&pairs.tape.bytes), pairs.tape.printed);
        assert!(CLAUSES.iter().all(|way| pairs.reach.ways.contains_key(way)));
    }
}
