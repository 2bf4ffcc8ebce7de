//! Steps of `sheets` that move a sheet from one form to the other (document 02, No. 7), made on
//! purpose, each with its answer, and at random; and runs of the program `move`.

use std::collections::BTreeSet;

use super::rng::Rng;
use super::script::{step_bytes, Reach};
use super::tape::Tape;
use crate::lend;
use crate::mover::Wanted;
use crate::numbers::{ENTITIES, LENT, MARK, OLD_RECORD, RECORD, SHEET, STEP};
use crate::relay::Printed;
use crate::sheets::{self, TO_NEW, TO_OLD};
use crate::ways::Way;

/// Moves at random.
const RANDOM: usize = 600;
/// The clauses of each way, in the order in which they are given.
const CLAUSES: [(u8, &[Way]); 2] = [
    (TO_NEW, &[Way::OldLong, Way::OldUneven, Way::OldIdZero, Way::OldIdTwice, Way::RoomForNew]),
    (
        TO_OLD,
        &[
            Way::NewLong,
            Way::NewUneven,
            Way::NewIdZero,
            Way::NewIdTwice,
            Way::LastSixteen,
            Way::RoomForOld,
        ],
    ),
];

/// One step's bytes.
pub fn move_bytes(kind: u8, room: usize, sheet: &[u8]) -> Vec<u8> {
    step_bytes(kind, &move_body(room, sheet))
}

fn move_body(room: usize, sheet: &[u8]) -> Vec<u8> {
    [&(room as u16).to_le_bytes()[..], sheet].concat()
}

/// The steps while they are being written, with what the second program prints.
#[derive(Clone, Debug, Default)]
pub struct Moves {
    /// The steps, with what the program prints for them.
    pub tape: Tape,
    /// What was reached.
    pub reach: Reach,
    /// What was reached on purpose, before anything at random.
    pub named: Reach,
    /// Clauses met each way.
    ways: BTreeSet<(u8, Way)>,
    /// Bytes of a record that alone were not 00 among the last sixteen.
    single: BTreeSet<usize>,
}

impl Moves {
    /// Adds a step.
    pub fn step(&mut self, kind: u8, room: usize, sheet: &[u8]) -> Printed {
        let body = move_body(room, sheet);
        let printed = sheets::step(kind, &body).expect("a good step");
        self.tape.push(&step_bytes(kind, &body), &printed.lines);
        self.reach.count_move(&printed);
        printed
    }

    /// Adds a move that has to write these bytes and leave those past them.
    fn moves(&mut self, kind: u8, room: usize, sheet: &[u8], moved: &[u8]) {
        let mut lent = vec![MARK; room];
        lent[..moved.len()].copy_from_slice(moved);
        let lines = format!("moved {}\n{}", moved.len(), lend::shown(&lent));
        assert_eq!(self.step(kind, room, sheet).lines, lines);
    }

    /// Adds a move that has to be refused and to write nothing.
    fn refused(&mut self, kind: u8, room: usize, sheet: &[u8], way: Way) {
        let printed = self.step(kind, room, sheet);
        let lines = format!("refused {}\nrest {room}\n", way.number());
        assert_eq!((printed.way, printed.lines), (Some(way), lines));
        self.ways.insert((kind, way));
    }

    /// Adds a move that is refused whatever the room.
    fn never(&mut self, kind: u8, sheet: &[u8], way: Way) {
        for room in [0, 1, SHEET, LENT] {
            self.refused(kind, room, sheet, way);
        }
    }

    /// What the paper names and these steps do not reach; empty if all is well.
    pub fn missing(&self) -> Vec<String> {
        let mut missing = Vec::new();
        for (kind, clauses) in CLAUSES {
            for way in clauses.iter().filter(|way| !self.ways.contains(&(kind, **way))) {
                missing.push(format!("a move of kind {kind} refused: {}", way.words()));
            }
        }
        for byte in (OLD_RECORD..RECORD).filter(|byte| !self.single.contains(byte)) {
            missing.push(format!("byte {byte} alone is not 00"));
        }
        missing
    }
}

/// An old record of this ID, no byte of which is 00.
fn old_record(id: u8) -> Vec<u8> {
    let mut bytes: Vec<u8> =
        (0..OLD_RECORD).map(|n| id.wrapping_mul(29).wrapping_add(n as u8).max(1)).collect();
    bytes[0] = id;
    bytes
}

/// An old sheet of these IDs.
fn old(ids: &[u8]) -> Vec<u8> {
    ids.iter().flat_map(|&id| old_record(id)).collect()
}

/// The new sheet of an old one: "the first eight as before, then twenty-four source IDs".
fn new_of(old: &[u8]) -> Vec<u8> {
    old.chunks(OLD_RECORD).flat_map(|record| [record, &[0; 16]].concat()).collect()
}

/// A new sheet of these IDs that has an old form.
fn new(ids: &[u8]) -> Vec<u8> {
    new_of(&old(ids))
}

/// IDs from 1 on, falling after the first.
fn ids(count: usize) -> Vec<u8> {
    (0..count).map(|at| if at == 0 { 1 } else { 255 - at as u8 }).collect()
}

/// The old sheet of the telephone of source document 004, with its printed Selectors.
pub fn old_telephone() -> Vec<u8> {
    let records: [&[u8]; 9] = [
        &[0x01, 0x02, 1, 0, 0, 0, 0, 0],
        &[0x02, 0x02, 1, 0, 0, 0, 0, 0],
        &[0x03, 0x02, 1, 0, 0, 0, 0, 0],
        &[0x04, 0x03, 1, 0, 0, 0, 1, 0, 7],
        &[0x05, 0x03, 1, 0, 0, 0, 1, 0, 8],
        &[0x06, 0x03, 1, 0, 0, 0, 1, 0, 9],
        &[0x07, 0x15, 1, 0, 0, 0, 2, 0, 2, 3],
        &[0x08, 0x15, 1, 0, 0, 0, 2, 0, 1, 3],
        &[0x09, 0x15, 1, 0, 0, 0, 2, 0, 1, 2],
    ];
    let whole = |record: &&[u8]| [record, &[0; OLD_RECORD][record.len()..]].concat();
    records.iter().flat_map(whole).collect()
}

/// All steps made on purpose, and more at random.
pub fn all(seed: u64) -> Moves {
    let mut moves = Moves::default();
    both_ways(&mut moves);
    rooms(&mut moves);
    lengths(&mut moves);
    wrong_ids(&mut moves);
    last_sixteen(&mut moves);
    order(&mut moves);
    odd_sheets(&mut moves);
    moves.named = moves.reach.clone();
    let mut rng = Rng::new(seed);
    for _ in 0..RANDOM {
        random(&mut rng, &mut moves);
    }
    moves
}

/// "Old to new and back gives the old bytes", of no records up to 32, with just enough room and more.
fn both_ways(moves: &mut Moves) {
    for count in [0, 1, 2, 3, 16, 31, 32] {
        let (old, new) = (old(&ids(count)), new(&ids(count)));
        for room in [new.len(), new.len() + 1, new.len() + 100, LENT] {
            moves.moves(TO_NEW, room, &old, &new);
        }
        for room in [old.len(), old.len() + 1, new.len(), SHEET + 1, LENT] {
            moves.moves(TO_OLD, room, &new, &old);
        }
    }
    let telephone = old_telephone();
    moves.moves(TO_NEW, LENT, &telephone, &new_of(&telephone));
    moves.moves(TO_OLD, LENT, &new_of(&telephone), &telephone);
}

/// 44: one byte short, half of what is needed, none.
fn rooms(moves: &mut Moves) {
    for count in [1, 2, 31, 32] {
        let (old, new) = (old(&ids(count)), new(&ids(count)));
        for room in [0, 1, old.len(), new.len() - RECORD, new.len() - 16, new.len() - 1] {
            moves.refused(TO_NEW, room, &old, Way::RoomForNew);
        }
        for room in [0, 1, old.len() / 2, old.len() - OLD_RECORD, old.len() - 1] {
            moves.refused(TO_OLD, room, &new, Way::RoomForOld);
        }
    }
}

/// 41 by each form's own numbers.
fn lengths(moves: &mut Moves) {
    let (more_old, more_new) = (old(&ids(ENTITIES + 1)), new(&ids(ENTITIES + 1)));
    for length in [513, 527, 528] {
        moves.never(TO_NEW, &more_old[..length], Way::OldLong);
    }
    for length in [1025, 1040, 1055, 1056] {
        moves.never(TO_OLD, &more_new[..length], Way::NewLong);
    }
    for length in [544, SHEET, LENT, STEP - 2] {
        moves.refused(TO_NEW, LENT, &vec![1; length], Way::OldLong);
    }
    for length in [2 * SHEET, STEP - 2] {
        moves.refused(TO_OLD, LENT, &vec![1; length], Way::NewLong);
    }
    for length in [1, 8, 15, 17, 24, 31, 33, 511] {
        moves.never(TO_NEW, &more_old[..length], Way::OldUneven);
    }
    for length in [1, 15, 16, 17, 31, 33, 48, 80, 496, 528, 1008, 1023] {
        moves.never(TO_OLD, &more_new[..length], Way::NewUneven);
    }
    moves.moves(TO_NEW, LENT, &more_old[..512], &new(&ids(ENTITIES)));
    moves.moves(TO_OLD, LENT, &more_new[..SHEET], &old(&ids(ENTITIES)));
}

/// 42: zero and twice, in the first record, in the last, and side by side.
fn wrong_ids(moves: &mut Moves) {
    for (count, at, id) in [(1, 0, 0), (2, 1, 0), (32, 0, 0), (32, 31, 0), (32, 16, 0)] {
        let mut some = ids(count);
        some[at] = id;
        moves.never(TO_NEW, &old(&some), Way::OldIdZero);
        moves.never(TO_OLD, &new(&some), Way::NewIdZero);
    }
    for (count, at, from) in [(2, 1, 0), (3, 2, 0), (32, 31, 0), (32, 31, 30), (32, 1, 0)] {
        let mut some = ids(count);
        some[at] = some[from];
        moves.never(TO_NEW, &old(&some), Way::OldIdTwice);
        moves.never(TO_OLD, &new(&some), Way::NewIdTwice);
    }
}

/// "refused exactly if some record has a byte other than 00 in its last sixteen": each byte of it
/// alone, in the only record, in the first and in the last of several; and each byte before it.
fn last_sixteen(moves: &mut Moves) {
    for n in OLD_RECORD..RECORD {
        for (count, at, byte) in
            [(1, 0, 1), (1, 0, 0xFF), (2, 1, 0x80), (3, 1, 0xAA), (32, 0, 2), (32, 31, 1)]
        {
            let mut sheet = new(&ids(count));
            sheet[at * RECORD + n] = byte;
            moves.refused(TO_OLD, LENT, &sheet, Way::LastSixteen);
            moves.refused(TO_OLD, sheet.len() / 2, &sheet, Way::LastSixteen);
            moves.single.insert(n);
        }
    }
    for n in 0..OLD_RECORD {
        let mut only = vec![0; OLD_RECORD];
        only[0] = 9;
        only[n] = 0xC3;
        moves.moves(TO_NEW, RECORD, &only, &new_of(&only));
        moves.moves(TO_OLD, OLD_RECORD, &new_of(&only), &only);
    }
    moves.never(TO_OLD, &[7; RECORD], Way::LastSixteen);
    let all: Vec<u8> = ids(ENTITIES).iter().flat_map(|&id| [id; RECORD]).collect();
    moves.never(TO_OLD, &all, Way::LastSixteen);
}

/// Two reasons at once: 41 before 42 before 43 before 44.
fn order(moves: &mut Moves) {
    let mut tailed = new(&[5, 6]);
    tailed[2 * RECORD - 1] = 1;
    for room in [0, 1, OLD_RECORD, 2 * OLD_RECORD - 1] {
        moves.refused(TO_OLD, room, &tailed, Way::LastSixteen);
    }
    let mut zero = tailed.clone();
    zero[RECORD] = 0;
    moves.never(TO_OLD, &zero, Way::NewIdZero);
    let mut twice = tailed.clone();
    twice[RECORD] = 5;
    moves.never(TO_OLD, &twice, Way::NewIdTwice);
    let mut behind = [&tailed[RECORD..], &tailed[..RECORD]].concat();
    behind[RECORD] = 0;
    moves.never(TO_OLD, &behind, Way::NewIdZero);
    moves.never(TO_OLD, &zero[..RECORD + 16], Way::NewUneven);
    moves.never(TO_OLD, &vec![0; SHEET + RECORD], Way::NewLong);
    moves.never(TO_OLD, &[0; 48], Way::NewUneven);
    moves.never(TO_NEW, &[0; 24], Way::OldUneven);
    moves.never(TO_NEW, &vec![0; SHEET / 2 + OLD_RECORD], Way::OldLong);
    moves.never(TO_NEW, &[0; 32], Way::OldIdZero);
    moves.never(TO_NEW, &[4; 32], Way::OldIdTwice);
}

/// A sheet of the form that is wanted already, records that end in what the room is full of, and
/// kinds, which are moved as they are.
fn odd_sheets(moves: &mut Moves) {
    moves.never(TO_NEW, &new(&[5, 6]), Way::OldIdZero);
    moves.refused(TO_NEW, LENT, &new(&ids(ENTITIES)), Way::OldLong);
    moves.never(TO_OLD, &old(&[5, 6]), Way::LastSixteen);
    moves.never(TO_OLD, &old(&[5, 6, 7]), Way::NewUneven);
    let marks = [[1; OLD_RECORD], [MARK; OLD_RECORD]].concat();
    for room in [32, 33, LENT] {
        moves.moves(TO_OLD, room, &new_of(&marks), &marks);
    }
    moves.moves(TO_NEW, 64, &marks, &new_of(&marks));
    for kind in [0x05, 0x15, 0x00, 0xFF] {
        let mut selector = old_record(200);
        selector[1] = kind;
        moves.moves(TO_NEW, 40, &selector, &new_of(&selector));
        moves.moves(TO_OLD, 40, &new_of(&selector), &selector);
    }
}

/// Adds a move at random: good more often than not, with room near what is needed.
pub fn random(rng: &mut Rng, moves: &mut Moves) {
    let (wanted, sheet) = some_sheet(rng);
    let (kind, need) = match wanted {
        Wanted::New => (TO_NEW, 2 * sheet.len()),
        Wanted::Old => (TO_OLD, sheet.len() / 2),
    };
    let room = match rng.below(8) {
        0 => rng.below(LENT + 1),
        1 => need.max(1) - 1,
        2 => need / 2,
        3 => LENT,
        _ => need + rng.below(3),
    };
    moves.step(kind, room.min(LENT), &sheet);
}

/// A sheet at random, and the form that is wanted of it.
pub fn some_sheet(rng: &mut Rng) -> (Wanted, Vec<u8>) {
    let mut ids: Vec<u8> = (1..=255).collect();
    rng.shuffle(&mut ids);
    let count = *rng.pick(&[0, 1, 2, 3, 5, 8, 16, 30, 31, 32]);
    let mut sheet = Vec::new();
    for &id in &ids[..count] {
        sheet.push(id);
        sheet.extend((1..OLD_RECORD).map(|_| rng.byte() & rng.byte()));
    }
    let wanted = *rng.pick(&[Wanted::New, Wanted::Old]);
    let mut record = OLD_RECORD;
    if wanted == Wanted::Old {
        sheet = new_of(&sheet);
        record = RECORD;
        if count > 0 && rng.one_in(4) {
            sheet[rng.below(count) * RECORD + OLD_RECORD + rng.below(16)] = rng.byte();
        }
    }
    if rng.one_in(6) {
        spoil(rng, &mut sheet, record);
    }
    (wanted, sheet)
}

/// A length or an ID that no sheet has, or may have.
fn spoil(rng: &mut Rng, sheet: &mut Vec<u8>, record: usize) {
    let count = sheet.len() / record;
    match rng.below(4) {
        0 => sheet.truncate(rng.below(sheet.len() + 1)),
        1 => sheet.extend(vec![rng.byte(); *rng.pick(&[1, 16, 32, 600, 1100])]),
        2 if count > 0 => sheet[rng.below(count) * record] = 0,
        _ if count > 1 => sheet[rng.below(count) * record] = sheet[rng.below(count) * record],
        _ => sheet.push(rng.byte()),
    }
}

#[cfg(test)]
mod tests {
    use super::*;
    use crate::generator::rng::steps;
    use crate::mover::{mover, printed};

    #[test]
    fn steps_at_random_are_steps() {
        let moves: Moves = steps(6, 1000, random);
        assert_eq!(sheets::program(&moves.tape.bytes), moves.tape.printed);
        let clauses = CLAUSES.iter().flat_map(|(_, clauses)| clauses.iter());
        for way in clauses {
            assert!(moves.reach.ways.contains_key(way), "{}", way.words());
        }
    }

    /// "Old to new and back gives the old bytes"; "otherwise the trip back to new gives the same
    /// bytes".
    #[test]
    fn every_trip_comes_back() {
        let mut rng = Rng::new(7);
        let mut trips = 0;
        for _ in 0..2000 {
            let (wanted, sheet) = some_sheet(&mut rng);
            let mut room = [0; SHEET];
            if let Ok(count) = mover(wanted, &sheet, &mut room) {
                let back = if wanted == Wanted::New { Wanted::Old } else { Wanted::New };
                assert_eq!(printed(back, &room[..count]), sheet);
                trips += 1;
            }
        }
        assert!(trips > 1000, "{trips}");
    }

    /// The old telephone's sheet, moved, is the one that the reader writes for the mended telephone,
    /// but for the kind of its Selectors.
    #[test]
    fn the_telephone_then_and_now() {
        use crate::differences::differences;
        use crate::generator::build::{telephone, Telephone};
        let mut sheet = [0; SHEET];
        let answer = crate::reader::read(&telephone(Telephone::Tables, 2, 0x61), &mut sheet);
        let moved = printed(Wanted::New, &old_telephone());
        assert_eq!(differences(&moved, &sheet[..answer.entities * RECORD]), Ok(vec![]));
        assert_ne!(moved, sheet[..answer.entities * RECORD]);
    }
}
