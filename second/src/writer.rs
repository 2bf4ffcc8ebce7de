//! The writer: "from a list of entities with all their fields, a writer makes the header and the
//! run" (document 02, No. 9); and the program `writer`.
//!
//! An entity of the list is its kind, its ID and its fields in the order of the descriptor, which is
//! two bytes longer: its length and 24 stand in front. Kind 15 hex is a printed Selector, with the
//! fields of a Selector.
//!
//! A step of `writer` is two bytes m, two bytes k and k collection numbers, one byte e and e entities,
//! each of them two bytes q and q bytes (low byte first). m bytes are lent, each of them AA. It prints
//! how many bytes were written, or the refusal, then the lent bytes as `lend` shows them.

use crate::cut::{count_breach, two_bytes, Descriptor, CLASS, HEADER_OPENING};
use crate::entity::{self, Entity};
use crate::lend;
use crate::numbers::{COLLECTION, DESCRIPTOR, FIELDS, MARK, ROOM, SELECTORS};
use crate::relay::{each_step, BadStep, Printed};
use crate::topology;
use crate::ways::{Refusal, Way};

/// What the writer is given.
#[derive(Clone, Debug, Default, PartialEq, Eq)]
pub struct List {
    /// The collection numbers of the header, which 7 does not judge here.
    pub collection: Vec<u8>,
    /// The entities.
    pub entities: Vec<Vec<u8>>,
}

/// Writes header and run to the front of a lent buffer, and answers how many bytes. "Refusals, in the
/// reader's order: 8 to 13 and 17 as the reader would give them, ... the place being the entity's index
/// from 0 in the list, and 0 for 8, 47 and 48; then 47 ...; then 48 if the buffer is too short, which
/// stays untouched."
pub fn write(list: &List, lent: &mut [u8]) -> Result<usize, Refusal> {
    if let Some(way) = count_breach(list.entities.len()) {
        return Err(Refusal::at(way, 0));
    }
    let run: Vec<Vec<u8>> = list.entities.iter().map(|fields| descriptor(fields)).collect();
    let by_index = |(place, bytes)| {
        layout(&Descriptor { place, bytes }).map_err(|way| Refusal::at(way, place))
    };
    let layouts = run.iter().map(Vec::as_slice).enumerate().map(by_index).collect();
    topology::judge(topology::laid_out(layouts)?)?;
    if list.collection.len() > COLLECTION {
        return Err(Refusal::at(Way::CollectionLong, 0));
    }
    let run = run.concat();
    let bytes = [header(&list.collection, run.len()), run].concat();
    let room = lent.get_mut(..bytes.len()).ok_or(Refusal::at(Way::BufferShort, 0))?;
    room.copy_from_slice(&bytes);
    Ok(bytes.len())
}

/// The descriptor of these bytes. One that would pass 255 bytes has no length byte; 9 refuses it.
fn descriptor(fields: &[u8]) -> Vec<u8> {
    [&[(2 + fields.len()) as u8, CLASS], fields].concat()
}

/// The header: "bytes 1 to 4 are 24 01 00 01, byte 7 is n, length 8+n"; "Bytes 5..6 are the length of
/// header and run together".
fn header(collection: &[u8], run: usize) -> Vec<u8> {
    let length = 8 + collection.len();
    let total = ((length + run) as u16).to_le_bytes();
    let n = collection.len() as u8;
    [&[length as u8][..], &HEADER_OPENING, &total, &[n], collection].concat()
}

/// The layout of an entity: "9 also for an entity that would pass 255 bytes", whatever else it is; 17
/// for a printed Selector, which the list names by its kind. A Selector with one byte more than its
/// fields is none of the kinds.
fn layout<'a>(descriptor: &Descriptor<'a>) -> Result<Entity<'a>, Way> {
    let bytes = descriptor.bytes;
    if bytes.len() > DESCRIPTOR {
        return Err(Way::EntityLong);
    }
    let [selector, printed] = SELECTORS;
    if bytes.get(2) == Some(&printed) {
        let fields = [&[bytes[0], bytes[1], selector], &bytes[3..]].concat();
        let has_fields = entity::read(&Descriptor { bytes: &fields, ..*descriptor }).is_ok();
        return Err(if has_fields { Way::EntityPrinted } else { Way::EntityPrintedWrong });
    }
    entity::read(descriptor).map_err(|way| match way {
        Way::SelectorPrinted => Way::EntityPadded,
        _ => way,
    })
}

/// The program `writer`: runs over a whole input.
pub fn program(input: &[u8]) -> String {
    each_step(input, |rest| take(rest).map(|(m, list, after)| (step(m, &list), after)))
}

/// The first step of what is not empty: the room, the list, and what follows. An m over 9,000, a k or
/// a q over 600, or an input that ends within a step is none.
fn take(input: &[u8]) -> Result<(usize, List, &[u8]), BadStep> {
    let (m, rest) = number(input, ROOM)?;
    let (collection, rest) = counted(rest)?;
    let (&e, mut rest) = rest.split_first().ok_or(BadStep)?;
    let mut entities = Vec::new();
    for _ in 0..e {
        let (entity, after) = counted(rest)?;
        entities.push(entity.to_vec());
        rest = after;
    }
    Ok((m, List { collection: collection.to_vec(), entities }, rest))
}

/// A number of two bytes that is at most so large, and what follows it.
fn number(input: &[u8], most: usize) -> Result<(usize, &[u8]), BadStep> {
    if input.len() < 2 || two_bytes(input, 0) > most {
        return Err(BadStep);
    }
    Ok((two_bytes(input, 0), &input[2..]))
}

/// Bytes behind the number of them, and what follows.
fn counted(input: &[u8]) -> Result<(&[u8], &[u8]), BadStep> {
    let (count, rest) = number(input, FIELDS)?;
    rest.split_at_checked(count).ok_or(BadStep)
}

/// One step.
pub fn step(m: usize, list: &List) -> Printed {
    let mut lent = vec![MARK; m];
    let (line, way) = match write(list, &mut lent) {
        Ok(count) => (format!("wrote {count}\n"), None),
        Err(refusal) => (refusal.line(), Some(refusal.way)),
    };
    Printed { lines: line + &lend::shown(&lent), way }
}

#[cfg(test)]
mod tests {
    use super::*;
    use crate::generator::build::case_a;
    use crate::generator::lists::{list_bytes, taken_apart};

    /// The list of case A.
    fn case_a_list() -> List {
        let fields: [&[u8]; 3] = [
            &[0x02, 0x01, 0x01, 0x02, 0x00, 0x01, 0x00, 0x00, 0x00, 0x00],
            &[0x06, 0x02, 0x01, 0x01, 0x01, 0x02, 0x00],
            &[0x03, 0x03, 0x01, 0x01, 0x00, 0x02, 0x00],
        ];
        List { collection: vec![1], entities: fields.map(<[u8]>::to_vec).into() }
    }

    /// The list after a change, with enough room.
    fn refused(change: impl FnOnce(&mut List)) -> Option<(u16, usize)> {
        let mut list = case_a_list();
        change(&mut list);
        let mut lent = [9; ROOM];
        let refusal = write(&list, &mut lent).err()?;
        assert_eq!(lent, [9; ROOM]);
        Some((refusal.way.number(), refusal.place))
    }

    #[test]
    fn the_header_and_the_run_of_case_a() {
        let mut lent = [9; 41];
        assert_eq!(write(&case_a_list(), &mut lent), Ok(39));
        assert_eq!(lent[..39], case_a()[18..57]);
        assert_eq!(lent[39..], [9; 2]);
        assert_eq!(taken_apart(&case_a()), Some(case_a_list()));
    }

    #[test]
    fn the_buffer_has_to_hold_them() {
        for length in [0, 1, 38] {
            let mut lent = vec![9; length];
            let refusal = Refusal::at(Way::BufferShort, 0);
            assert_eq!(write(&case_a_list(), &mut lent), Err(refusal));
            assert_eq!(lent, vec![9; length]);
        }
    }

    #[test]
    fn the_place_is_the_index_in_the_list() {
        assert_eq!(refused(|_| {}), None);
        assert_eq!(refused(|list| list.entities[2][0] = 7), Some((9, 2)));
        assert_eq!(refused(|list| list.entities[1].truncate(4)), Some((9, 1)));
        assert_eq!(refused(|list| list.entities[0].clear()), Some((9, 0)));
        assert_eq!(refused(|list| list.entities[1][1] = 1), Some((10, 1)));
        assert_eq!(refused(|list| list.entities[2][5] = 9), Some((11, 2)));
        assert_eq!(refused(|list| list.entities[1][2] = 2), Some((12, 1)));
        assert_eq!(refused(|list| list.entities[1].push(0)), Some((13, 1)));
    }

    #[test]
    fn eight_and_forty_seven_at_0() {
        assert_eq!(refused(|list| list.entities.clear()), Some((8, 0)));
        assert_eq!(refused(|list| list.entities.resize(33, vec![])), Some((8, 0)));
        assert_eq!(refused(|list| list.entities.resize(32, vec![])), Some((9, 3)));
        assert_eq!(refused(|list| list.collection = vec![4; 247]), None);
        assert_eq!(refused(|list| list.collection = vec![4; 248]), Some((47, 0)));
    }

    #[test]
    fn an_entity_that_would_pass_255_bytes() {
        let resized = |length: usize| refused(|list| list.entities[1].resize(length - 2, 0));
        assert_eq!(resized(255), Some((13, 1)));
        assert_eq!(resized(256), Some((9, 1)));
        assert_eq!(resized(265), Some((9, 1)));
    }

    #[test]
    fn a_printed_selector_by_its_kind() {
        let selector = |fields: &[u8]| refused(|list| list.entities[1] = fields.to_vec());
        assert_eq!(selector(&[0x05, 2, 1, 1, 0]), None);
        assert_eq!(selector(&[0x15, 2, 1, 1, 0]), Some((17, 1)));
        assert_eq!(selector(&[0x15, 2, 1, 0, 1, 0]), Some((9, 1)));
        assert_eq!(selector(&[0x15, 2, 25, 1, 0]), Some((9, 1)));
        assert_eq!(selector(&[0x15]), Some((9, 1)));
        assert_eq!(selector(&[0x05, 2, 1, 0, 1, 0]), Some((9, 1)));
        assert_eq!(selector(&[0x15, 0, 1, 99, 0]), Some((17, 1)));
    }

    #[test]
    fn what_is_no_step_ends_the_program() {
        let list = case_a_list();
        let good = list_bytes(40, &list);
        let wrote = program(&good);
        assert!(wrote.starts_with("wrote 39\n09 24 01 00 01 27 00 01 01 0C 24"), "{wrote}");
        assert!(wrote.ends_with("\nrest 1\n"), "{wrote}");
        assert_eq!(program(&[]), "");
        for end in 1..good.len() {
            assert_eq!(program(&good[..end]), "bad step\n", "{end}");
        }
        assert_eq!(program(&list_bytes(9001, &list)), "bad step\n");
        let none = List::default();
        assert_eq!(program(&list_bytes(9000, &none)), "refused 8 at 0\nrest 9000\n");
        let long = |k, q| List { collection: vec![1; k], entities: vec![vec![2; q]] };
        assert_eq!(program(&list_bytes(3, &long(600, 600))), "refused 9 at 0\nrest 3\n");
        assert_eq!(program(&list_bytes(3, &long(601, 600))), "bad step\n");
        assert_eq!(program(&list_bytes(3, &long(600, 601))), "bad step\n");
    }
}
