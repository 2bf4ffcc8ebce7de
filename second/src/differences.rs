//! What changed between two sheets (document 02, Nos. 4, 6 and 7).

use std::collections::BTreeMap;
use std::fmt;

use crate::forms::NEW;
use crate::numbers::{RECORD, SELECTORS};
use crate::ways::Way;

/// Where a record has its kind.
const KIND: usize = 1;

/// One difference: an ID, and on which side it stands or which bytes differ.
#[derive(Clone, Debug, PartialEq, Eq)]
pub enum Difference {
    /// "`left ID` ... for one that stands on that side only".
    Left(u8),
    /// "or `right ID`".
    Right(u8),
    /// "`changed ID` with the numbers of the bytes that differ".
    Changed(u8, Vec<usize>),
}

impl fmt::Display for Difference {
    /// "IDs are two capital hex digits, byte numbers decimal, with single spaces."
    fn fmt(&self, out: &mut fmt::Formatter) -> fmt::Result {
        match self {
            Difference::Left(id) => write!(out, "left {id:02X}"),
            Difference::Right(id) => write!(out, "right {id:02X}"),
            Difference::Changed(id, bytes) => {
                write!(out, "changed {id:02X}")?;
                bytes.iter().try_for_each(|byte| write!(out, " {byte}"))
            }
        }
    }
}

/// The differences by rising ID, or why one of the two is no sheet: "both of the left and then
/// those of the right".
pub fn differences(left: &[u8], right: &[u8]) -> Result<Vec<Difference>, Way> {
    let (left, right) = (records(left)?, records(right)?);
    let mut ids: Vec<u8> = left.keys().chain(right.keys()).copied().collect();
    ids.sort_unstable();
    ids.dedup();
    let one = |id: u8| match (left.get(&id), right.get(&id)) {
        (Some(before), Some(after)) => {
            let bytes: Vec<usize> =
                (0..RECORD).filter(|&n| !same(n, before[n], after[n])).collect();
            (!bytes.is_empty()).then_some(Difference::Changed(id, bytes))
        }
        (Some(_), None) => Some(Difference::Left(id)),
        _ => Some(Difference::Right(id)),
    };
    Ok(ids.into_iter().filter_map(one).collect())
}

/// Whether byte n of two records counts as the same: "counts kinds 05 and 15 as the same byte".
fn same(n: usize, before: u8, after: u8) -> bool {
    let selector = |kind| n == KIND && SELECTORS.contains(&kind);
    before == after || selector(before) && selector(after)
}

/// The records of a sheet by their IDs: "The compare program reads the new form".
fn records(sheet: &[u8]) -> Result<BTreeMap<u8, &[u8]>, Way> {
    Ok(NEW.records(sheet)?.into_iter().map(|record| (record[0], record)).collect())
}

#[cfg(test)]
mod tests {
    use super::*;

    fn sheet(ids: &[u8]) -> Vec<u8> {
        ids.iter().flat_map(|&id| [[id; 1].as_slice(), &[7; 31]].concat()).collect()
    }

    fn told(left: &[u8], right: &[u8]) -> Vec<String> {
        let all = differences(left, right).expect("two sheets");
        all.iter().map(Difference::to_string).collect()
    }

    #[test]
    fn each_side_and_each_byte() {
        assert_eq!(told(&[], &[]), Vec::<String>::new());
        assert_eq!(told(&sheet(&[10, 9]), &sheet(&[255, 9])), ["left 0A", "right FF"]);
        assert_eq!(told(&sheet(&[1, 2]), &sheet(&[2, 1])), Vec::<String>::new());
        for n in 1..32 {
            let mut right = sheet(&[3, 0xAB]);
            right[32 + n] = 8;
            assert_eq!(told(&sheet(&[0xAB, 3]), &right), [format!("changed AB {n}")]);
        }
        assert_eq!(told(&[[5; 32], [4; 32]].concat(), &sheet(&[4, 5])).len(), 2);
    }

    #[test]
    fn kinds_05_and_15_are_the_same_byte() {
        let with = |n: usize, byte: u8| {
            let mut one = sheet(&[9]);
            one[n] = byte;
            one
        };
        assert_eq!(told(&with(1, 0x05), &with(1, 0x15)), Vec::<String>::new());
        assert_eq!(told(&with(1, 0x15), &with(1, 0x05)), Vec::<String>::new());
        assert_eq!(told(&with(1, 0x15), &with(1, 0x04)), ["changed 09 1"]);
        assert_eq!(told(&with(1, 0x05), &with(1, 0x25)), ["changed 09 1"]);
        assert_eq!(told(&with(2, 0x05), &with(2, 0x15)), ["changed 09 2"]);
        assert_eq!(told(&with(0, 0x05), &with(0, 0x15)), ["left 05", "right 15"]);
    }

    #[test]
    fn the_left_first_and_41_first() {
        let (good, uneven, zero) = (sheet(&[1]), [0; 48], sheet(&[1, 0]));
        let twice = sheet(&[1, 2, 1]);
        for bad in [&uneven[..], &zero, &twice] {
            assert_eq!(differences(bad, &good), differences(bad, &[0; 32]));
            assert_eq!(differences(&good, bad), differences(&[], bad));
        }
        assert_eq!(differences(&uneven, &zero), Err(Way::NewUneven));
        assert_eq!(differences(&zero, &uneven), Err(Way::NewIdZero));
        assert_eq!(differences(&twice, &zero), Err(Way::NewIdTwice));
        assert_eq!(differences(&good, &[0; 1056]), Err(Way::NewLong));
    }
}
