//! The two forms of a sheet, and what is none of its form: refusals 41 and 42 (document 02, Nos. 4
//! and 7).

use crate::numbers::{ENTITIES, OLD_RECORD, RECORD};
use crate::ways::Way;

/// A form: how long its records are, and the names of its clauses.
pub struct Form {
    /// The bytes of a record.
    pub record: usize,
    long: Way,
    uneven: Way,
    id_zero: Way,
    id_twice: Way,
}

/// "The new record is 32 bytes": 41 is "over 1,024 or not a multiple of 32".
pub const NEW: Form = Form {
    record: RECORD,
    long: Way::NewLong,
    uneven: Way::NewUneven,
    id_zero: Way::NewIdZero,
    id_twice: Way::NewIdTwice,
};

/// The form of document 01: "41 length over 512 or not a multiple of 16".
pub const OLD: Form = Form {
    record: OLD_RECORD,
    long: Way::OldLong,
    uneven: Way::OldUneven,
    id_zero: Way::OldIdZero,
    id_twice: Way::OldIdTwice,
};

impl Form {
    /// The records of a sheet, in its order: 41 by the form, then "42 an ID of zero or one that
    /// stands twice".
    pub fn records<'a>(&self, sheet: &'a [u8]) -> Result<Vec<&'a [u8]>, Way> {
        if sheet.len() > self.record * ENTITIES {
            return Err(self.long);
        }
        if sheet.len() % self.record != 0 {
            return Err(self.uneven);
        }
        let records: Vec<&[u8]> = sheet.chunks(self.record).collect();
        for (index, record) in records.iter().enumerate() {
            if record[0] == 0 {
                return Err(self.id_zero);
            }
            if records[..index].iter().any(|earlier| earlier[0] == record[0]) {
                return Err(self.id_twice);
            }
        }
        Ok(records)
    }
}

#[cfg(test)]
mod tests {
    use super::*;

    #[test]
    fn each_form_by_its_own_numbers() {
        let sheet = |record: usize, count: u8| -> Vec<u8> {
            (1..=count).flat_map(|id| vec![id; record]).collect()
        };
        for (form, long, uneven) in
            [(&OLD, Way::OldLong, Way::OldUneven), (&NEW, Way::NewLong, Way::NewUneven)]
        {
            let full = sheet(form.record, 32);
            assert_eq!(form.records(&full).map(|all| all.len()), Ok(32));
            assert_eq!(form.records(&[]), Ok(vec![]));
            assert_eq!(form.records(&[&full[..], &[1]].concat()), Err(long));
            assert_eq!(form.records(&sheet(form.record, 33)), Err(long));
            assert_eq!(form.records(&full[1..]), Err(uneven));
        }
        assert_eq!(OLD.records(&sheet(16, 3)).map(|all| all.len()), Ok(3));
        assert_eq!(NEW.records(&sheet(16, 3)), Err(Way::NewUneven));
        assert_eq!(NEW.records(&sheet(16, 2)).map(|all| all.len()), Ok(1));
        assert_eq!(OLD.records(&sheet(32, 2)), Err(Way::OldIdTwice));
        assert_eq!(OLD.records(&[0; 16]), Err(Way::OldIdZero));
        assert_eq!(NEW.records(&[0; 32]), Err(Way::NewIdZero));
        assert_eq!(NEW.records(&[7; 64]), Err(Way::NewIdTwice));
    }
}
