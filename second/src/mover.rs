//! The mover, which "turns an old sheet into a new one and back" (document 02, No. 7), and the
//! program `move`.

use crate::forms::{NEW, OLD};
use crate::numbers::{OLD_RECORD, RECORD, SHEET};
use crate::ways::Way;

/// What `move` prints for anything but one word, `new` or `old`.
const USAGE: &str = "usage: move new|old\n";

/// The form that is wanted of a sheet of the other.
#[derive(Clone, Copy, Debug, PartialEq, Eq, PartialOrd, Ord)]
pub enum Wanted {
    /// Old to new.
    New,
    /// New to old.
    Old,
}

/// Moves a sheet into lent room, and answers how many bytes were written: "the mover gives 41 or 42
/// by the form it is given, then 43 for those last sixteen bytes, 44 for too little room; a refusal
/// writes nothing".
pub fn mover(wanted: Wanted, sheet: &[u8], room: &mut [u8]) -> Result<usize, Way> {
    let (moved, short) = match wanted {
        Wanted::New => (widened(sheet)?, Way::RoomForNew),
        Wanted::Old => (narrowed(sheet)?, Way::RoomForOld),
    };
    room.get_mut(..moved.len()).ok_or(short)?.copy_from_slice(&moved);
    Ok(moved.len())
}

/// "the first eight as before, then twenty-four source IDs", of which an old record has eight.
fn widened(sheet: &[u8]) -> Result<Vec<u8>, Way> {
    let wide = |record: &[u8]| {
        let mut new = [0; RECORD];
        new[..OLD_RECORD].copy_from_slice(record);
        new
    };
    Ok(OLD.records(sheet)?.into_iter().flat_map(wide).collect())
}

/// "refused exactly if some record has a byte other than 00 in its last sixteen".
fn narrowed(sheet: &[u8]) -> Result<Vec<u8>, Way> {
    let records = NEW.records(sheet)?;
    if records.iter().any(|record| record[OLD_RECORD..].iter().any(|&byte| byte != 0)) {
        return Err(Way::LastSixteen);
    }
    Ok(records.into_iter().flat_map(|record| record[..OLD_RECORD].to_vec()).collect())
}

/// The program `move`: its one word is the form wanted, standard input the sheet. It prints the moved
/// sheet's bytes, or `refused N`. Without that one word it prints how it is used, and reads nothing.
pub fn program<E>(
    words: &[&str],
    input: impl FnOnce() -> Result<Vec<u8>, E>,
) -> Result<Vec<u8>, E> {
    match words {
        ["new"] => Ok(printed(Wanted::New, &input()?)),
        ["old"] => Ok(printed(Wanted::Old, &input()?)),
        _ => Ok(USAGE.into()),
    }
}

/// What `move` prints of a sheet.
pub fn printed(wanted: Wanted, sheet: &[u8]) -> Vec<u8> {
    let mut room = [0; SHEET];
    match mover(wanted, sheet, &mut room) {
        Ok(count) => room[..count].to_vec(),
        Err(way) => format!("refused {}\n", way.number()).into(),
    }
}

#[cfg(test)]
mod tests {
    use super::*;

    fn old(ids: &[u8]) -> Vec<u8> {
        ids.iter().flat_map(|&id| [&[id; 1][..], &[0xEE; 15]].concat()).collect()
    }

    #[test]
    fn old_to_new_and_back_gives_the_old_bytes() {
        for count in [0, 1, 31, 32] {
            let sheet = old(&(1..=count).collect::<Vec<u8>>());
            let new = printed(Wanted::New, &sheet);
            assert_eq!(new.len(), 2 * sheet.len());
            assert!(new.chunks(32).all(|record| record[16..] == [0; 16]));
            assert_eq!(printed(Wanted::Old, &new), sheet);
        }
        let over = old(&(1..=33).collect::<Vec<u8>>());
        assert_eq!(printed(Wanted::New, &over), b"refused 41\n");
    }

    #[test]
    fn refusals_in_their_order() {
        let new = printed(Wanted::New, &old(&[5, 6]));
        for at in 0..32 {
            let mut changed = new.clone();
            changed[32 + at] = 0xCC;
            let moved = mover(Wanted::Old, &changed, &mut [7; 32]);
            assert_eq!(moved, if at < 16 { Ok(32) } else { Err(Way::LastSixteen) });
            let short = mover(Wanted::Old, &changed, &mut [7; 31]);
            assert_eq!(short, Err(if at < 16 { Way::RoomForOld } else { Way::LastSixteen }));
            changed[0] = 0;
            assert_eq!(mover(Wanted::Old, &changed, &mut []), Err(Way::NewIdZero));
            assert_eq!(mover(Wanted::Old, &changed[1..], &mut []), Err(Way::NewUneven));
        }
        assert_eq!(mover(Wanted::New, &old(&[5, 5]), &mut []), Err(Way::OldIdTwice));
        assert_eq!(mover(Wanted::New, &old(&[5, 4]), &mut [0; 63]), Err(Way::RoomForNew));
    }

    #[test]
    fn a_refusal_writes_nothing_and_what_is_past_stays() {
        let mut room = [9; 33];
        assert_eq!(mover(Wanted::New, &old(&[5, 4]), &mut room), Err(Way::RoomForNew));
        assert_eq!(room, [9; 33]);
        assert_eq!(mover(Wanted::New, &old(&[5]), &mut room), Ok(32));
        assert_eq!(room[32], 9);
    }

    #[test]
    fn one_word_of_two() {
        let sheet = || Ok::<_, ()>(old(&[5]));
        assert_eq!(program(&["new"], sheet).unwrap().len(), 32);
        assert_eq!(program(&["old"], sheet), Ok(b"refused 41\n".to_vec()));
        for words in [&[][..], &["New"], &["ne"], &["newer"], &["new", "old"], &["new", "new"]] {
            let unread = || -> Result<Vec<u8>, ()> { unreachable!("nothing is read") };
            assert_eq!(program(words, unread), Ok(b"usage: move new|old\n".to_vec()));
        }
    }
}
