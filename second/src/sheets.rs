//! The programs `compare`, over the files `left` and `right`, and `sheets`, over a script of pairs
//! and moves.

use std::path::Path;

use crate::cut::two_bytes;
use crate::differences::differences;
use crate::lend;
use crate::mover::{mover, Wanted};
use crate::numbers::{LENT, MARK};
use crate::relay::{each_step, take, BadStep, Printed};

/// 01: two bytes a, a bytes of the left sheet, the rest is the right one.
pub const PAIR: u8 = 1;
/// 02: two bytes of room m, the rest is an old sheet, to be made a new one.
pub const TO_NEW: u8 = 2;
/// 03: two bytes of room m, the rest is a new sheet, to be made an old one.
pub const TO_OLD: u8 = 3;

/// The program `compare` in a folder: "A program reads them from the files `left` and `right`". A
/// file that cannot be opened or read is told, the left one first, and nothing else.
pub fn compare(folder: &Path) -> String {
    let read =
        |name: &str| std::fs::read(folder.join(name)).map_err(|_| format!("cannot read {name}\n"));
    match (read("left"), read("right")) {
        (Err(line), _) | (_, Err(line)) => line,
        (Ok(left), Ok(right)) => compared(&left, &right).lines,
    }
}

/// What is printed of two sheets: a line for each difference, or `refused N`.
pub fn compared(left: &[u8], right: &[u8]) -> Printed {
    match differences(left, right) {
        Ok(all) => Printed { lines: all.iter().map(|one| format!("{one}\n")).collect(), way: None },
        Err(way) => Printed { lines: format!("refused {}\n", way.number()), way: Some(way) },
    }
}

/// Runs a whole script.
pub fn program(script: &[u8]) -> String {
    each_step(script, |rest| {
        let (kind, body, after) = take(rest)?;
        Ok((step(kind, body)?, after))
    })
}

/// One step. Each kind's body opens with a number of two bytes.
pub fn step(kind: u8, body: &[u8]) -> Result<Printed, BadStep> {
    if body.len() < 2 {
        return Err(BadStep);
    }
    let (number, rest) = (two_bytes(body, 0), &body[2..]);
    match kind {
        PAIR if number <= rest.len() => Ok(pair(number, rest)),
        TO_NEW if number <= LENT => Ok(moved(Wanted::New, number, rest)),
        TO_OLD if number <= LENT => Ok(moved(Wanted::Old, number, rest)),
        _ => Err(BadStep),
    }
}

/// What `compare` would print, then `end`.
fn pair(left: usize, both: &[u8]) -> Printed {
    let (left, right) = both.split_at(left);
    let printed = compared(left, right);
    Printed { lines: printed.lines + "end\n", way: printed.way }
}

/// `moved K` or `refused N`, then the lent bytes as `lend` shows them.
fn moved(wanted: Wanted, room: usize, sheet: &[u8]) -> Printed {
    let mut lent = vec![MARK; room];
    let (line, way) = match mover(wanted, sheet, &mut lent) {
        Ok(count) => (format!("moved {count}\n"), None),
        Err(way) => (format!("refused {}\n", way.number()), Some(way)),
    };
    Printed { lines: line + &lend::shown(&lent), way }
}

#[cfg(test)]
mod tests {
    use super::*;
    use crate::generator::moves::move_bytes;
    use crate::generator::pairs::pair_bytes;

    #[test]
    fn pairs_over_a_script() {
        let (one, other) = ([1; 32], [[2; 32], [1; 32]].concat());
        let script =
            [pair_bytes(&one, &other), pair_bytes(&[], &[]), pair_bytes(&other, &one[1..])];
        assert_eq!(program(&script.concat()), "right 02\nend\nend\nrefused 41\nend\n");
    }

    #[test]
    fn moves_over_a_script() {
        let (old, new) = ([5; 16], [[5; 16], [0; 16]].concat());
        let five = "05 ".repeat(16).trim_end().to_string() + "\n";
        let zeros = "00 ".repeat(16).trim_end().to_string() + "\n";
        for (bytes, printed) in [
            (move_bytes(TO_NEW, 33, &old), format!("moved 32\n{five}{zeros}rest 1\n")),
            (move_bytes(TO_OLD, 16, &new), format!("moved 16\n{five}rest 0\n")),
            (move_bytes(TO_NEW, 31, &old), "refused 44\nrest 31\n".to_string()),
            (move_bytes(TO_OLD, 2048, &[5; 32]), "refused 43\nrest 2048\n".to_string()),
            (move_bytes(TO_NEW, 0, &[]), "moved 0\nrest 0\n".to_string()),
        ] {
            assert_eq!(program(&bytes), printed);
        }
    }

    #[test]
    fn what_is_no_step_ends_the_program() {
        assert_eq!(program(&[]), "");
        let bad = [
            &[1][..],
            &[1, 0],
            &[1, 0, 0],
            &[1, 1, 0, 0],
            &[0, 2, 0, 0, 0],
            &[4, 2, 0, 0, 0],
            &[2, 0, 0],
            &[3, 1, 0, 0],
            &[2, 2, 0, 1, 8],
            &[3, 2, 0, 1, 8],
            &[1, 2, 0, 1, 0],
            &[1, 3, 0, 2, 0, 9],
        ];
        for bad in bad {
            assert_eq!(program(bad), "bad step\n", "{bad:?}");
        }
        assert_eq!(program(&[1, 2, 0, 0, 0, 1]), "end\nbad step\n");
        assert_eq!(program(&pair_bytes(&[0; 8190], &[])), "refused 41\nend\n");
        assert_eq!(program(&pair_bytes(&[0; 8191], &[])), "bad step\n");
    }
}
