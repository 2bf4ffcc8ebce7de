//! The program `lend`: the reader with a sheet of another length at each step.
//!
//! A step is two bytes m, two bytes n (low byte first), then n bytes: a configuration, read with m
//! bytes lent, each of them AA. It prints the answer, then the lent bytes up to the last that is not
//! AA, sixteen to a line, then `rest` and how many are left. What is no step prints `bad step` and
//! ends the program.

use crate::cut::two_bytes;
use crate::numbers::{LENT, LINE, MARK, STEP};
use crate::reader;
use crate::relay::{each_step, BadStep, Printed};
use crate::sheet;

/// Runs over a whole input.
pub fn program(input: &[u8]) -> String {
    each_step(input, |rest| take(rest).map(|(m, config, after)| (step(m, config), after)))
}

/// The first step of what is not empty: the length of its sheet, its configuration, and what
/// follows. An m over 2,048, an n over 8,192 or an input that ends within a step is none.
fn take(input: &[u8]) -> Result<(usize, &[u8], &[u8]), BadStep> {
    if input.len() < 4 {
        return Err(BadStep);
    }
    let (m, n) = (two_bytes(input, 0), two_bytes(input, 2));
    if m > LENT || n > STEP || input.len() < 4 + n {
        return Err(BadStep);
    }
    Ok((m, &input[4..4 + n], &input[4 + n..]))
}

/// One step.
pub fn step(m: usize, config: &[u8]) -> Printed {
    let mut lent = vec![MARK; m];
    let answer = reader::read(config, &mut lent);
    Printed { lines: answer.line() + &shown(&lent), way: answer.way() }
}

/// The lent bytes, every one told: those up to the last that is not AA, and how many AA follow.
pub fn shown(lent: &[u8]) -> String {
    let rest = lent.iter().rev().take_while(|&&byte| byte == MARK).count();
    let lines: String = lent[..lent.len() - rest].chunks(LINE).map(sheet::line).collect();
    format!("{lines}rest {rest}\n")
}

#[cfg(test)]
mod tests {
    use super::*;
    use crate::generator::build::case_a;
    use crate::generator::lent::{ends_in_marks, lent_bytes};

    const RECORDS: &str = "01 02 01 00 00 00 00 00 00 00 00 00 00 00 00 00\n\
                           00 00 00 00 00 00 00 00 00 00 00 00 00 00 00 00\n\
                           02 06 01 00 00 00 01 00 01 00 00 00 00 00 00 00\n\
                           00 00 00 00 00 00 00 00 00 00 00 00 00 00 00 00\n\
                           03 03 01 00 00 00 01 00 02 00 00 00 00 00 00 00\n\
                           00 00 00 00 00 00 00 00 00 00 00 00 00 00 00 00\n";

    #[test]
    fn case_a_with_sheets_of_many_lengths() {
        let a = case_a();
        for m in [0, 1, 48, 95] {
            assert_eq!(program(&lent_bytes(m, &a)), format!("refused 16 at 18\nrest {m}\n"));
        }
        for m in [96, 97, 128, 1024, 2048] {
            let rest = m - 96;
            let printed = format!("accepted 0 3 2\n{RECORDS}rest {rest}\n");
            assert_eq!(program(&lent_bytes(m, &a)), printed);
        }
        assert_eq!(program(&lent_bytes(100, &a[..8])), "refused 1 at 0\nrest 100\n");
    }

    #[test]
    fn a_record_that_ends_in_the_mark() {
        let printed = "accepted 0 2 1\nAA 02 01 00 00 00 00 00 00 00 00 00 00 00 00 00\n\
                       00 00 00 00 00 00 00 00 00 00 00 00 00 00 00 00\n\
                       02 05 01 00 00 00 18 00\nrest 25\n";
        assert_eq!(program(&lent_bytes(65, &ends_in_marks())), printed);
    }

    #[test]
    fn what_is_no_step_ends_the_program() {
        assert_eq!(program(&[]), "");
        for bad in [&[0][..], &[0, 0], &[0, 0, 0], &[0, 0, 1, 0], &[1, 8, 0, 0], &[0, 0, 2, 0, 9]] {
            assert_eq!(program(bad), "bad step\n", "{bad:?}");
        }
        assert_eq!(program(&[0, 8, 0, 0]), "refused 1 at 0\nrest 2048\n");
        assert_eq!(program(&lent_bytes(3, &[0; 8192])), "refused 1 at 0\nrest 3\n");
        assert_eq!(program(&lent_bytes(3, &[0; 8193])), "bad step\n");
        let twice = [lent_bytes(3, &[]), lent_bytes(2049, &[]), lent_bytes(3, &[])].concat();
        assert_eq!(program(&twice), "refused 1 at 0\nrest 3\nbad step\n");
    }
}
