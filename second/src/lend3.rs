//! The program `lend3`: configurations of either edition, each with a cluster buffer and a sheet of its
//! own; and `sheet3`, for a person.
//!
//! A step of `lend3` is two bytes m, two bytes n, two bytes k (low byte first), then n bytes: a
//! configuration, and k bytes: a cluster buffer. It is read with m bytes lent, each of them AA, and
//! prints `accepted E`, the count of entities, or `refused N at P`, then the lent bytes as `lend`
//! shows them. What is no step prints `bad step` and ends the program.

use std::fs::File;
use std::io::{self, Read};
use std::path::Path;

use crate::cut::two_bytes;
use crate::edition3;
use crate::lend;
use crate::numbers::{LENT, MARK, RECORD, SHEET, STEP};
use crate::relay::{each_step, BadStep, Printed};
use crate::sheet;

/// A step: the length of its sheet, its configuration, its cluster buffer, and what follows it.
type Step<'a> = (usize, &'a [u8], &'a [u8], &'a [u8]);

/// Runs over a whole input.
pub fn program(input: &[u8]) -> String {
    each_step(input, |rest| {
        let (m, config, clusters, after) = take(rest)?;
        Ok((step(m, config, clusters), after))
    })
}

/// The first step of what is not empty. An m over 2,048, an n or a k over 8,192 or an input that ends
/// within a step is none.
fn take(input: &[u8]) -> Result<Step<'_>, BadStep> {
    if input.len() < 6 {
        return Err(BadStep);
    }
    let (m, n, k) = (two_bytes(input, 0), two_bytes(input, 2), two_bytes(input, 4));
    if m > LENT || n > STEP || k > STEP || input.len() < 6 + n + k {
        return Err(BadStep);
    }
    let (config, rest) = input[6..].split_at(n);
    let (clusters, after) = rest.split_at(k);
    Ok((m, config, clusters, after))
}

/// One step.
pub fn step(m: usize, config: &[u8], clusters: &[u8]) -> Printed {
    let mut lent = vec![MARK; m];
    let (line, way) = match edition3::read(config, clusters, &mut lent) {
        Ok(entities) => (format!("accepted {entities}\n"), None),
        Err(refusal) => (refusal.line(), Some(refusal.way)),
    };
    Printed { lines: line + &lend::shown(&lent), way }
}

/// What `sheet3` prints of a file that it cannot read whole.
const UNREAD: &str = "cannot read clusters\n";

/// The program `sheet3`: standard input is a configuration, the file `clusters` of the folder the
/// cluster buffer; it prints as `sheet` does. A file that cannot be opened or read, or that has more
/// than 8,192 bytes, is told, and nothing else.
pub fn told<E>(folder: &Path, input: impl FnOnce() -> Result<Vec<u8>, E>) -> Result<String, E> {
    match buffer(&folder.join("clusters")) {
        Ok(clusters) => Ok(printed(&input()?, &clusters)),
        Err(_) => Ok(UNREAD.to_string()),
    }
}

/// One byte more than may be there tells a longer file.
fn buffer(file: &Path) -> io::Result<Vec<u8>> {
    let mut bytes = Vec::new();
    File::open(file)?.take(STEP as u64 + 1).read_to_end(&mut bytes)?;
    Ok(bytes)
}

/// What `sheet3` prints of a configuration and the bytes of its file.
pub fn printed(config: &[u8], file: &[u8]) -> String {
    if STEP < file.len() {
        return UNREAD.to_string();
    }
    let mut lent = [0; SHEET];
    match edition3::read(config, file, &mut lent) {
        Ok(entities) => lent.chunks_exact(RECORD).take(entities).map(sheet::line).collect(),
        Err(refusal) => refusal.line(),
    }
}

#[cfg(test)]
mod tests {
    use super::*;
    use crate::generator::build::case_a;
    use crate::generator::build3::{basic_microphone, Basic};
    use crate::generator::lent3::step3_bytes;

    const RECORDS: &str = "04 02 01 00 00 00 00 00 00 00 00 00 00 00 00 00\n\
                           00 00 00 00 00 00 00 00 00 00 00 00 00 00 00 00\n\
                           06 03 01 00 00 00 01 00 05 00 00 00 00 00 00 00\n\
                           00 00 00 00 00 00 00 00 00 00 00 00 00 00 00 00\n\
                           05 06 01 00 00 00 01 00 04 00 00 00 00 00 00 00\n\
                           00 00 00 00 00 00 00 00 00 00 00 00 00 00 00 00\n\
                           09 0B 00 00 00 00 00 00 00 00 00 00 00 00 00 00\n\
                           00 00 00 00 00 00 00 00 00 00 00 00 00 00 00 00\n";

    #[test]
    fn the_microphone_of_source_document_003() {
        let third = basic_microphone(Basic::Taken, 1);
        let (config, clusters) = (third.config(), third.buffer());
        let printed = format!("accepted 4\n{RECORDS}rest 1\n");
        assert_eq!(program(&step3_bytes(129, &config, &clusters)), printed);
        // Behind the configuration (9), the association (8) and the interface (9).
        assert_eq!(step(127, &config, &clusters).lines, "refused 16 at 26\nrest 127\n");
        assert_eq!(step(0, &config, &[]).lines, "refused 52 at 36\nrest 0\n");
        assert_eq!(step(0, &config, &clusters[..40]).lines, "refused 51 at 16\nrest 0\n");
        assert_eq!(self::printed(&config, &clusters).lines().count(), 4);
    }

    #[test]
    fn another_protocol_is_read_as_1_0() {
        let answer = step(96, &case_a(), &[1, 2, 3]);
        assert!(answer.lines.starts_with("accepted 3\n01 02 01 00"));
        assert_eq!(step(95, &case_a(), &[]).lines, "refused 16 at 18\nrest 95\n");
    }

    #[test]
    fn what_is_no_step_ends_the_program() {
        assert_eq!(program(&[]), "");
        for length in 1..6 {
            assert_eq!(program(&vec![0; length]), "bad step\n");
        }
        assert_eq!(program(&[0; 6]), "refused 1 at 0\nrest 0\n");
        assert_eq!(program(&[0, 0, 1, 0, 1, 0, 9]), "bad step\n");
        assert_eq!(program(&step3_bytes(LENT + 1, &[], &[])), "bad step\n");
        assert_eq!(program(&step3_bytes(0, &[], &[0; STEP + 1])), "bad step\n");
        assert_eq!(program(&step3_bytes(0, &[0; STEP + 1], &[])), "bad step\n");
    }

    #[test]
    fn a_longer_file_is_no_whole_one() {
        let longer = vec![0; STEP + 1];
        assert_eq!(printed(&case_a(), &longer), UNREAD);
        assert_eq!(printed(&case_a(), &longer[..STEP]).lines().count(), 3);
    }

    #[test]
    fn a_file_that_is_not_there() {
        let unread = || -> Result<Vec<u8>, ()> { unreachable!("nothing is read") };
        let told = told(Path::new("/nowhere/at/all"), unread);
        assert_eq!(told, Ok("cannot read clusters\n".to_string()));
    }
}
