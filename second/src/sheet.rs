//! The program `sheet`: a configuration on standard input, its sheet on standard output.

use crate::numbers::{RECORD, SHEET};
use crate::reader;

/// "reads a configuration from standard input", lends 1,024 bytes, "prints thirty-two bytes a record",
/// "two-digit capital hex bytes with single spaces, or `refused N at P` in decimal".
pub fn program(config: &[u8]) -> String {
    let mut lent = [0; SHEET];
    let answer = reader::read(config, &mut lent);
    match answer.refusal {
        Some(_) => answer.line(),
        None => lent.chunks_exact(RECORD).take(answer.entities).map(line).collect(),
    }
}

/// "two-digit capital hex bytes with single spaces".
pub fn line(record: &[u8]) -> String {
    let hex: Vec<String> = record.iter().map(|byte| format!("{byte:02X}")).collect();
    hex.join(" ") + "\n"
}

#[cfg(test)]
mod tests {
    use super::*;
    use crate::generator::build::case_a;

    #[test]
    fn case_a_prints_what_document_01_prints_and_sixteen_more() {
        let records = [
            "01 02 01 00 00 00 00 00 00 00 00 00 00 00 00 00",
            "02 06 01 00 00 00 01 00 01 00 00 00 00 00 00 00",
            "03 03 01 00 00 00 01 00 02 00 00 00 00 00 00 00",
        ];
        let printed = records.map(|record| format!("{record}{}\n", " 00".repeat(16)));
        assert_eq!(program(&case_a()), printed.concat());
    }

    #[test]
    fn more_than_a_configuration_may_have() {
        assert_eq!(program(&[0; 4097]), "refused 1 at 0\n");
        assert_eq!(program(&[]), "refused 1 at 0\n");
    }
}
