//! Many cases in one go: what each gives, and a digest over every tick.

use crate::cases::Case;
use crate::chip;

/// For each case its number, from 1, the lines of a run and the digest over
/// its ticks; `REFUSED` and the number alone for a malformed one.
pub fn report(
    cases: &[Case],
    ram: impl Fn(u8) -> Result<Vec<u8>, String>,
) -> Result<String, String> {
    let mut text = String::new();
    for (number, case) in (1..).zip(cases) {
        let result = chip::run(&case.log, ram(case.ram)?);
        text += &format!("CASE {number}\n{}", chip::report(&result));
        if let Ok(outcome) = &result {
            text += &format!("TRACE {:016X}\n", outcome.trace);
        }
    }
    Ok(text)
}

#[cfg(test)]
mod tests {
    use super::*;
    use crate::bytes::digest;

    fn case(log: &[u8]) -> Case {
        Case {
            ram: 0,
            log: log.to_vec(),
        }
    }

    fn text(cases: &[Case]) -> String {
        report(cases, |_| Ok(vec![0; 65_536])).unwrap()
    }

    #[test]
    fn a_refused_case_has_two_lines() {
        assert_eq!(text(&[case(b"QA\x80ND")]), "CASE 1\nREFUSED 6\n");
        let both = text(&[case(b""), case(b"ND")]);
        assert!(both.starts_with("CASE 1\nREFUSED 8\nCASE 2\nEND 0 0\nREG 00 "));
    }

    /// One tick with all of EDL and PMON written: the registers, both as
    /// used, silence, then RAM.
    #[test]
    fn the_digest_is_over_registers_reads_sample_and_ram() {
        let mut bytes = vec![0; 128];
        bytes[0x6C] = 0xE0;
        bytes[0x7D] = 0xFF;
        bytes[0x2D] = 0xFF;
        bytes.extend([0x0F, 0xFE]);
        bytes.extend([0; 4]);
        bytes.extend([0; 65_536]);
        let last = format!("TRACE {:016X}\n", digest(&bytes));
        assert!(text(&[case(b"RW\x7D\xFFRW\x2D\xFFTK\x01\x00ND")]).ends_with(&last));
        assert!(text(&[case(b"ND")]).ends_with("TRACE CBF29CE484222325\n"));
    }

    #[test]
    fn a_case_starts_from_new_and_from_its_image() {
        let log = b"RW\x6C\x00RW\x0D\x7FTK\x08\x00QA\x6CND";
        let lines = text(&[case(log), case(log)]);
        let (first, second) = lines.split_once("CASE 2\n").unwrap();
        assert_eq!(first.strip_prefix("CASE 1\n").unwrap(), second);
    }
}
