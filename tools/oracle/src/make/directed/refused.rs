//! Cases at the limits of document 01's refusals, and one past them. The
//! name says the refusal; a case without one in its name runs.

use crate::cases::{Case, RAMS_MOST};
use crate::log::LOG_MOST;
use crate::make::limits;
use crate::random::Random;

const RAM_SIZE: usize = 65_536;

/// Images that are no RAM. They have the numbers after those of the random
/// cases, so that these keep theirs.
const SHORT_IMAGE: u8 = 3;
const LONG_IMAGE: u8 = 4;
const ABSENT_IMAGE: u8 = RAMS_MOST - 1;

/// The image of the cases that play.
const IMAGE: u8 = 0;

/// The longest log that a file of cases holds.
const CASE_MOST: usize = 0xFFFF;

type NamedCase = (&'static str, Case);

/// Logs short enough to be read here.
const LOGS: &[(&str, &[u8])] = &[
    // Order: "5 for a lone byte, 4, 5, then 6 or 7".
    ("refused-4", b"XX"),
    ("refused-4-before-5", b"RK"),
    ("refused-4-small-letters", b"QA\x00rw\x00\x00ND"),
    ("refused-4-half-an-end", b"NX"),
    ("refused-4-turned-end", b"QA\x00DN"),
    ("refused-5-lone-byte", b"RW\x4C\x01X"),
    // "Log stops inside a mark or a record": each mark and each record cut
    // at each place.
    ("refused-5-in-a-write-mark", b"R"),
    ("refused-5-after-a-write-mark", b"RW"),
    ("refused-5-in-a-write", b"RW\xFF"),
    ("refused-5-in-a-count-mark", b"T"),
    ("refused-5-after-a-count-mark", b"TK"),
    ("refused-5-in-a-count", b"TK\x00"),
    ("refused-5-in-a-reading-mark", b"Q"),
    ("refused-5-in-a-reading", b"QA"),
    ("refused-5-in-an-end-mark", b"N"),
    // "Register above $7F in a log".
    ("register-7f", b"RW\x7F\x81RW\x7F\x80QA\x7FTK\x01\x00ND"),
    ("refused-6-write", b"RW\x80\x00ND"),
    ("refused-6-write-ff", b"RW\xFF\x00ND"),
    ("refused-6-reading", b"TK\x01\x00QA\x80ND"),
    ("refused-6-reading-ff", b"QA\xFFND"),
    // "Tick count 0": not a count whose low byte alone is 0.
    ("refused-7-no-tick", b"TK\x00\x00ND"),
    ("ticks-1", b"TK\x01\x00ND"),
    ("ticks-256", b"TK\x00\x01ND"),
    // "32,000 ticks pass, 32,001 give 7": in one record and in two.
    ("ticks-32000", b"TK\x00\x7DQA\x6CND"),
    ("refused-7-ticks-32001", b"TK\x01\x7DND"),
    ("refused-7-ticks-32001-in-two", b"TK\xFF\x7CTK\x02\x00ND"),
    ("refused-7-ticks-65535", b"TK\xFF\xFFND"),
    // In 16 bits this total would be 31,999.
    ("refused-7-ticks-97535", b"TK\x00\x7DTK\xFF\xFFND"),
    ("refused-7-no-tick-after-32000", b"TK\x00\x7DTK\x00\x00ND"),
    // "4 to 9 at the first place in the log": before and behind the record
    // with which the ticks pass 32,000, and where they just reach it.
    ("refused-4-before-a-later-7", b"XXTK\x01\x7DND"),
    ("refused-6-before-a-later-7", b"QA\x80TK\x01\x7DND"),
    ("refused-7-before-a-later-4", b"TK\x00\x7DTK\x01\x00XX"),
    ("refused-7-before-a-later-5", b"TK\x00\x7DTK\x01\x00R"),
    ("refused-7-before-a-later-6", b"TK\x01\x7DRW\x80\x00ND"),
    ("refused-7-before-a-later-8", b"TK\x01\x7D"),
    ("refused-7-before-a-later-9", b"TK\x01\x7DND\x00"),
    ("refused-4-after-32000-ticks", b"TK\x00\x7DXX"),
    ("refused-5-after-32000-ticks", b"TK\x00\x7DTK\x01"),
    ("refused-6-after-32000-ticks", b"TK\x00\x7DQA\x80ND"),
    ("refused-8-after-32000-ticks", b"TK\x00\x7D"),
    ("refused-9-after-32000-ticks", b"TK\x00\x7DND\x00"),
    // "An empty log gives 8."
    ("refused-8-empty", b""),
    ("refused-8-no-end", b"TK\x01\x00"),
    ("refused-8-no-end-after-a-write", b"RW\x00\x00"),
    ("refused-8-no-end-after-a-reading", b"QA\x00"),
    // "Bytes after the end record", whatever they are.
    ("refused-9", b"ND\x00"),
    ("refused-9-another-end", b"NDND"),
    ("refused-9-before-4", b"NDXX"),
    ("only-an-end", b"ND"),
];

pub fn cases() -> Vec<NamedCase> {
    let short = LOGS.iter().map(|(name, log)| (*name, case(IMAGE, log)));
    short.chain(long_logs()).chain(wrong_images()).collect()
}

/// The images that are no RAM, in the order of their numbers.
pub fn rams() -> [Vec<u8>; 2] {
    [vec![0; RAM_SIZE - 1], vec![0; RAM_SIZE + 1]]
}

fn case(ram: u8, log: &[u8]) -> Case {
    let log = log.to_vec();
    Case { ram, log }
}

/// "Log over 60,000 bytes", before anything that is in it.
fn long_logs() -> [NamedCase; 3] {
    let unknown = vec![b'X'; CASE_MOST];
    [
        ("bytes-60000", case(IMAGE, &of_length(LOG_MOST))),
        (
            "refused-3-bytes-60001",
            case(IMAGE, &of_length(LOG_MOST + 1)),
        ),
        ("refused-3-before-4", case(IMAGE, &unknown)),
    ]
}

/// A log of that length, well made but for it: writes, then ticks that can
/// be heard.
fn of_length(length: usize) -> Vec<u8> {
    let last = b"RW\x6C\x00TK\x20\x00QA\x7CND";
    limits::sized(&mut Random::new(1), last, length)
}

/// "RAM slice isn't 65,536 bytes", before anything that the log gives.
fn wrong_images() -> [NamedCase; 5] {
    let too_long = vec![b'X'; LOG_MOST + 1];
    [
        ("refused-1-ram-65535", case(SHORT_IMAGE, b"QA\x6CND")),
        ("refused-1-ram-65537", case(LONG_IMAGE, b"QA\x6CND")),
        ("refused-1-before-3", case(SHORT_IMAGE, &too_long)),
        ("refused-1-before-8", case(LONG_IMAGE, b"")),
        ("refused-1-before-the-log", case(ABSENT_IMAGE, b"XX")),
    ]
}

#[cfg(test)]
mod tests {
    use super::*;
    use crate::make::cases;
    use crate::trace;

    /// What a name says is what the case gives, with the images as stored.
    #[test]
    fn refusals_are_those_of_the_names() {
        let rams = cases::cases("directed", 0, 1).unwrap().rams;
        // A missing image counts as 0 bytes.
        let ram = |image: u8| Ok(rams.get(usize::from(image)).cloned().unwrap_or_default());
        for (name, case) in cases() {
            let text = trace::report(&[case], ram).unwrap();
            let Some(rest) = name.strip_prefix("refused-") else {
                assert!(text.contains("END "), "{name}");
                continue;
            };
            assert_eq!(text, format!("CASE 1\nREFUSED {}\n", &rest[..1]), "{name}");
        }
    }

    #[test]
    fn lengths_are_those_of_the_names() {
        let lengths = long_logs().map(|(_, case)| case.log.len());
        assert_eq!(lengths, [60_000, 60_001, 65_535]);
        let rams = cases::cases("directed", 0, 1).unwrap().rams;
        assert_eq!(rams[usize::from(SHORT_IMAGE)].len(), 65_535);
        assert_eq!(rams[usize::from(LONG_IMAGE)].len(), 65_537);
        assert!(usize::from(ABSENT_IMAGE) >= rams.len());
    }
}
