//! Sound files by name: for each clause of W-201 and each of its refusals at
//! the limit and one past it. A name that starts with `refused-` says the
//! refusal; any other case is taken.

use super::layouts;
use crate::cases::{Reel, Way};
use crate::wav::{Header, FRAME_SIZE, HEADER_SIZE};

const SEED: u8 = 0x11;

pub type Named = (String, Reel);

pub fn all() -> Vec<Named> {
    let mut cases = writes();
    cases.push(written_file());
    cases.extend(reads());
    cases.push(file_in_a_file());
    cases.extend(layouts::all());
    cases.extend(before_10());
    cases
}

/// What a write is called, the bytes of its PCM and how many are lent.
const WRITES: &[(&str, usize, usize)] = &[
    // "Zero frames is a valid file. At most 32,000 frames."
    ("write-0", 0, 44),
    ("write-1", 4, 48),
    ("write-2", 8, 52),
    ("write-31999", 127_996, 128_040),
    ("write-32000", 128_000, 128_044),
    ("refused-10-write-32001", 128_004, 128_048),
    ("refused-10-write-32001-room-for-32000", 128_004, 128_044),
    ("refused-10-write-32005", 128_020, 128_064),
    // "Every header field follows from the frame count": sizes on both sides
    // of where they take another byte.
    ("write-riff-size-fc", 216, 260),
    ("write-riff-size-100", 220, 264),
    ("write-data-size-fc", 252, 296),
    ("write-data-size-100", 256, 300),
    ("write-riff-size-fffc", 65_496, 65_540),
    ("write-riff-size-10000", 65_500, 65_544),
    ("write-data-size-fffc", 65_532, 65_576),
    ("write-data-size-10000", 65_536, 65_580),
    // "Samples that aren't whole frames".
    ("refused-10-write-1-byte", 1, 45),
    ("refused-10-write-2-bytes", 2, 46),
    ("refused-10-write-3-bytes", 3, 47),
    ("refused-10-write-7-bytes", 7, 51),
    ("refused-10-write-9-bytes", 9, 53),
    ("refused-10-write-127999-bytes", 127_999, 128_043),
    ("refused-10-write-128001-bytes", 128_001, 128_045),
    // "Or a destination not of 44 bytes plus 4 per frame".
    ("refused-10-write-0-short", 0, 43),
    ("refused-10-write-0-long", 0, 45),
    ("refused-10-write-0-empty", 0, 0),
    ("refused-10-write-0-room-for-1", 0, 48),
    ("refused-10-write-1-short", 4, 47),
    ("refused-10-write-1-long", 4, 49),
    ("refused-10-write-1-empty", 4, 0),
    ("refused-10-write-1-room-for-samples", 4, 4),
    ("refused-10-write-1-room-for-header", 4, 44),
    ("refused-10-write-1-room-for-2", 4, 52),
    ("refused-10-write-32000-short", 128_000, 128_043),
    ("refused-10-write-32000-long", 128_000, 128_045),
    ("refused-10-write-32000-room-for-32001", 128_000, 128_048),
    // Both.
    ("refused-10-write-1-byte-room-for-0", 1, 44),
    ("refused-10-write-1-byte-room-for-1", 1, 48),
    ("refused-10-write-7-bytes-room-for-1", 7, 48),
    ("refused-10-write-7-bytes-room-for-2", 7, 52),
    ("refused-10-write-9-bytes-room-for-2", 9, 52),
    ("refused-10-write-9-bytes-empty", 9, 0),
    ("refused-10-write-32001-empty", 128_004, 0),
];

fn writes() -> Vec<Named> {
    let case = |(name, bytes, lent): &(&str, usize, usize)| {
        let reel = Reel {
            way: Way::Write,
            lent: *lent,
            front: Vec::new(),
            fill: *bytes,
            seed: SEED,
        };
        (name.to_string(), reel)
    };
    WRITES.iter().map(case).collect()
}

/// Samples may be any bytes: here a file of no frames is eleven.
fn written_file() -> Named {
    let reel = Reel {
        way: Way::Write,
        lent: 2 * HEADER_SIZE,
        front: Header::of(0).bytes(),
        fill: 0,
        seed: SEED,
    };
    ("write-a-file".to_string(), reel)
}

/// A read of the front and so many made bytes.
pub fn read(front: Vec<u8>, fill: usize, lent: usize) -> Reel {
    Reel {
        way: Way::Read,
        lent,
        front,
        fill,
        seed: SEED,
    }
}

/// What a read of frames behind their own header is called, how many they
/// are and how many bytes are lent.
const READS: &[(&str, usize, usize)] = &[
    // "A file put back gives the same frames."
    ("read-0", 0, 0),
    ("read-1", 1, 4),
    ("read-2", 2, 8),
    ("read-3", 3, 12),
    ("read-31999", 31_999, 127_996),
    ("read-32000", 32_000, 128_000),
    ("read-riff-size-100", 55, 220),
    ("read-data-size-100", 64, 256),
    ("read-riff-size-10000", 16_375, 65_500),
    ("read-data-size-10000", 16_384, 65_536),
    ("refused-13-read-32001", 32_001, 128_004),
    ("refused-13-read-32001-room-for-32000", 32_001, 128_000),
    ("refused-13-read-32005", 32_005, 128_020),
    // "Then 10 for its destination."
    ("refused-10-read-0-long", 0, 1),
    ("refused-10-read-0-room-for-1", 0, 4),
    ("refused-10-read-1-short", 1, 3),
    ("refused-10-read-1-long", 1, 5),
    ("refused-10-read-1-empty", 1, 0),
    ("refused-10-read-1-room-for-2", 1, 8),
    ("refused-10-read-3-short", 3, 11),
    ("refused-10-read-3-long", 3, 13),
    ("refused-10-read-3-room-for-2", 3, 8),
    ("refused-10-read-3-room-for-4", 3, 16),
    ("refused-10-read-3-empty", 3, 0),
    ("refused-10-read-3-room-for-the-file", 3, 56),
    ("refused-10-read-32000-short", 32_000, 127_999),
    ("refused-10-read-32000-long", 32_000, 128_001),
    ("refused-10-read-32000-room-for-31999", 32_000, 127_996),
    ("refused-10-read-32000-room-for-32001", 32_000, 128_004),
    ("refused-10-read-32000-empty", 32_000, 0),
];

fn reads() -> Vec<Named> {
    let case = |(name, frames, lent): &(&str, usize, usize)| {
        let header = Header::of(*frames).bytes();
        (name.to_string(), read(header, FRAME_SIZE * frames, *lent))
    };
    READS.iter().map(case).collect()
}

/// Eleven frames that are a file of no frames themselves.
fn file_in_a_file() -> Named {
    let front = [Header::of(11).bytes(), Header::of(0).bytes()].concat();
    ("read-a-file".to_string(), read(front, 0, HEADER_SIZE))
}

/// "13 for a file not of this layout, then 10 for its destination."
fn before_10() -> Vec<Named> {
    let three = Header::of(3).bytes();
    let mark = [b"riff", &three[4..]].concat();
    let case = |name: &str, front: Vec<u8>, fill: usize, lent: usize| {
        let name = format!("refused-13-before-10-{name}");
        (name, read(front, fill, lent))
    };
    vec![
        case("mark-and-short", mark.clone(), 12, 11),
        case("mark-and-long", mark.clone(), 12, 13),
        case("mark-and-empty", mark, 12, 0),
        case("a-byte-long-and-long", three.clone(), 13, 13),
        case("a-byte-short-and-short", three, 11, 11),
        case("no-file", Vec::new(), 0, 1),
        case("32001", Header::of(32_001).bytes(), 128_004, 127_999),
    ]
}

#[cfg(test)]
mod tests {
    use super::*;
    use crate::cases::{self, CASES_MOST};
    use crate::make::reels::reels;
    use crate::make::reels::tests::answer;

    /// The number that a name says, 0 for a case that is taken.
    fn told(name: &str) -> u8 {
        name.strip_prefix("refused-").map_or(0, |rest| {
            let number = rest.split('-').next().unwrap();
            number.parse().unwrap()
        })
    }

    /// What a name says is what the case gives.
    #[test]
    fn refusals_are_those_of_the_names() {
        for (name, reel) in all() {
            let refusal = answer(&reel).err().map_or(0, |r| r as u8);
            assert_eq!(refusal, told(&name), "{name}");
        }
    }

    #[test]
    fn names_and_cases_differ() {
        let named = all();
        for (k, (name, reel)) in named.iter().enumerate() {
            for (other, twin) in &named[..k] {
                assert_ne!(name, other);
                assert_ne!(reel, twin, "{name} and {other}");
            }
        }
    }

    /// A number alone after the way is that of the frames.
    #[test]
    fn frames_are_those_of_the_names() {
        for (name, reel) in all() {
            let way = match reel.way {
                Way::Write => "write-",
                Way::Read => "read-",
            };
            let count = name.strip_prefix(way).map(str::parse::<usize>);
            if let Some(Ok(count)) = count {
                assert_eq!(answer(&reel), Ok(count), "{name}");
            }
        }
    }

    /// Both ways meet all that they can answer.
    #[test]
    fn each_refusal_has_a_name() {
        let count = |way, number| {
            let so = |(name, reel): &&Named| reel.way == way && told(name) == number;
            all().iter().filter(so).count()
        };
        assert!(count(Way::Write, 0) >= 5 && count(Way::Write, 10) >= 20);
        assert!(count(Way::Read, 0) >= 5 && count(Way::Read, 10) >= 10);
        assert!(count(Way::Read, 13) >= 88 + 50);
        assert_eq!(count(Way::Write, 13), 0);
    }

    /// Little is stored, and it comes back.
    #[test]
    fn the_file_is_small() {
        let made = reels("directed", 12, 1).unwrap().cases;
        let file = cases::bytes(&made);
        assert!(file.len() < 40_000 && made.len() < CASES_MOST);
        assert_eq!(cases::read::<Reel>(&file).unwrap(), made);
    }
}
