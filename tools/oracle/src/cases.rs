//! Files of cases, one after the other. A log in it is its length (16 bits,
//! low byte first), then its bytes. A case to run is the number of its RAM
//! image (one byte) and a log. A case to rework is the number of its RAM
//! image, the mask of the named voices, what is lent and which records are
//! unfit (a byte each), then five logs. A case of a sound file is its way (one
//! byte), how many bytes are lent (32 bits), the lengths of its front (16
//! bits) and of its fill (32 bits), all low byte first, the fill's seed (one
//! byte), then the front.

/// As many as a program reads that must come to an end on any input.
pub const CASES_MOST: usize = 1_000;
pub const RAMS_MOST: u8 = 10;
/// As long as the source of a sound file's case, or what is lent to it, may
/// be: the longest file and five frames.
pub const REEL_MOST: usize = 128_064;
const FRONT_MOST: usize = 256;

#[derive(Clone, Debug, PartialEq)]
pub struct Case {
    pub ram: u8,
    pub log: Vec<u8>,
}

/// Two sittings that differ in named voices. Each starts where its prelude
/// leaves a new chip.
#[derive(Clone, Debug, PartialEq)]
pub struct Pair {
    pub ram: u8,
    /// The mask S of the named voices.
    pub named: u8,
    /// See `lent`.
    pub lent: u8,
    /// See `unfit`.
    pub unfit: u8,
    pub preludes: [Vec<u8>; 2],
    pub logs: [Vec<u8>; 2],
    /// Run on from the record that the rework gives back: what it hides
    /// shows there.
    pub tail: Vec<u8>,
}

/// What is lent to a rework: slices as long as the new log needs, but for
/// one that may be a byte short (where it needs any) or a byte long.
pub mod lent {
    pub const AS_NEEDED: u8 = 0;
    pub const SHORT_PCM: u8 = 1;
    pub const LONG_PCM: u8 = 2;
    pub const SHORT_SHEET: u8 = 3;
    pub const LONG_SHEET: u8 = 4;
    pub const SHORT_READINGS: u8 = 5;
    pub const LONG_READINGS: u8 = 6;
}

/// Records that are made unfit before the call, by an odd PMON: no log
/// leaves one so. One bit each.
pub mod unfit {
    pub const START: u8 = 1;
    pub const OLD_END: u8 = 2;
}

/// Bytes for the writer of sound files, or for their reader.
#[derive(Clone, Debug, PartialEq)]
pub struct Reel {
    pub way: Way,
    /// How many bytes the destination has.
    pub lent: usize,
    pub front: Vec<u8>,
    /// How many made bytes come after the front: a long sound takes few
    /// bytes here.
    pub fill: usize,
    pub seed: u8,
}

#[derive(Clone, Copy, Debug, PartialEq)]
pub enum Way {
    Write = 0,
    Read = 1,
}

impl Reel {
    /// The PCM of a write, the file of a read.
    pub fn source(&self) -> Vec<u8> {
        let made = |k: usize| (usize::from(self.seed) + 31 * k + k / 256) as u8;
        let fill = (0..self.fill).map(made);
        self.front.iter().copied().chain(fill).collect()
    }
}

pub fn ram_path(folder: &str, image: u8) -> String {
    format!("{folder}/ram{image}")
}

/// A case that plays logs.
pub trait Logs {
    fn all_logs(&self) -> Vec<&[u8]>;
}

impl Logs for Case {
    fn all_logs(&self) -> Vec<&[u8]> {
        vec![&self.log]
    }
}

impl Logs for Pair {
    /// In the order in which they are stored.
    fn all_logs(&self) -> Vec<&[u8]> {
        let before = self.preludes.iter().chain(&self.logs);
        before.chain([&self.tail]).map(Vec::as_slice).collect()
    }
}

/// A case as it stands in a file.
pub trait Stored: Sized {
    fn bytes(&self) -> Vec<u8>;
    /// The case that the bytes start with, which it takes from them.
    fn first(rest: &mut Rest) -> Option<Self>;
}

impl Stored for Case {
    fn bytes(&self) -> Vec<u8> {
        [&[self.ram][..], &log_bytes(&self.log)].concat()
    }

    fn first(rest: &mut Rest) -> Option<Self> {
        Some(Case {
            ram: rest.image()?,
            log: rest.log()?,
        })
    }
}

impl Stored for Pair {
    fn bytes(&self) -> Vec<u8> {
        let mut all = vec![self.ram, self.named, self.lent, self.unfit];
        for log in self.all_logs() {
            all.extend(log_bytes(log));
        }
        all
    }

    fn first(rest: &mut Rest) -> Option<Self> {
        Some(Pair {
            ram: rest.image()?,
            named: rest.byte()?,
            lent: rest.byte()?,
            unfit: rest.byte()?,
            preludes: [rest.log()?, rest.log()?],
            logs: [rest.log()?, rest.log()?],
            tail: rest.log()?,
        })
    }
}

impl Stored for Reel {
    fn bytes(&self) -> Vec<u8> {
        [
            &[self.way as u8][..],
            &(self.lent as u32).to_le_bytes(),
            &(self.front.len() as u16).to_le_bytes(),
            &(self.fill as u32).to_le_bytes(),
            &[self.seed],
            &self.front,
        ]
        .concat()
    }

    fn first(rest: &mut Rest) -> Option<Self> {
        let way = match rest.byte()? {
            0 => Way::Write,
            1 => Way::Read,
            _ => return None,
        };
        let lent = rest.number(4)?;
        let front = rest.number(2)?;
        let fill = rest.number(4)?;
        let seed = rest.byte()?;
        if front > FRONT_MOST || front + fill > REEL_MOST || lent > REEL_MOST {
            return None;
        }
        Some(Reel {
            way,
            lent,
            front: rest.row(front)?,
            fill,
            seed,
        })
    }
}

pub fn bytes<C: Stored>(cases: &[C]) -> Vec<u8> {
    cases.iter().flat_map(Stored::bytes).collect()
}

/// The cases of a file, or why it is none.
pub fn read<C: Stored>(file: &[u8]) -> Result<Vec<C>, String> {
    let mut cases = Vec::new();
    let mut rest = Rest(file);
    while !rest.0.is_empty() {
        let case = C::first(&mut rest).ok_or(format!("case {} stops", cases.len() + 1))?;
        cases.push(case);
    }
    if cases.len() > CASES_MOST {
        return Err(format!("more than {CASES_MOST} cases"));
    }
    Ok(cases)
}

fn log_bytes(log: &[u8]) -> Vec<u8> {
    [&(log.len() as u16).to_le_bytes()[..], log].concat()
}

/// The bytes of a file that are still to be read.
pub struct Rest<'a>(&'a [u8]);

impl Rest<'_> {
    fn byte(&mut self) -> Option<u8> {
        let (first, after) = self.0.split_first()?;
        self.0 = after;
        Some(*first)
    }

    fn image(&mut self) -> Option<u8> {
        self.byte().filter(|image| *image < RAMS_MOST)
    }

    fn log(&mut self) -> Option<Vec<u8>> {
        let length = self.number(2)?;
        self.row(length)
    }

    /// Of so many bytes, low byte first.
    fn number(&mut self, size: usize) -> Option<usize> {
        let bytes = self.row(size)?;
        let more = |sum, byte: &u8| sum << 8 | usize::from(*byte);
        Some(bytes.iter().rev().fold(0, more))
    }

    fn row(&mut self, length: usize) -> Option<Vec<u8>> {
        let row = self.0.get(..length)?.to_vec();
        self.0 = &self.0[length..];
        Some(row)
    }
}

#[cfg(test)]
mod tests {
    use super::*;

    fn two() -> Vec<Case> {
        let case = |ram, log: &[u8]| Case {
            ram,
            log: log.to_vec(),
        };
        vec![case(9, b"QAlND"), case(0, b"")]
    }

    #[test]
    fn cases_come_back_from_their_bytes() {
        assert_eq!(bytes(&two()), b"\x09\x05\x00QAlND\x00\x00\x00");
        assert_eq!(read::<Case>(&bytes(&two())).unwrap(), two());
        assert_eq!(read::<Case>(b"").unwrap(), []);
    }

    #[test]
    fn pairs_come_back_from_their_bytes() {
        let log = |text: &str| text.as_bytes().to_vec();
        let pair = Pair {
            ram: 1,
            named: 0x80,
            lent: lent::LONG_READINGS,
            unfit: unfit::OLD_END,
            preludes: [log("p"), log("pp")],
            logs: [log("l"), log("")],
            tail: log("t"),
        };
        let file = b"\x01\x80\x06\x02\x01\x00p\x02\x00pp\x01\x00l\x00\x00\x01\x00t";
        assert_eq!(bytes(&[pair.clone()]), file);
        assert_eq!(read::<Pair>(&file.repeat(2)).unwrap(), [pair.clone(), pair]);
        for length in 1..file.len() {
            assert!(read::<Pair>(&file[..length]).is_err());
        }
    }

    fn reel(lent: usize, front: usize, fill: usize) -> Reel {
        Reel {
            way: Way::Write,
            lent,
            front: vec![b'f'; front],
            fill,
            seed: 9,
        }
    }

    #[test]
    fn reels_come_back_from_their_bytes() {
        let reel = Reel {
            way: Way::Read,
            lent: 0x1_F43C,
            front: b"RIF".to_vec(),
            fill: 0x1_0203,
            seed: 0xFE,
        };
        let file = b"\x01\x3C\xF4\x01\x00\x03\x00\x03\x02\x01\x00\xFERIF";
        assert_eq!(bytes(&[reel.clone()]), file);
        let both = [
            Reel {
                way: Way::Write,
                ..reel.clone()
            },
            reel,
        ];
        assert_eq!(read::<Reel>(&bytes(&both)).unwrap(), both);
        for length in 1..file.len() {
            assert!(read::<Reel>(&file[..length]).is_err());
        }
    }

    #[test]
    fn a_reel_of_another_way() {
        let mut file = bytes(&[reel(0, 0, 0)]);
        for way in 2..=255 {
            file[0] = way;
            assert_eq!(read::<Reel>(&file).unwrap_err(), "case 1 stops");
        }
    }

    #[test]
    fn a_reel_as_long_as_may_be() {
        let taken = |reel| read::<Reel>(&bytes(&[reel])).is_ok();
        assert!(taken(reel(128_064, 256, 127_808)));
        assert!(taken(reel(0, 0, 128_064)));
        assert!(!taken(reel(128_065, 0, 0)));
        assert!(!taken(reel(0, 257, 0)));
        assert!(!taken(reel(0, 0, 128_065)));
        assert!(!taken(reel(0, 1, 128_064)));
        assert!(!taken(reel(0, 0, 0xFFFF_FFFF)));
        assert!(!taken(reel(0xFFFF_FFFF, 0, 0)));
    }

    /// The front, then byte k is seed + 31·k + k / 256.
    #[test]
    fn the_source_of_a_reel() {
        let source = reel(0, 2, 300).source();
        assert_eq!(source.len(), 302);
        assert_eq!(source[..5], [b'f', b'f', 9, 40, 71]);
        assert_eq!(source[2 + 255], (9_u16 + 31 * 255) as u8);
        assert_eq!(source[2 + 256], 9 + 1);
        assert_eq!(source[2 + 257], 9 + 31 + 1);
    }

    #[test]
    fn a_file_that_stops_inside_a_case() {
        for file in [&b"\x00"[..], b"\x00\x01", b"\x00\x01\x00", b"\x0A\x00\x00"] {
            assert_eq!(read::<Case>(file).unwrap_err(), "case 1 stops");
        }
    }

    #[test]
    fn as_many_cases_as_are_read() {
        assert!(read::<Case>(&b"\0\0\0".repeat(CASES_MOST)).is_ok());
        assert!(read::<Case>(&b"\0\0\0".repeat(CASES_MOST + 1)).is_err());
    }
}
