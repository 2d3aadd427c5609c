//! The log as document 01 gives it: its records, their bytes, and the
//! refusal of a malformed one. Written from the document alone.

pub const LOG_MOST: usize = 60_000;
pub const TICKS_MOST: usize = 32_000;
const REGISTER_MOST: u8 = 0x7F;

#[derive(Clone, Copy, Debug, PartialEq)]
pub enum Record {
    Write { register: u8, value: u8 },
    Ticks(u16),
    Reading(u8),
    End,
}

/// Document 01's refusal numbers, then those of document 02.
#[derive(Clone, Copy, Debug, PartialEq)]
pub enum Refusal {
    RamLength = 1,
    UnfitRecord = 2,
    LogTooLong = 3,
    UnknownMark = 4,
    StopsInside = 5,
    RegisterTooHigh = 6,
    BadTicks = 7,
    NoEnd = 8,
    Tail = 9,
    LentLength = 10,
    EchoOn = 11,
    LogsDiffer = 12,
    /// W-201: "a file not of this layout".
    OtherLayout = 13,
}

impl Record {
    pub fn bytes(self) -> Vec<u8> {
        match self {
            Record::Write { register, value } => vec![b'R', b'W', register, value],
            Record::Ticks(count) => {
                let [low, high] = count.to_le_bytes();
                vec![b'T', b'K', low, high]
            }
            Record::Reading(register) => vec![b'Q', b'A', register],
            Record::End => vec![b'N', b'D'],
        }
    }
}

/// All records up to the end record, or the refusal at the first place.
/// The whole log is checked here, before the first tick.
pub fn read(log: &[u8]) -> Result<Vec<Record>, Refusal> {
    if log.len() > LOG_MOST {
        return Err(Refusal::LogTooLong);
    }
    let mut records = Vec::new();
    let mut ticks = 0;
    let mut rest = log;
    loop {
        let record = first_record(rest)?;
        rest = &rest[record.bytes().len()..];
        match record {
            Record::End if rest.is_empty() => return Ok(records),
            Record::End => return Err(Refusal::Tail),
            Record::Ticks(count) => ticks = more_ticks(ticks, count)?,
            Record::Write { .. } | Record::Reading(_) => {}
        }
        records.push(record);
    }
}

/// The record that the bytes start with. The order of the cases is document
/// 01's: 5 for a lone byte, 4, 5, then 6 (7 is the caller's).
fn first_record(rest: &[u8]) -> Result<Record, Refusal> {
    match *rest {
        [] => Err(Refusal::NoEnd),
        [_] => Err(Refusal::StopsInside),
        [b'N', b'D', ..] => Ok(Record::End),
        [b'R', b'W', register, value, ..] => Ok(Record::Write {
            register: low_register(register)?,
            value,
        }),
        [b'T', b'K', low, high, ..] => Ok(Record::Ticks(u16::from_le_bytes([low, high]))),
        [b'Q', b'A', register, ..] => Ok(Record::Reading(low_register(register)?)),
        [b'R', b'W', ..] | [b'T', b'K', ..] | [b'Q', b'A', ..] => Err(Refusal::StopsInside),
        _ => Err(Refusal::UnknownMark),
    }
}

fn low_register(register: u8) -> Result<u8, Refusal> {
    if register > REGISTER_MOST {
        return Err(Refusal::RegisterTooHigh);
    }
    Ok(register)
}

fn more_ticks(ticks: usize, count: u16) -> Result<usize, Refusal> {
    let total = ticks + usize::from(count);
    if count == 0 || total > TICKS_MOST {
        return Err(Refusal::BadTicks);
    }
    Ok(total)
}

#[cfg(test)]
mod tests {
    use super::*;

    fn refusal(log: &[u8]) -> Refusal {
        read(log).expect_err("this log must be refused")
    }

    #[test]
    fn good_log_gives_its_records() {
        let log = b"RW\x4C\x01TK\x34\x12QA\x7FND";
        let records = [
            Record::Write {
                register: 0x4C,
                value: 1,
            },
            Record::Ticks(0x1234),
            Record::Reading(0x7F),
        ];
        assert_eq!(read(log).unwrap(), records);
        assert_eq!(read(b"ND").unwrap(), []);
    }

    #[test]
    fn length_comes_before_anything_in_the_log() {
        let mut log = b"QA\0".repeat(19_999);
        log.extend(b"\0\0\0");
        assert_eq!(log.len(), LOG_MOST);
        assert_eq!(refusal(&log), Refusal::UnknownMark);
        log.push(0);
        assert_eq!(refusal(&log), Refusal::LogTooLong);
    }

    #[test]
    fn full_length_passes() {
        let mut log = b"RW\0\0".repeat(14_998);
        log.extend(b"QA\0QA\0ND");
        assert_eq!(log.len(), LOG_MOST);
        assert_eq!(read(&log).unwrap().len(), 15_000);
    }

    #[test]
    fn unknown_marks() {
        for log in [&b"XY"[..], b"RK\0\0ND", b"WR\0\0ND", b"rw\0\0ND", b"QA\0DN"] {
            assert_eq!(refusal(log), Refusal::UnknownMark);
        }
    }

    #[test]
    fn stops_inside_a_mark_or_a_record() {
        for log in [
            &b"R"[..],
            b"\0",
            b"RW",
            b"RW\x01",
            b"TK",
            b"TK\x01",
            b"QA",
            b"QA\x01N",
        ] {
            assert_eq!(refusal(log), Refusal::StopsInside);
        }
    }

    #[test]
    fn stops_inside_comes_before_a_bad_register_or_count() {
        assert_eq!(refusal(b"RW\xFF"), Refusal::StopsInside);
        assert_eq!(refusal(b"TK\0"), Refusal::StopsInside);
    }

    #[test]
    fn registers_above_7f() {
        assert_eq!(refusal(b"RW\x80\0ND"), Refusal::RegisterTooHigh);
        assert_eq!(refusal(b"QA\x80ND"), Refusal::RegisterTooHigh);
    }

    #[test]
    fn tick_counts_and_their_total() {
        assert_eq!(refusal(b"TK\0\0ND"), Refusal::BadTicks);
        assert!(read(b"TK\x00\x7DND").is_ok());
        assert_eq!(refusal(b"TK\x01\x7DND"), Refusal::BadTicks);
        assert!(read(b"TK\xFF\x7CTK\x01\x00ND").is_ok());
        assert_eq!(refusal(b"TK\xFF\x7CTK\x02\x00ND"), Refusal::BadTicks);
    }

    #[test]
    fn no_end_record() {
        assert_eq!(refusal(b""), Refusal::NoEnd);
        assert_eq!(refusal(b"RW\0\0"), Refusal::NoEnd);
    }

    #[test]
    fn bytes_after_the_end() {
        assert_eq!(refusal(b"ND\0"), Refusal::Tail);
        assert_eq!(refusal(b"QA\0NDQA\xFF"), Refusal::Tail);
    }

    #[test]
    fn first_place_decides() {
        assert_eq!(refusal(b"QA\x80XX"), Refusal::RegisterTooHigh);
        assert_eq!(refusal(b"XXQA\x80"), Refusal::UnknownMark);
        assert_eq!(refusal(b"TK\0\0RW"), Refusal::BadTicks);
    }
}
