//! docs/DIFFERENCES.md as the logs that stand on it. A row of a table is a
//! log where its first cell is the name of a case; then come the log, its
//! RAM image and what it reads. Where the table is that of the public rules,
//! a further column says what it would read by them; where it is that of a
//! rule that the Rust does not have, what the Rust reads. A row whose first
//! cell is `ramN` gives an image.

use std::panic::{self, AssertUnwindSafe};

use apu::dsp::Dsp;
use apu::memory::RawARAM;

use crate::chip::{self, Played};
use crate::log::Record;

/// The page as it stood when the oracle was built.
pub const PAGE: &str = include_str!("../../../docs/DIFFERENCES.md");
const NAME: &str = "differs-";
const PUBLIC: &str = "under the public rule";
const RUST: &str = "the Rust reads";
const RAM_SIZE: usize = 65_536;

pub struct Log<'a> {
    pub name: &'a str,
    pub image: u8,
    /// Without the end record.
    pub records: Vec<Record>,
    pub reads: Vec<u8>,
    /// What it would read by the public rule: nothing where the page names
    /// no reading, more than one where the rule leaves it open.
    pub public: Vec<Vec<u8>>,
    /// What the Rust as it is reads, where the page has a cell for that.
    pub rust: Option<Vec<u8>>,
}

pub fn logs(page: &str) -> Vec<Log<'_>> {
    let is_log = |row: &Row| code(row.cells[0]).starts_with(NAME);
    rows(page).filter(is_log).map(log).collect()
}

/// With their numbers.
pub fn images(page: &str) -> Vec<(u8, Vec<u8>)> {
    let is_image = |row: &Row| row.cells[0].starts_with("`ram");
    let image = |row: Row| (number(row.cells[0]), ram(code(row.cells[1])));
    rows(page).filter(is_image).map(image).collect()
}

/// A row of a table below its heading.
struct Row<'a> {
    heading: Vec<&'a str>,
    cells: Vec<&'a str>,
}

impl<'a> Row<'a> {
    /// The cell below this word of the heading, if there is one.
    fn below(&self, word: &str) -> Option<&'a str> {
        let column = self.heading.iter().position(|title| *title == word)?;
        self.cells.get(column).copied()
    }
}

/// The rows of all tables. The first line of a table is its heading.
fn rows(page: &str) -> impl Iterator<Item = Row<'_>> {
    let mut heading = None;
    page.lines().filter_map(move |line| {
        let Some(cells) = cells(line) else {
            heading = None;
            return None;
        };
        let heading = heading.get_or_insert(cells.clone()).clone();
        Some(Row { heading, cells })
    })
}

fn cells(line: &str) -> Option<Vec<&str>> {
    let inner = line.strip_prefix('|')?.strip_suffix('|')?;
    Some(inner.split('|').map(str::trim).collect())
}

fn log(row: Row<'_>) -> Log<'_> {
    let &[name, records, image, reads, ..] = &row.cells[..] else {
        panic!("{} has too few cells", row.cells[0]);
    };
    let reads = bytes(code(reads));
    let public = |said| public(said, reads.len());
    Log {
        name: code(name),
        image: number(image),
        records: code(records).split(", ").map(record).collect(),
        public: row.below(PUBLIC).map_or(Vec::new(), public),
        rust: row.below(RUST).map(|cell| bytes(code(cell))),
        reads,
    }
}

/// What stands between the first two backquotes, if anything.
fn code(cell: &str) -> &str {
    cell.split('`').nth(1).unwrap_or("")
}

/// Of an image.
fn number(cell: &str) -> u8 {
    let digits = code(cell).strip_prefix("ram");
    let number = digits.and_then(|digits| digits.parse().ok());
    number.unwrap_or_else(|| panic!("{cell} is no image"))
}

fn record(text: &str) -> Record {
    let words: Vec<_> = text.split(' ').collect();
    match words[..] {
        ["RW", register, value] => Record::Write {
            register: byte(register),
            value: byte(value),
        },
        ["TK", count] => Record::Ticks(count.parse().expect(text)),
        ["QA", register] => Record::Reading(byte(register)),
        _ => panic!("{text} is no record"),
    }
}

fn byte(text: &str) -> u8 {
    assert_eq!(text.len(), 2, "{text} is no byte");
    u8::from_str_radix(text, 16).expect(text)
}

fn bytes(text: &str) -> Vec<u8> {
    text.split_whitespace().map(byte).collect()
}

/// RAM that is zero but for what the text names: an address, a colon, the
/// bytes from there on; and so on behind a semicolon.
fn ram(text: &str) -> Vec<u8> {
    let mut ram = vec![0; RAM_SIZE];
    for part in text.split("; ").filter(|part| !part.is_empty()) {
        let (start, row) = part.split_once(": ").expect(part);
        let start = usize::from_str_radix(start, 16).expect(part);
        for (place, byte) in (start..).zip(bytes(row)) {
            ram[place] = byte;
        }
    }
    ram
}

/// A cell that starts with a reading says that one. One that starts with
/// "not" says all that stand in it as so many bytes.
fn public(cell: &str, count: usize) -> Vec<Vec<u8>> {
    if cell.starts_with('`') {
        vec![bytes(code(cell))]
    } else if cell.starts_with("not ") {
        let codes = cell.split('`').skip(1).step_by(2);
        let readings = codes.filter(|code| code.split(' ').count() == count);
        readings.map(bytes).collect()
    } else {
        Vec::new()
    }
}

impl Log<'_> {
    /// What these records read on its image, by the chip that the oracle was
    /// built with.
    fn with(&self, records: &[Record], page: &str) -> Vec<u8> {
        let mut ram = self.ram(page);
        values(chip::play(&mut Dsp::new(), &mut ram, records, |_, _, _| {}))
    }

    /// The same with that chip as it is: a write to ENDX stores its byte.
    fn as_it_is(&self, records: &[Record], page: &str) -> Vec<u8> {
        let mut ram = self.ram(page);
        values(chip::play_as_it_is(&mut Dsp::new(), &mut ram, records))
    }

    fn ram(&self, page: &str) -> Box<RawARAM> {
        let images = images(page);
        let (_, ram) = images.into_iter().find(|(n, _)| *n == self.image).unwrap();
        chip::ram_of(ram).unwrap()
    }

    /// The log less a write or a count, or with a count lowered; with words
    /// for each.
    fn shorter(&self) -> Vec<(String, Vec<Record>)> {
        let mut all = Vec::new();
        for (place, record) in self.records.iter().enumerate() {
            let change = |with: &[Record]| {
                let (before, after) = self.records.split_at(place);
                [before, with, &after[1..]].concat()
            };
            let number = place + 1;
            if !matches!(record, Record::Reading(_)) {
                all.push((format!("without record {number}"), change(&[])));
            }
            if let Record::Ticks(count) = *record {
                for less in 1..count {
                    let words = format!("record {number} lowered to {less}");
                    all.push((words, change(&[Record::Ticks(less)])));
                }
            }
        }
        all
    }
}

fn values(played: Played) -> Vec<u8> {
    played.readings.iter().map(|(_, value)| *value).collect()
}

/// For each log its name, what it reads, what the page says that it reads
/// and, by the public rule, would read; then what it reads on the chip as it
/// is, and what the page says of that.
pub fn report(page: &str) -> String {
    let line = |log: &Log| {
        let public: Vec<_> = log.public.iter().map(|bytes| text(bytes)).collect();
        let parts = [
            log.name.to_string(),
            given(|| log.with(&log.records, page)),
            text(&log.reads),
            public.join("/"),
            given(|| log.as_it_is(&log.records, page)),
            log.rust.as_deref().map_or(String::new(), text),
        ];
        parts.join(":") + "\n"
    };
    logs(page).iter().map(line).collect()
}

/// For each log whose name starts so, made shorter, its name, how, and what
/// it then reads.
pub fn report_shorter(page: &str, name: &str) -> String {
    let mut all = String::new();
    let meant = |log: &Log| log.name.starts_with(name);
    for log in logs(page).into_iter().filter(meant) {
        for (words, records) in log.shorter() {
            let given = given(|| log.with(&records, page));
            all += &format!("{}:{words}:{given}\n", log.name);
        }
    }
    all
}

/// The readings, or that the chip panics: under overflow checks it does.
fn given(readings: impl Fn() -> Vec<u8>) -> String {
    let caught = panic::catch_unwind(AssertUnwindSafe(readings));
    caught.map_or("panic".to_string(), |bytes| text(&bytes))
}

fn text(bytes: &[u8]) -> String {
    let words: Vec<_> = bytes.iter().map(|byte| format!("{byte:02X}")).collect();
    words.join(" ")
}

#[cfg(test)]
mod tests {
    use super::*;

    /// "Each reading under 'reads' is the one that tools/oracle prints from
    /// the Rust."
    #[test]
    fn the_page_says_what_the_chip_reads() {
        let logs = logs(PAGE);
        assert!(!logs.is_empty());
        for log in logs {
            let given = log.with(&log.records, PAGE);
            assert_eq!(given, log.reads, "{}", log.name);
        }
    }

    /// "The Rust reads": other bytes than we do in the logs of W-202, and in
    /// no other log of the page.
    #[test]
    fn the_page_says_what_the_rust_reads() {
        let mut differ = Vec::new();
        for log in logs(PAGE) {
            let given = log.as_it_is(&log.records, PAGE);
            if given != log.reads {
                differ.push(log.name);
            }
            assert_eq!(given, log.rust.unwrap_or(log.reads), "{}", log.name);
        }
        let wanted = ["endx-write", "endx-one-of-two", "endx-looped"];
        assert_eq!(differ, wanted.map(|name| format!("differs-11-{name}")));
    }

    /// Those logs read something else, here or on the Rust, without any of
    /// their writes or counts and with any lower count.
    #[test]
    fn no_log_of_two_readings_can_be_shorter() {
        for log in logs(PAGE) {
            let Some(rust) = &log.rust else { continue };
            for (words, records) in log.shorter() {
                let both = [log.with(&records, PAGE), log.as_it_is(&records, PAGE)];
                assert_ne!(both.each_ref(), [&log.reads, rust], "{words}");
            }
        }
    }

    /// Each log that stands on the page is one of those that are held.
    #[test]
    fn no_log_stands_elsewhere() {
        let codes = PAGE.split('`').skip(1).step_by(2);
        let marks = ["RW ", "TK ", "QA "];
        let written = codes.filter(|code| marks.iter().any(|mark| code.starts_with(mark)));
        assert_eq!(written.count(), logs(PAGE).len());
    }

    /// What differs by the public rule is not what we read, and few logs
    /// have no such reading.
    #[test]
    fn the_public_rule_reads_otherwise() {
        let logs = logs(PAGE);
        for log in &logs {
            assert!(!log.public.contains(&log.reads), "{}", log.name);
        }
        let (from_the_rust, others): (Vec<_>, Vec<_>) = logs
            .iter()
            .partition(|log| log.name.starts_with("differs-00-") || log.rust.is_some());
        assert!(from_the_rust.iter().all(|log| log.public.is_empty()));
        let unsaid = others.iter().filter(|log| log.public.is_empty());
        let names: Vec<_> = unsaid.map(|log| log.name).collect();
        let wanted = [
            "differs-10-reset-delay",
            "differs-13-esa",
            "differs-13-esa-kept",
        ];
        assert_eq!(names, wanted);
    }

    /// "A `voices[0].pitch` of `$FFFF` plays as `$3FFF`."
    #[test]
    fn a_pitch_above_its_bits_plays() {
        let images = images(PAGE);
        let (_, ram) = images.iter().find(|(number, _)| *number == 6).unwrap();
        let first = "RW 6C 20, RW 07 7F, RW 4C 01".split(", ").map(record);
        let first: Vec<_> = first.collect();
        let played = |pitch: u16| {
            let (mut dsp, mut ram) = (Dsp::new(), chip::ram_of(ram.clone()).unwrap());
            chip::play(&mut dsp, &mut ram, &first, |_, _, _| {});
            dsp.voices[0].pitch = pitch;
            chip::play(&mut dsp, &mut ram, &[Record::Ticks(40)], |_, _, _| {}).sheet
        };
        assert_eq!(played(0xFFFF), played(0x3FFF));
        assert_ne!(played(0xFFFF), played(0x1000));
    }

    #[test]
    fn rows_of_a_page() {
        let page = "text\n| image |\n| `ram1` | `0010: 0A FF; FFFF: 01` |\n| `ram2` | |\n\
            text\n| case | log | RAM | reads | under the public rule |\n|---|---|\n\
            | `differs-a` | `RW 2C 01, TK 12, QA 2C` | `ram1` | `01` | `00`: so |\n\
            | `differs-b` | `TK 1` | `ram2` | | not `01 02` |\n\
            | `differs-d` | `QA 6C, QA 00` | `ram2` | `E0 00` | not `01 02` or `$03`, `03 04` |\n\
            | differs-c | none |\n\n\
            | case | log | RAM | reads | the Rust reads | because |\n\
            | `differs-e` | `RW 7C 01, QA 7C` | `ram2` | `00` | `01` | `7C` |\n";
        let images = images(page);
        let numbers: Vec<_> = images.iter().map(|(number, _)| *number).collect();
        assert_eq!(numbers, [1, 2]);
        assert_eq!(images[0].1[0x10..0x12], [0x0A, 0xFF]);
        assert_eq!(images[0].1[0xFFFF], 1);
        assert_eq!(images[1].1, vec![0; RAM_SIZE]);
        let logs = logs(page);
        let names: Vec<_> = logs.iter().map(|log| (log.name, log.image)).collect();
        let wanted = [
            ("differs-a", 1),
            ("differs-b", 2),
            ("differs-d", 2),
            ("differs-e", 2),
        ];
        assert_eq!(names, wanted);
        assert_eq!(logs[0].records.len(), 3);
        assert_eq!(logs[0].records[1], Record::Ticks(12));
        assert_eq!(
            (&logs[0].reads[..], &logs[1].reads[..]),
            (&[1][..], &[][..])
        );
        let said: Vec<_> = logs.iter().map(|log| log.rust.as_deref()).collect();
        assert_eq!(said, [None, None, None, Some(&[1][..])]);
        let lines = "differs-a:01:01:00:01:\ndiffers-b:::::\n\
            differs-d:E0 00:E0 00:01 02/03 04:E0 00:\ndiffers-e:00:00::01:01\n";
        assert_eq!(report(page), lines);
    }

    /// A write, a count, and eleven lower counts.
    #[test]
    fn shorter_logs() {
        let page = "| `ram1` | |\n| `differs-a` | `RW 2C 01, TK 12, QA 2C` | `ram1` | `01` | |\n";
        let text = report_shorter(page, "differs-a");
        assert_eq!(report_shorter(page, "differs-b"), "");
        assert_eq!(text.lines().count(), 13);
        assert!(text.starts_with("differs-a:without record 1:00\ndiffers-a:without record 2:01\n"));
        assert!(text.ends_with("differs-a:record 2 lowered to 11:01\n"));
    }
}
