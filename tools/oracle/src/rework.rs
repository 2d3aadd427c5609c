//! What a rework must give, by document 01 alone: the refusals in their
//! order, the set A, and what a fresh run of the second sitting gives on the
//! given Rust. No voice is left out here and no sheet is reused.

use apu::dsp::Dsp;
use apu::memory::RawARAM;

use crate::cases::{lent, unfit, Pair};
use crate::chip::{self, Played};
use crate::log::{self, Record, Refusal};
use crate::registers::*;

const ECHO_WRITES_OFF: u8 = 0x20;

/// A set of voices, one bit each.
#[derive(Clone, Copy, Debug, PartialEq)]
pub struct Voices(pub u8);

impl Voices {
    fn has(self, voice: u8) -> bool {
        self.0 >> voice & 1 == 1
    }

    /// "At each tick, from voice 1 up, voice j joins if j−1 is in A and PMON
    /// bit j is set."
    fn join(&mut self, pmon: u8) {
        for voice in 1..8 {
            if self.has(voice - 1) && pmon >> voice & 1 == 1 {
                self.0 |= 1 << voice;
            }
        }
    }
}

/// A chip on its way through a case.
struct Sitting {
    dsp: Dsp,
    ram: Box<RawARAM>,
}

impl Sitting {
    /// Where the prelude leaves a new chip.
    fn after(prelude: &[u8], ram: &RawARAM) -> Self {
        let mut sitting = Sitting {
            dsp: Dsp::new(),
            ram: Box::new(*ram),
        };
        let records = log::read(prelude).expect("a prelude is well formed");
        sitting.play(&records, |_| {});
        sitting
    }

    fn play(&mut self, records: &[Record], mut after: impl FnMut(&Dsp)) -> Played {
        chip::play(&mut self.dsp, &mut self.ram, records, |dsp, _, _| {
            after(dsp)
        })
    }
}

/// What the second sitting gives from the start, and the voices that a
/// rework steps for it.
pub struct Reworked {
    pub voices: Voices,
    pub played: Played,
    end: Sitting,
}

/// "Order: 1, 2, 3, then 4 to 9 .., then 12, 11, 10"; "the old log fully (3
/// to 9) before the new".
pub fn rework(pair: &Pair, ram: &RawARAM) -> Result<Reworked, Refusal> {
    if pair.unfit != 0 {
        return Err(Refusal::UnfitRecord);
    }
    let old = log::read(&pair.logs[0])?;
    let new = log::read(&pair.logs[1])?;
    let kept = |records: &[Record]| without(records, Voices(pair.named));
    if kept(&old) != kept(&new) {
        return Err(Refusal::LogsDiffer);
    }

    let mut voices = Voices(pair.named);
    let mut echo_off = true;
    let mut end = Sitting::after(&pair.preludes[1], ram);
    // A tick changes neither PMON nor FLG: after it they are what it found.
    let played = end.play(&new, |dsp| {
        voices.join(dsp.pmon());
        echo_off &= dsp.read_reg(FLG) & ECHO_WRITES_OFF != 0;
    });
    if !echo_off {
        return Err(Refusal::EchoOn);
    }
    if !as_needed(pair.lent, &played) {
        return Err(Refusal::LentLength);
    }
    Ok(Reworked {
        voices,
        played,
        end,
    })
}

/// "Without the `RW` records to `$j0`..`$j7` for j in S".
fn without(records: &[Record], named: Voices) -> Vec<Record> {
    let own = |record: &Record| match *record {
        Record::Write { register, .. } => register & 0x0F <= GAIN && named.has(register >> 4),
        _ => false,
    };
    records.iter().copied().filter(|r| !own(r)).collect()
}

/// Whether what is lent is as long as the log needs. Nothing is shorter than
/// no bytes.
fn as_needed(lent: u8, played: &Played) -> bool {
    match lent {
        lent::SHORT_PCM | lent::SHORT_SHEET => played.ticks == 0,
        lent::SHORT_READINGS => played.readings.is_empty(),
        lent::LONG_PCM | lent::LONG_SHEET | lent::LONG_READINGS => false,
        _ => true,
    }
}

/// For each pair its number, from 1; `VOICES`, the set A, how many they are
/// and the lines of a run, or `REFUSED` and the number; then `TAIL` and the
/// lines of the tail from the record that comes back: the end record, or the
/// new start record of a refused call.
pub fn report(
    pairs: &[Pair],
    ram: impl Fn(u8) -> Result<Vec<u8>, String>,
) -> Result<String, String> {
    let mut text = String::new();
    for (number, pair) in (1..).zip(pairs) {
        text += &format!("CASE {number}\n");
        text += &match chip::ram_of(ram(pair.ram)?) {
            Ok(ram) => of_pair(pair, &ram),
            Err(refusal) => format!("{0}TAIL\n{0}", chip::refused(refusal)),
        };
    }
    Ok(text)
}

fn of_pair(pair: &Pair, ram: &RawARAM) -> String {
    let (said, mut back) = match rework(pair, ram) {
        Ok(made) => {
            let Voices(mask) = made.voices;
            let count = (0..8).filter(|voice| made.voices.has(*voice)).count();
            let lines = chip::lines(&made.played, &made.end.ram);
            (format!("VOICES {mask:02X} {count}\n{lines}"), made.end)
        }
        Err(refusal) => (
            chip::refused(refusal),
            Sitting::after(&pair.preludes[1], ram),
        ),
    };
    if pair.unfit & unfit::START != 0 {
        return format!("{said}TAIL\n{}", chip::refused(Refusal::UnfitRecord));
    }
    let tail = log::read(&pair.tail).expect("a tail is well formed");
    let played = back.play(&tail, |_| {});
    format!("{said}TAIL\n{}", chip::lines(&played, &back.ram))
}

#[cfg(test)]
mod tests {
    use super::*;

    const ROW_SIZE: usize = 36;

    fn zero_ram() -> Box<RawARAM> {
        Box::new([0; 65_536])
    }

    fn pair(named: u8, old: &[u8], new: &[u8]) -> Pair {
        Pair {
            ram: 0,
            named,
            lent: lent::AS_NEEDED,
            unfit: 0,
            preludes: [b"ND".to_vec(), b"ND".to_vec()],
            logs: [old.to_vec(), new.to_vec()],
            tail: b"ND".to_vec(),
        }
    }

    fn refusal(pair: &Pair) -> u8 {
        rework(pair, &zero_ram()).err().map_or(0, |r| r as u8)
    }

    /// The set A for one log with these PMON values, a tick after each.
    fn voices(named: u8, pmon: &[u8]) -> u8 {
        let mut log = Vec::new();
        for value in pmon {
            log.extend([b'R', b'W', PMON, *value]);
            log.extend(b"TK\x01\x00");
        }
        log.extend(b"ND");
        let made = rework(&pair(named, &log, &log), &zero_ram());
        made.ok().unwrap().voices.0
    }

    #[test]
    fn no_modulation_joins_nobody() {
        for named in [0, 0x08, 0xA5, 0xFF] {
            assert_eq!(voices(named, &[]), named);
            assert_eq!(voices(named, &[0, 0]), named);
        }
        assert_eq!(voices(0, &[0xFF]), 0);
    }

    #[test]
    fn the_next_voice_joins_by_its_own_bit() {
        assert_eq!(voices(0x08, &[0x10]), 0x18);
        assert_eq!(voices(0x08, &[0x08]), 0x08, "voice 3 is moved, not moving");
        assert_eq!(voices(0x08, &[0x20]), 0x08, "voice 4 is not of the set");
        // Voice 0 has none before it, and none comes after voice 7.
        assert_eq!(voices(0x80, &[0xFF]), 0x80);
        assert_eq!(voices(0x01, &[0xFF]), 0xFF);
    }

    #[test]
    fn a_chain_joins_in_one_tick() {
        assert_eq!(voices(0x08, &[0x70]), 0x78);
        assert_eq!(voices(0x09, &[0x52]), 0x1B);
    }

    /// Voice 4 joins at the second tick; voice 5's bit was set only before.
    #[test]
    fn a_late_join_does_not_reach_back() {
        assert_eq!(voices(0x08, &[0x20, 0x10]), 0x18);
        assert_eq!(voices(0x08, &[0x10, 0x20]), 0x38, "who has joined stays");
    }

    /// PMON counts at ticks alone.
    #[test]
    fn what_no_tick_sees_joins_nobody() {
        let log = b"RW\x2D\x10RW\x2D\x00TK\x01\x00RW\x2D\x10ND";
        let made = rework(&pair(0x08, log, log), &zero_ram()).ok().unwrap();
        assert_eq!(made.voices, Voices(0x08));
    }

    /// The prelude's PMON and FLG hold at the first tick.
    #[test]
    fn the_start_record_counts() {
        let mut given = pair(0x08, b"TK\x01\x00ND", b"TK\x01\x00ND");
        given.preludes[1] = b"RW\x2D\x10ND".to_vec();
        let made = rework(&given, &zero_ram()).ok().unwrap();
        assert_eq!(made.voices, Voices(0x18));
        given.preludes[1] = b"RW\x6C\x00ND".to_vec();
        assert_eq!(refusal(&given), 11);
    }

    #[test]
    fn own_writes_may_differ() {
        let one = b"RW\x30\x01TK\x01\x00ND";
        let two = b"TK\x01\x00RW\x37\x02RW\x30\x03ND";
        assert_eq!(refusal(&pair(0x08, one, two)), 0);
        assert_eq!(refusal(&pair(0xF7, one, two)), 12);
        for register in [0x38, 0x39, 0x3A, 0x3C, 0x3F, 0x20, 0x47] {
            let other = [b"RW", &[register, 0][..], b"ND"].concat();
            assert_eq!(refusal(&pair(0x08, &other, b"ND")), 12);
            assert_eq!(refusal(&pair(0x08, b"ND", &other)), 12);
        }
        assert_eq!(
            refusal(&pair(0xFF, b"TK\x02\x00ND", b"TK\x01\x00TK\x01\x00ND")),
            12
        );
        assert_eq!(refusal(&pair(0xFF, b"QA\x30ND", b"QA\x31ND")), 12);
        assert_eq!(refusal(&pair(0xFF, b"QA\x30ND", b"ND")), 12);
    }

    #[test]
    fn echo_counts_at_ticks_alone() {
        let on = b"TK\x01\x00RW\x6C\x00TK\x01\x00RW\x6C\x20ND";
        assert_eq!(refusal(&pair(0x08, on, on)), 11);
        let between = b"TK\x01\x00RW\x6C\x00RW\x6C\x20TK\x01\x00RW\x6C\x00ND";
        assert_eq!(refusal(&pair(0x08, between, between)), 0);
    }

    #[test]
    fn refusals_in_their_order() {
        let on = b"RW\x6C\x00TK\x01\x00ND";
        let mut given = pair(0x08, b"XX", b"");
        given.lent = lent::LONG_PCM;
        for records in [unfit::START, unfit::OLD_END, unfit::START | unfit::OLD_END] {
            given.unfit = records;
            assert_eq!(refusal(&given), 2);
        }
        given.unfit = 0;
        assert_eq!(refusal(&given), 4, "the old log is told first");
        given.logs[0] = on.to_vec();
        assert_eq!(refusal(&given), 8, "then the new one");
        given.logs[1] = b"ND".to_vec();
        assert_eq!(refusal(&given), 12);
        given.logs[1] = on.to_vec();
        assert_eq!(refusal(&given), 11);
        given.logs = [b"ND".to_vec(), b"ND".to_vec()];
        assert_eq!(refusal(&given), 10);
        given.lent = lent::SHORT_PCM;
        assert_eq!(refusal(&given), 0, "no bytes are needed");
        let text = report(&[given], |_| Ok(vec![0; 65_535])).unwrap();
        assert_eq!(text, "CASE 1\nREFUSED 1\nTAIL\nREFUSED 1\n");
    }

    #[test]
    fn each_slice_has_its_length() {
        let log = b"TK\x01\x00QA\x00ND";
        let mut given = pair(0, log, log);
        for lent in lent::SHORT_PCM..=lent::LONG_READINGS {
            given.lent = lent;
            assert_eq!(refusal(&given), 10);
        }
    }

    /// A refused call gives the new start record back.
    #[test]
    fn the_tail_shows_what_came_back() {
        let mut given = pair(0x08, b"ND", b"QA\x30ND");
        given.preludes = [b"RW\x30\x11ND".to_vec(), b"RW\x30\x22ND".to_vec()];
        given.tail = b"QA\x30ND".to_vec();
        let text = report(&[given.clone()], |_| Ok(vec![0; 65_536])).unwrap();
        assert!(text.starts_with("CASE 1\nREFUSED 12\nTAIL\nQ 1 30 22\nEND 0 1\n"));
        given.unfit = unfit::OLD_END;
        let text = report(&[given.clone()], |_| Ok(vec![0; 65_536])).unwrap();
        assert!(text.starts_with("CASE 1\nREFUSED 2\nTAIL\nQ 1 30 22\nEND 0 1\n"));
        given.unfit = unfit::START;
        let text = report(&[given.clone()], |_| Ok(vec![0; 65_536])).unwrap();
        assert_eq!(text, "CASE 1\nREFUSED 2\nTAIL\nREFUSED 2\n");
        given.unfit = 0;
        given.logs[0] = given.logs[1].clone();
        let text = report(&[given], |_| Ok(vec![0; 65_536])).unwrap();
        assert!(text.starts_with("CASE 1\nVOICES 08 1\nQ 1 30 22\nEND 0 1\nREG "));
    }

    /// "All other lanes of the sheet are the first run's own", in random
    /// pairs on the Rust; and in most of them the others are not.
    #[test]
    fn lanes_outside_the_set_are_those_of_the_first_run() {
        let made = crate::make::pairs::random(300, 5);
        let (mut taken, mut changed) = (0, 0);
        for pair in &made.cases {
            let Ok(ram) = chip::ram_of(made.rams[usize::from(pair.ram)].clone()) else {
                continue;
            };
            let Ok(second) = rework(pair, &ram) else {
                continue;
            };
            let mut first = Sitting::after(&pair.preludes[0], &ram);
            let first = first.play(&log::read(&pair.logs[0]).unwrap(), |_| {});
            taken += 1;
            changed += usize::from(first.sheet != second.played.sheet);
            let rows = first.sheet.chunks(ROW_SIZE);
            for (was, is) in rows.zip(second.played.sheet.chunks(ROW_SIZE)) {
                for lane in (0..8).filter(|lane| !second.voices.has(*lane)) {
                    let at = 4 * usize::from(lane);
                    assert_eq!(was[at..at + 4], is[at..at + 4]);
                }
                assert_eq!(was[32..], is[32..], "the echo's");
            }
        }
        assert!(
            taken > 200 && changed > 150,
            "{taken} taken, {changed} changed"
        );
    }
}
