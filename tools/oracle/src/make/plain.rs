//! Valid logs that make sound: a start that sets everything up, then
//! writes, readings and ticks by turns.

use super::bank;
use crate::log::Record;
use crate::random::Random;
use crate::registers::*;

/// Past so many records the ticks left are taken at once, so that a log
/// stays under 60,000 bytes.
const RECORDS_USUAL: usize = 12_000;

/// One log in so many is to have no write to `$7C`; a few others have none
/// by chance.
const ONE_WITHOUT_ENDX_IN: usize = 3;

/// What a log goes by, and all logs of a pair.
#[derive(Clone, Copy)]
pub struct Setting {
    /// The value for DIR.
    dir: u8,
    /// Whether it may write `$7C`. W-202: "demand 2 compares with the Rust on
    /// logs without a `$7C` write; the rest is held to the document". So both
    /// kinds are wanted.
    acknowledges: bool,
}

impl Setting {
    pub fn new(random: &mut Random, dir: u8) -> Self {
        let acknowledges = !random.once_in(ONE_WITHOUT_ENDX_IN);
        Setting { dir, acknowledges }
    }
}

/// A log of exactly this many ticks, with its end record, and its RAM.
pub fn plain(random: &mut Random, ticks: usize) -> (Vec<Record>, Vec<u8>) {
    let bank = bank::bank(random);
    let setting = Setting::new(random, bank.dir);
    (records(random, setting, ticks), bank.ram)
}

/// The same for a RAM image that is there already.
pub fn records(random: &mut Random, setting: Setting, ticks: usize) -> Vec<Record> {
    let mut log = Plain::new(random, setting, ticks);
    log.start();
    log.ended()
}

/// The same for a chip that is set up already.
pub fn more(random: &mut Random, setting: Setting, ticks: usize) -> Vec<Record> {
    Plain::new(random, setting, ticks).ended()
}

pub struct Plain<'a> {
    pub random: &'a mut Random,
    setting: Setting,
    /// Volumes and taps are often at their ends, where sums clamp.
    loud: bool,
    /// Ticks to go.
    left: usize,
    records: Vec<Record>,
}

impl<'a> Plain<'a> {
    fn new(random: &'a mut Random, setting: Setting, ticks: usize) -> Self {
        let loud = random.once_in(2);
        Plain {
            random,
            setting,
            loud,
            left: ticks,
            records: Vec::new(),
        }
    }

    /// All the ticks, with actions between them, and the end record.
    fn ended(mut self) -> Vec<Record> {
        while self.left > 0 {
            for _ in 0..self.random.below(5) {
                self.action();
            }
            self.some_ticks();
        }
        self.read(ENDX);
        self.records.push(Record::End);
        self.records
    }

    /// A write, but for one to `$7C` in a log that is to have none.
    pub fn set(&mut self, register: u8, value: u8) {
        if register != ENDX || self.setting.acknowledges {
            self.records.push(Record::Write { register, value });
        }
    }

    pub fn read(&mut self, register: u8) {
        self.records.push(Record::Reading(register));
    }

    /// So many ticks, or those that are left.
    pub fn ticks(&mut self, wanted: usize) {
        let count = wanted.min(self.left);
        if count > 0 {
            self.left -= count;
            self.records.push(Record::Ticks(count as u16));
        }
    }

    /// Often few ticks, so that writes meet every state of the poll and of
    /// the key-on delay.
    fn some_ticks(&mut self) {
        let most = self.random.pick(&[6, 6, 40, 80]);
        let wanted = self.random.between(1, most);
        let late = self.records.len() > RECORDS_USUAL;
        self.ticks(if late { self.left } else { wanted });
    }

    fn start(&mut self) {
        self.set(FLG, 0x20);
        self.set(DIR, self.setting.dir);
        for register in [MVOL_LEFT, MVOL_RIGHT, EVOL_LEFT, EVOL_RIGHT, EFB] {
            self.set_volume(register);
        }
        for voice in 0..8 {
            for offset in VOL_LEFT..=GAIN {
                self.voice_write(voice, offset);
            }
            self.set_volume(of_voice(voice, FIR));
        }
        self.echo();
        self.set_any(EON);
        self.flags();
        self.set_any(KON);
    }

    fn action(&mut self) {
        match self.random.below(22) {
            0..=2 => {
                let (voice, offset) = (self.voice(), self.random.below(8) as u8);
                self.voice_write(voice, offset);
            }
            3 | 4 => self.key_on(),
            5 => self.set_few(KOFF),
            6 => self.set_few(PMON),
            7 => self.set_few(NON),
            8 => self.set_any(EON),
            9 => self.flags(),
            10 => self.echo(),
            11 | 12 => self.mix_write(),
            13 => self.any_write(),
            14 => self.scene(),
            15 | 16 => self.acknowledge(),
            _ => self.reading(),
        }
    }

    pub fn voice(&mut self) -> u8 {
        self.random.below(8) as u8
    }

    pub fn set_any(&mut self, register: u8) {
        let value = self.random.byte();
        self.set(register, value);
    }

    /// A byte with few bits set, so that most voices go on as they were.
    fn set_few(&mut self, register: u8) {
        let value = self.random.byte() & self.random.byte();
        self.set(register, value);
    }

    fn set_volume(&mut self, register: u8) {
        let value = self.random.byte();
        let value = if self.loud {
            self.random.pick(&[value, 0x7F, 0x80])
        } else {
            value
        };
        self.set(register, value);
    }

    fn voice_write(&mut self, voice: u8, offset: u8) {
        let register = of_voice(voice, offset);
        match offset {
            VOL_LEFT | VOL_RIGHT => self.set_volume(register),
            ADSR1 => {
                // Mostly ADSR with an attack that rises in good time.
                let value = self.random.byte();
                let value = self.random.pick(&[value, value | 0x88, value | 0x8C]);
                self.set(register, value);
            }
            _ => self.set_any(register),
        }
    }

    /// A key-on, mostly with KOFF clear: KOFF acts at every poll.
    fn key_on(&mut self) {
        if !self.random.once_in(4) {
            self.set(KOFF, 0);
        }
        self.set_few(KON);
    }

    /// FLG: mostly without RESET and MUTE, echo writes on half the time.
    fn flags(&mut self) {
        let rest = self.random.byte() & 0x3F;
        let top = self.random.pick(&[0, 0, 0, 0, 0, 0, 0x40, 0x80]);
        self.set(FLG, top | rest);
    }

    /// Where the echo lies and how long it is: mostly short, so that it
    /// comes round within the run. It may lie on the samples.
    fn echo(&mut self) {
        self.set_any(ESA);
        let edl = self.random.byte();
        let edl = self.random.pick(&[edl, edl & 0xF1, 0, 1]);
        self.set(EDL, edl);
    }

    fn mix_write(&mut self) {
        let tap = of_voice(self.voice(), FIR);
        let register = self.random.pick(&[
            MVOL_LEFT, MVOL_RIGHT, EVOL_LEFT, EVOL_RIGHT, EFB, EFB, tap, tap,
        ]);
        self.set_volume(register);
    }

    /// Any register but FLG, whose bit 7 would silence half the logs. A new
    /// DIR is put back at once every other time, for the same reason.
    fn any_write(&mut self) {
        let register = self.random.below(0x80) as u8;
        if register != FLG {
            self.set_any(register);
        }
        if register == DIR && self.random.once_in(2) {
            self.set(DIR, self.setting.dir);
        }
    }

    /// "Any write to `$7C` leaves 0" (W-202): any value, often one that a
    /// program would take for it.
    fn acknowledge(&mut self) {
        let any = self.random.byte();
        let value = self.random.pick(&[any, any, 0x00, 0xFF]);
        self.set(ENDX, value);
        if self.random.once_in(2) {
            self.read(ENDX);
        }
    }

    /// Mostly what the chip itself writes, else any register.
    fn reading(&mut self) {
        let (envx, outx) = (of_voice(self.voice(), ENVX), of_voice(self.voice(), OUTX));
        let any = self.random.below(0x80) as u8;
        let register = self.random.pick(&[envx, outx, ENDX, any]);
        self.read(register);
    }
}
