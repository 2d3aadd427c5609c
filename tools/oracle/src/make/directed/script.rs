//! A log written by hand, record by record, with the settings that most
//! cases share.

use super::image::DIRECTORY;
use crate::log::Record;
use crate::registers::*;

/// Direct gain at its highest: level $7F0 from the first tick on.
pub const FULL: u8 = 0x7F;
/// One sample a tick.
pub const ONE: u16 = 0x1000;
pub const NO_ECHO_WRITES: u8 = 0x20;
pub const MUTE: u8 = 0x40;
pub const RESET: u8 = 0x80;

pub struct Script {
    records: Vec<Record>,
}

impl Script {
    /// Sound can be heard, the echo writes nothing, no voice is set up.
    pub fn new() -> Self {
        let mut script = Script::empty();
        script.set(FLG, NO_ECHO_WRITES);
        script.set(DIR, DIRECTORY);
        script.set(MVOL_LEFT, 0x7F);
        script.set(MVOL_RIGHT, 0x60);
        script
    }

    /// For a chip that is set up already.
    pub fn empty() -> Self {
        Script {
            records: Vec::new(),
        }
    }

    pub fn ended(mut self) -> Vec<Record> {
        self.records.push(Record::End);
        self.records
    }

    pub fn set(&mut self, register: u8, value: u8) {
        self.records.push(Record::Write { register, value });
    }

    pub fn read(&mut self, register: u8) {
        self.records.push(Record::Reading(register));
    }

    pub fn ticks(&mut self, count: u16) {
        self.records.push(Record::Ticks(count));
    }

    /// One tick, then a reading of each register.
    pub fn tick_and_read(&mut self, registers: &[u8]) {
        self.ticks(1);
        for register in registers {
            self.read(*register);
        }
    }

    pub fn pitch(&mut self, voice: u8, pitch: u16) {
        let [low, high] = pitch.to_le_bytes();
        self.set(of_voice(voice, PITCH_LOW), low);
        self.set(of_voice(voice, PITCH_HIGH), high);
    }

    pub fn gain(&mut self, voice: u8, value: u8) {
        self.set(of_voice(voice, ADSR1), 0);
        self.set(of_voice(voice, GAIN), value);
    }

    pub fn adsr(&mut self, voice: u8, adsr1: u8, adsr2: u8) {
        self.set(of_voice(voice, ADSR1), adsr1);
        self.set(of_voice(voice, ADSR2), adsr2);
    }

    pub fn volume(&mut self, voice: u8, left: u8, right: u8) {
        self.set(of_voice(voice, VOL_LEFT), left);
        self.set(of_voice(voice, VOL_RIGHT), right);
    }

    /// A voice with this source at full level, not keyed on.
    pub fn voice(&mut self, voice: u8, source: u8, pitch: u16) {
        self.volume(voice, 0x7F, 0x81);
        self.pitch(voice, pitch);
        self.set(of_voice(voice, SRCN), source);
        self.gain(voice, FULL);
    }

    /// The same, keyed on, with its five skipped ticks behind it.
    pub fn playing(&mut self, voice: u8, source: u8, pitch: u16) {
        self.voice(voice, source, pitch);
        self.set(KON, 1 << voice);
        self.ticks(6);
    }
}
