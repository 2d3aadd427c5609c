//! Short scenes inside a plain log, for rules of document 01 that random
//! writes hardly ever meet.

use super::plain::Plain;
use crate::registers::*;

impl Plain<'_> {
    pub fn scene(&mut self) {
        match self.random.below(3) {
            0 => self.off_while_keyed(),
            1 => self.reset_in_the_delay(),
            _ => self.status_write(),
        }
    }

    /// Sustain at 0 goes Off with `key_on` set: the voice plays on unheard
    /// and still sets its ENDX bit, and a KOFF does not end it. Direct gain
    /// 0 takes the level down twice, as Decay lifts it to its target first.
    fn off_while_keyed(&mut self) {
        let voice = self.voice();
        let (gain_mode, adsr_mode) = (0x7F, 0xFF);
        self.set(of_voice(voice, GAIN), 0);
        self.set(of_voice(voice, ADSR2), 0x1F);
        self.set(of_voice(voice, ADSR1), adsr_mode);
        self.key(voice);
        self.ticks(12);
        for _ in 0..2 {
            self.set(of_voice(voice, ADSR1), gain_mode);
            self.ticks(1);
            self.set(of_voice(voice, ADSR1), adsr_mode);
            self.ticks(2);
        }
        self.set(ENDX, 0);
        if self.random.once_in(2) {
            self.set(KOFF, 1 << voice);
        }
        self.ticks(60);
        self.read(ENDX);
    }

    /// RESET leaves the key-on delay alone: the skipped ticks that follow
    /// go on setting ENVX to 0, the idle ones after them leave it.
    fn reset_in_the_delay(&mut self) {
        let voice = self.voice();
        self.key(voice);
        for wanted in [2, 2, 3] {
            self.ticks(wanted);
            self.set(FLG, 0xA0);
            self.set_any(of_voice(voice, ENVX));
            self.ticks(1);
            self.read(of_voice(voice, ENVX));
        }
        self.set(FLG, 0x00);
    }

    /// A write to what the chip itself writes, read before and after a tick.
    fn status_write(&mut self) {
        let (envx, outx) = (of_voice(self.voice(), ENVX), of_voice(self.voice(), OUTX));
        let register = self.random.pick(&[envx, outx, ENDX]);
        self.set_any(register);
        self.read(register);
        self.ticks(1);
        self.read(register);
    }

    fn key(&mut self, voice: u8) {
        self.set(FLG, 0x00);
        self.set(KOFF, 0);
        self.set(KON, 1 << voice);
    }
}
