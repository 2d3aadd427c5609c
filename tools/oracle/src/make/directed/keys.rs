//! Key-on, key-off, RESET and the registers that the chip itself writes.

use super::image::*;
use super::script::*;
use super::Named;
use crate::registers::*;

const ENVX0: u8 = ENVX;
const OUTX0: u8 = OUTX;

pub const TABLE: &[Named] = &[
    // "The register file starts as 128 zeros but for $E0 at $6C."
    ("first-ticks", |s| s.ticks(5)),
    // "KON/KOFF are polled on ticks 1, 3, 5.. from `new`."
    ("kon-before-tick-1", |s| kon_after(s, 0)),
    ("kon-before-tick-2", |s| kon_after(s, 1)),
    ("kon-before-tick-3", |s| kon_after(s, 2)),
    ("koff-before-a-poll", |s| koff_after(s, 2)),
    ("koff-before-no-poll", |s| koff_after(s, 3)),
    // A later KON write before the poll takes the place of the first.
    ("kon-twice", |s| {
        s.voice(0, HIGH, ONE);
        s.voice(1, WAVE, ONE);
        s.ticks(1);
        s.set(KON, 0x01);
        s.set(KON, 0x02);
        s.ticks(20);
    }),
    // "KOFF first (`key_on` clear, Release) ..; then KON."
    ("koff-and-kon-in-one-poll", |s| {
        s.playing(0, HIGH, ONE);
        s.ticks(4);
        s.set(KOFF, 0x01);
        s.set(KON, 0x01);
        s.ticks(12);
    }),
    // "KOFF .. only for a phase not Off." KOFF stays set; the voice that
    // Sustain took Off with `key_on` set decodes on.
    ("koff-of-an-off-voice", |s| {
        off_while_keyed(s, 0);
        s.set(KOFF, 0x01);
        s.set(ENDX, 0);
        s.ticks(40);
        s.read(ENDX);
    }),
    ("koff-of-a-voice-never-on", |s| {
        s.set(KOFF, 0xFF);
        s.ticks(4);
    }),
    // "KON unless FLG bit 7; each poll uses up the pending KON."
    ("kon-under-reset-is-used-up", |s| {
        s.voice(0, HIGH, ONE);
        s.set(FLG, RESET | NO_ECHO_WRITES);
        s.set(KON, 0x01);
        s.ticks(2);
        s.set(FLG, NO_ECHO_WRITES);
        s.ticks(12);
    }),
    // "RESET (..) silences and clears ENDX at the write; delays and the
    // pending KON stay."
    ("reset-keeps-the-pending-kon", |s| {
        s.voice(0, HIGH, ONE);
        s.ticks(1);
        s.set(KON, 0x01);
        s.set(FLG, RESET | NO_ECHO_WRITES);
        s.ticks(1);
        s.set(FLG, NO_ECHO_WRITES);
        s.ticks(12);
    }),
    ("reset-keeps-the-delay", |s| {
        s.voice(0, HIGH, ONE);
        s.set(KON, 0x01);
        s.ticks(2);
        s.set(FLG, RESET | NO_ECHO_WRITES);
        for _ in 0..6 {
            s.set(ENVX0, 0x55);
            s.tick_and_read(&[ENVX0]);
        }
    }),
    ("reset-at-the-write", |s| {
        s.playing(0, HIGH, ONE);
        s.ticks(30);
        s.set(FLG, RESET | NO_ECHO_WRITES);
        s.read(ENDX);
        s.read(ENVX0);
        s.set(FLG, NO_ECHO_WRITES);
        s.ticks(3);
    }),
    // "Refreshing ENVX of an idle voice after RESET" is easy to get wrong.
    ("idle-keeps-envx-after-reset", |s| {
        s.playing(0, HIGH, ONE);
        s.set(FLG, RESET | NO_ECHO_WRITES);
        s.tick_and_read(&[ENVX0, OUTX0]);
        s.tick_and_read(&[ENVX0, OUTX0]);
    }),
    // "Key-on sets .. and zeroes level, counter, position, sample, history,
    // BRR state .., and the ENDX bit."
    ("key-on-zeroes", |s| {
        s.playing(0, WAVE, 0x1357);
        s.adsr(0, 0xA9, 0x6B);
        s.ticks(73);
        s.read(ENDX);
        s.set(KON, 0x01);
        s.tick_and_read(&[ENDX, ENVX0, OUTX0]);
        s.ticks(40);
    }),
    // "The poll tick is the first of five skipped ones, and a skipped tick
    // sets ENVX to 0."
    ("five-skipped-ticks", |s| {
        s.voice(6, WAVE, ONE);
        s.set(KON, 0x40);
        for _ in 0..8 {
            s.set(of_voice(6, ENVX), 0x55);
            s.tick_and_read(&[of_voice(6, ENVX)]);
        }
    }),
    ("kon-again-in-the-delay", |s| {
        s.voice(0, WAVE, ONE);
        s.set(KON, 0x01);
        s.ticks(4);
        s.set(KON, 0x01);
        s.ticks(12);
    }),
    ("koff-in-the-delay", |s| {
        s.voice(0, WAVE, ONE);
        s.set(KON, 0x01);
        s.ticks(2);
        s.set(KOFF, 0x01);
        s.ticks(12);
    }),
    // W-202: "any write to `$7C` leaves 0". First where no flag is set.
    ("endx-write", |s| {
        s.set(ENDX, 0xA5);
        s.read(ENDX);
        s.playing(3, HIGH, ONE);
        s.read(ENDX);
    }),
    // A looped sample comes to its end block again, a block later.
    ("acknowledged-looped", |s| {
        s.playing(2, HIGH, ONE);
        acknowledge(s, 0x04);
        s.ticks(14);
        s.read(ENDX);
        s.tick_and_read(&[ENDX]);
    }),
    // One that is not looped does not.
    ("acknowledged-ended", |s| {
        s.playing(2, ENDED, ONE);
        acknowledge(s, 0x04);
        s.ticks(40);
        s.read(ENDX);
    }),
    // Other flags go with the one that is written.
    ("acknowledged-all-eight", |s| {
        for voice in 0..8 {
            s.voice(voice, ENDED, ONE);
        }
        s.set(KON, 0xFF);
        s.ticks(6);
        acknowledge(s, 0x01);
        s.ticks(2);
        s.read(ENDX);
    }),
    // By 0, by the flag itself, by all others, by all, by any.
    ("acknowledged-by-any-value", |s| {
        s.playing(5, HIGH, ONE);
        for value in [0x00, 0x20, 0xDF, 0xFF, 0x5A] {
            acknowledge(s, value);
            s.ticks(16);
        }
        s.read(ENDX);
    }),
    // Before each tick: the flag shows after the one that sets it, alone.
    ("acknowledged-before-each-tick", |s| {
        s.playing(7, HIGH, 3 * ONE);
        for _ in 0..12 {
            s.set(ENDX, 0xFF);
            s.tick_and_read(&[ENDX]);
        }
    }),
    ("acknowledged-twice-in-a-row", |s| {
        s.playing(0, HIGH, ONE);
        acknowledge(s, 0x01);
        acknowledge(s, 0x01);
        s.ticks(20);
        s.read(ENDX);
    }),
    // Keyed on again, it comes to its end block again.
    ("acknowledged-then-keyed-on-again", |s| {
        s.playing(1, ENDED, ONE);
        acknowledge(s, 0x02);
        s.set(KON, 0x02);
        for _ in 0..7 {
            s.tick_and_read(&[ENDX]);
        }
    }),
    // "Every tick leaves the scaled output's top byte in OUTX, for idle and
    // skipped voices too."
    ("outx-of-idle-and-skipped", |s| {
        for voice in 0..8 {
            s.set(of_voice(voice, OUTX), 0x55);
        }
        s.tick_and_read(&[0x09, 0x79]);
        s.voice(7, HIGH, ONE);
        s.ticks(1);
        s.set(KON, 0x80);
        s.set(0x79, 0x55);
        s.tick_and_read(&[0x79]);
        s.ticks(10);
    }),
    // Bytes that no unit uses are stored all the same.
    ("unused-registers", |s| {
        for register in (0..0x80).filter(|r| r % 16 > 9 && ![FLG, KON, EDL].contains(r)) {
            s.set(register, register ^ 0x5A);
        }
        s.ticks(4);
    }),
];

/// A write to ENDX, with a reading before it and after it.
fn acknowledge(s: &mut Script, value: u8) {
    s.read(ENDX);
    s.set(ENDX, value);
    s.read(ENDX);
}

fn kon_after(s: &mut Script, before: u16) {
    s.voice(0, HIGH, ONE);
    if before > 0 {
        s.ticks(before);
    }
    s.set(KON, 0x01);
    for _ in 0..8 {
        s.tick_and_read(&[ENVX0]);
    }
}

fn koff_after(s: &mut Script, more: u16) {
    s.playing(0, HIGH, ONE);
    s.ticks(more);
    s.set(KOFF, 0x01);
    for _ in 0..4 {
        s.tick_and_read(&[ENVX0]);
    }
}

/// Sustain at 0: direct gain 0 takes the level down twice, as Decay lifts
/// it to its target in between.
pub fn off_while_keyed(s: &mut Script, voice: u8) {
    s.voice(voice, WAVE, ONE);
    s.adsr(voice, 0xFF, 0x1F);
    s.set(KON, 1 << voice);
    s.ticks(12);
    for _ in 0..2 {
        s.gain(voice, 0);
        s.ticks(1);
        s.set(of_voice(voice, ADSR1), 0xFF);
        s.ticks(2);
    }
}
