//! The voice: its envelope's ends, its blocks, its pitch and its sample.

use super::image::*;
use super::keys::off_while_keyed;
use super::script::*;
use super::Named;
use crate::registers::*;

pub const TABLE: &[Named] = &[
    // "An end block without loop: level 0, Off, `key_on` clear." Met while
    // the address is resolved, and while playing.
    ("ended-while-resolving", |s| {
        s.playing(0, ENDED, ONE);
        s.read(ENDX);
        s.ticks(6);
    }),
    ("ended-while-playing", |s| {
        s.playing(0, SHORT, 0x1800);
        s.ticks(30);
        s.read(ENDX);
        s.set(ENDX, 0);
        s.ticks(30);
        s.read(ENDX);
    }),
    // "After a block change with `key_on` clear, the tick's further samples
    // are dropped, in Release too." Three samples a tick meet a change in
    // the middle of a tick.
    ("dropped-at-the-end-block", |s| {
        s.playing(0, SHORT, 0x3FFF);
        s.ticks(16);
    }),
    ("dropped-in-release", |s| {
        s.playing(0, WAVE, 0x3FFF);
        s.ticks(5);
        s.set(KOFF, 0x01);
        s.ticks(60);
    }),
    ("not-dropped-while-keyed", |s| {
        s.playing(0, WAVE, 0x3FFF);
        s.ticks(66);
    }),
    // "A loop jump reads DIR and SRCN of that moment."
    ("loop-jump-by-a-new-srcn", |s| {
        s.playing(0, HIGH, ONE);
        s.set(of_voice(0, SRCN), LEADS);
        s.ticks(60);
    }),
    ("loop-jump-by-a-new-dir", |s| {
        s.playing(0, HIGH, ONE);
        s.ticks(4);
        s.set(DIR, OTHER_DIRECTORY);
        s.ticks(60);
    }),
    // The start is that of the poll: a DIR written in the delay is late.
    ("start-is-that-of-the-poll", |s| {
        s.voice(0, WAVE, ONE);
        s.set(KON, 0x01);
        s.ticks(1);
        s.set(DIR, OTHER_DIRECTORY);
        s.set(of_voice(0, SRCN), LOW);
        s.ticks(80);
    }),
    ("loop-leads-to-another-sample", |s| {
        s.playing(0, LEADS, 0x2000);
        s.ticks(60);
    }),
    // "Sustain at 0 goes Off, `key_on` staying set." It decodes on unheard.
    ("off-while-keyed-decodes-on", |s| {
        off_while_keyed(s, 0);
        s.set(ENDX, 0);
        s.ticks(50);
        s.read(ENDX);
        s.read(ENVX);
    }),
    // "Release subtracts 8 each tick; 0 is Off."
    ("release-to-off", |s| {
        s.playing(0, WAVE, ONE);
        s.set(KOFF, 0x01);
        s.ticks(270);
        s.read(ENVX);
    }),
    // Attack, Decay and Sustain at their quickest, and GAIN in each mode.
    ("adsr-through-all-phases", |s| {
        s.voice(0, HIGH, ONE);
        s.adsr(0, 0xFE, 0x3F);
        s.set(KON, 0x01);
        s.ticks(250);
    }),
    // "Decay at or below (sustain level+1)·$100 takes that value, may rise"
    ("decay-rises", |s| {
        s.voice(0, HIGH, ONE);
        s.adsr(0, 0xFF, 0xFE);
        s.set(KON, 0x01);
        s.ticks(30);
    }),
    ("gain-down", |s| gain_mode(s, 0x9F)),
    ("gain-down-by-parts", |s| gain_mode(s, 0xBF)),
    ("gain-up", |s| gain_mode(s, 0xDF)),
    ("gain-up-bent", |s| gain_mode(s, 0xFF)),
    // "Entry 0 never fires."
    ("gain-that-never-fires", |s| gain_mode(s, 0xC0)),
    // "Position: (old modulo $4000)+pitch, cap $7FFF; samples taken are the
    // difference of position>>12."
    ("pitch-0", |s| {
        s.playing(0, WAVE, ONE);
        s.pitch(0, 0);
        s.ticks(8);
    }),
    ("pitch-in-fractions", |s| {
        s.playing(0, WAVE, 0x0123);
        s.ticks(100);
    }),
    ("pitch-high-bits-are-cut", |s| {
        s.playing(0, WAVE, 0xFFFF);
        s.read(0x03);
        s.ticks(20);
    }),
    // "Modulated pitch: b+(((x>>5)·b)>>10)." By a playing voice, by noise,
    // by a skipped one (its output is 0), and through several voices.
    ("modulation", |s| {
        s.voice(0, WAVE, 0x0800);
        s.voice(1, WAVE, ONE);
        s.set(PMON, 0x02);
        s.set(KON, 0x03);
        s.ticks(90);
    }),
    ("modulation-by-noise", |s| {
        s.set(FLG, NO_ECHO_WRITES | 0x1F);
        s.set(NON, 0x01);
        s.voice(0, WAVE, ONE);
        s.voice(1, WAVE, ONE);
        s.set(PMON, 0x02);
        s.set(KON, 0x03);
        s.ticks(90);
    }),
    ("modulation-by-a-skipped-voice", |s| {
        s.voice(0, HIGH, ONE);
        s.playing(1, WAVE, ONE);
        s.set(PMON, 0x02);
        s.ticks(8);
        s.set(KON, 0x01);
        s.ticks(20);
    }),
    ("modulation-in-a-row", |s| {
        for voice in 0..8 {
            s.voice(voice, WAVE, 0x0700 + 0x111 * u16::from(voice));
        }
        s.set(PMON, 0xFE);
        s.set(KON, 0xFF);
        s.ticks(60);
    }),
    // "PMON even": bit 0 of the byte stands, and modulates nothing.
    ("pmon-bit-0", |s| {
        s.set(PMON, 0x01);
        s.playing(0, WAVE, ONE);
        s.read(PMON);
        s.ticks(20);
    }),
    // P7: pitch source -32768 gives 0. The noise register as it starts is
    // that sample.
    ("modulated-down-p7", |s| {
        s.set(NON, 0x01);
        modulated(s, ONE);
    }),
    // P8: source 32766, the highest, gives 32750. At fraction $F00 the
    // interpolation of the loud source clamps.
    ("modulated-up-p8", |s| modulated(s, 0x0F00)),
    // "NON replaces the sample after the voice step": the BRR decoding goes
    // on under it.
    ("noise-instead-of-the-sample", |s| {
        s.set(FLG, NO_ECHO_WRITES | 0x1E);
        s.playing(0, WAVE, ONE);
        s.set(NON, 0x01);
        s.ticks(30);
        s.set(NON, 0x00);
        s.ticks(30);
    }),
    ("noise-of-an-idle-voice", |s| {
        s.set(FLG, NO_ECHO_WRITES | 0x1F);
        s.set(NON, 0xFF);
        s.ticks(12);
    }),
    // "Noise .. at the entry in FLG bits 4-0."
    ("noise-rates", |s| {
        s.set(NON, 0x01);
        s.playing(0, HIGH, ONE);
        for rate in [0, 31, 30, 29, 20, 0, 12] {
            s.set(FLG, NO_ECHO_WRITES | rate);
            s.ticks(20);
        }
    }),
    ("noise-in-release", |s| {
        s.set(FLG, NO_ECHO_WRITES | 0x1F);
        s.set(NON, 0x01);
        s.playing(0, WAVE, ONE);
        s.set(KOFF, 0x01);
        s.ticks(12);
    }),
    // "Interpolation .. cuts the first three's sum to 16 bits, adds the
    // fourth, clamps."
    ("interpolation-of-the-loud", |s| {
        s.playing(0, LOUD, 0x1111);
        s.playing(1, LOWEST, 0x0F31);
        s.ticks(40);
    }),
    // P11: DIR $FF, SRCN $40 is the entry $0000.
    ("directory-wraps-p11", |s| {
        s.set(DIR, 0xFF);
        s.playing(0, 0x40, ONE);
        s.ticks(60);
    }),
    // "Every byte address in RAM wraps at 65,536": a block at $FFFC.
    ("block-wraps", |s| {
        s.playing(0, WRAPS, ONE);
        s.ticks(60);
    }),
    // "Shift up to 12 ..; above, -2048 for negative n, else 0."
    ("shift-above-12", |s| {
        s.playing(0, SHIFTED, 0x0C00);
        s.ticks(50);
    }),
    // "Key-on .. zeroes .. BRR state other than old samples": the old block
    // is not played once more.
    ("old-samples-stay-unheard", |s| {
        s.playing(0, LOW, ONE);
        s.ticks(5);
        s.set(of_voice(0, SRCN), WAVE);
        s.set(KON, 0x01);
        s.ticks(40);
        s.set(of_voice(0, SRCN), WRAPS);
        s.set(KON, 0x01);
        s.ticks(40);
    }),
];

fn gain_mode(s: &mut Script, value: u8) {
    s.voice(0, HIGH, ONE);
    s.gain(0, 0x40);
    s.set(KON, 0x01);
    s.ticks(8);
    s.gain(0, value);
    s.ticks(100);
}

/// Decay lifts the level of voice 0 to $800 (P9), where the output is the
/// sample itself. Its first step is of this pitch, all others of ONE.
fn modulated(s: &mut Script, first: u16) {
    s.voice(0, LOUD, first);
    s.adsr(0, 0xFF, 0xE0);
    s.voice(1, WAVE, 0x3FFF);
    s.set(KON, 0x03);
    s.ticks(6);
    s.pitch(0, ONE);
    s.ticks(9);
    s.read(OUTX);
    s.set(PMON, 0x02);
    s.ticks(30);
}
