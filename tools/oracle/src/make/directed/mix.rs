//! The dry sum, the master volumes and the mutes.

use super::image::*;
use super::script::*;
use super::Named;
use crate::registers::*;

pub const TABLE: &[Named] = &[
    // "Dry and echo sums clamp after each voice": the order matters.
    ("high-high-low", |s| three(s, [HIGH, HIGH, LOW])),
    ("high-low-high", |s| three(s, [HIGH, LOW, HIGH])),
    ("low-low-high", |s| three(s, [LOW, LOW, HIGH])),
    ("eight-loud-voices", |s| {
        for voice in 0..8 {
            s.voice(voice, [HIGH, LOW, WAVE][usize::from(voice) % 3], ONE);
            s.volume(voice, 0x80, 0x7F);
        }
        s.set(KON, 0xFF);
        s.ticks(40);
    }),
    // "Voice volume .. products shift by 7": rounded down.
    ("small-volumes", |s| {
        for voice in 0..8 {
            s.voice(voice, WAVE, 0x0F00 + 0x31 * u16::from(voice));
            s.volume(voice, voice, 0xFF - voice);
        }
        s.set(KON, 0xFF);
        s.ticks(50);
    }),
    // P10: dry -32768 with master -128 is cut to -32768. The noise register
    // as it starts is that sample.
    ("master-lowest-p10", |s| {
        s.set(NON, 0x03);
        s.set(MVOL_LEFT, 0x80);
        s.set(MVOL_RIGHT, 0x80);
        for voice in 0..2 {
            s.voice(voice, WAVE, ONE);
            s.volume(voice, 0x7F, 0x80);
        }
        s.set(KON, 0x03);
        s.ticks(9);
    }),
    // "With FLG bit 6 or 7 the stereo sample is 0, 0"; the voices go on.
    ("mute-by-bit-6", |s| {
        s.playing(0, WAVE, ONE);
        s.ticks(10);
        s.set(FLG, NO_ECHO_WRITES | MUTE);
        s.ticks(10);
        s.set(FLG, NO_ECHO_WRITES);
        s.ticks(10);
    }),
    ("mute-by-bit-7", |s| {
        hear_the_echo(s);
        s.playing(0, WAVE, ONE);
        s.ticks(10);
        s.set(FLG, NO_ECHO_WRITES | RESET);
        s.ticks(10);
        s.set(FLG, NO_ECHO_WRITES);
        s.ticks(10);
    }),
    // "The last three are cut to 16 bits before their sum, which is
    // clamped": the dry and the echo product together.
    ("dry-and-echo-clamp", |s| {
        hear_the_echo(s);
        three(s, [HIGH, HIGH, HIGH]);
        s.ticks(20);
    }),
    // A level of 0 sounds as a voice that is Off does.
    ("level-0", |s| {
        s.playing(0, HIGH, ONE);
        s.gain(0, 0);
        s.ticks(10);
    }),
];

fn three(s: &mut Script, sources: [u8; 3]) {
    for (voice, source) in (0..).zip(sources) {
        s.voice(voice, source, ONE);
        s.volume(voice, 0x7F, 0x80);
    }
    s.set(KON, 0x07);
    s.ticks(12);
}

/// The echo's bytes are heard through the newest tap alone.
pub fn hear_the_echo(s: &mut Script) {
    s.set(ESA, ECHO_PAGE);
    s.set(EDL, 1);
    s.set(of_voice(7, FIR), 0x7F);
    s.set(EVOL_LEFT, 0x7F);
    s.set(EVOL_RIGHT, 0x80);
}
