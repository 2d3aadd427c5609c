//! The echo: its filter, its feedback, where it writes and how long it is.

use super::image::*;
use super::mix::hear_the_echo;
use super::script::*;
use super::Named;
use crate::registers::*;

pub const TABLE: &[Named] = &[
    // "FIR: history >>1, times tap (tap 0 with the oldest), >>6": each tap
    // alone.
    ("tap-0", |s| one_tap(s, 0)),
    ("tap-1", |s| one_tap(s, 1)),
    ("tap-2", |s| one_tap(s, 2)),
    ("tap-3", |s| one_tap(s, 3)),
    ("tap-4", |s| one_tap(s, 4)),
    ("tap-5", |s| one_tap(s, 5)),
    ("tap-6", |s| one_tap(s, 6)),
    ("tap-7", |s| one_tap(s, 7)),
    // "Seven summed, cut to 16 bits"
    ("seven-cut", |s| {
        taps(s, [0x7F, 0x7F, 0x7F, 0x7F, 0x7F, 0x7F, 0x7F, 0])
    }),
    // "the eighth cut, added; clamp; clear bit 0."
    ("eighth-cut", |s| {
        lowest(s, [0, 0, 0, 0, 0, 0, 0, 0x80]);
        s.ticks(12);
    }),
    ("seven-and-eighth-clamp", |s| {
        taps(s, [0x80, 0x7F, 0x80, 0x7F, 0x80, 0x7F, 0x80, 0x7F])
    }),
    // The history moves on at every tick, so that the echo of a buffer of
    // one pair is a known row.
    ("history-fills", |s| {
        s.set(ESA, ECHO_PAGE);
        taps(s, [0x10, 0x20, 0x30, 0x40, 0x50, 0x60, 0x70, 0x0F]);
    }),
    // "Echo input plus feedback also clears bit 0"; products "shift by 7",
    // "cut to 16 bits".
    ("feedback", |s| fed_back(s, 0x60)),
    ("feedback-negative", |s| fed_back(s, 0x80)),
    // -32768 by -128 is cut to -32768.
    ("feedback-cut", |s| {
        lowest(s, [0, 0, 0, 0, 0, 0, 0x10, 0x7F]);
        s.set(EFB, 0x80);
        s.set(FLG, 0);
        s.ticks(12);
    }),
    ("echo-volume-cut", |s| {
        lowest(s, [0, 0, 0, 0, 0, 0, 0x10, 0x7F]);
        s.set(EVOL_LEFT, 0x80);
        s.ticks(12);
    }),
    ("echo-input-clamps", |s| {
        for (voice, source) in (0..).zip([HIGH, HIGH, LOW]) {
            s.voice(voice, source, ONE);
        }
        s.set(EON, 0x07);
        s.set(KON, 0x07);
        writing(s, 0x40, 1);
        s.ticks(40);
    }),
    ("eon-of-some-voices", |s| {
        for voice in 0..4 {
            s.voice(voice, WAVE, 0x1000 + 0x100 * u16::from(voice));
        }
        s.set(EON, 0x0A);
        s.set(KON, 0x0F);
        writing(s, 0x40, 0);
        s.ticks(60);
    }),
    ("noise-into-the-echo", |s| {
        s.voice(0, WAVE, ONE);
        s.set(NON, 0x01);
        s.set(EON, 0x01);
        s.set(KON, 0x01);
        writing(s, 0x40, 1);
        s.set(FLG, 0x1F);
        s.ticks(30);
    }),
    // "With FLG bit 5 clear a tick writes four RAM bytes, wrapped; else
    // none."
    ("echo-writes-off", |s| {
        writing(s, ECHO_PAGE, 1);
        s.set(FLG, NO_ECHO_WRITES);
        s.ticks(40);
    }),
    ("echo-writes-on", |s| {
        writing(s, ECHO_PAGE, 1);
        s.ticks(40);
    }),
    ("echo-writes-on-and-off", |s| {
        writing(s, ECHO_PAGE, 1);
        for flags in [0, NO_ECHO_WRITES, 0, NO_ECHO_WRITES] {
            s.set(FLG, flags);
            s.ticks(7);
        }
    }),
    // "Echo length is taken from EDL·2048 only at pointer 0."
    ("longer-within-a-pass", |s| {
        writing(s, ECHO_PAGE, 1);
        s.ticks(10);
        s.set(EDL, 2);
        s.ticks(1_100);
    }),
    ("shorter-within-a-pass", |s| {
        writing(s, ECHO_PAGE, 2);
        s.ticks(600);
        s.set(EDL, 1);
        s.ticks(900);
    }),
    ("another-page-within-a-pass", |s| {
        writing(s, ECHO_PAGE, 1);
        s.ticks(10);
        s.set(ESA, 0x90);
        s.ticks(40);
    }),
    // EDL 0: one pair, at every tick.
    ("edl-0", |s| {
        s.playing(0, WAVE, ONE);
        s.set(EON, 0x01);
        writing(s, ECHO_PAGE, 0);
        s.ticks(40);
    }),
    // "EDL at most 15": the high bits of the byte stand, and count for
    // nothing.
    ("edl-high-bits", |s| {
        writing(s, ECHO_PAGE, 0xF0);
        s.read(EDL);
        s.ticks(12);
    }),
    // ESA $FF with EDL 15 passes $FFFF and goes on at $0000. It meets the
    // directories and samples on the way, which play.
    ("echo-wraps", |s| {
        s.playing(0, WAVE, ONE);
        s.set(EON, 0x01);
        writing(s, 0xFF, 15);
        s.ticks(600);
    }),
];

/// Echo heard and written, with feedback, from this page on.
fn writing(s: &mut Script, page: u8, edl: u8) {
    hear_the_echo(s);
    s.set(ESA, page);
    s.set(EDL, edl);
    s.set(EFB, 0x50);
    s.set(FLG, 0);
}

fn set_taps(s: &mut Script, values: [u8; 8]) {
    for (tap, value) in (0..).zip(values) {
        s.set(of_voice(tap, FIR), value);
    }
}

fn taps(s: &mut Script, values: [u8; 8]) {
    hear_the_echo(s);
    set_taps(s, values);
    s.ticks(40);
}

/// Every pair that the echo finds is the lowest.
fn lowest(s: &mut Script, values: [u8; 8]) {
    hear_the_echo(s);
    s.set(ESA, LOWEST_PAGE);
    set_taps(s, values);
}

fn one_tap(s: &mut Script, tap: u8) {
    let mut values = [0; 8];
    values[usize::from(tap)] = 0x7F;
    taps(s, values);
}

fn fed_back(s: &mut Script, feedback: u8) {
    s.playing(0, LOW, ONE);
    s.set(EON, 0x01);
    writing(s, ECHO_PAGE, 0);
    s.set(EFB, feedback);
    s.ticks(40);
}
