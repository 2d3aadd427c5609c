//! Pairs by name: one for each clause of document 01's paragraph on rework,
//! for W-202 of document 02, and for each refusal in their order. A name that
//! starts with `refused-` says the refusal; any other pair is taken.

use crate::cases::{lent, unfit, Pair};
use crate::log::LOG_MOST;
use crate::make::cases::Made;
use crate::make::directed::image::{self, *};
use crate::make::directed::script::*;
use crate::make::{encode, limits};
use crate::random::Random;
use crate::registers::*;

const IMAGE: u8 = 0;
/// After the image of the random pairs.
const SHORT_IMAGE: u8 = 2;
const LONG_IMAGE: u8 = 3;

const VOICE_3: u8 = 0x08;

pub fn all() -> Made<Pair> {
    let named: Vec<_> = PLAYED
        .iter()
        .chain(REFUSED)
        .map(|(name, play)| (name.to_string(), made(play)))
        .chain(bad_logs())
        .chain(unfit_records())
        .chain(wrong_lengths())
        .collect();
    let line = |(number, (name, _)): (usize, &(String, Pair))| format!("{number} {name}\n");
    Made {
        names: (1..).zip(&named).map(line).collect(),
        cases: named.into_iter().map(|(_, pair)| pair).collect(),
        rams: vec![image::image()],
    }
}

/// Two sittings written side by side.
struct Two {
    named: u8,
    lent: u8,
    old: Script,
    new: Script,
    /// The preludes, once the logs are begun.
    before: Option<[Script; 2]>,
}

impl Two {
    fn both(&mut self, write: impl Fn(&mut Script)) {
        write(&mut self.old);
        write(&mut self.new);
    }

    fn set(&mut self, register: u8, value: u8) {
        self.both(|s| s.set(register, value));
    }

    fn ticks(&mut self, count: u16) {
        self.both(|s| s.ticks(count));
    }

    fn read(&mut self, register: u8) {
        self.both(|s| s.read(register));
    }

    /// ENVX and OUTX of every voice, and ENDX.
    fn read_all(&mut self) {
        for voice in 0..8 {
            self.read(of_voice(voice, ENVX));
            self.read(of_voice(voice, OUTX));
        }
        self.read(ENDX);
    }

    /// A register of voice 3: two values.
    fn change(&mut self, offset: u8, old: u8, new: u8) {
        self.change_of(3, offset, old, new);
    }

    fn change_of(&mut self, voice: u8, offset: u8, old: u8, new: u8) {
        self.old.set(of_voice(voice, offset), old);
        self.new.set(of_voice(voice, offset), new);
    }

    /// Other pitch, source and volume of voice 3.
    fn change_3(&mut self) {
        self.change(PITCH_HIGH, 0x08, 0x0B);
        self.change(SRCN, WAVE, SHIFTED);
        self.change(VOL_LEFT, 0x30, 0x61);
    }

    /// What was written so far is the preludes; the logs begin here.
    fn begin(&mut self) {
        let old = std::mem::replace(&mut self.old, Script::empty());
        let new = std::mem::replace(&mut self.new, Script::empty());
        self.before = Some([old, new]);
    }
}

/// All voices set up and keyed on, those of odd numbers with echo.
fn sounding(two: &mut Two) {
    for voice in 0..8 {
        let source = [HIGH, WAVE, LOW, WAVE, LOUD, SHIFTED, WAVE, LOWEST][usize::from(voice)];
        let pitch = 0x0700 + 0x0123 * u16::from(voice);
        two.both(|s| s.voice(voice, source, pitch));
        two.set(of_voice(voice, VOL_LEFT), 0x10 + voice);
    }
    two.set(EON, 0xAA);
    two.set(KON, 0xFF);
    two.ticks(8);
}

fn made(play: &fn(&mut Two)) -> Pair {
    let mut two = Two {
        named: VOICE_3,
        lent: lent::AS_NEEDED,
        old: Script::new(),
        new: Script::new(),
        before: None,
    };
    play(&mut two);
    let preludes = two.before.unwrap_or([Script::empty(), Script::empty()]);
    Pair {
        ram: IMAGE,
        named: two.named,
        lent: two.lent,
        unfit: 0,
        preludes: preludes.map(|s| encode(&s.ended())),
        logs: [two.old, two.new].map(|s| encode(&s.ended())),
        tail: encode(&tail().ended()),
    }
}

/// Envelopes and positions go on, then a poll, then the echo writes.
fn tail() -> Script {
    let mut script = Script::empty();
    script.ticks(9);
    script.set(KOFF, 0x0F);
    script.ticks(2);
    script.set(EFB, 0x60);
    script.set(FLG, 0);
    script.ticks(20);
    script.read(ENDX);
    script
}

type Named = (&'static str, fn(&mut Two));

const PLAYED: &[Named] = &[
    // "Reworking just those voices": before any tick and between ticks.
    ("one-voice", |t| {
        sounding(t);
        t.change_3();
        t.ticks(20);
        t.read_all();
        t.change(GAIN, 0x7F, 0x23);
        t.change(PITCH_LOW, 0, 0xFF);
        t.ticks(40);
        t.read_all();
    }),
    ("writes-in-the-new-alone", |t| {
        sounding(t);
        t.new.set(0x35, 0x8F);
        t.new.set(0x36, 0xE5);
        t.ticks(30);
        t.new.set(0x30, 1);
        t.read_all();
    }),
    ("writes-in-the-old-alone", |t| {
        sounding(t);
        t.old.set(0x34, LOUD);
        t.old.set(0x32, 0x55);
        t.ticks(30);
        t.read_all();
        t.old.set(0x31, 1);
    }),
    // "Demand 3's start records may differ for S in just these parts": voice
    // records, delays, registers and ENDX bits.
    ("start-records-differ", |t| {
        t.change_3();
        sounding(t);
        t.change(PITCH_HIGH, 0x04, 0x3F);
        t.ticks(21);
        t.begin();
        t.read_all();
        t.ticks(30);
        t.read_all();
    }),
    ("start-in-the-delay", |t| {
        sounding(t);
        t.change(SRCN, HIGH, LOW);
        t.set(KON, 0x18);
        t.ticks(2);
        t.begin();
        t.change(GAIN, 0x11, 0x22);
        t.ticks(12);
        t.read_all();
    }),
    ("start-ended-in-one", |t| {
        ended_in_one(t);
        t.read_all();
        t.ticks(5);
        t.set(KON, 0x08);
        t.ticks(20);
        t.read_all();
    }),
    // S may be empty, and it may be all.
    ("no-voice", |t| {
        t.named = 0;
        sounding(t);
        t.set(PMON, 0xFF);
        t.ticks(30);
        t.read_all();
    }),
    ("all-voices", |t| {
        t.named = 0xFF;
        sounding(t);
        for voice in 0..8 {
            t.change_of(voice, PITCH_HIGH, 3 * voice, 0x3F - voice);
            t.change_of(voice, VOL_RIGHT, voice, 0x80 + voice);
        }
        t.set(PMON, 0x54);
        t.ticks(40);
        t.read_all();
    }),
    ("two-voices-apart", |t| {
        t.named = 0x41;
        sounding(t);
        t.change_of(0, SRCN, WAVE, LOUD);
        t.change_of(6, ADSR1, 0xFF, 0x8A);
        t.ticks(40);
        t.read_all();
    }),
    // "At each tick, from voice 1 up, voice j joins if j−1 is in A and PMON
    // bit j is set."
    ("one-joins", |t| modulated(t, &[0x10])),
    ("late-join", |t| modulated(t, &[0x20, 0x10])),
    ("chain-in-one-tick", |t| modulated(t, &[0x70])),
    ("chain-over-ticks", |t| modulated(t, &[0x10, 0x20, 0x40])),
    ("chain-broken", |t| modulated(t, &[0x50])),
    ("joined-and-let-go", |t| modulated(t, &[0x10, 0, 0])),
    ("moved-and-not-moving", |t| modulated(t, &[0x08])),
    ("voice-7-moves-nobody", |t| {
        t.named = 0x80;
        sounding(t);
        t.set(PMON, 0xFF);
        t.change_of(7, PITCH_HIGH, 0x03, 0x07);
        t.ticks(30);
        t.read_all();
    }),
    ("voice-0-moves-all", |t| {
        t.named = 0x01;
        sounding(t);
        t.set(PMON, 0xFF);
        t.change_of(0, PITCH_HIGH, 0x03, 0x07);
        t.ticks(30);
        t.read_all();
    }),
    ("pmon-that-no-tick-sees", |t| {
        sounding(t);
        t.change_3();
        t.set(PMON, 0x10);
        t.set(PMON, 0x00);
        t.ticks(20);
        t.set(PMON, 0x10);
        t.read_all();
    }),
    ("pmon-of-the-start-record", |t| {
        sounding(t);
        t.set(PMON, 0x11);
        t.begin();
        t.change_3();
        t.ticks(20);
        t.read_all();
        t.set(PMON, 0x00);
        t.ticks(20);
        t.read_all();
    }),
    // "A voice outside A gives its sheet output (also as pitch source)".
    ("moved-by-a-voice-outside", |t| {
        t.named = 0x10;
        sounding(t);
        t.set(PMON, 0x10);
        t.change_of(4, PITCH_HIGH, 0x10, 0x13);
        t.ticks(40);
        t.read_all();
    }),
    ("moved-by-noise-outside", |t| {
        t.named = 0x10;
        sounding(t);
        t.set(FLG, 0x3E);
        t.set(NON, 0x08);
        t.set(PMON, 0x10);
        t.change_of(4, PITCH_HIGH, 0x10, 0x13);
        t.ticks(40);
        t.read_all();
    }),
    ("noise-inside", |t| {
        sounding(t);
        t.set(FLG, 0x3F);
        t.set(NON, 0x18);
        t.change(VOL_LEFT, 0x10, 0x80);
        t.change(GAIN, 0x7F, 0x40);
        t.ticks(40);
        t.read_all();
    }),
    // Keys, for voices inside and outside.
    ("keys", |t| {
        sounding(t);
        t.change(ADSR1, 0x8F, 0x8A);
        t.change(ADSR2, 0xE0, 0x35);
        t.set(KOFF, 0x18);
        t.ticks(5);
        t.read_all();
        t.set(KOFF, 0x00);
        t.set(KON, 0x3C);
        t.ticks(3);
        t.read_all();
        t.ticks(30);
        t.read_all();
    }),
    // "RESET .. silences and clears ENDX at the write".
    ("reset", |t| {
        sounding(t);
        t.change_3();
        t.set(KON, 0x08);
        t.ticks(3);
        t.set(FLG, RESET | NO_ECHO_WRITES);
        t.read_all();
        t.ticks(2);
        t.read_all();
        t.ticks(4);
        t.set(FLG, NO_ECHO_WRITES);
        t.set(KON, 0xFF);
        t.ticks(12);
        t.read_all();
    }),
    // Registers that the chip itself writes, before a tick and behind one.
    ("status-written", |t| {
        sounding(t);
        t.change_3();
        for register in [ENDX, 0x38, 0x39, 0x48, 0x49] {
            t.set(register, 0xA5);
        }
        t.read_all();
        t.ticks(1);
        t.read_all();
        t.ticks(20);
        for register in [ENDX, 0x38, 0x39, 0x48, 0x49] {
            t.set(register, 0x5A);
        }
        t.read_all();
    }),
    // W-202: "any write to `$7C` leaves 0, in direct writes, logs and rework".
    // Both logs acknowledge between ticks, while the flag of voice 3 comes
    // at other ticks in each and those of the other voices at the same.
    ("acknowledged", |t| {
        sounding(t);
        t.change(SRCN, WAVE, SHIFTED);
        t.change(PITCH_HIGH, 0x10, 0x1B);
        t.set(KON, 0x08);
        for value in [0x08, 0xF7, 0x00, 0xFF] {
            t.ticks(9);
            t.read(ENDX);
            t.set(ENDX, value);
            t.read(ENDX);
        }
        t.ticks(9);
        t.read_all();
    }),
    // The flags that the start records have, one of them in the new alone.
    ("acknowledged-at-the-start", |t| {
        ended_in_one(t);
        t.read(ENDX);
        t.set(ENDX, 0x08);
        t.read(ENDX);
        t.ticks(20);
        t.read_all();
    }),
    // The last write stands in the end record.
    ("acknowledged-at-the-end", |t| {
        sounding(t);
        t.change_3();
        t.ticks(40);
        t.read(ENDX);
        t.set(ENDX, 0xFF);
    }),
    // ENVX of an idle voice stays; one that ends in the new alone.
    ("ends-in-the-new-alone", |t| {
        sounding(t);
        t.change(SRCN, SHORT, ENDED);
        t.set(KON, 0x08);
        t.ticks(7);
        t.read_all();
        t.set(0x38, 0x11);
        t.ticks(5);
        t.read_all();
    }),
    // "Echo output is the sheet's": it comes from RAM, and is heard.
    ("echo-heard", |t| {
        sounding(t);
        t.change_3();
        t.set(ESA, ECHO_PAGE);
        t.set(EDL, 1);
        t.set(EVOL_LEFT, 0x7F);
        t.set(EVOL_RIGHT, 0x81);
        t.set(0x0F, 0x40);
        t.set(0x7F, 0x23);
        t.ticks(20);
        t.set(EFB, 0x70);
        t.set(EDL, 2);
        t.ticks(20);
        t.read_all();
    }),
    ("other-volumes", |t| {
        sounding(t);
        t.change(VOL_LEFT, 0x7F, 0x80);
        t.change(VOL_RIGHT, 0x80, 0x7F);
        t.ticks(6);
        t.set(MVOL_LEFT, 0x80);
        t.ticks(6);
        t.set(FLG, MUTE | NO_ECHO_WRITES);
        t.ticks(6);
    }),
    // No tick, no row.
    ("no-tick", |t| {
        t.change_3();
        t.set(PMON, 0x10);
        t.read(0x30);
        t.read(0x33);
    }),
    ("only-ends", |t| t.begin()),
    ("same-logs", |t| {
        sounding(t);
        t.ticks(20);
        t.read_all();
    }),
    // 11 is for FLG at ticks.
    ("echo-that-no-tick-sees", |t| {
        sounding(t);
        t.set(FLG, 0);
        t.begin();
        t.change_3();
        t.set(FLG, NO_ECHO_WRITES);
        t.ticks(9);
        t.set(FLG, 0x1F);
        t.set(FLG, NO_ECHO_WRITES | 0x1F);
        t.ticks(9);
        t.set(FLG, 0);
        t.read_all();
    }),
    // The longest run.
    ("ticks-32000", |t| {
        sounding(t);
        t.change_3();
        t.ticks(31_900);
        t.set(PMON, 0x10);
        t.ticks(92);
        t.read_all();
    }),
];

/// The logs begin where voice 3 has come to its end in the new alone.
fn ended_in_one(two: &mut Two) {
    sounding(two);
    two.change(SRCN, WAVE, ENDED);
    two.set(KON, VOICE_3);
    two.ticks(12);
    two.begin();
}

/// A tick with each PMON, then some more.
fn modulated(two: &mut Two, pmon: &[u8]) {
    sounding(two);
    two.change_3();
    for value in pmon {
        two.set(PMON, *value);
        two.ticks(1);
        two.read_all();
    }
    two.ticks(30);
    two.read_all();
}

const REFUSED: &[Named] = &[
    // "12 is given unless, without the `RW` records to `$j0`..`$j7` for j in
    // S, both logs are the same records in the same order."
    ("refused-12-another-voice", |t| {
        sounding(t);
        t.change_of(2, VOL_LEFT, 1, 2);
        t.ticks(3);
    }),
    ("refused-12-envx", |t| {
        t.change(ENVX, 1, 2);
        t.ticks(3);
    }),
    ("refused-12-fir", |t| {
        t.change(FIR, 1, 2);
        t.ticks(3);
    }),
    ("refused-12-no-voice-named", |t| {
        t.named = 0;
        t.change(VOL_LEFT, 1, 2);
        t.ticks(3);
    }),
    ("refused-12-other-voices-named", |t| {
        t.named = 0xF7;
        t.change(VOL_LEFT, 1, 2);
        t.ticks(3);
    }),
    ("refused-12-write-in-the-old", |t| {
        t.ticks(3);
        t.old.set(KON, 0x08);
    }),
    ("refused-12-write-in-the-new", |t| {
        t.ticks(3);
        t.new.set(KON, 0x08);
    }),
    ("refused-12-reading-in-the-old", |t| {
        t.ticks(3);
        t.old.read(0x38);
    }),
    ("refused-12-reading-in-the-new", |t| {
        t.ticks(3);
        t.new.read(0x38);
    }),
    ("refused-12-another-reading", |t| {
        t.ticks(3);
        t.old.read(0x38);
        t.new.read(0x39);
    }),
    ("refused-12-ticks-in-two-records", |t| {
        t.old.ticks(4);
        t.new.ticks(2);
        t.new.ticks(2);
    }),
    ("refused-12-other-ticks", |t| {
        t.old.ticks(4);
        t.new.ticks(5);
    }),
    ("refused-12-other-order", |t| {
        t.old.set(KON, 1);
        t.both(|s| s.ticks(1));
        t.new.set(KON, 1);
    }),
    ("refused-12-before-11", |t| {
        t.set(FLG, 0);
        t.ticks(3);
        t.new.set(KON, 0x08);
    }),
    ("refused-12-before-10", |t| {
        t.lent = lent::LONG_SHEET;
        t.ticks(3);
        t.new.set(KON, 0x08);
    }),
    // "FLG bit 5 clear at some tick".
    ("refused-11-first-tick", |t| {
        t.set(FLG, 0);
        t.ticks(1);
        t.set(FLG, NO_ECHO_WRITES);
        t.ticks(9);
    }),
    ("refused-11-last-tick", |t| {
        t.ticks(9);
        t.set(FLG, 0x9F);
        t.ticks(1);
        t.set(FLG, NO_ECHO_WRITES);
    }),
    ("refused-11-start-record", |t| {
        t.set(FLG, 0);
        t.begin();
        t.change_3();
        t.ticks(1);
    }),
    ("refused-11-before-10", |t| {
        t.lent = lent::SHORT_PCM;
        t.set(FLG, 0);
        t.ticks(1);
    }),
    ("refused-10-short-pcm", |t| lent_wrong(t, lent::SHORT_PCM)),
    ("refused-10-long-pcm", |t| lent_wrong(t, lent::LONG_PCM)),
    ("refused-10-short-sheet", |t| {
        lent_wrong(t, lent::SHORT_SHEET)
    }),
    ("refused-10-long-sheet", |t| lent_wrong(t, lent::LONG_SHEET)),
    ("refused-10-short-readings", |t| {
        lent_wrong(t, lent::SHORT_READINGS)
    }),
    ("refused-10-long-readings", |t| {
        lent_wrong(t, lent::LONG_READINGS)
    }),
    ("refused-10-long-pcm-no-tick", |t| t.lent = lent::LONG_PCM),
    ("short-pcm-no-tick", |t| t.lent = lent::SHORT_PCM),
];

fn lent_wrong(two: &mut Two, lent: u8) {
    two.lent = lent;
    sounding(two);
    two.change_3();
    two.ticks(9);
    two.read_all();
}

/// Logs refused by each of 4 to 9.
const BAD: [(u8, &[u8]); 6] = [
    (4, b"TK\x01\x00XXND"),
    (5, b"TK\x01\x00RW\x30"),
    (6, b"QA\x80ND"),
    (7, b"TK\x00\x7DTK\x01\x00ND"),
    (8, b"TK\x01\x00QA\x38"),
    (9, b"ND\x00"),
];

/// A pair with other logs, whose start records differ in voice 3.
fn with_logs(old: &[u8], new: &[u8]) -> Pair {
    let mut pair = made(
        &((|t| {
            t.change_3();
            sounding(t);
            t.begin();
        }) as fn(&mut Two)),
    );
    pair.logs = [old.to_vec(), new.to_vec()];
    // It is told last, where it is told at all.
    pair.lent = lent::LONG_PCM;
    pair
}

/// "The old log fully (3 to 9) before the new."
fn bad_logs() -> Vec<(String, Pair)> {
    let good: &[u8] = b"TK\x01\x00QA\x38ND";
    let long = limits::sized(&mut Random::new(1), good, LOG_MOST + 1);
    let mut pairs = Vec::new();
    for (refusal, bad) in BAD.into_iter().chain([(3, &long[..])]) {
        pairs.push((format!("refused-{refusal}-old"), with_logs(bad, good)));
        pairs.push((format!("refused-{refusal}-new"), with_logs(good, bad)));
    }
    for (k, (refusal, bad)) in BAD.into_iter().enumerate() {
        let (other, worse) = BAD[(k + 2) % BAD.len()];
        let name = format!("refused-{refusal}-old-before-{other}-new");
        pairs.push((name, with_logs(bad, worse)));
    }
    pairs
}

/// "Rework checks the start record before the old end record": both give 2,
/// before anything that the logs give.
fn unfit_records() -> Vec<(String, Pair)> {
    let good: &[u8] = b"TK\x01\x00QA\x38ND";
    let records = |unfit, log| Pair {
        unfit,
        ..with_logs(log, log)
    };
    vec![
        ("refused-2-start".to_string(), records(unfit::START, good)),
        ("refused-2-end".to_string(), records(unfit::OLD_END, good)),
        (
            "refused-2-both-before-4".to_string(),
            records(unfit::START | unfit::OLD_END, b"XX"),
        ),
        (
            "refused-2-end-before-8".to_string(),
            records(unfit::OLD_END, b""),
        ),
    ]
}

/// "RAM slice isn't 65,536 bytes", before all else.
fn wrong_lengths() -> Vec<(String, Pair)> {
    let image = |ram| Pair {
        ram,
        unfit: unfit::START,
        ..with_logs(b"XX", b"")
    };
    vec![
        ("refused-1-ram-65535".to_string(), image(SHORT_IMAGE)),
        ("refused-1-ram-65537".to_string(), image(LONG_IMAGE)),
    ]
}

#[cfg(test)]
mod tests {
    use super::*;
    use crate::chip;
    use crate::make::pairs;
    use crate::rework;

    /// What a name says is what the pair gives, with the images as stored.
    #[test]
    fn refusals_are_those_of_the_names() {
        let made = pairs::pairs("directed", 0, 1).unwrap();
        let names: Vec<_> = made.names.lines().collect();
        assert_eq!(names.len(), made.cases.len());
        for (line, pair) in names.iter().zip(&made.cases) {
            let (_, name) = line.split_once(' ').unwrap();
            let ram = chip::ram_of(made.rams[usize::from(pair.ram)].clone());
            let refusal = ram.and_then(|ram| rework::rework(pair, &ram)).err();
            let wanted = name.strip_prefix("refused-").map_or(0, |rest| {
                let number = rest.split('-').next().unwrap();
                number.parse().unwrap()
            });
            assert_eq!(refusal.map_or(0, |r| r as u8), wanted, "{name}");
        }
    }

    #[test]
    fn sets_are_those_of_the_names() {
        let made = all();
        let voices = |name: &str| {
            let line = made
                .names
                .lines()
                .find(|l| l.ends_with(&format!(" {name}")));
            let number: usize = line.unwrap().split(' ').next().unwrap().parse().unwrap();
            let ram = chip::ram_of(image::image()).ok().unwrap();
            let made = rework::rework(&made.cases[number - 1], &ram);
            made.ok().unwrap().voices.0
        };
        for (name, set) in [
            ("one-voice", 0x08),
            ("no-voice", 0x00),
            ("all-voices", 0xFF),
            ("two-voices-apart", 0x41),
            ("one-joins", 0x18),
            ("late-join", 0x18),
            ("chain-in-one-tick", 0x78),
            ("chain-over-ticks", 0x78),
            ("chain-broken", 0x18),
            ("joined-and-let-go", 0x18),
            ("moved-and-not-moving", 0x08),
            ("voice-7-moves-nobody", 0x80),
            ("voice-0-moves-all", 0xFF),
            ("pmon-that-no-tick-sees", 0x08),
            ("pmon-of-the-start-record", 0x18),
            ("moved-by-a-voice-outside", 0x10),
            ("no-tick", 0x08),
            ("ticks-32000", 0x18),
        ] {
            assert_eq!(voices(name), set, "{name}");
        }
    }

    /// A pair whose two sittings give the same would show nothing, but where
    /// no voice is named or nothing is changed.
    #[test]
    fn the_second_sitting_differs() {
        let made = all();
        for (line, pair) in made.names.lines().zip(&made.cases) {
            let (_, name) = line.split_once(' ').unwrap();
            let same = ["no-voice", "only-ends", "same-logs", "short-pcm-no-tick"].contains(&name);
            if same || name.starts_with("refused-") {
                continue;
            }
            let text = |pair: &Pair| rework::report(&[pair.clone()], |_| Ok(image::image()));
            let mut turned = pair.clone();
            turned.preludes.reverse();
            turned.logs.reverse();
            assert_ne!(text(pair), text(&turned), "{name}");
        }
    }
}
