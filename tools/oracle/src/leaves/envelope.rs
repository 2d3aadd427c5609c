//! Vectors of one envelope update, from fit records only (document 01).

use apu::dsp::{Adsr, EnvelopePhase};

use crate::bytes::Bytes;
use crate::random::Random;

/// Phases by their number in a record.
const PHASES: [EnvelopePhase; 5] = [
    EnvelopePhase::Attack,
    EnvelopePhase::Decay,
    EnvelopePhase::Sustain,
    EnvelopePhase::Release,
    EnvelopePhase::Off,
];

const LEVEL_MOST: u16 = 0x800;
const COUNTER_MOST: usize = 2047;

/// Levels at which a step meets 0, the cap or the bend of GAIN.
const CORNER_LEVELS: [u16; 15] = [
    0, 1, 7, 8, 9, 31, 32, 0x5FF, 0x600, 0x7DF, 0x7E0, 0x7F6, 0x7FE, 0x7FF, 0x800,
];

pub fn records() -> Vec<u8> {
    let mut work = Work {
        random: Random::new(4),
        out: Bytes::new(),
    };
    for rate in 0..16 {
        work.all_levels(
            Adsr {
                attack_rate: rate,
                ..adsr(EnvelopePhase::Attack)
            },
            2 * rate + 1,
        );
    }
    for rate in 0..8 {
        for sustain_level in 0..8 {
            let decay = Adsr {
                decay_rate: rate,
                sustain_level,
                ..adsr(EnvelopePhase::Decay)
            };
            work.all_levels(decay, 2 * rate + 16);
        }
    }
    for rate in 0..32 {
        work.all_levels(
            Adsr {
                sustain_rate: rate,
                ..adsr(EnvelopePhase::Sustain)
            },
            rate,
        );
    }
    for phase in [EnvelopePhase::Release, EnvelopePhase::Off] {
        work.all_levels(adsr(phase), 0);
        work.all_levels(
            Adsr {
                adsr_mode: false,
                ..adsr(phase)
            },
            0,
        );
    }
    work.gains();
    work.out.0
}

fn adsr(phase: EnvelopePhase) -> Adsr {
    Adsr {
        adsr_mode: true,
        envelope_phase: phase,
        ..Adsr::default()
    }
}

/// Ticks between two steps at an entry of the rate table; 0 is never. The
/// table is the Rust's own: the period is counted out on a long Sustain.
pub fn period(entry: u8) -> u16 {
    let mut held = Adsr {
        sustain_rate: entry.min(31),
        envelope_level: LEVEL_MOST,
        ..adsr(EnvelopePhase::Sustain)
    };
    for ticks in 1..=2048 {
        held.update_envelope();
        if held.envelope_level != LEVEL_MOST {
            return ticks;
        }
    }
    0
}

struct Work {
    random: Random,
    out: Bytes,
}

impl Work {
    /// Every corner level and some random ones at each kind of counter;
    /// `entry` is the place in the rate table that this phase looks at.
    fn all_levels(&mut self, adsr: Adsr, entry: u8) {
        let mut levels = CORNER_LEVELS.to_vec();
        levels.extend(levels_near_target(adsr.sustain_level));
        for _ in 0..4 {
            levels.push(self.random_level());
        }
        for counter in self.counters(entry) {
            for level in &levels {
                self.record(Adsr {
                    envelope_level: *level,
                    tick_counter: counter,
                    ..adsr
                });
            }
        }
    }

    /// Every GAIN byte in the three phases that GAIN replaces.
    fn gains(&mut self) {
        for gain in 0..=255 {
            for phase in &PHASES[..3] {
                let adsr = Adsr {
                    adsr_mode: false,
                    gain_param: gain,
                    ..adsr(*phase)
                };
                for counter in self.counters(gain & 0x1F) {
                    self.some_levels(Adsr {
                        tick_counter: counter,
                        ..adsr
                    });
                }
            }
        }
    }

    fn some_levels(&mut self, adsr: Adsr) {
        for _ in 0..3 {
            let level = self.random.pick(&CORNER_LEVELS);
            self.record(Adsr {
                envelope_level: level,
                ..adsr
            });
        }
        let level = self.random_level();
        self.record(Adsr {
            envelope_level: level,
            ..adsr
        });
    }

    /// Just not due, just due, and random. Entry 31 is always due.
    fn counters(&mut self, entry: u8) -> [u16; 3] {
        let period = period(entry);
        let random = self.random.between(0, COUNTER_MOST) as u16;
        [period.saturating_sub(2), period.saturating_sub(1), random]
    }

    fn random_level(&mut self) -> u16 {
        self.random.between(0, usize::from(LEVEL_MOST)) as u16
    }

    fn record(&mut self, adsr: Adsr) {
        let mut adsr = self.fill_unused(adsr);
        self.out.byte(u8::from(adsr.adsr_mode));
        self.out.byte(adsr.gain_param);
        self.out.byte(adsr.attack_rate);
        self.out.byte(adsr.decay_rate);
        self.out.byte(adsr.sustain_level);
        self.out.byte(adsr.sustain_rate);
        self.state(&adsr);
        adsr.update_envelope();
        self.state(&adsr);
    }

    /// Level, phase, counter: what an update may change.
    fn state(&mut self, adsr: &Adsr) {
        let phase = PHASES
            .iter()
            .position(|phase| *phase == adsr.envelope_phase);
        self.out.word(adsr.envelope_level);
        self.out.byte(phase.expect("all phases are listed") as u8);
        self.out.word(adsr.tick_counter);
    }

    /// Random values in the fields that this phase must not look at.
    fn fill_unused(&mut self, adsr: Adsr) -> Adsr {
        let mut filled = adsr;
        let phase = adsr.envelope_phase;
        if adsr.adsr_mode {
            filled.gain_param = self.random.byte();
        }
        if !adsr.adsr_mode || phase != EnvelopePhase::Attack {
            filled.attack_rate = self.random.below(16) as u8;
        }
        if !adsr.adsr_mode || phase != EnvelopePhase::Decay {
            filled.decay_rate = self.random.below(8) as u8;
            filled.sustain_level = self.random.below(8) as u8;
        }
        if !adsr.adsr_mode || phase != EnvelopePhase::Sustain {
            filled.sustain_rate = self.random.below(32) as u8;
        }
        filled
    }
}

/// Levels around Decay's target, (sustain level + 1) * $100. Above it a
/// step takes sustain level + 2, so that is the last level that reaches it.
fn levels_near_target(sustain_level: u8) -> Vec<u16> {
    let target = (u16::from(sustain_level) + 1) * 0x100;
    let step = u16::from(sustain_level) + 2;
    [
        target - 1,
        target,
        target + 1,
        target + step,
        target + step + 1,
    ]
    .into_iter()
    .filter(|level| *level <= LEVEL_MOST)
    .collect()
}
