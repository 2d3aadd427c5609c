//! Vectors of the interpolation of four samples.

use apu::dsp::Voice;

use crate::bytes::Bytes;
use crate::random::Random;

const RECORDS: usize = 6_000;
const FRACTIONS: usize = 256;

const HIGH: i16 = i16::MAX;
const LOW: i16 = i16::MIN;

/// The first three taps leave 16 bits, or the fourth meets the clamp.
const CORNER_HISTORIES: [[i16; 4]; 8] = [
    [HIGH, HIGH, HIGH, HIGH],
    [LOW, LOW, LOW, LOW],
    [HIGH, LOW, HIGH, LOW],
    [LOW, HIGH, LOW, HIGH],
    [HIGH, HIGH, HIGH, LOW],
    [LOW, LOW, LOW, HIGH],
    [0, 0, 0, 0],
    [-1, -1, -1, -1],
];

/// Every fraction with every corner history, then with random ones.
pub fn records() -> Vec<u8> {
    let mut random = Random::new(3);
    let mut out = Bytes::new();
    for number in 0..RECORDS {
        let position = position(&mut random, number % FRACTIONS);
        let history = match CORNER_HISTORIES.get(number / FRACTIONS) {
            Some(corner) => *corner,
            None => [0; 4].map(|_| random.sample()),
        };
        record(&mut out, position, history);
    }
    out.0
}

/// A position up to $7FFF with this fraction in bits 11-4; the other bits
/// don't count and are random.
fn position(random: &mut Random, fraction: usize) -> u16 {
    (random.word() & 0x700F) | (fraction as u16) << 4
}

fn record(out: &mut Bytes, position: u16, history: [i16; 4]) {
    let voice = Voice {
        pitch_counter: position,
        history,
        ..Voice::default()
    };
    out.word(position);
    out.samples(&history);
    out.sample(voice.interpolate());
}
