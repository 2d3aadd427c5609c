//! One run of the noise generator from `new`, a record a tick.

use apu::dsp::Dsp;

use super::envelope::period;
use crate::bytes::Bytes;
use crate::random::Random;
use crate::registers::{FLG, NON};

const TICKS: usize = 20_000;
const HOLD_MOST: usize = 400;

pub fn records() -> Vec<u8> {
    let mut out = Bytes::new();
    let mut dsp = noise_chip();
    let mut ram = Box::new([0; 65_536]);
    for rate in rates() {
        set_rate(&mut dsp, rate);
        dsp.step(&mut ram);
        out.byte(rate);
        out.sample(sample(&dsp));
    }
    out.0
}

/// A new chip on which every voice takes the noise: the noise register
/// is private in the Rust, but NON puts it in `current_sample`.
pub fn noise_chip() -> Dsp {
    let mut dsp = Dsp::new();
    dsp.write_reg(NON, 0xFF);
    dsp
}

/// FLG with this noise rate and bit 5 set, so that no echo is written.
pub fn set_rate(dsp: &mut Dsp, rate: u8) {
    dsp.write_reg(FLG, 0x20 | rate);
}

/// The noise sample of the last tick.
pub fn sample(dsp: &Dsp) -> i16 {
    dsp.voices[0].current_sample
}

/// The rate of each tick: every rate once, for its period at least so that
/// it fires, slow and fast by turns so that the counter can lie above the
/// next period; then long stretches of 31 and 30 by turns with random rates.
fn rates() -> Vec<u8> {
    let mut random = Random::new(5);
    let mut rates = Vec::new();
    for turn in 0..32 {
        let rate = if turn % 2 == 0 { turn } else { 32 - turn };
        hold(
            &mut rates,
            rate,
            random.between(1, HOLD_MOST).max(period(rate).into()),
        );
    }
    while rates.len() < TICKS {
        let fast = random.pick(&[31, 30]);
        hold(&mut rates, fast, HOLD_MOST);
        let rate = random.below(32) as u8;
        hold(&mut rates, rate, random.between(1, HOLD_MOST));
    }
    rates.truncate(TICKS);
    rates
}

fn hold(rates: &mut Vec<u8>, rate: u8, ticks: usize) {
    rates.extend(std::iter::repeat_n(rate, ticks));
}
