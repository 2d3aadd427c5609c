//! Vectors of BRR: one nibble, and one block of nine bytes.

use apu::dsp::{decode_brr_block, decode_brr_nibble};
use apu::memory::RawARAM;

use super::CORNER_SAMPLES;
use crate::bytes::Bytes;
use crate::random::Random;

const HISTORIES: usize = 48;
const WIDE_NIBBLES: usize = 2_000;
const BLOCKS: usize = 4_000;
const BLOCK_SIZE: u16 = 9;

/// All nibbles, shifts and filters over the histories, then nibbles, shifts
/// and filters out of their range (document 01: a direct call uses the low
/// 4 bits of the nibble, 2 of the filter). P1 to P5 are among the former.
pub fn nibbles() -> Vec<u8> {
    let mut random = Random::new(1);
    let mut out = Bytes::new();
    let histories = histories(&mut random);
    for nibble in -8..8 {
        for shift in 0..16 {
            for filter in 0..4 {
                for history in &histories {
                    nibble_record(&mut out, nibble, shift, filter, *history);
                }
            }
        }
    }
    for _ in 0..WIDE_NIBBLES {
        let (nibble, shift, filter) = (wide_nibble(&mut random), random.byte(), random.byte());
        let history = (random.sample(), random.sample());
        nibble_record(&mut out, nibble, shift, filter, history);
    }
    out.0
}

fn nibble_record(out: &mut Bytes, nibble: i8, shift: u8, filter: u8, (prev1, prev2): (i16, i16)) {
    out.byte(nibble as u8);
    out.byte(shift);
    out.byte(filter);
    out.samples(&[prev1, prev2]);
    out.sample(decode_brr_nibble(nibble, shift, filter, prev1, prev2));
}

/// A byte that is no nibble from -8 to 7.
fn wide_nibble(random: &mut Random) -> i8 {
    loop {
        let nibble = random.byte() as i8;
        if !(-8..8).contains(&nibble) {
            return nibble;
        }
    }
}

/// Pairs (prev1, prev2), all different: P5's, one that takes a filter
/// furthest down, the corners beside themselves and beside the corners one
/// and four places on (P4's is there), then random ones, even and odd.
fn histories(random: &mut Random) -> Vec<(i16, i16)> {
    let mut pairs = vec![(2, 0), (-32768, 32767)];
    for turn in [0, 1, 4] {
        let mut turned = CORNER_SAMPLES;
        turned.rotate_left(turn);
        pairs.extend(CORNER_SAMPLES.into_iter().zip(turned));
    }
    while pairs.len() < HISTORIES {
        pairs.push((random.sample(), random.sample()));
    }
    pairs
}

/// Blocks with every header byte. One in 15 lies at the end of RAM, so that
/// its bytes wrap; 15 and 256 share no factor, so headers mix there too.
pub fn blocks() -> Vec<u8> {
    let mut random = Random::new(2);
    let mut out = Bytes::new();
    for number in 0..BLOCKS {
        let wraps = number % 15 == 0;
        let addr = if wraps {
            random.between(0xFFF5, 0xFFFF) as u16
        } else {
            random.word()
        };
        let mut block = [0; BLOCK_SIZE as usize];
        block.fill_with(|| random.byte());
        block[0] = number as u8;
        let history = (history_sample(&mut random), history_sample(&mut random));
        block_record(&mut out, addr, &block, history);
    }
    out.0
}

fn history_sample(random: &mut Random) -> i16 {
    if random.once_in(4) {
        random.pick(&CORNER_SAMPLES)
    } else {
        random.sample()
    }
}

fn block_record(out: &mut Bytes, addr: u16, block: &[u8], (prev1, prev2): (i16, i16)) {
    out.word(addr);
    out.0.extend(block);
    out.samples(&[prev1, prev2]);
    let (mut prev1, mut prev2) = (prev1, prev2);
    let ram = ram_with(addr, block);
    let (samples, end, repeat) = decode_brr_block(&ram, addr, &mut prev1, &mut prev2);
    out.samples(&samples);
    out.samples(&[prev1, prev2]);
    out.byte(u8::from(end) | u8::from(repeat) << 1);
}

/// RAM that is zero but for the block, which wraps at 65,536.
fn ram_with(addr: u16, block: &[u8]) -> Box<RawARAM> {
    let mut ram = Box::new([0; 65_536]);
    for (offset, byte) in (0..BLOCK_SIZE).zip(block) {
        ram[usize::from(addr.wrapping_add(offset))] = *byte;
    }
    ram
}

#[cfg(test)]
mod tests {
    use super::*;

    /// P1 to P5 are among the vectors, by their inputs.
    #[test]
    fn readings_are_among_the_nibbles() {
        let vectors = nibbles();
        let readings = [
            (-8, 12, 0, (0, 0)),
            (-1, 13, 0, (0, 0)),
            (5, 13, 0, (0, 0)),
            (1, 0, 0, (0, 0)),
            (-1, 0, 0, (0, 0)),
            (7, 12, 2, (28672, -28672)),
            (0, 0, 1, (2, 0)),
        ];
        for (nibble, shift, filter, history) in readings {
            let mut wanted = Bytes::new();
            nibble_record(&mut wanted, nibble, shift, filter, history);
            assert!(vectors.chunks(9).any(|record| record == wanted.0));
        }
    }
}
