//! A RAM image with a sample directory and BRR samples that make sound.

use crate::random::Random;

const SAMPLES: usize = 24;
const BLOCKS_MOST: usize = 12;
const BLOCK_SIZE: u16 = 9;
const DIRECTORY_SIZE: u16 = 1024;
const END: u8 = 0x01;
const LOOP: u8 = 0x02;

pub struct Bank {
    pub ram: Vec<u8>,
    /// The value for DIR. All 256 source numbers lead to a sample.
    pub dir: u8,
}

/// Where a sample starts and where it loops to.
#[derive(Clone, Copy)]
struct Sample {
    start: u16,
    again: u16,
}

/// The samples follow the directory; around them RAM is random. Page $FF
/// lets the directory wrap at 65,536, page $FA lets a sample do so.
pub fn bank(random: &mut Random) -> Bank {
    let dir = random.byte();
    let dir = random.pick(&[dir, dir, 0xFF, 0xFA]);
    let mut ram = vec![0; 65_536];
    ram.fill_with(|| random.byte());

    let directory = u16::from(dir) << 8;
    let mut addr = directory.wrapping_add(DIRECTORY_SIZE);
    let mut samples = Vec::new();
    for _ in 0..SAMPLES {
        let blocks = random.between(1, BLOCKS_MOST) as u16;
        samples.push(put_sample(random, &mut ram, addr, blocks));
        addr = addr.wrapping_add(blocks * BLOCK_SIZE);
    }
    for source in 0..256 {
        let sample = random.pick(&samples);
        let entry = directory.wrapping_add(source * 4);
        put_word(&mut ram, entry, sample.start);
        put_word(&mut ram, entry.wrapping_add(2), sample.again);
    }
    Bank { ram, dir }
}

/// Blocks in a row, the last one with the end flag. The data bytes are the
/// random ones that are there; three samples in four loop.
fn put_sample(random: &mut Random, ram: &mut [u8], start: u16, blocks: u16) -> Sample {
    for block in 0..blocks {
        let mut header = header(random);
        if block == blocks - 1 {
            header |= END;
            header |= if random.once_in(4) { 0 } else { LOOP };
        }
        ram[usize::from(start.wrapping_add(block * BLOCK_SIZE))] = header;
    }
    let again = start.wrapping_add(random.below(usize::from(blocks)) as u16 * BLOCK_SIZE);
    Sample { start, again }
}

/// Shifts that can be heard, at times the invalid ones above 12; any filter.
fn header(random: &mut Random) -> u8 {
    let shift = if random.once_in(16) {
        random.between(13, 15)
    } else {
        random.between(5, 12)
    };
    (shift << 4 | random.below(4) << 2) as u8
}

pub fn put_word(ram: &mut [u8], addr: u16, value: u16) {
    let [low, high] = value.to_le_bytes();
    ram[usize::from(addr)] = low;
    ram[usize::from(addr.wrapping_add(1))] = high;
}
