//! The RAM image of the directed cases: two directories, samples whose
//! values are known, and bytes for the echo to find.

use crate::make::bank::put_word;
use crate::random::Random;

pub const DIRECTORY: u8 = 0x02;
/// Its sources are those of the first in turned order.
pub const OTHER_DIRECTORY: u8 = 0x03;
/// From here to $F7FF stand random bytes: 15 · 2048 bytes for EDL 15.
pub const ECHO_PAGE: u8 = 0x80;
const ECHO_END: usize = 0xF800;

/// Page of 64 pairs of -32768.
pub const LOWEST_PAGE: u8 = 0x7F;

/// Sources. 24576 in each sample, -24576 in each.
pub const HIGH: u8 = 0;
pub const LOW: u8 = 1;
/// Three blocks of other filters that loop to the second.
pub const WAVE: u8 = 2;
/// One end block without loop.
pub const ENDED: u8 = 3;
/// Two blocks, then an end block without loop.
pub const SHORT: u8 = 4;
/// One end block that loops to another sample, the wave.
pub const LEADS: u8 = 5;
/// A block at $FFFC that wraps, and the next after it.
pub const WRAPS: u8 = 6;
/// Shifts above 12: -2048 and 0 by the nibble's sign.
pub const SHIFTED: u8 = 7;
/// 28672 in each sample, -32768 in each: so loud that the interpolation
/// cuts or clamps them, by the fraction.
pub const LOUD: u8 = 8;
pub const LOWEST: u8 = 9;
const SOURCES: u16 = 10;

const LOOP_END: u8 = 0x03;
const END: u8 = 0x01;
const STARTS: [u16; SOURCES as usize] = [
    0x0400, 0x0410, 0x0420, 0x0450, 0x0460, 0x0480, 0xFFFC, 0x0490, 0x04A0, 0x04B0,
];
const LOOPS: [u16; SOURCES as usize] = [
    0x0400, 0x0410, 0x0429, 0x0450, 0x0460, 0x0420, 0x0420, 0x0490, 0x04A0, 0x04B0,
];

pub fn image() -> Vec<u8> {
    let mut ram = vec![0; 65_536];
    let mut random = Random::new(1);
    for byte in &mut ram[usize::from(ECHO_PAGE) << 8..ECHO_END] {
        *byte = random.byte();
    }
    for pair in ram[usize::from(LOWEST_PAGE) << 8..][..256].chunks_mut(2) {
        pair.copy_from_slice(&i16::MIN.to_le_bytes());
    }
    for source in 0..SOURCES {
        put_entry(&mut ram, DIRECTORY, source, source);
        put_entry(&mut ram, OTHER_DIRECTORY, source, SOURCES - 1 - source);
    }
    put_block(&mut ram, 0x0400, 0xC0 | LOOP_END, [0x66; 8]);
    put_block(&mut ram, 0x0410, 0xC0 | LOOP_END, [0xAA; 8]);
    put_wave(&mut ram);
    put_block(&mut ram, 0x0450, 0xC0 | END, [0x71; 8]);
    put_block(&mut ram, 0x0460, 0xB0, [0x73; 8]);
    put_block(&mut ram, 0x0469, 0xB4, [0x1F; 8]);
    put_block(&mut ram, 0x0472, 0xB0 | END, [0x77; 8]);
    put_block(&mut ram, 0x0480, 0xA0 | LOOP_END, [0x35; 8]);
    put_block(
        &mut ram,
        0x0490,
        0xD0 | LOOP_END,
        [0x8F, 0x07, 0x1E, 0xF1, 0, 0x80, 0x7F, 0x33],
    );
    put_block(&mut ram, 0x04A0, 0xC0 | LOOP_END, [0x77; 8]);
    put_block(&mut ram, 0x04B0, 0xC0 | LOOP_END, [0x88; 8]);
    put_wrapping(&mut ram);
    ram
}

fn put_entry(ram: &mut [u8], directory: u8, source: u16, sample: u16) {
    let entry = (u16::from(directory) << 8) + source * 4;
    put_word(ram, entry, STARTS[usize::from(sample)]);
    put_word(ram, entry + 2, LOOPS[usize::from(sample)]);
}

fn put_block(ram: &mut [u8], start: u16, header: u8, data: [u8; 8]) {
    for (offset, byte) in (0..).zip([&[header][..], &data].concat()) {
        ram[usize::from(start.wrapping_add(offset))] = byte;
    }
}

fn put_wave(ram: &mut [u8]) {
    let data = [0x12, 0x34, 0x56, 0x70, 0xFE, 0xDC, 0xBA, 0x98];
    put_block(ram, 0x0420, 0xA4, data);
    put_block(ram, 0x0429, 0x98, data);
    put_block(ram, 0x0432, 0x9C | LOOP_END, data);
}

/// The bytes at $0000 serve twice: as data of the block at $FFFC and as the
/// entry of source $40 where DIR is $FF, which leads to the wave.
fn put_wrapping(ram: &mut [u8]) {
    put_block(
        ram,
        0xFFFC,
        0xA8,
        [0x13, 0x57, 0x79, 0x20, 0x04, 0x29, 0x04, 0xE5],
    );
    put_block(ram, 0x0005, 0xB0 | LOOP_END, [0x6A; 8]);
}
