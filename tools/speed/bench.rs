//! LOG RAM RUNS: the given Rust over a log and the RAM of a file: writes, and ticks that are `step` and
//! `render_audio_single`; the time of each run in nanoseconds.

use apu::dsp::Dsp;
use std::time::Instant;

/// Runs a well-formed log from `new`: writes and ticks, four bytes each, then the end. Not inlined, so that what stands around the call
/// does not change its code.
#[inline(never)]
fn run(log: &[u8], ram: &mut [u8; 65536], pcm: &mut [u8]) {
    let mut dsp = Dsp::new();
    let mut frames = pcm.chunks_exact_mut(4);
    for record in log.chunks_exact(4) {
        if record[0] == b'R' {
            dsp.write_reg(record[2], record[3]);
            continue;
        }
        for _ in 0..u16::from_le_bytes([record[2], record[3]]) {
            dsp.step(ram);
            let (left, right) = dsp.render_audio_single();
            let frame = frames.next().unwrap();
            frame[..2].copy_from_slice(&left.to_le_bytes());
            frame[2..].copy_from_slice(&right.to_le_bytes());
        }
    }
}

fn ticks_of(log: &[u8]) -> usize {
    let ticks = log.chunks_exact(4).filter(|r| r[0] == b'T');
    ticks.map(|r| usize::from(u16::from_le_bytes([r[2], r[3]]))).sum()
}

fn main() {
    let words: Vec<String> = std::env::args().skip(1).collect();
    let log = std::fs::read(&words[0]).unwrap();
    let image = std::fs::read(&words[1]).unwrap();
    let runs: usize = words[2].parse().unwrap();
    let mut ram = Box::new([0u8; 65536]);
    let mut pcm = vec![0u8; ticks_of(&log) * 4];
    for _ in 0..runs {
        ram.copy_from_slice(&image);
        let begun = Instant::now();
        run(&log, &mut ram, &mut pcm);
        println!("{}", begun.elapsed().as_nanos());
    }
    digest("RAM", &ram[..]);
    digest("PCM", &pcm);
}

fn digest(name: &str, bytes: &[u8]) {
    let sum = bytes.iter().fold(0xCBF2_9CE4_8422_2325u64, |sum, byte| {
        (sum ^ u64::from(*byte)).wrapping_mul(0x0000_0100_0000_01B3)
    });
    println!("{name} {sum:016X}");
}
