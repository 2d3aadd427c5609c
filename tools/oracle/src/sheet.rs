//! The sheet of document 01: 36 bytes a tick, as things stand after it, read
//! from the given Rust.

use apu::dsp::{Dsp, EnvelopePhase, Voice};

use crate::bytes::Bytes;
use crate::registers::*;

/// "Per voice the scaled output (16 bits, low byte first), the ENVX register,
/// the ENDX bit (0 or 1); then echo output left, right."
pub fn put_row(sheet: &mut Bytes, dsp: &Dsp) {
    for (number, voice) in (0..).zip(&dsp.voices) {
        sheet.sample(scaled(voice));
        sheet.byte(dsp.read_reg(of_voice(number, ENVX)));
        sheet.byte(dsp.read_reg(ENDX) >> number & 1);
    }
    sheet.samples(&echo_output(dsp));
}

/// "Scaled output is sample × level >> 11, or 0 in phase Off." A level is at
/// most $800, so that it fits 16 bits. Its bit 0 stays, as in the dry output.
fn scaled(voice: &Voice) -> i16 {
    if voice.adsr.envelope_phase == EnvelopePhase::Off {
        return 0;
    }
    let product = i32::from(voice.current_sample) * i32::from(voice.adsr.envelope_level);
    (product >> 11) as i16
}

/// The Rust keeps its echo output to itself, but mixes it: with the dry sum
/// at volume 0 and the echo at -128 the sample is minus the echo output, cut
/// to 16 bits. -32768 is its own negative there, so nothing is lost.
fn echo_output(dsp: &Dsp) -> [i16; 2] {
    let mut asked = copy(dsp);
    for (register, value) in [
        (MVOL_LEFT, 0),
        (MVOL_RIGHT, 0),
        (EVOL_LEFT, 0x80),
        (EVOL_RIGHT, 0x80),
        // Neither MUTE nor RESET, which silence the sample.
        (FLG, 0),
    ] {
        asked.write_reg(register, value);
    }
    let (left, right) = asked.render_audio_single();
    [left.wrapping_neg(), right.wrapping_neg()]
}

/// A chip to ask, so that the one that runs is never written to: setting FLG
/// back would be a second RESET. `Dsp` has no `Clone`.
fn copy(dsp: &Dsp) -> Dsp {
    const { assert!(!std::mem::needs_drop::<Dsp>()) };
    // Sound: its fields are numbers, flags and arrays of them, so that the
    // same bits are another chip, and neither owns anything to free.
    unsafe { std::ptr::read(dsp) }
}

#[cfg(test)]
mod tests {
    use super::*;
    use crate::chip::{self, Played};
    use crate::log::{self, Record};
    use crate::make;

    const ROW_SIZE: usize = 36;
    const ECHO_AT: usize = 32;

    fn row(dsp: &Dsp) -> Vec<u8> {
        let mut sheet = Bytes::new();
        put_row(&mut sheet, dsp);
        sheet.0
    }

    fn voice(sample: i16, level: u16, phase: EnvelopePhase) -> Voice {
        let mut voice = Voice::default();
        voice.current_sample = sample;
        voice.adsr.envelope_level = level;
        voice.adsr.envelope_phase = phase;
        voice
    }

    #[test]
    fn scaled_output_at_its_ends() {
        for (sample, level, output) in [
            (i16::MAX, 0x800, i16::MAX),
            (i16::MIN, 0x800, i16::MIN),
            (i16::MIN, 0x7FF, -32752),
            (i16::MAX, 0x7FF, 32751),
            // Rounded down, and bit 0 kept.
            (1, 0x7FF, 0),
            (-1, 1, -1),
            (3, 0x800, 3),
            (i16::MIN, 0, 0),
        ] {
            let release = voice(sample, level, EnvelopePhase::Release);
            assert_eq!(scaled(&release), output, "{sample} {level}");
        }
        assert_eq!(scaled(&voice(i16::MIN, 0x800, EnvelopePhase::Off)), 0);
    }

    #[test]
    fn a_row_before_anything_is_zero() {
        assert_eq!(row(&Dsp::new()), [0; ROW_SIZE]);
    }

    /// Each byte in its place, low bytes first.
    #[test]
    fn a_row_has_its_voices_in_turn() {
        let mut dsp = Dsp::new();
        dsp.voices[0] = voice(0x1234, 0x800, EnvelopePhase::Attack);
        dsp.voices[7] = voice(-2, 0x800, EnvelopePhase::Sustain);
        dsp.write_reg(0x08, 0xFF);
        dsp.write_reg(0x78, 0x7E);
        dsp.write_reg(ENDX, 0x81);
        let mut wanted = [0; ROW_SIZE];
        wanted[..4].copy_from_slice(&[0x34, 0x12, 0xFF, 1]);
        wanted[28..32].copy_from_slice(&[0xFE, 0xFF, 0x7E, 1]);
        assert_eq!(row(&dsp), wanted);

        dsp.write_reg(ENDX, 0x7E);
        let endx: Vec<u8> = (0..8).map(|number| row(&dsp)[4 * number + 3]).collect();
        assert_eq!(endx, [0, 1, 1, 1, 1, 1, 1, 0]);
    }

    /// Two taps of 127 clamp what lies at the ends, whatever FLG and the
    /// volumes are. The lowest is -32768, the highest 32766: bit 0 is clear.
    #[test]
    fn echo_output_at_its_ends() {
        let mut ram = Box::new([0; 65_536]);
        ram[..4].copy_from_slice(&[0x00, 0x80, 0xFF, 0x7F]);
        for flags in [0x20, 0x60, 0xA0, 0xE0] {
            let mut dsp = Dsp::new();
            for (register, value) in [(0x6F, 0x7F), (0x7F, 0x7F), (EVOL_LEFT, 3), (FLG, flags)] {
                dsp.write_reg(register, value);
            }
            dsp.step(&mut ram);
            assert_eq!(echo_output(&dsp), [-32512, 32510]);
            dsp.step(&mut ram);
            assert_eq!(echo_output(&dsp), [i16::MIN, 32766]);
            assert_eq!(row(&dsp)[ECHO_AT..], [0x00, 0x80, 0xFE, 0x7F]);
            assert_eq!(dsp.read_reg(FLG), flags, "the chip itself is left alone");
        }
    }

    /// The log with other values written. Both changes below are to the mix
    /// alone, of which nothing reaches the echo.
    fn mixed_by(log: &[u8], change: fn(u8, u8) -> u8, ram: &[u8]) -> Played {
        let mut changed = log::read(log).unwrap();
        for record in &mut changed {
            if let Record::Write { register, value } = record {
                *value = change(*register, *value);
            }
        }
        changed.push(Record::End);
        let log: Vec<u8> = changed.iter().flat_map(|record| record.bytes()).collect();
        chip::run(&log, ram.to_vec()).unwrap().played
    }

    fn without_reset(register: u8, value: u8) -> u8 {
        match register {
            FLG => value & 0x7F,
            _ => value,
        }
    }

    fn echo_alone(register: u8, value: u8) -> u8 {
        match register {
            FLG => value & 0x3F,
            MVOL_LEFT | MVOL_RIGHT => 0,
            EVOL_LEFT | EVOL_RIGHT => 0x80,
            _ => value,
        }
    }

    /// The echo in a run's sheet is what a run of the same log lets hear
    /// with its echo alone. (RESET cannot be heard through.)
    #[test]
    fn echo_output_is_what_the_echo_alone_sounds_like() {
        let mut sounding = 0;
        for seed in 1..=20 {
            let made = make::make("plain-1000", seed).unwrap();
            let sheet = mixed_by(&made.log, without_reset, &made.ram).sheet;
            let heard = mixed_by(&made.log, echo_alone, &made.ram).pcm;
            let echo = sheet
                .chunks(ROW_SIZE)
                .flat_map(|row| row[ECHO_AT..].chunks(2));
            assert_eq!(sheet.len() / ROW_SIZE, heard.len() / 4);
            for (echo, heard) in echo.zip(heard.chunks(2)) {
                let word = |bytes: &[u8]| i16::from_le_bytes([bytes[0], bytes[1]]);
                assert_eq!(word(echo), word(heard).wrapping_neg());
                sounding += usize::from(word(echo) != 0);
            }
        }
        assert!(sounding > 10_000, "{sounding} are not 0");
    }
}
