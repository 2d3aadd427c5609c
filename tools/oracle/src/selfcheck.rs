//! Document 01's readings P1 to P11, asserted on the given Rust itself.

use apu::dsp::{decode_brr_nibble, Adsr, Dsp, EnvelopePhase, Voice};

use crate::leaves::noise;
use crate::registers::*;

pub fn all() {
    brr();
    noise_register();
    pitch();
    decay();
    mix();
    directory();
}

/// P1 to P5.
fn brr() {
    assert_eq!(decode_brr_nibble(-8, 12, 0, 0, 0), -32768, "P1");
    assert_eq!(decode_brr_nibble(-1, 13, 0, 0, 0), -4096, "P2");
    assert_eq!(decode_brr_nibble(5, 13, 0, 0, 0), 0, "P2");
    assert_eq!(decode_brr_nibble(1, 0, 0, 0, 0), 0, "P3");
    assert_eq!(decode_brr_nibble(-1, 0, 0, 0, 0), -2, "P3");
    assert_eq!(decode_brr_nibble(7, 12, 2, 28672, -28672), -2, "P4");
    assert_eq!(decode_brr_nibble(0, 0, 1, 2, 0), 0, "P5");
}

/// P6. A sample is the register doubled. The register comes back to $4000
/// after 32,767 steps, and $0001 is the one before it.
fn noise_register() {
    let mut ram = Box::new([0; 65_536]);
    let mut dsp = noise::noise_chip();
    noise::set_rate(&mut dsp, 31);
    dsp.step(&mut ram);
    assert_eq!(noise::sample(&dsp), 0x2000 << 1, "P6");
    while noise::sample(&dsp) != 0x0001 << 1 {
        dsp.step(&mut ram);
    }
    dsp.step(&mut ram);
    assert_eq!(noise::sample(&dsp) as u16, 0x4000 << 1, "P6");
}

/// P7 and P8, from position 0. The seven samples are the whole part of the
/// new position, 32750.
fn pitch() {
    assert_eq!(stepped_from_0(-32768).pitch_counter, 0, "P7");
    let voice = stepped_from_0(32766);
    assert_eq!(voice.pitch_counter, 32750, "P8");
    assert_eq!(voice.brr.nibble_idx, 7, "P8");
}

fn stepped_from_0(source: i32) -> Voice {
    let ram = Box::new([0; 65_536]);
    let mut voice = Voice {
        pitch: 0x3FFF,
        key_on: true,
        ..Voice::default()
    };
    voice.step(0, &ram, &mut [0; 128], Some(source));
    voice
}

/// P9. Decay rate 7 looks at entry 30, a period of 2, so counter 1 is due.
fn decay() {
    let mut adsr = Adsr {
        adsr_mode: true,
        decay_rate: 7,
        sustain_level: 7,
        envelope_level: 0x7FF,
        envelope_phase: EnvelopePhase::Decay,
        tick_counter: 1,
        ..Adsr::default()
    };
    adsr.update_envelope();
    assert_eq!(adsr.envelope_level, 0x800, "P9");
}

/// P10. Two loud voices take the dry sum to its lowest.
fn mix() {
    let mut dsp = Dsp::new();
    dsp.write_reg(FLG, 0x20);
    dsp.write_reg(MVOL_LEFT, 0x80);
    for voice in &mut dsp.voices[..2] {
        voice.left_vol = 127;
        voice.current_sample = -32768;
        voice.adsr.envelope_phase = EnvelopePhase::Sustain;
        voice.adsr.envelope_level = 0x7FF;
    }
    assert_eq!(dsp.render_audio_single().0, -32768, "P10");
}

/// P11. At the poll the voice keeps the address of its directory entry.
fn directory() {
    let mut dsp = Dsp::new();
    dsp.write_reg(FLG, 0x20);
    dsp.write_reg(DIR, 0xFF);
    dsp.write_reg(SRCN, 0x40);
    dsp.voices[0].brr.addr = 1;
    dsp.write_reg(KON, 0x01);
    dsp.step(&mut Box::new([0; 65_536]));
    assert_eq!(dsp.voices[0].brr.addr, 0, "P11");
}

#[cfg(test)]
mod tests {
    #[test]
    fn all_readings_hold() {
        super::all();
    }
}
