//! Playing logs on the given Rust and printing what they give.

use apu::dsp::Dsp;
use apu::memory::RawARAM;

use crate::bytes::{digest, Bytes, Digest};
use crate::log::{self, Record, Refusal};
use crate::registers::ENDX;
use crate::sheet;

/// Left and right, 16 bits each.
const SAMPLE_SIZE: usize = 4;

/// What the records of a log put out.
pub struct Played {
    /// Register and value of each reading.
    pub readings: Vec<(u8, u8)>,
    pub ticks: usize,
    /// Left, right, 16 bits, low byte first.
    pub pcm: Vec<u8>,
    /// 36 bytes a tick.
    pub sheet: Vec<u8>,
    /// After the last record.
    pub registers: Vec<u8>,
}

/// All that a run leaves behind.
pub struct Outcome {
    pub played: Played,
    pub ram: Box<RawARAM>,
    /// Digest of, tick by tick, the 128 registers after it, EDL and PMON as
    /// used, its sample and RAM.
    pub trace: u64,
}

pub fn ram_of(bytes: Vec<u8>) -> Result<Box<RawARAM>, Refusal> {
    bytes.try_into().map_err(|_| Refusal::RamLength)
}

/// Checks RAM, then the log, then runs it from `new` (document 01's order).
pub fn run(log: &[u8], ram: Vec<u8>) -> Result<Outcome, Refusal> {
    let mut ram = ram_of(ram)?;
    let records = log::read(log)?;

    let mut trace = Digest::new();
    let played = play(&mut Dsp::new(), &mut ram, &records, |dsp, ram, sample| {
        trace.bytes(&registers(dsp));
        trace.bytes(&[dsp.edl(), dsp.pmon()]);
        trace.bytes(sample);
        trace.bytes(ram);
    });
    Ok(Outcome {
        played,
        ram,
        trace: trace.0,
    })
}

/// Plays the records from where the chip stands. `after` sees every tick:
/// chip and RAM as it leaves them, and its sample.
pub fn play(
    dsp: &mut Dsp,
    ram: &mut RawARAM,
    records: &[Record],
    after: impl FnMut(&Dsp, &RawARAM, &[u8]),
) -> Played {
    play_by(handed, dsp, ram, records, after)
}

/// Plays the records on the Rust as it is: a write to `$7C` stores its byte.
pub fn play_as_it_is(dsp: &mut Dsp, ram: &mut RawARAM, records: &[Record]) -> Played {
    play_by(|_, value| value, dsp, ram, records, |_, _, _| {})
}

/// The value that the Rust is handed for a log's write. "Any write to `$7C`
/// leaves 0" (document 02, W-202). The Rust stores its byte there, and stores
/// a 0 as well: that is what it is handed in the place of the log's value.
fn handed(register: u8, value: u8) -> u8 {
    if register == ENDX {
        0
    } else {
        value
    }
}

/// The value that the chip gets, from a write's register and value.
type Rule = fn(u8, u8) -> u8;

fn play_by(
    rule: Rule,
    dsp: &mut Dsp,
    ram: &mut RawARAM,
    records: &[Record],
    mut after: impl FnMut(&Dsp, &RawARAM, &[u8]),
) -> Played {
    let mut readings = Vec::new();
    let mut ticks = 0;
    let mut pcm = Bytes::new();
    let mut sheet = Bytes::new();
    for record in records {
        match *record {
            Record::Write { register, value } => {
                dsp.write_reg(index(register, value), rule(register, value))
            }
            Record::Reading(register) => readings.push((register, dsp.read_reg(register))),
            Record::Ticks(count) => {
                ticks += usize::from(count);
                for _ in 0..count {
                    tick(dsp, ram, &mut pcm);
                    sheet::put_row(&mut sheet, dsp);
                    after(dsp, ram, &pcm.0[pcm.0.len() - SAMPLE_SIZE..]);
                }
            }
            Record::End => {}
        }
    }
    Played {
        readings,
        ticks,
        pcm: pcm.0,
        sheet: sheet.0,
        registers: registers(dsp),
    }
}

/// The index that a log's write is made with: an odd value goes with bit 7
/// of the register's number set. "The direct register write masks its index
/// with `$7F`" (document 01).
fn index(register: u8, value: u8) -> u8 {
    if value % 2 == 1 {
        register | 0x80
    } else {
        register
    }
}

fn registers(dsp: &Dsp) -> Vec<u8> {
    (0..0x80).map(|register| dsp.read_reg(register)).collect()
}

/// A tick is `step`, then `render_audio_single`.
fn tick(dsp: &mut Dsp, ram: &mut RawARAM, pcm: &mut Bytes) {
    dsp.step(ram);
    let (left, right) = dsp.render_audio_single();
    pcm.samples(&[left, right]);
}

pub fn report(result: &Result<Outcome, Refusal>) -> String {
    match result {
        Ok(outcome) => lines(&outcome.played, &outcome.ram),
        Err(refusal) => refused(*refusal),
    }
}

pub fn refused(refusal: Refusal) -> String {
    format!("REFUSED {}\n", refusal as u8)
}

/// The program's lines of document 01 (Q and END), then the registers and
/// the digests of RAM, PCM and sheet.
pub fn lines(played: &Played, ram: &RawARAM) -> String {
    let mut text = String::new();
    for (number, (register, value)) in (1..).zip(&played.readings) {
        text += &format!("Q {number} {register:02X} {value:02X}\n");
    }
    text += &format!("END {} {}\nREG", played.ticks, played.readings.len());
    for register in &played.registers {
        text += &format!(" {register:02X}");
    }
    text += &format!("\nRAM {:016X}\n", digest(ram));
    text += &format!("PCM {:016X}\n", digest(&played.pcm));
    text += &format!("SHEET {:016X}\n", digest(&played.sheet));
    text
}

#[cfg(test)]
mod tests {
    use super::*;
    use crate::registers::*;

    fn zero_ram() -> Vec<u8> {
        vec![0; 65_536]
    }

    /// Document 01's example of the program's lines.
    #[test]
    fn example_prints_its_lines() {
        let text = report(&run(b"QAlND", zero_ram()));
        assert!(text.starts_with("Q 1 6C E0\nEND 0 1\nREG 00 "));
        assert!(text.ends_with("\nPCM CBF29CE484222325\nSHEET CBF29CE484222325\n"));
        assert_eq!(text.lines().count(), 6);
    }

    /// Source 0 is an end block at $0004: a voice keyed on sets its ENDX bit
    /// on the sixth tick from its poll on.
    fn end_ram() -> Vec<u8> {
        let mut ram = zero_ram();
        ram[..5].copy_from_slice(&[0x04, 0x00, 0x04, 0x00, 0x01]);
        ram
    }

    /// One row for each tick, over all `TK` records, as things stand after it.
    #[test]
    fn the_sheet_has_36_bytes_a_tick() {
        let log = b"RW\x6C\x20RW\x4C\x01TK\x08\x00RW\x7C\x80RW\x4C\x80TK\x06\x00ND";
        let outcome = run(log, end_ram()).ok().unwrap();
        let mut wanted = [0; 14 * 36];
        for row in 5..8 {
            wanted[36 * row + 3] = 1;
        }
        wanted[36 * 13 + 31] = 1;
        assert_eq!(outcome.played.sheet, wanted);
        let line = format!("\nSHEET {:016X}\n", digest(&wanted));
        assert!(report(&Ok(outcome)).ends_with(&line));
    }

    fn write(register: u8, value: u8) -> Record {
        Record::Write { register, value }
    }

    /// A chip on which all eight voices have come to their end block.
    fn ended() -> Dsp {
        let mut dsp = Dsp::new();
        let records = [write(FLG, 0x20), write(KON, 0xFF), Record::Ticks(6)];
        let mut ram = ram_of(end_ram()).unwrap();
        play(&mut dsp, &mut ram, &records, |_, _, _| {});
        assert_eq!(dsp.read_reg(ENDX), 0xFF);
        dsp
    }

    /// W-202: "any write to `$7C` leaves 0", and no other register changes.
    /// On the Rust as it is the byte is stored.
    #[test]
    fn a_write_to_endx_leaves_0() {
        for value in [0x00, 0x01, 0x80, 0xA5, 0xFE, 0xFF] {
            let records = [write(ENDX, value)];
            let ram = &mut ram_of(end_ram()).unwrap();
            let mut wanted = registers(&ended());
            wanted[usize::from(ENDX)] = 0;
            let given = play(&mut ended(), ram, &records, |_, _, _| {});
            assert_eq!(given.registers, wanted, "{value:02X}");
            wanted[usize::from(ENDX)] = value;
            let given = play_as_it_is(&mut ended(), ram, &records);
            assert_eq!(given.registers, wanted, "{value:02X} as it is");
        }
    }

    #[test]
    fn other_registers_take_the_value_written() {
        for register in (0..0x80).filter(|register| *register != ENDX) {
            assert_eq!(handed(register, 0xA5), 0xA5, "{register:02X}");
        }
    }

    #[test]
    fn ram_comes_before_the_log() {
        for length in [0, 65_535, 65_537] {
            let text = report(&run(&[0; 60_001], vec![0; length]));
            assert_eq!(text, "REFUSED 1\n");
        }
        assert_eq!(report(&run(&[0; 60_001], zero_ram())), "REFUSED 3\n");
        assert_eq!(report(&run(b"", zero_ram())), "REFUSED 8\n");
    }

    /// Document 01: the direct register write masks its index.
    #[test]
    fn an_odd_value_goes_with_bit_7_set() {
        assert_eq!([index(PMON, 0xFF), index(PMON, 0xFE)], [0xAD, 0x2D]);
        let outcome = run(b"RW\x2D\xFFRW\x7D\xFEND", zero_ram()).ok().unwrap();
        assert_eq!(outcome.played.registers[0x2D], 0xFF);
        assert_eq!(outcome.played.registers[0x7D], 0xFE);
    }

    /// Document 01: KON before tick 1 first runs the voice on tick 6. Direct
    /// gain shows it: ENVX is 0 on the five skipped ticks.
    #[test]
    fn voice_first_runs_on_tick_6() {
        for (ticks, envx) in [(5, 0), (6, 0x7F)] {
            let mut dsp = Dsp::new();
            dsp.write_reg(FLG, 0x20);
            dsp.write_reg(GAIN, 0x7F);
            dsp.write_reg(KON, 0x01);
            let mut ram = Box::new([0; 65_536]);
            for _ in 0..ticks {
                dsp.step(&mut ram);
            }
            assert_eq!(dsp.read_reg(0x08), envx);
        }
    }

    /// Document 01: where a field and its register byte differ, a key-on
    /// uses SRCN's field and a loop jump its byte. The Rust lets a caller set
    /// the field of SRCN alone.
    #[test]
    fn key_on_uses_the_field_and_a_loop_jump_the_byte() {
        let mut ram = Box::new([0; 65_536]);
        ram[0x1205] = 0x20; // entry 1 starts at $2000,
        ram[0x2000] = 0x03; // a block with end and loop
        ram[0x120B] = 0x30; // entry 2 loops to $3000
        let mut dsp = Dsp::new();
        for (register, value) in [
            (FLG, 0x20),
            (DIR, 0x12),
            (SRCN, 2),
            (PITCH_HIGH, 0x10),
            (KON, 1),
        ] {
            dsp.write_reg(register, value);
        }
        dsp.voices[0].srcn = 1;
        for (ticks, addr) in [(1, 0x1204), (5, 0x2000), (15, 0x3000)] {
            for _ in 0..ticks {
                dsp.step(&mut ram);
            }
            assert_eq!(dsp.voices[0].brr.addr, addr);
        }
    }

    /// Document 01 has every tick leave OUTX, for idle and skipped voices
    /// too. Here the Rust does the same: a byte written there is gone.
    #[test]
    fn outx_of_idle_and_skipped_voices() {
        let mut dsp = Dsp::new();
        let mut ram = Box::new([0; 65_536]);
        dsp.write_reg(0x79, 0x55);
        dsp.step(&mut ram);
        assert_eq!(dsp.read_reg(0x79), 0, "idle");

        dsp.step(&mut ram);
        dsp.write_reg(FLG, 0x20);
        dsp.write_reg(KON, 0x80);
        dsp.write_reg(0x79, 0x55);
        dsp.step(&mut ram);
        assert_eq!(dsp.voices[7].adsr.envelope_level, 0, "skipped");
        assert!(dsp.voices[7].key_on, "skipped");
        assert_eq!(dsp.read_reg(0x79), 0, "skipped");
    }
}
