//! Register addresses by their names.

pub const VOL_LEFT: u8 = 0x0;
pub const VOL_RIGHT: u8 = 0x1;
pub const PITCH_LOW: u8 = 0x2;
pub const PITCH_HIGH: u8 = 0x3;
pub const SRCN: u8 = 0x4;
pub const ADSR1: u8 = 0x5;
pub const ADSR2: u8 = 0x6;
pub const GAIN: u8 = 0x7;
pub const ENVX: u8 = 0x8;
pub const OUTX: u8 = 0x9;
pub const FIR: u8 = 0xF;

pub const MVOL_LEFT: u8 = 0x0C;
pub const MVOL_RIGHT: u8 = 0x1C;
pub const EVOL_LEFT: u8 = 0x2C;
pub const EVOL_RIGHT: u8 = 0x3C;
pub const KON: u8 = 0x4C;
pub const KOFF: u8 = 0x5C;
pub const FLG: u8 = 0x6C;
pub const ENDX: u8 = 0x7C;
pub const EFB: u8 = 0x0D;
pub const PMON: u8 = 0x2D;
pub const NON: u8 = 0x3D;
pub const EON: u8 = 0x4D;
pub const DIR: u8 = 0x5D;
pub const ESA: u8 = 0x6D;
pub const EDL: u8 = 0x7D;

/// The register of one voice: $j0 to $j9, and $jF for tap j of the FIR.
pub fn of_voice(voice: u8, offset: u8) -> u8 {
    voice << 4 | offset
}
