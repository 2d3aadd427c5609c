//! Vectors of the leaf functions: fixed-size records, inputs then answers,
//! the answers by the given Rust. README.md has the layouts.

pub mod brr;
pub mod envelope;
pub mod interpolate;
pub mod noise;

/// Samples at which a sum, a shift or a clamp changes its manner.
const CORNER_SAMPLES: [i16; 9] = [0, 1, -1, 2, -2, 32767, -32768, 28672, -28672];
