//! Bytes out: numbers low byte first, and the digest of a byte sequence.

/// A growing row of bytes. Numbers of 16 bits go low byte first.
pub struct Bytes(pub Vec<u8>);

impl Bytes {
    pub fn new() -> Self {
        Bytes(Vec::new())
    }

    pub fn byte(&mut self, value: u8) {
        self.0.push(value);
    }

    pub fn word(&mut self, value: u16) {
        self.0.extend(value.to_le_bytes());
    }

    pub fn sample(&mut self, value: i16) {
        self.word(value as u16);
    }

    pub fn samples(&mut self, values: &[i16]) {
        for value in values {
            self.sample(*value);
        }
    }
}

/// FNV-1a, 64 bits, of the bytes so far.
pub struct Digest(pub u64);

impl Digest {
    pub fn new() -> Self {
        Digest(0xCBF2_9CE4_8422_2325)
    }

    pub fn bytes(&mut self, bytes: &[u8]) {
        for byte in bytes {
            self.0 = (self.0 ^ u64::from(*byte)).wrapping_mul(0x0000_0100_0000_01B3);
        }
    }
}

pub fn digest(bytes: &[u8]) -> u64 {
    let mut sum = Digest::new();
    sum.bytes(bytes);
    sum.0
}

#[cfg(test)]
mod tests {
    use super::digest;

    /// The published values for no bytes and for the one byte `a`.
    #[test]
    fn digest_is_fnv_1a() {
        assert_eq!(digest(b""), 0xCBF2_9CE4_8422_2325);
        assert_eq!(digest(b"a"), 0xAF63_DC4C_8601_EC8C);
    }
}
