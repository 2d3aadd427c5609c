//! Sound files as W-201 of document 02 gives them: "RIFF/WAVE, PCM, two
//! channels, 16 bits, 32,000 frames a second, a 44-byte header, then the
//! samples". Written from the document alone. The writer puts the fields of
//! the header down one after the other; the reader takes each from its place
//! and says what it must be. So the two check each other.

use crate::log::Refusal;

pub const FRAMES_MOST: usize = 32_000;
/// Left and right, 16 bits each.
pub const FRAME_SIZE: usize = 4;
pub const HEADER_SIZE: usize = 44;

/// The fields in their order. Numbers go low byte first.
#[derive(Clone, Copy)]
pub struct Header {
    pub riff: [u8; 4],
    /// Of all that comes after this field.
    pub riff_size: u32,
    pub wave: [u8; 4],
    pub fmt: [u8; 4],
    /// Of what comes after this field, up to `data`.
    pub fmt_size: u32,
    pub format: u16,
    pub channels: u16,
    pub rate: u32,
    pub bytes_a_second: u32,
    pub frame_size: u16,
    pub bits: u16,
    pub data: [u8; 4],
    /// Of the samples.
    pub data_size: u32,
}

impl Header {
    /// "Every header field follows from the frame count."
    pub fn of(frames: usize) -> Self {
        let data_size = (frames * FRAME_SIZE) as u32;
        Header {
            riff: *b"RIFF",
            riff_size: 36 + data_size,
            wave: *b"WAVE",
            fmt: *b"fmt ",
            fmt_size: 16,
            format: 1,
            channels: 2,
            rate: 32_000,
            bytes_a_second: 128_000,
            frame_size: 4,
            bits: 16,
            data: *b"data",
            data_size,
        }
    }

    pub fn bytes(&self) -> Vec<u8> {
        [
            &self.riff[..],
            &self.riff_size.to_le_bytes(),
            &self.wave,
            &self.fmt,
            &self.fmt_size.to_le_bytes(),
            &self.format.to_le_bytes(),
            &self.channels.to_le_bytes(),
            &self.rate.to_le_bytes(),
            &self.bytes_a_second.to_le_bytes(),
            &self.frame_size.to_le_bytes(),
            &self.bits.to_le_bytes(),
            &self.data,
            &self.data_size.to_le_bytes(),
        ]
        .concat()
    }
}

/// "The writer gives 10 for samples that aren't whole frames or are too
/// many, or a destination not of 44 bytes plus 4 per frame." The frames.
pub fn write(pcm: &[u8], file: &mut [u8]) -> Result<usize, Refusal> {
    let frames = pcm.len() / FRAME_SIZE;
    let whole = frames * FRAME_SIZE == pcm.len();
    if !whole || frames > FRAMES_MOST || file.len() != HEADER_SIZE + pcm.len() {
        return Err(Refusal::LentLength);
    }
    let (header, samples) = file.split_at_mut(HEADER_SIZE);
    header.copy_from_slice(&Header::of(frames).bytes());
    samples.copy_from_slice(pcm);
    Ok(frames)
}

/// "The reader gives 13 for a file not of this layout." The frames.
pub fn frames(file: &[u8]) -> Result<usize, Refusal> {
    field_by_field(file).ok_or(Refusal::OtherLayout)
}

/// 13 first, "then 10 for its destination". The frames.
pub fn read(file: &[u8], pcm: &mut [u8]) -> Result<usize, Refusal> {
    let frames = frames(file)?;
    if pcm.len() != frames * FRAME_SIZE {
        return Err(Refusal::LentLength);
    }
    pcm.copy_from_slice(&file[HEADER_SIZE..]);
    Ok(frames)
}

/// Sizes are held to the length of the file, the other fields to the layout
/// and to each other. Sums have 64 bits: none wraps to a right one.
fn field_by_field(file: &[u8]) -> Option<usize> {
    let length = file.len() as u64;
    let text = |place: usize| file.get(place..place + 4);
    let number = |place: usize, size: usize| {
        let bytes = file.get(place..place + size)?.iter().rev();
        Some(bytes.fold(0, |sum, byte| sum << 8 | u64::from(*byte)))
    };
    let must = |so: bool| so.then_some(());

    must(text(0)? == b"RIFF")?;
    must(number(4, 4)? + 8 == length)?;
    must(text(8)? == b"WAVE")?;

    must(text(12)? == b"fmt ")?;
    must(number(16, 4)? == 16)?;
    must(number(20, 2)? == 1)?;
    let channels = number(22, 2)?;
    let rate = number(24, 4)?;
    let frame_size = number(32, 2)?;
    let bits = number(34, 2)?;
    must(channels == 2 && rate == 32_000 && bits == 16)?;
    must(frame_size * 8 == channels * bits)?;
    must(number(28, 4)? == rate * frame_size)?;

    must(text(36)? == b"data")?;
    let data_size = number(40, 4)?;
    must(data_size + 44 == length)?;
    must(data_size % frame_size == 0)?;
    let frames = (data_size / frame_size) as usize;
    must(frames <= FRAMES_MOST)?;
    Some(frames)
}

#[cfg(test)]
mod tests {
    use super::*;

    fn pcm(bytes: usize) -> Vec<u8> {
        (0..bytes).map(|k| (k * 7 + k / 256) as u8).collect()
    }

    fn file(frames: usize) -> Vec<u8> {
        [Header::of(frames).bytes(), pcm(4 * frames)].concat()
    }

    /// The refusal of a write to so many bytes, 0 for none.
    fn written(bytes: usize, lent: usize) -> u8 {
        let refused = write(&pcm(bytes), &mut vec![0; lent]).err();
        refused.map_or(0, |r| r as u8)
    }

    fn taken(file: &[u8]) -> u8 {
        frames(file).err().map_or(0, |r| r as u8)
    }

    #[test]
    fn a_written_file_is_read_back() {
        for count in [0, 1, 2, 3, 55, 64, 1_000, 16_384, 31_999, 32_000] {
            let sound = pcm(4 * count);
            let mut file = vec![0xA5; 44 + 4 * count];
            assert_eq!(write(&sound, &mut file), Ok(count));
            assert_eq!(frames(&file), Ok(count));
            let mut back = vec![0xA5; 4 * count];
            assert_eq!(read(&file, &mut back), Ok(count));
            assert!(back == sound, "{count}");
        }
    }

    #[test]
    fn the_header_of_one_frame() {
        let mut file = [0; 48];
        write(&[0x11, 0x22, 0x33, 0x44], &mut file).unwrap();
        let wanted = b"RIFF\x28\x00\x00\x00WAVE\
            fmt \x10\x00\x00\x00\x01\x00\x02\x00\x00\x7D\x00\x00\x00\xF4\x01\x00\x04\x00\x10\x00\
            data\x04\x00\x00\x00\x11\x22\x33\x44";
        assert_eq!(&file, wanted);
    }

    /// 32,000 frames: 128,000 is $1F400, and 36 more $1F424.
    #[test]
    fn the_sizes_of_the_longest_file() {
        let bytes = Header::of(32_000).bytes();
        assert_eq!(bytes[4..8], [0x24, 0xF4, 0x01, 0x00]);
        assert_eq!(bytes[40..], [0x00, 0xF4, 0x01, 0x00]);
    }

    #[test]
    fn a_write_wants_whole_frames() {
        for bytes in [0, 4, 8, 127_996, 128_000] {
            assert_eq!(written(bytes, 44 + bytes), 0, "{bytes}");
        }
        for bytes in [1, 2, 3, 5, 6, 7, 9, 127_999, 128_001, 128_004] {
            assert_eq!(written(bytes, 44 + bytes), 10, "{bytes}");
            assert_eq!(written(bytes, 44 + bytes / 4 * 4), 10, "{bytes}");
        }
    }

    #[test]
    fn a_write_wants_its_room() {
        for bytes in [0, 4, 128_000] {
            for lent in [0, bytes, 43 + bytes, 45 + bytes, 48 + bytes] {
                assert_eq!(written(bytes, lent), 10, "{bytes} to {lent}");
            }
        }
        assert_eq!(written(4, 44), 10);
    }

    #[test]
    fn a_read_wants_its_room() {
        for count in [0, 1, 2, 32_000] {
            let (file, right) = (file(count), 4 * count);
            assert_eq!(read(&file, &mut vec![0; right]), Ok(count));
            for lent in [right + 1, right + 4, right + 44] {
                let answer = read(&file, &mut vec![0; lent]);
                assert_eq!(answer, Err(Refusal::LentLength));
            }
            for lent in [0, right.saturating_sub(4), right.saturating_sub(1)] {
                let answer = read(&file, &mut vec![0; lent]);
                assert_eq!(answer.is_ok(), lent == right);
            }
        }
    }

    /// One byte of the header, any other value: for each length of a file
    /// there is one header that is taken, and the writer writes it.
    #[test]
    fn each_byte_of_the_header_counts() {
        for count in [0, 1, 3, 64, 32_000] {
            let mut file = file(count);
            for place in 0..44 {
                for other in 1..=255 {
                    file[place] = file[place].wrapping_add(other);
                    assert_eq!(taken(&file), 13, "byte {place} of {count} frames");
                    file[place] = file[place].wrapping_sub(other);
                }
            }
            assert_eq!(taken(&file), 0);
        }
    }

    /// A file cut at each place, and with bytes after it.
    #[test]
    fn the_length_of_the_file_counts() {
        let long = [file(3), vec![0; 12]].concat();
        for length in 0..=long.len() {
            let wanted = if length == 56 { 0 } else { 13 };
            assert_eq!(taken(&long[..length]), wanted, "{length}");
        }
    }

    /// Each has right sizes.
    #[test]
    fn whole_frames_and_not_too_many() {
        assert_eq!(taken(&file(32_000)), 0);
        assert_eq!(taken(&file(32_001)), 13);
        for bytes in 1..16 {
            let header = Header {
                riff_size: 36 + bytes,
                data_size: bytes,
                ..Header::of(0)
            };
            let file = [header.bytes(), pcm(bytes as usize)].concat();
            let wanted = if bytes % 4 == 0 { 0 } else { 13 };
            assert_eq!(taken(&file), wanted, "{bytes}");
        }
    }

    /// "13 for a file not of this layout, then 10."
    #[test]
    fn the_file_is_told_before_the_destination() {
        let refusal = |file: &[u8], lent: usize| read(file, &mut vec![0; lent]);
        assert_eq!(refusal(b"", 1), Err(Refusal::OtherLayout));
        assert_eq!(refusal(&file(3)[..55], 11), Err(Refusal::OtherLayout));
        assert_eq!(refusal(&file(3), 11), Err(Refusal::LentLength));
    }

    #[test]
    fn a_refused_call_writes_nothing() {
        let mut lent = [0xA5; 47];
        assert!(write(&pcm(4), &mut lent).is_err());
        assert!(write(&pcm(3), &mut lent).is_err());
        assert!(read(&file(3), &mut lent).is_err());
        assert!(read(b"RIFF", &mut lent).is_err());
        assert_eq!(lent, [0xA5; 47]);
    }
}
