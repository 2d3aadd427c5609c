//! Files by name that are of another layout, all refused by 13: "a reader for
//! just that layout". Most have three frames, and room for these.

use super::directed::{read, Named};
use crate::wav::{Header, HEADER_SIZE};

/// Bytes of three frames. A right header before them has the sizes 48, which
/// is the file less 8 bytes, and 12.
const SAMPLES: usize = 12;

pub fn all() -> Vec<Named> {
    let mut files = bytes();
    files.extend(headers());
    files.extend(lengths());
    files.extend(chunks());
    files.extend(starts());
    files
}

fn three() -> Header {
    Header::of(3)
}

fn refused(name: &str, front: Vec<u8>, fill: usize, lent: usize) -> Named {
    (format!("refused-13-{name}"), read(front, fill, lent))
}

/// "Every header field follows from the frame count": no byte of the header
/// may be another.
fn bytes() -> Vec<Named> {
    let mut files = Vec::new();
    for place in 0..HEADER_SIZE {
        for (word, by) in [("plus", 1), ("minus", 0xFF)] {
            let mut front = three().bytes();
            front[place] = front[place].wrapping_add(by);
            let name = format!("byte-{place}-{word}-1");
            files.push(refused(&name, front, SAMPLES, SAMPLES));
        }
    }
    files
}

/// What is done to the header of three frames.
const HEADERS: &[(&str, fn(&mut Header))] = &[
    // One of the two sizes.
    ("data-size-a-frame-less", |h| h.data_size = 8),
    ("data-size-a-frame-more", |h| h.data_size = 16),
    ("data-size-0", |h| h.data_size = 0),
    ("data-size-in-frames", |h| h.data_size = 3),
    ("data-size-of-the-file", |h| h.data_size = 56),
    ("data-size-is-riff-size", |h| h.data_size = 48),
    ("data-size-with-top-bit", |h| h.data_size |= 0x8000_0000),
    ("data-size-of-a-stream", |h| h.data_size = 0xFFFF_FFFF),
    ("riff-size-a-frame-less", |h| h.riff_size = 44),
    ("riff-size-a-frame-more", |h| h.riff_size = 52),
    ("riff-size-0", |h| h.riff_size = 0),
    ("riff-size-without-the-36", |h| h.riff_size = 12),
    ("riff-size-without-the-8", |h| h.riff_size = 40),
    ("riff-size-without-samples", |h| h.riff_size = 36),
    ("riff-size-of-the-file", |h| h.riff_size = 56),
    ("riff-size-with-top-bit", |h| h.riff_size |= 0x8000_0000),
    ("riff-size-of-a-stream", |h| h.riff_size = 0xFFFF_FFFF),
    // Both, which agree with each other or do not.
    ("sizes-of-2", |h| *h = Header::of(2)),
    ("sizes-of-4", |h| *h = Header::of(4)),
    ("sizes-of-0", |h| *h = Header::of(0)),
    ("sizes-0", |h| set_sizes(h, [0, 0])),
    ("sizes-of-a-stream", |h| set_sizes(h, [0xFFFF_FFFF; 2])),
    ("sizes-exchanged", |h| set_sizes(h, [12, 48])),
    ("sizes-of-4-and-2", |h| set_sizes(h, [52, 8])),
    ("sizes-high-byte-first", |h| {
        set_sizes(h, [48, 12].map(u32::swap_bytes))
    }),
    // "PCM": compressed, float, and as the long `fmt ` says it.
    ("format-float", |h| h.format = 3),
    ("format-float-of-32-bits", |h| {
        set_layout(h, 2, 32, 32_000);
        h.format = 3;
    }),
    ("format-a-law", |h| h.format = 6),
    ("format-extensible", |h| h.format = 0xFFFE),
    ("format-high-byte-first", |h| h.format = 0x0100),
    // "Two channels", with what follows from it.
    ("no-channel", |h| set_layout(h, 0, 16, 32_000)),
    ("one-channel", |h| set_layout(h, 1, 16, 32_000)),
    ("three-channels", |h| set_layout(h, 3, 16, 32_000)),
    // "16 bits", with what follows from it and without.
    ("8-bits", |h| set_layout(h, 2, 8, 32_000)),
    ("24-bits", |h| set_layout(h, 2, 24, 32_000)),
    ("32-bits", |h| set_layout(h, 2, 32, 32_000)),
    ("8-bits-alone", |h| h.bits = 8),
    ("frame-size-0", |h| h.frame_size = 0),
    ("frame-size-2", |h| h.frame_size = 2),
    // The same bytes a frame.
    ("one-channel-of-32-bits", |h| set_layout(h, 1, 32, 32_000)),
    ("four-channels-of-8-bits", |h| set_layout(h, 4, 8, 32_000)),
    ("frame-size-and-bits-exchanged", |h| {
        h.frame_size = 16;
        h.bits = 4;
    }),
    // "32,000 frames a second".
    ("rate-0", |h| set_layout(h, 2, 16, 0)),
    ("rate-31999", |h| set_layout(h, 2, 16, 31_999)),
    ("rate-32001", |h| set_layout(h, 2, 16, 32_001)),
    ("rate-44100", |h| set_layout(h, 2, 16, 44_100)),
    ("rate-48000", |h| set_layout(h, 2, 16, 48_000)),
    ("rate-44100-alone", |h| h.rate = 44_100),
    ("bytes-a-second-0", |h| h.bytes_a_second = 0),
    ("bytes-a-second-of-one-channel", |h| {
        h.bytes_a_second = 64_000
    }),
    ("bytes-a-second-are-frames", |h| h.bytes_a_second = 32_000),
    ("bytes-a-second-are-bits", |h| h.bytes_a_second = 1_024_000),
    ("rate-and-bytes-exchanged", |h| {
        h.rate = 128_000;
        h.bytes_a_second = 32_000;
    }),
    // "RIFF/WAVE".
    ("rifx", |h| {
        h.riff = *b"RIFX";
        high_byte_first(h);
    }),
    ("rifx-low-byte-first", |h| h.riff = *b"RIFX"),
    ("riff-high-byte-first", high_byte_first),
    ("rf64", |h| h.riff = *b"RF64"),
    ("riff-small", |h| h.riff = *b"riff"),
    ("wave-small", |h| h.wave = *b"wave"),
    ("avi", |h| h.wave = *b"AVI "),
    ("riff-and-wave-exchanged", |h| {
        (h.riff, h.wave) = (h.wave, h.riff)
    }),
    ("fmt-capital", |h| h.fmt = *b"FMT "),
    ("fmt-and-a-zero", |h| h.fmt = *b"fmt\0"),
    ("data-capital", |h| h.data = *b"DATA"),
    ("list-for-data", |h| h.data = *b"LIST"),
    ("fmt-and-data-exchanged", |h| {
        (h.fmt, h.data) = (h.data, h.fmt)
    }),
    ("fmt-size-0", |h| h.fmt_size = 0),
    ("fmt-size-18", |h| h.fmt_size = 18),
    ("fmt-size-up-to-the-samples", |h| h.fmt_size = 24),
];

fn set_sizes(header: &mut Header, [riff, data]: [u32; 2]) {
    header.riff_size = riff;
    header.data_size = data;
}

/// With all that follows, as files of other layouts have it.
fn set_layout(header: &mut Header, channels: u16, bits: u16, rate: u32) {
    header.channels = channels;
    header.bits = bits;
    header.rate = rate;
    header.frame_size = channels * bits / 8;
    header.bytes_a_second = rate * u32::from(header.frame_size);
}

fn high_byte_first(header: &mut Header) {
    for number in [
        &mut header.riff_size,
        &mut header.fmt_size,
        &mut header.rate,
        &mut header.bytes_a_second,
        &mut header.data_size,
    ] {
        *number = number.swap_bytes();
    }
    for number in [
        &mut header.format,
        &mut header.channels,
        &mut header.frame_size,
        &mut header.bits,
    ] {
        *number = number.swap_bytes();
    }
}

fn headers() -> Vec<Named> {
    let file = |(name, change): &(&str, fn(&mut Header))| {
        let mut header = three();
        change(&mut header);
        refused(name, header.bytes(), SAMPLES, SAMPLES)
    };
    HEADERS.iter().map(file).collect()
}

/// What a file is called, its two sizes, the bytes that come after the
/// header and how many are lent.
const LENGTHS: &[(&str, [u32; 2], usize, usize)] = &[
    ("a-byte-short", [48, 12], 11, 12),
    ("a-byte-long", [48, 12], 13, 12),
    ("half-a-frame-short", [48, 12], 10, 12),
    ("half-a-frame-long", [48, 12], 14, 12),
    ("a-frame-short", [48, 12], 8, 12),
    ("a-frame-long", [48, 12], 16, 12),
    ("a-tail", [48, 12], 112, 12),
    ("a-tail-of-65536", [48, 12], 65_548, 12),
    ("no-samples", [48, 12], 0, 12),
    // With room for what is there.
    ("a-frame-short-room-for-2", [48, 12], 8, 8),
    ("a-frame-long-room-for-4", [48, 12], 16, 16),
    ("no-samples-no-room", [48, 12], 0, 0),
    // Of one frame and of none.
    ("header-of-1-alone", [40, 4], 0, 4),
    ("header-of-1-alone-no-room", [40, 4], 0, 0),
    ("header-of-0-and-a-byte", [36, 0], 1, 0),
    ("header-of-0-and-a-frame", [36, 0], 4, 4),
    // Of as many as may be.
    ("longest-a-byte-short", [128_036, 128_000], 127_999, 128_000),
    ("longest-a-byte-long", [128_036, 128_000], 128_001, 128_000),
    ("longest-a-frame-long", [128_036, 128_000], 128_004, 128_000),
    // A size counts a tail in.
    ("a-tail-in-riff-size", [58, 12], 22, 12),
    ("a-tail-in-data-size", [48, 22], 22, 12),
    ("an-odd-size-and-its-pad", [50, 13], 14, 12),
    // Both sizes are right, but for no whole frames.
    ("sizes-of-1-byte", [37, 1], 1, 1),
    ("sizes-of-11-bytes", [47, 11], 11, 8),
    ("sizes-of-13-bytes", [49, 13], 13, 13),
    ("sizes-of-14-bytes", [50, 14], 14, 12),
    ("sizes-of-15-bytes", [51, 15], 15, 16),
    (
        "sizes-of-127999-bytes",
        [128_035, 127_999],
        127_999,
        127_999,
    ),
    (
        "sizes-of-128001-bytes",
        [128_037, 128_001],
        128_001,
        128_000,
    ),
];

fn lengths() -> Vec<Named> {
    let file = |(name, sizes, fill, lent): &(&str, [u32; 2], usize, usize)| {
        let mut header = three();
        set_sizes(&mut header, *sizes);
        refused(name, header.bytes(), *fill, *lent)
    };
    LENGTHS.iter().map(file).collect()
}

const LIST: &[u8] = b"LIST\x04\x00\x00\x00INFO";
const FACT: &[u8] = b"fact\x04\x00\x00\x00\x03\x00\x00\x00";
/// The rest of a `fmt ` of 40 bytes: 22 more, 16 bits, left and right, and
/// the long name of PCM.
const EXTENSION: &[u8] = b"\x16\x00\x10\x00\x03\x00\x00\x00\
    \x01\x00\x00\x00\x00\x00\x10\x00\x80\x00\x00\xAA\x00\x38\x9B\x71";

/// Files of the same sound that others read as well: more chunks, a longer
/// one, or another order.
fn chunks() -> Vec<Named> {
    let mut long = three();
    long.fmt_size = 18;
    let mut extensible = three();
    extensible.fmt_size = 40;
    extensible.format = 0xFFFE;
    let file = |name, front| refused(name, front, SAMPLES, SAMPLES);
    vec![
        file("fmt-of-18-bytes", with(long, 36, b"\x00\x00")),
        file("fmt-of-40-bytes", with(extensible, 36, EXTENSION)),
        file("list-before-data", with(three(), 36, LIST)),
        file("fact-before-data", with(three(), 36, FACT)),
        file("list-before-fmt", with(three(), 12, LIST)),
        refused("list-behind", list_behind(), 0, SAMPLES),
        refused("data-before-fmt", data_before_fmt(), 0, SAMPLES),
    ]
}

/// More at a place of the header. The first size counts it.
fn with(mut header: Header, place: usize, more: &[u8]) -> Vec<u8> {
    header.riff_size += more.len() as u32;
    let bytes = header.bytes();
    [&bytes[..place], more, &bytes[place..]].concat()
}

fn list_behind() -> Vec<u8> {
    let mut header = three();
    header.riff_size += LIST.len() as u32;
    [&header.bytes()[..], &[0; SAMPLES], LIST].concat()
}

fn data_before_fmt() -> Vec<u8> {
    let header = three().bytes();
    [&header[..12], &header[36..], &[0; SAMPLES], &header[12..36]].concat()
}

/// Files that stop in their header, in and behind each field, and one that
/// has none.
fn starts() -> Vec<Named> {
    let lengths = [
        0, 1, 3, 4, 7, 8, 11, 12, 15, 16, 20, 22, 24, 28, 32, 34, 36, 39, 40, 42, 43,
    ];
    let file = |length: usize| {
        let front = Header::of(0).bytes()[..length].to_vec();
        refused(&format!("{length}-bytes"), front, 0, 0)
    };
    let no_header = refused("no-header", Vec::new(), HEADER_SIZE + SAMPLES, SAMPLES);
    lengths.map(file).into_iter().chain([no_header]).collect()
}

#[cfg(test)]
mod tests {
    use super::*;
    use crate::wav;

    /// Each of these is refused by the bytes of its header alone: the file
    /// has the length of a right one.
    #[test]
    fn a_right_header_would_be_taken() {
        let right = three().bytes();
        for (name, reel) in bytes().into_iter().chain(headers()) {
            let mut file = reel.source();
            assert_eq!(
                wav::frames(&file).err().map(|r| r as u8),
                Some(13),
                "{name}"
            );
            file[..HEADER_SIZE].copy_from_slice(&right);
            assert_eq!(wav::frames(&file), Ok(3), "{name}");
        }
    }

    /// The first size of each is that of the file, as other readers want it.
    #[test]
    fn chunks_are_counted() {
        for (name, reel) in chunks() {
            let file = reel.source();
            assert_eq!(usize::from(file[4]) + 8, file.len(), "{name}");
        }
    }
}
