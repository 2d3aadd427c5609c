//! Many sound files in one go: what each write and each read must give.

use crate::bytes::digest;
use crate::cases::{Reel, Way};
use crate::chip;
use crate::log::Refusal;
use crate::wav;

/// What a destination is filled with: a refused call leaves it so.
const LENT: u8 = 0xA5;

/// For each case its number, from 1; `WROTE` or `READ` and the frames, or
/// `REFUSED` and the number; for a read what `wav_frames` answers; then the
/// digest of the whole destination as the call leaves it.
pub fn report(reels: &[Reel]) -> String {
    let line = |(number, reel)| format!("CASE {number}\n{}", of_reel(reel));
    (1..).zip(reels).map(line).collect()
}

fn of_reel(reel: &Reel) -> String {
    let source = reel.source();
    let mut lent = vec![LENT; reel.lent];
    match reel.way {
        Way::Write => {
            let answer = wav::write(&source, &mut lent);
            let said = said("WROTE", answer);
            format!("{said}FILE {:016X}\n", digest(&lent))
        }
        Way::Read => {
            let answer = wav::read(&source, &mut lent);
            let (said, frames) = (said("READ", answer), frames(&source));
            format!("{said}{frames}PCM {:016X}\n", digest(&lent))
        }
    }
}

fn said(done: &str, answer: Result<usize, Refusal>) -> String {
    match answer {
        Ok(frames) => format!("{done} {frames}\n"),
        Err(refusal) => chip::refused(refusal),
    }
}

/// The refusal, then the frames; either is 0 beside the other.
fn frames(file: &[u8]) -> String {
    match wav::frames(file) {
        Ok(frames) => format!("FRAMES 0 {frames}\n"),
        Err(refusal) => format!("FRAMES {} 0\n", refusal as u8),
    }
}

#[cfg(test)]
mod tests {
    use super::*;
    use crate::wav::Header;

    fn reel(way: Way, lent: usize, front: &[u8], fill: usize) -> Reel {
        Reel {
            way,
            lent,
            front: front.to_vec(),
            fill,
            seed: 0,
        }
    }

    fn untouched(lent: usize) -> u64 {
        digest(&vec![0xA5; lent])
    }

    #[test]
    fn a_write() {
        let wrote = report(&[reel(Way::Write, 52, b"soun", 4)]);
        let file = [&Header::of(2).bytes()[..], b"soun", &[0, 31, 62, 93]].concat();
        let wanted = format!("CASE 1\nWROTE 2\nFILE {:016X}\n", digest(&file));
        assert_eq!(wrote, wanted);
        let refused = report(&[reel(Way::Write, 52, b"sou", 4)]);
        let wanted = format!("CASE 1\nREFUSED 10\nFILE {:016X}\n", untouched(52));
        assert_eq!(refused, wanted);
    }

    #[test]
    fn a_read() {
        let front = Header::of(2).bytes();
        let read = report(&[reel(Way::Read, 8, &front, 8)]);
        let pcm = digest(&[0, 31, 62, 93, 124, 155, 186, 217]);
        let wanted = format!("CASE 1\nREAD 2\nFRAMES 0 2\nPCM {pcm:016X}\n");
        assert_eq!(read, wanted);
        let refused = report(&[reel(Way::Read, 7, &front, 8)]);
        let pcm = untouched(7);
        let wanted = format!("CASE 1\nREFUSED 10\nFRAMES 0 2\nPCM {pcm:016X}\n");
        assert_eq!(refused, wanted);
        let refused = report(&[reel(Way::Read, 8, &front, 7)]);
        let pcm = untouched(8);
        let wanted = format!("CASE 1\nREFUSED 13\nFRAMES 13 0\nPCM {pcm:016X}\n");
        assert_eq!(refused, wanted);
    }

    #[test]
    fn cases_are_numbered() {
        let empty = Header::of(0).bytes();
        let both = [reel(Way::Write, 44, b"", 0), reel(Way::Read, 0, &empty, 0)];
        let file = digest(&empty);
        let wanted = format!(
            "CASE 1\nWROTE 0\nFILE {file:016X}\n\
            CASE 2\nREAD 0\nFRAMES 0 0\nPCM CBF29CE484222325\n"
        );
        assert_eq!(report(&both), wanted);
        assert_eq!(report(&[]), "");
    }
}
