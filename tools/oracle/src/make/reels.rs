//! Sound files to write and to read.

mod directed;
mod layouts;

use super::cases::Made;
use crate::cases::{Reel, Way, CASES_MOST, REEL_MOST};
use crate::random::Random;
use crate::wav::{Header, FRAMES_MOST, FRAME_SIZE, HEADER_SIZE};

/// One random sound in so many is long: they cost most of the time.
const ONE_LONG_IN: usize = 100;
const LONG: usize = 8_000;
/// So many random bytes at most come before the made ones.
const RANDOM_MOST: usize = 40;
/// Of random writes one in so many has something wrong with it.
const ONE_WRITE_WRONG_IN: usize = 5;
/// Of random reads so many in five have.
const READS_WRONG_IN_5: usize = 2;

/// `random`: so many random cases. `directed`: those with a name, then so
/// many random ones.
pub fn reels(kind: &str, count: usize, seed: u64) -> Result<Made<Reel>, String> {
    let random = &mut Random::new(seed);
    let mut made = match kind {
        "random" => named(Vec::new()),
        "directed" => named(directed::all()),
        _ => return Err(format!("{kind} is no kind of reels")),
    };
    made.cases.extend((0..count).map(|_| one(random)));
    if made.cases.len() > CASES_MOST {
        return Err(format!("more than {CASES_MOST} reels"));
    }
    Ok(made)
}

/// No sound file has a RAM image.
fn named(cases: Vec<(String, Reel)>) -> Made<Reel> {
    let line = |(number, (name, _)): (usize, &(String, Reel))| format!("{number} {name}\n");
    Made {
        names: (1..).zip(&cases).map(line).collect(),
        cases: cases.into_iter().map(|(_, reel)| reel).collect(),
        rams: Vec::new(),
    }
}

fn one(random: &mut Random) -> Reel {
    if random.once_in(2) {
        one_write(random)
    } else {
        one_read(random)
    }
}

/// Mostly few frames, at times none or next to none, seldom as many as may
/// be or next to it.
fn frames(random: &mut Random) -> usize {
    if random.once_in(ONE_LONG_IN) {
        let many = random.between(LONG, FRAMES_MOST);
        return random.pick(&[many, FRAMES_MOST - 1, FRAMES_MOST]);
    }
    match random.below(10) {
        0 | 1 => random.below(3),
        2 => random.below(2_000),
        _ => random.below(200),
    }
}

/// More than may be, by at most as much as a case can hold.
fn too_many(random: &mut Random) -> usize {
    FRAMES_MOST + random.between(1, 5)
}

fn one_write(random: &mut Random) -> Reel {
    let mut bytes = FRAME_SIZE * frames(random);
    let mut lent = HEADER_SIZE + bytes;
    if random.once_in(ONE_WRITE_WRONG_IN) {
        match random.below(20) {
            0 => {
                bytes = FRAME_SIZE * too_many(random);
                lent = HEADER_SIZE + bytes;
            }
            // No whole frames, with room for the bytes or for frames.
            1..=8 => {
                bytes += random.between(1, FRAME_SIZE - 1);
                lent = random.pick(&[HEADER_SIZE + bytes, lent, lent + FRAME_SIZE]);
            }
            _ => lent = other_length(random, lent),
        }
    }
    sound(random, Way::Write, Vec::new(), bytes, lent)
}

fn one_read(random: &mut Random) -> Reel {
    let frames = frames(random);
    let mut reel = right_read(random, frames);
    if random.below(5) < READS_WRONG_IN_5 {
        spoil(random, frames, &mut reel);
    }
    reel
}

/// A case whose bytes after the front are in part random, the rest made.
fn sound(random: &mut Random, way: Way, mut front: Vec<u8>, bytes: usize, lent: usize) -> Reel {
    let few = random.below(RANDOM_MOST + 1).min(bytes);
    front.extend((0..few).map(|_| random.byte()));
    Reel {
        way,
        lent,
        front,
        fill: bytes - few,
        seed: random.byte(),
    }
}

/// A file of so many frames, to where they fit.
fn right_read(random: &mut Random, frames: usize) -> Reel {
    let bytes = FRAME_SIZE * frames;
    let header = Header::of(frames).bytes();
    sound(random, Way::Read, header, bytes, bytes)
}

/// Something wrong with a right read, or with two parts of it. Some stay
/// right: the oracle says so.
fn spoil(random: &mut Random, frames: usize, reel: &mut Reel) {
    let place = random.below(HEADER_SIZE);
    match random.below(20) {
        0..=3 => reel.front[place] ^= random.between(1, 255) as u8,
        4 | 5 => reel.front[place] ^= 1 << random.below(8),
        6 | 7 => reel.fill += random.between(1, 8),
        8 | 9 => {
            let most = random.pick(&[8, 8, HEADER_SIZE]);
            cut(reel, random.between(1, most));
        }
        10..=12 => put_header(reel, &other_sizes(random, frames)),
        13 => claim_other(random, frames, reel),
        14 if random.once_in(2) => {
            let frames = too_many(random);
            *reel = right_read(random, frames);
        }
        14 | 15 => {
            reel.front[place] ^= random.between(1, 255) as u8;
            reel.lent = other_length(random, reel.lent);
        }
        _ => reel.lent = other_length(random, reel.lent),
    }
}

/// So many bytes less at the end.
fn cut(reel: &mut Reel, bytes: usize) {
    let made = bytes.min(reel.fill);
    reel.fill -= made;
    let kept = reel.front.len().saturating_sub(bytes - made);
    reel.front.truncate(kept);
}

fn put_header(reel: &mut Reel, header: &Header) {
    reel.front[..HEADER_SIZE].copy_from_slice(&header.bytes());
}

/// A header whose sizes do not agree with so many frames: the one, the
/// other, or both by the same.
fn other_sizes(random: &mut Random, frames: usize) -> Header {
    let mut header = Header::of(frames);
    let any = u32::from(random.word());
    let by = random.pick(&[1, 2, 4, 8, 36, 44, 0x100, 0x1_0000, 0x8000_0000, any]);
    let by = random.pick(&[by, by.wrapping_neg()]);
    let which = random.between(1, 3);
    if which & 1 != 0 {
        header.riff_size = header.riff_size.wrapping_add(by);
    }
    if which & 2 != 0 {
        header.data_size = header.data_size.wrapping_add(by);
    }
    header
}

/// A right header of other frames, with room for those that it claims or
/// for those that are there.
fn claim_other(random: &mut Random, frames: usize, reel: &mut Reel) {
    let few = random.below(4);
    let claimed = random.pick(&[frames + 1, frames.saturating_sub(1), few]);
    put_header(reel, &Header::of(claimed));
    reel.lent = FRAME_SIZE * random.pick(&[claimed, frames]);
}

/// Another length to lend: a byte, a frame or a header off, none, or any.
fn other_length(random: &mut Random, right: usize) -> usize {
    let by = random.pick(&[1, 1, 1, FRAME_SIZE, FRAME_SIZE, HEADER_SIZE]);
    let any = random.below(2 * right + 100);
    let length = match random.below(8) {
        0 => 0,
        1 => any,
        2..=4 => right.saturating_sub(by),
        _ => right + by,
    };
    length.min(REEL_MOST)
}

#[cfg(test)]
mod tests {
    use super::*;
    use crate::cases;
    use crate::log::Refusal;
    use crate::wav;

    /// What the case answers.
    pub fn answer(reel: &Reel) -> Result<usize, Refusal> {
        let lent = &mut vec![0; reel.lent];
        match reel.way {
            Way::Write => wav::write(&reel.source(), lent),
            Way::Read => wav::read(&reel.source(), lent),
        }
    }

    /// How many of the cases answer so.
    fn count(reels: &[Reel], way: Way, refusal: Option<Refusal>) -> usize {
        let so = |reel: &&Reel| reel.way == way && answer(reel).err() == refusal;
        reels.iter().filter(so).count()
    }

    #[test]
    fn random_cases_meet_the_refusals() {
        let made = reels("random", CASES_MOST, 7).unwrap().cases;
        let writes = count(&made, Way::Write, None);
        let wrong_writes = count(&made, Way::Write, Some(Refusal::LentLength));
        let reads = count(&made, Way::Read, None);
        let no_room = count(&made, Way::Read, Some(Refusal::LentLength));
        let no_file = count(&made, Way::Read, Some(Refusal::OtherLayout));
        let all = [writes, wrong_writes, reads, no_room, no_file];
        assert_eq!(all.iter().sum::<usize>(), CASES_MOST);
        assert!(writes > 350 && reads > 250, "{all:?}");
        assert!(
            wrong_writes > 60 && no_room > 25 && no_file > 100,
            "{all:?}"
        );
    }

    /// None is longer than a file of cases holds, and few are long.
    #[test]
    fn random_cases_come_back() {
        let made = reels("random", CASES_MOST, 8).unwrap().cases;
        assert_eq!(cases::read::<Reel>(&cases::bytes(&made)).unwrap(), made);
        let long = |reel: &&Reel| reel.source().len() > FRAME_SIZE * LONG;
        let long = made.iter().filter(long).count();
        assert!((5..=30).contains(&long), "{long} long");
    }

    #[test]
    fn random_cases_are_made_again() {
        let made = |seed| reels("random", 200, seed).unwrap().cases;
        assert_eq!(made(7), made(7));
        assert_ne!(made(7), made(8));
    }

    /// At most as long as may be, and one past.
    #[test]
    fn the_longest_are_met() {
        let mut bytes = Vec::new();
        for seed in 1..=5 {
            let made = reels("random", CASES_MOST, seed).unwrap().cases;
            let pcm = |reel: &Reel| match reel.way {
                Way::Write => reel.source().len(),
                Way::Read => reel.source().len().saturating_sub(HEADER_SIZE),
            };
            bytes.extend(made.iter().map(|reel| (reel.way as u8, pcm(reel))));
        }
        for way in [0, 1] {
            for length in [0, 4, 127_996, 128_000, 128_004] {
                assert!(bytes.contains(&(way, length)), "{way} {length}");
            }
        }
    }

    #[test]
    fn directed_cases_come_first() {
        let made = reels("directed", 3, 1).unwrap();
        let named = made.names.lines().count();
        assert_eq!(made.cases.len(), named + 3);
        assert!(made.rams.is_empty());
        let random = reels("random", 3, 1).unwrap();
        assert_eq!(made.cases[named..], random.cases);
        assert_eq!(random.names, "");
    }

    #[test]
    fn limits() {
        assert!(reels("random", CASES_MOST, 1).is_ok());
        assert!(reels("random", CASES_MOST + 1, 1).is_err());
        assert!(reels("directed", CASES_MOST, 1).is_err());
        assert!(reels("other", 1, 1).is_err());
    }
}
