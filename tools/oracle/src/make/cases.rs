//! Files of cases, from a kind, a count and a seed.

use super::{bank, damage, directed, encode, plain};
use crate::cases::{Case, CASES_MOST};
use crate::log::Record;
use crate::random::Random;

/// RAM images of random cases. Those that are stored want few.
const IMAGES: usize = 10;
const IMAGES_STORED: usize = 2;
const TICKS_LEAST: usize = 100;
const TICKS_MOST: usize = 300;
/// Of mixed cases one in so many is damaged, the others are valid.
const ONE_DAMAGED_IN: usize = 4;

/// How the bytes of a random log come from its records.
type Encode = fn(&mut Random, Vec<Record>) -> Vec<u8>;

pub struct Made<C> {
    pub cases: Vec<C>,
    pub rams: Vec<Vec<u8>>,
    /// A line for each case that has a name: its number, then the name.
    pub names: String,
}

/// `random`: so many random cases, all valid. `mixed`: the same with some of
/// them damaged. `directed`: those that are named, then so many random ones.
pub fn cases(kind: &str, count: usize, seed: u64) -> Result<Made<Case>, String> {
    let mut random = Random::new(seed);
    let made = match kind {
        "random" => with_random(nothing(), &mut random, count, IMAGES, whole),
        "mixed" => with_random(nothing(), &mut random, count, IMAGES, some_damaged),
        "directed" => stored(&mut random, count),
        _ => return Err(format!("{kind} is no kind of cases")),
    };
    if made.cases.len() > CASES_MOST {
        return Err(format!("more than {CASES_MOST} cases"));
    }
    Ok(made)
}

fn nothing() -> Made<Case> {
    Made {
        cases: Vec::new(),
        rams: Vec::new(),
        names: String::new(),
    }
}

fn stored(random: &mut Random, count: usize) -> Made<Case> {
    let mut made = with_random(directed::all(), random, count, IMAGES_STORED, whole);
    made.rams.extend(directed::later_rams());
    made
}

fn whole(_: &mut Random, records: Vec<Record>) -> Vec<u8> {
    encode(&records)
}

fn some_damaged(random: &mut Random, records: Vec<Record>) -> Vec<u8> {
    if random.once_in(ONE_DAMAGED_IN) {
        damage::damage(random, records)
    } else {
        encode(&records)
    }
}

/// Random logs after what is there. Each takes one of a few new images.
fn with_random(
    made: Made<Case>,
    random: &mut Random,
    count: usize,
    images: usize,
    bytes_of: Encode,
) -> Made<Case> {
    let banks: Vec<_> = (0..images).map(|_| bank::bank(random)).collect();
    let Made {
        mut cases,
        mut rams,
        names,
    } = made;
    for _ in 0..count {
        let image = random.below(images);
        let ticks = random.between(TICKS_LEAST, TICKS_MOST);
        let setting = plain::Setting::new(random, banks[image].dir);
        let records = plain::records(random, setting, ticks);
        cases.push(Case {
            ram: (rams.len() + image) as u8,
            log: bytes_of(random, records),
        });
    }
    rams.extend(banks.into_iter().map(|bank| bank.ram));
    Made { cases, rams, names }
}

#[cfg(test)]
mod tests {
    use super::*;
    use crate::log::{self, Refusal};

    fn ticks(case: &Case) -> usize {
        let records = log::read(&case.log).unwrap();
        let count = |record: &Record| match record {
            Record::Ticks(count) => usize::from(*count),
            _ => 0,
        };
        records.iter().map(count).sum()
    }

    #[test]
    fn random_cases_are_valid_and_made_again() {
        let made = cases("random", 50, 7).unwrap();
        assert_eq!((made.cases.len(), made.rams.len()), (50, IMAGES));
        for case in &made.cases {
            assert!((TICKS_LEAST..=TICKS_MOST).contains(&ticks(case)));
        }
        assert_eq!(made.cases, cases("random", 50, 7).unwrap().cases);
        assert_ne!(made.cases, cases("random", 50, 8).unwrap().cases);
    }

    /// Every refusal of a log from 4 to 9 is among a thousand, and between
    /// three quarters and nine tenths of them run.
    #[test]
    fn mixed_cases_meet_every_refusal_inside_a_log() {
        use Refusal::*;
        let made = cases("mixed", CASES_MOST, 7).unwrap();
        let refusal = |case: &Case| log::read(&case.log).err();
        let refused: Vec<_> = made.cases.iter().filter_map(refusal).collect();
        assert!((CASES_MOST / 10..=CASES_MOST / 4).contains(&refused.len()));
        for wanted in [
            UnknownMark,
            StopsInside,
            RegisterTooHigh,
            BadTicks,
            NoEnd,
            Tail,
        ] {
            assert!(refused.contains(&wanted), "{wanted:?}");
        }
        assert_eq!(made.cases, cases("mixed", CASES_MOST, 7).unwrap().cases);
    }

    #[test]
    fn directed_cases_come_first() {
        let made = cases("directed", 3, 1).unwrap();
        let named = made.names.lines().count();
        assert_eq!(made.cases.len(), named + 3);
        assert_eq!(
            made.rams.len(),
            1 + IMAGES_STORED + directed::later_rams().len()
        );
        let images: Vec<_> = made.cases[named..].iter().map(|case| case.ram).collect();
        assert!(images.iter().all(|image| [1, 2].contains(image)));
    }

    #[test]
    fn limits() {
        assert!(cases("random", CASES_MOST, 1).is_ok());
        assert!(cases("random", CASES_MOST + 1, 1).is_err());
        assert!(cases("other", 1, 1).is_err());
    }
}
