//! Pairs of sittings that differ in named voices, for rework.

mod directed;

use super::bank::{self, Bank};
use super::cases::Made;
use super::plain::{self, Setting};
use super::{damage, encode};
use crate::cases::{lent, Pair, CASES_MOST};
use crate::log::Record;
use crate::random::Random;
use crate::registers::*;

/// RAM images of random pairs, then two that are no RAM.
const IMAGES: usize = 8;
const RAM_SIZE: usize = 65_536;
const PRELUDE_MOST: usize = 60;
const TICKS_LEAST: usize = 60;
const TICKS_MOST: usize = 250;
const TAIL_MOST: usize = 50;
/// Of random pairs one in so many has something wrong with it.
const ONE_WRONG_IN: usize = 5;
const ECHO_WRITES_OFF: u8 = 0x20;

/// `random`: so many random pairs. `directed`: those with a name, then so
/// many random ones.
pub fn pairs(kind: &str, count: usize, seed: u64) -> Result<Made<Pair>, String> {
    let made = match kind {
        "random" => random(count, seed),
        "directed" => stored(count, seed),
        _ => return Err(format!("{kind} is no kind of pairs")),
    };
    if made.cases.len() > CASES_MOST {
        return Err(format!("more than {CASES_MOST} pairs"));
    }
    Ok(made)
}

pub fn random(count: usize, seed: u64) -> Made<Pair> {
    let random = &mut Random::new(seed);
    let banks: Vec<_> = (0..IMAGES).map(|_| bank::bank(random)).collect();
    let cases = (0..count).map(|_| one(random, &banks, true)).collect();
    let rams = banks.into_iter().map(|bank| bank.ram);
    Made {
        cases,
        rams: rams.chain(wrong_rams()).collect(),
        names: String::new(),
    }
}

/// Those with a name have the first image, the random ones a second.
fn stored(count: usize, seed: u64) -> Made<Pair> {
    let random = &mut Random::new(seed);
    let mut made = directed::all();
    let banks = [bank::bank(random)];
    for _ in 0..count {
        let mut pair = one(random, &banks, false);
        pair.ram = made.rams.len() as u8;
        made.cases.push(pair);
    }
    made.rams.extend(banks.map(|bank| bank.ram));
    made.rams.extend(wrong_rams());
    made
}

/// A byte short and a byte long.
fn wrong_rams() -> [Vec<u8>; 2] {
    [vec![0; RAM_SIZE - 1], vec![0; RAM_SIZE + 1]]
}

/// What is wrong with a pair. Some stay right: the oracle says so.
#[derive(Clone, Copy, PartialEq)]
enum Wrong {
    Nothing,
    Ram,
    Record,
    RecordAndLogs,
    OldLog,
    NewLog,
    BothLogs,
    Outside,
    Echo,
    EchoAndOutside,
    Lent,
    EchoAndLent,
}

const WRONGS: [Wrong; 11] = [
    Wrong::Ram,
    Wrong::Record,
    Wrong::RecordAndLogs,
    Wrong::OldLog,
    Wrong::NewLog,
    Wrong::BothLogs,
    Wrong::Outside,
    Wrong::Echo,
    Wrong::EchoAndOutside,
    Wrong::Lent,
    Wrong::EchoAndLent,
];

fn one(random: &mut Random, banks: &[Bank], some_wrong: bool) -> Pair {
    let wrong = if some_wrong && random.once_in(ONE_WRONG_IN) {
        random.pick(&WRONGS)
    } else {
        Wrong::Nothing
    };
    let image = random.below(banks.len());
    let setting = Setting::new(random, banks[image].dir);
    let named = named_voices(random);
    let prelude = prelude(random, setting, named);
    let log = log(random, setting, named, prelude.len() == 1, wrong);

    let preludes = two(random, prelude, named, 3);
    let [old, mut new] = two(random, log, named, 8);
    if matches!(wrong, Wrong::Outside | Wrong::EchoAndOutside) {
        changed_outside(random, &mut new);
    }
    let tail_ticks = random.between(1, TAIL_MOST);
    let tail = plain::more(random, setting, tail_ticks);
    let damaged_if = |random: &mut Random, so, records: Vec<Record>| {
        if so {
            damage::damage(random, records)
        } else {
            encode(&records)
        }
    };
    let both = matches!(wrong, Wrong::BothLogs | Wrong::RecordAndLogs);
    Pair {
        ram: match wrong {
            Wrong::Ram => (banks.len() + random.below(2)) as u8,
            _ => image as u8,
        },
        named,
        lent: match wrong {
            Wrong::Lent | Wrong::EchoAndLent => {
                random.between(lent::SHORT_PCM.into(), lent::LONG_READINGS.into()) as u8
            }
            _ => lent::AS_NEEDED,
        },
        unfit: match wrong {
            Wrong::Record | Wrong::RecordAndLogs => random.between(1, 3) as u8,
            _ => 0,
        },
        preludes: preludes.map(|records| encode(&records)),
        logs: [
            damaged_if(random, both || wrong == Wrong::OldLog, old),
            damaged_if(random, both || wrong == Wrong::NewLog, new),
        ],
        tail: encode(&tail),
    }
}

/// Mostly one voice; at times a few, none or all.
fn named_voices(random: &mut Random) -> u8 {
    let one = 1 << random.below(8);
    let few = random.byte() & random.byte();
    random.pick(&[one, one, one, one, one, one, few, few, few, 0, 0xFF])
}

/// From power-on. Whatever is set there ties no other voice to the named
/// ones, and no tick writes to the echo: the start records differ only in
/// the named voices' own parts. One in four has only its end record.
fn prelude(random: &mut Random, setting: Setting, named: u8) -> Vec<Record> {
    if random.once_in(4) {
        return vec![Record::End];
    }
    let ticks = random.between(1, PRELUDE_MOST);
    let mut records = plain::records(random, setting, ticks);
    for record in &mut records {
        echo_off(record);
        masked(record, PMON, untied(named));
    }
    // What no tick sees may be anything.
    if random.once_in(4) {
        let last = records.len() - 1;
        let register = random.pick(&[PMON, PMON, FLG]);
        let value = random.byte();
        records.insert(last, Record::Write { register, value });
    }
    records
}

/// The bits of PMON that tie no other voice to the named ones.
fn untied(named: u8) -> u8 {
    !(named << 1) | named
}

fn masked(record: &mut Record, which: u8, mask: u8) {
    if let Record::Write { register, value } = record {
        if *register == which {
            *value &= mask;
        }
    }
}

fn echo_off(record: &mut Record) {
    if let Record::Write { register, value } = record {
        if *register == FLG {
            *value |= ECHO_WRITES_OFF;
        }
    }
}

/// Without modulation that ties a voice, with what comes, or with much.
fn log(
    random: &mut Random,
    setting: Setting,
    named: u8,
    from_new: bool,
    wrong: Wrong,
) -> Vec<Record> {
    let ticks = random.between(TICKS_LEAST, TICKS_MOST);
    let mut records = if from_new || random.once_in(4) {
        plain::records(random, setting, ticks)
    } else {
        plain::more(random, setting, ticks)
    };
    records.iter_mut().for_each(echo_off);
    // The prelude may have left anything. Mostly the named voices sound.
    if !random.once_in(4) {
        let ticks = |record: &Record| matches!(record, Record::Ticks(_));
        let place = records.iter().position(ticks).unwrap_or(0);
        put(&mut records, place, KON, named | random.byte());
        put(&mut records, place, KOFF, 0);
    }
    put(&mut records, 0, FLG, random.byte() & 0x3F | ECHO_WRITES_OFF);
    match random.below(4) {
        0 => {
            let mask = untied(named);
            records.iter_mut().for_each(|r| masked(r, PMON, mask));
            put(&mut records, 0, PMON, random.byte() & mask);
        }
        1 => {}
        _ => modulate(random, &mut records, named),
    }
    if random.once_in(4) {
        // Echo writing that no tick sees.
        let place = random.below(records.len());
        put(&mut records, place, FLG, random.byte() | ECHO_WRITES_OFF);
        put(&mut records, place, FLG, random.byte() & !ECHO_WRITES_OFF);
    }
    if matches!(
        wrong,
        Wrong::Echo | Wrong::EchoAndOutside | Wrong::EchoAndLent
    ) {
        let place = random.below(records.len());
        put(&mut records, place, FLG, random.byte() & !ECHO_WRITES_OFF);
    }
    records
}

fn put(records: &mut Vec<Record>, place: usize, register: u8, value: u8) {
    records.insert(place, Record::Write { register, value });
}

/// PMON again and again: one bit, a chain of three, what the named voices
/// move, none, or any.
fn modulate(random: &mut Random, records: &mut Vec<Record>, named: u8) {
    for _ in 0..random.between(1, 8) {
        let place = random.below(records.len());
        let bit = random.below(8);
        let any = random.byte();
        let value = random.pick(&[1 << bit, (7 << bit) as u8, named << 1, named << 1, 0, any]);
        put(records, place, PMON, value);
    }
}

/// The records and a change of them in the named voices' own writes, in
/// either order; once in so many times both are the same.
fn two(random: &mut Random, records: Vec<Record>, named: u8, same: usize) -> [Vec<Record>; 2] {
    if named == 0 || random.once_in(same) {
        return [records.clone(), records];
    }
    let other = edited(random, &records, named);
    if random.once_in(2) {
        [records, other]
    } else {
        [other, records]
    }
}

fn edited(random: &mut Random, records: &[Record], named: u8) -> Vec<Record> {
    let voices: Vec<u8> = (0..8).filter(|voice| named >> voice & 1 == 1).collect();
    let mut made = Vec::new();
    for record in records {
        if random.once_in(5) {
            let register = of_voice(random.pick(&voices), random.below(8) as u8);
            let value = random.byte();
            made.push(Record::Write { register, value });
        }
        match *record {
            Record::Write { register, .. }
                if register & 0x0F <= GAIN && voices.contains(&(register >> 4)) =>
            {
                match random.below(6) {
                    0 => {}
                    1 | 2 => {
                        let value = random.byte();
                        made.push(Record::Write { register, value });
                    }
                    _ => made.push(*record),
                }
            }
            _ => made.push(*record),
        }
    }
    made
}

/// One record more, less, or other; the log stays well formed.
fn changed_outside(random: &mut Random, records: &mut Vec<Record>) {
    let place = random.below(records.len());
    let last = records.len() - 1;
    let register = random.below(0x80) as u8;
    match random.below(5) {
        0 => put(records, place, register, random.byte()),
        1 => records.insert(place, Record::Reading(register)),
        2 => records.insert(place, Record::Ticks(1)),
        3 if place < last => {
            records.remove(place);
        }
        _ if place + 1 < last => records.swap(place, place + 1),
        _ => records.insert(0, Record::Reading(register)),
    }
}

#[cfg(test)]
mod tests {
    use super::*;
    use crate::chip;
    use crate::rework;

    /// Every refusal but 3 is met, most pairs are taken, and A grows in
    /// many of them.
    #[test]
    fn random_pairs_meet_the_refusals() {
        let made = random(CASES_MOST, 7);
        let mut refused = [0; 13];
        let mut grown = 0;
        for pair in &made.cases {
            let ram = chip::ram_of(made.rams[usize::from(pair.ram)].clone());
            match ram.and_then(|ram| rework::rework(pair, &ram)) {
                Err(refusal) => refused[refusal as usize] += 1,
                Ok(made) => {
                    refused[0] += 1;
                    grown += usize::from(made.voices.0 != pair.named);
                }
            }
        }
        assert_eq!(refused[3], 0);
        for number in [1, 2, 4, 5, 6, 7, 8, 9, 10, 11, 12] {
            assert!(refused[number] > 0, "{number}: {refused:?}");
        }
        assert!(
            refused[0] > 750 && grown > 200,
            "{refused:?}, {grown} grown"
        );
        assert_eq!(made.cases, random(CASES_MOST, 7).cases);
    }

    /// Demand 3's premise: start records that differ only in the named
    /// voices' own parts, as far as registers show it; and that shows that
    /// they do differ.
    #[test]
    fn preludes_differ_in_the_named_voices_alone() {
        let made = random(300, 9);
        let mut differ = 0;
        for pair in &made.cases {
            let registers = |prelude: &Vec<u8>| {
                let ram = made.rams[0].clone();
                chip::run(prelude, ram).ok().unwrap().played.registers
            };
            let [was, is] = [0, 1].map(|k| registers(&pair.preludes[k]));
            differ += usize::from(was != is);
            for (register, (was, is)) in (0..).zip(was.iter().zip(&is)) {
                let own: u8 = match register {
                    ENDX => pair.named,
                    _ if register & 0x0F <= OUTX && pair.named >> (register >> 4) & 1 == 1 => 0xFF,
                    _ => 0,
                };
                assert_eq!(was & !own, is & !own, "{register:02X}");
            }
        }
        assert!(differ > 100, "{differ} differ");
    }
}
