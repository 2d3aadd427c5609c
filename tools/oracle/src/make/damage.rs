//! Valid logs with one random damage. Some stay valid: the oracle says so.

use super::{encode, plain, Made};
use crate::log::{Record, TICKS_MOST};
use crate::random::Random;

const TICKS: usize = 300;

pub fn damaged(random: &mut Random) -> Made {
    let ticks = random.between(1, TICKS);
    let (records, ram) = plain::plain(random, ticks);
    let log = damage(random, records);
    Made { log, ram }
}

/// The bytes of a valid log with one random damage.
pub fn damage(random: &mut Random, mut records: Vec<Record>) -> Vec<u8> {
    let place = random.below(records.len());
    match random.below(8) {
        0 => return cut(random, &records),
        1 => return byte_changed(random, &records),
        2 => return bytes_added(random, &records),
        3 => return mark_changed(random, &records, place),
        4 => records[place] = high_register(random),
        5 => records[place] = Record::Ticks(0),
        6 => records[place] = many_ticks(random),
        _ => {
            records.remove(place);
        }
    }
    encode(&records)
}

fn cut(random: &mut Random, records: &[Record]) -> Vec<u8> {
    let mut log = encode(records);
    log.truncate(random.below(log.len()));
    log
}

fn byte_changed(random: &mut Random, records: &[Record]) -> Vec<u8> {
    let mut log = encode(records);
    let place = random.below(log.len());
    log[place] = random.byte();
    log
}

/// One to four bytes, at the end every other time.
fn bytes_added(random: &mut Random, records: &[Record]) -> Vec<u8> {
    let mut log = encode(records);
    let place = if random.once_in(2) {
        log.len()
    } else {
        random.below(log.len())
    };
    for _ in 0..random.between(1, 4) {
        log.insert(place, random.byte());
    }
    log
}

/// One byte of a mark becomes a letter that marks use.
fn mark_changed(random: &mut Random, records: &[Record], place: usize) -> Vec<u8> {
    let start = encode(&records[..place]).len();
    let mut log = encode(records);
    log[start + random.below(2)] = random.pick(b"RWTKQAND");
    log
}

fn high_register(random: &mut Random) -> Record {
    let register = random.between(0x80, 0xFF) as u8;
    if random.once_in(2) {
        Record::Reading(register)
    } else {
        Record::Write {
            register,
            value: random.byte(),
        }
    }
}

/// Mostly over 32,000 ticks, alone or with what is there.
fn many_ticks(random: &mut Random) -> Record {
    Record::Ticks(random.between(TICKS_MOST - TICKS, 0xFFFF) as u16)
}
