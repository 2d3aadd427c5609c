//! Logs and RAM images at document 01's exact limits, and one past them.

use super::{encode, plain, Made};
use crate::log::{Record, LOG_MOST, TICKS_MOST};
use crate::random::Random;

const TICKS: usize = 500;

/// Case `number`, from 1; nothing if there is no such case.
pub fn case(random: &mut Random, number: usize) -> Option<Made> {
    let ticks = match number {
        1 => TICKS_MOST,
        2 => TICKS_MOST + 1,
        _ => TICKS,
    };
    let (records, ram) = plain::plain(random, ticks);
    let log = encode(&records);
    let (log, ram) = match number {
        1 | 2 => (log, ram),
        3 => (sized(random, &log, LOG_MOST), ram),
        4 => (sized(random, &log, LOG_MOST + 1), ram),
        5 => (Vec::new(), ram),
        6 => (Record::End.bytes(), ram),
        7 => ([log, vec![random.byte()]].concat(), ram),
        8 => (log, ram[1..].to_vec()),
        9 => (sized(random, &log, LOG_MOST + 1), [ram, vec![0]].concat()),
        _ => return None,
    };
    Some(Made { log, ram })
}

/// The log with records before it, so that it has exactly this length:
/// readings of 3 bytes until the gap is a multiple of 4, then writes.
pub fn sized(random: &mut Random, log: &[u8], length: usize) -> Vec<u8> {
    let mut before = Vec::new();
    while (length - log.len() - before.len()) % 4 != 0 {
        before.extend(Record::Reading(random.below(0x80) as u8).bytes());
    }
    while before.len() + log.len() < length {
        let register = random.below(0x80) as u8;
        before.extend(
            Record::Write {
                register,
                value: random.byte(),
            }
            .bytes(),
        );
    }
    before.extend(log);
    before
}
