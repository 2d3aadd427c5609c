//! Random logs and RAM images, from a kind and a seed.

mod bank;
pub mod cases;
mod damage;
mod directed;
mod limits;
pub mod pairs;
mod plain;
pub mod reels;
mod scenes;

use crate::log::{Record, TICKS_MOST};
use crate::random::Random;

const TICKS_USUAL: usize = 2_000;

pub struct Made {
    pub log: Vec<u8>,
    pub ram: Vec<u8>,
}

/// `plain`, `plain-N` (up to N ticks), `damaged` or `limits-K`; nothing for
/// any other kind.
pub fn make(kind: &str, seed: u64) -> Option<Made> {
    let mut random = Random::new(seed);
    match kind.split_once('-') {
        None if kind == "plain" => Some(up_to(&mut random, TICKS_USUAL)),
        None if kind == "damaged" => Some(damage::damaged(&mut random)),
        Some(("plain", most)) => {
            let most = most.parse().ok()?;
            (1..=TICKS_MOST)
                .contains(&most)
                .then(|| up_to(&mut random, most))
        }
        Some(("limits", number)) => limits::case(&mut random, number.parse().ok()?),
        _ => None,
    }
}

fn up_to(random: &mut Random, most: usize) -> Made {
    let ticks = random.between(1, most);
    let (records, ram) = plain::plain(random, ticks);
    Made {
        log: encode(&records),
        ram,
    }
}

fn encode(records: &[Record]) -> Vec<u8> {
    records.iter().flat_map(|record| record.bytes()).collect()
}
