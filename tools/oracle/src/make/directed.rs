//! Cases by name, at least one for each rule of document 01 under voice.rs
//! and mod.rs, for W-202 of document 02, and for each refusal that a run from
//! `new` can meet; then the logs of docs/DIFFERENCES.md. The tables cite the
//! rule above each row.

mod differs;
mod echo;
pub mod image;
mod keys;
mod mix;
mod refused;
pub mod script;
mod voices;

use super::cases::Made;
use super::encode;
use crate::cases::Case;
use script::Script;

/// What a case is called, and what it does from `new`.
pub type Named = (&'static str, fn(&mut Script));

/// All of them run on the one image, but for those whose image is no RAM and
/// those of the page, which names theirs.
pub fn all() -> Made<Case> {
    let named: Vec<_> = played()
        .into_iter()
        .chain(refused::cases())
        .chain(differs::cases())
        .collect();
    let line = |(number, (name, _)): (usize, &(&str, Case))| format!("{number} {name}\n");
    Made {
        names: (1..).zip(&named).map(line).collect(),
        cases: named.into_iter().map(|(_, case)| case).collect(),
        rams: vec![image::image()],
    }
}

/// Images that are refused, then those of the page. They come after those of
/// the random cases, so that these keep their numbers.
pub fn later_rams() -> Vec<Vec<u8>> {
    refused::rams().into_iter().chain(differs::rams()).collect()
}

fn played() -> Vec<(&'static str, Case)> {
    let tables = [keys::TABLE, voices::TABLE, mix::TABLE, echo::TABLE];
    let case = |(name, play): &Named| {
        let mut script = Script::new();
        play(&mut script);
        let log = encode(&script.ended());
        (*name, Case { ram: 0, log })
    };
    tables.concat().iter().map(case).collect()
}

#[cfg(test)]
mod tests {
    use super::*;
    use crate::bytes::digest;
    use crate::chip;

    #[test]
    fn names_differ() {
        let made = all();
        let mut names: Vec<_> = made.names.lines().map(|l| l.split_once(' ')).collect();
        names.sort_by_key(|line| line.unwrap().1);
        names.dedup_by_key(|line| line.unwrap().1);
        assert_eq!(names.len(), made.cases.len());
    }

    /// A case that gives what another gives would show nothing of its own.
    #[test]
    fn outcomes_differ() {
        let outcome = |(_, case): &(&str, Case)| {
            let outcome = chip::run(&case.log, image::image()).unwrap();
            (outcome.trace, digest(&outcome.ram[..]))
        };
        let mut outcomes: Vec<_> = played().iter().map(outcome).collect();
        outcomes.sort();
        outcomes.dedup();
        assert_eq!(outcomes.len(), played().len());
    }
}
