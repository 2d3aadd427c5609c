//! Which cases write `$7C`. W-202: "demand 2 compares with the Rust on logs
//! without a `$7C` write; the rest is held to the document".

use crate::cases::Logs;
use crate::log::{self, Record};
use crate::registers::ENDX;

/// `ENDX`, how many cases have a write to `$7C` in any of their logs, and how
/// many have none.
pub fn report(cases: &[impl Logs]) -> String {
    let with = with(cases);
    format!("ENDX {with} {}\n", cases.len() - with)
}

fn with(cases: &[impl Logs]) -> usize {
    cases.iter().filter(|case| writes(*case)).count()
}

/// A malformed log is refused before its first record, so it writes nothing.
fn writes(case: &impl Logs) -> bool {
    let written = |record: &Record| matches!(record, Record::Write { register: ENDX, .. });
    let logs = case.all_logs().into_iter().map(log::read);
    logs.flatten().any(|records| records.iter().any(written))
}

#[cfg(test)]
mod tests {
    use super::*;
    use crate::cases::{Case, Pair};
    use crate::chip;
    use crate::make::{cases, pairs};
    use crate::page::PAGE;
    use apu::dsp::Dsp;

    const COUNT: usize = 1_000;

    #[test]
    fn cases_are_counted_by_what_they_write() {
        let case = |log: &[u8]| Case {
            ram: 0,
            log: log.to_vec(),
        };
        let without = [
            case(b"ND"),
            case(b"QA\x7CRW\x6C\x7CTK\x7C\x7CND"),
            case(b"RW\x7C\x00"),
        ];
        assert_eq!(report(&without), "ENDX 0 3\n");
        let one = case(b"RW\x6C\x20RW\x7C\x00ND");
        assert_eq!(report(&[&without[..], &[one]].concat()), "ENDX 1 3\n");
    }

    #[test]
    fn a_pair_is_counted_by_any_of_its_logs() {
        let mut pair = Pair {
            ram: 0,
            named: 0,
            lent: 0,
            unfit: 0,
            preludes: [b"ND".to_vec(), b"ND".to_vec()],
            logs: [b"ND".to_vec(), b"ND".to_vec()],
            tail: b"ND".to_vec(),
        };
        assert_eq!(report(&[pair.clone()]), "ENDX 0 1\n");
        pair.logs[0] = b"XX".to_vec();
        pair.tail = b"RW\x7C\xFFND".to_vec();
        assert_eq!(report(&[pair]), "ENDX 1 0\n");
    }

    /// A third to a half of the random ones have no such write.
    #[test]
    fn both_kinds_are_often_made() {
        let share = COUNT / 2..=COUNT * 2 / 3;
        let logs = cases::cases("random", COUNT, 7).unwrap().cases;
        assert!(share.contains(&with(&logs)), "{} cases", with(&logs));
        let pairs = pairs::pairs("random", COUNT, 7).unwrap().cases;
        assert!(share.contains(&with(&pairs)), "{} pairs", with(&pairs));
    }

    /// By both rules the same where `$7C` is not written, and mostly not the
    /// same where it is.
    #[test]
    fn a_random_log_differs_by_its_write_alone() {
        let made = cases::cases("random", 300, 7).unwrap();
        let mut differ = 0;
        for case in &made.cases {
            let records = log::read(&case.log).unwrap();
            let ram = || chip::ram_of(made.rams[usize::from(case.ram)].clone()).unwrap();
            let ours = chip::play(&mut Dsp::new(), &mut ram(), &records, |_, _, _| {});
            let rust = chip::play_as_it_is(&mut Dsp::new(), &mut ram(), &records);
            let same = (ours.sheet, ours.readings) == (rust.sheet, rust.readings);
            assert!(same || writes(case));
            differ += usize::from(!same);
        }
        let all = with(&made.cases);
        assert!(differ > all / 2, "{differ} of {all}");
    }

    /// The page says how many of the stored ones write `$7C`.
    #[test]
    fn stored_cases_have_the_counts_of_the_page() {
        let cases = cases::cases("directed", 12, 1).unwrap().cases;
        let pairs = pairs::pairs("directed", 12, 1).unwrap().cases;
        let words = format!(
            "Of the {} stored cases {} write `$7C`, of the {} stored pairs {}.",
            cases.len(),
            with(&cases),
            pairs.len(),
            with(&pairs)
        );
        assert!(PAGE.contains(&words), "{words}");
    }
}
