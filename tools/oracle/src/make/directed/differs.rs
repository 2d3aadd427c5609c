//! The logs of docs/DIFFERENCES.md, from the page itself, under the names
//! that it gives them.

use crate::cases::Case;
use crate::log::Record;
use crate::make::encode;
use crate::page::{self, PAGE};

pub fn cases() -> Vec<(&'static str, Case)> {
    let case = |log: page::Log<'static>| {
        let records = [&log.records[..], &[Record::End]].concat();
        let (ram, log_bytes) = (log.image, encode(&records));
        (
            log.name,
            Case {
                ram,
                log: log_bytes,
            },
        )
    };
    page::logs(PAGE).into_iter().map(case).collect()
}

/// The images of the page, in the order of their numbers.
pub fn rams() -> Vec<Vec<u8>> {
    let images = page::images(PAGE).into_iter();
    images.map(|(_, ram)| ram).collect()
}

#[cfg(test)]
mod tests {
    use super::*;
    use crate::make::cases;

    /// The page says which numbers its cases have.
    #[test]
    fn cases_have_the_numbers_of_the_page() {
        let made = cases::cases("directed", 12, 1).unwrap();
        let first = made
            .names
            .lines()
            .position(|line| line.contains("differs-"));
        let (before, count) = (first.unwrap(), super::cases().len());
        assert_eq!(made.names.lines().count(), before + count);
        let words = format!("cases {} to {}", before + 1, before + count);
        assert!(PAGE.contains(&words), "{words}");
    }

    /// The page gives its images the numbers that they have as files, and
    /// its logs run on them alone.
    #[test]
    fn images_have_the_numbers_of_the_page() {
        let rams = cases::cases("directed", 12, 1).unwrap().rams;
        let images = page::images(PAGE);
        assert_eq!(rams.len(), usize::from(images.last().unwrap().0) + 1);
        for (number, ram) in &images {
            assert_eq!(&rams[usize::from(*number)], ram);
        }
        for (name, case) in super::cases() {
            assert!(
                images.iter().any(|(number, _)| *number == case.ram),
                "{name}"
            );
        }
    }
}
