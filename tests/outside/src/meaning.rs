//! What a tree book's codes mean, straight from document 02's M-112: all full readings are looked at, and no code is filtered.

use crate::book::Book;
use crate::filter::relaxed;
use crate::nearest::{full_readings, product};
use crate::sheet::{Sheet, NO_ANSWER};

/// Books that have more readings, full or not, are not looked at.
pub const MOST: u64 = 4_096;

pub fn is_looked_at(book: &Book) -> bool {
    product(book.counts.iter().copied()) <= MOST
}

/// The full readings of a book.
pub struct Readings {
    full: Vec<Vec<u8>>,
    fields: usize,
}

impl Readings {
    pub fn of(book: &Book) -> Readings {
        Readings { full: full_readings(book).collect(), fields: book.counts.len() }
    }

    /// For each field a number with bit c set where code c is in a full reading that keeps all answers.
    pub fn codes(&self, answers: &[u8]) -> Vec<u32> {
        let mut codes = vec![0; self.fields];
        let is_kept = |reading: &[u8]| reading.iter().zip(answers).all(|(code, answer)| [code, &NO_ANSWER].contains(&answer));
        for reading in self.full.iter().filter(|reading| is_kept(reading)) {
            reading.iter().zip(&mut codes).for_each(|(code, codes)| *codes |= 1 << code);
        }
        codes
    }

    /// "A code is listed for an answered field without a photograph exactly when a full reading exists with that code there and all other
    /// answers kept": the pairs.
    pub fn pairs(&self, sheet: &Sheet) -> Vec<u8> {
        let mut pairs = Vec::new();
        for field in (0..self.fields).filter(|&field| sheet.is_in_doubt(field)) {
            let codes = self.codes(&relaxed(&sheet.answers, field))[field];
            pairs.extend((0..32).filter(|code| codes >> code & 1 == 1).flat_map(|code| [field as u8, code]));
        }
        pairs
    }
}

#[cfg(test)]
mod tests {
    use super::Readings;
    use crate::examples::{e1, e4, e6, two_pairs};
    use crate::sheet::{Sheet, FRESH};

    #[test]
    fn codes_of_e1() {
        let readings = Readings::of(&e1());
        assert_eq!(readings.full, [[0, 0, 0], [0, 1, 1], [1, 1, 2], [1, 2, 2]]);
        let sheet = Sheet::of(&[0, 1]);
        assert_eq!(readings.codes(&sheet.answers), [1, 2, 2]);
        assert_eq!(readings.pairs(&sheet), [0, 0, 0, 1, 1, 0, 1, 1]);
        assert_eq!(readings.pairs(&sheet.with_photographs(&[0])), [1, 0, 1, 1]);
        assert_eq!(readings.pairs(&Sheet::of(&[1, 0])), [0, 0, 1, 1, 1, 2]);
        assert_eq!(readings.codes(&[1, 0, 255]), [0; 3]);
    }

    #[test]
    fn books_without_a_full_reading() {
        for book in [e4(), e6()] {
            let readings = Readings::of(&book);
            assert!(readings.codes(&FRESH.answers).iter().all(|&codes| codes == 0));
            assert!(readings.pairs(&Sheet::of(&[0])).is_empty());
        }
    }

    /// All other answers are kept, those of fields that no table ties to it too.
    #[test]
    fn two_contradictions() {
        let readings = Readings::of(&two_pairs());
        assert_eq!(readings.pairs(&Sheet::of(&[0, 1, 0])), [0, 1, 1, 0]);
        assert!(readings.pairs(&Sheet::of(&[0, 1, 1, 0])).is_empty());
    }
}
