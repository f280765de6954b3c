//! The nearest full reading, straight from document 02's M-106: all readings are gone through, and the best is kept.

use std::collections::HashSet;

use crate::book::Book;
use crate::sheet::Sheet;

/// More readings than this are not searched: 23.
pub const MOST_READINGS: u64 = 65_536;

/// A reading, a code for each field, with the number of fields in which it differs from the answers. One comes before another where it
/// differs in fewer fields or, in as many, "the one with the lower code in the first field where they part".
#[derive(Clone, Debug, PartialEq, Eq, PartialOrd, Ord)]
pub struct Nearest {
    pub differing: usize,
    pub reading: Vec<u8>,
}

/// A search: the nearest full reading for a book and a sheet, or none.
pub type Search = fn(&Book, &Sheet) -> Option<Nearest>;

/// The product of all code counts. No count is 0, so one that is larger than any number is told by the largest.
pub fn product(counts: impl IntoIterator<Item = u8>) -> u64 {
    counts.into_iter().fold(1, |product: u64, count| product.saturating_mul(count as u64))
}

/// "23, place 0, the product of all code counts exceeds 65,536."
pub fn is_too_large(book: &Book) -> bool {
    product(book.counts.iter().copied()) > MOST_READINGS
}

/// All readings, from the one that gives each field code 0; the code of the last field changes first.
pub fn readings(counts: &[u8]) -> impl Iterator<Item = Vec<u8>> + '_ {
    std::iter::successors(Some(vec![0; counts.len()]), |reading| next(counts, reading))
}

fn next(counts: &[u8], reading: &[u8]) -> Option<Vec<u8>> {
    let field = (0..counts.len()).rfind(|&field| reading[field] + 1 < counts[field])?;
    let mut next = reading.to_vec();
    next[field] += 1;
    next[field + 1..].fill(0);
    Some(next)
}

/// The codes that the reading gives these fields.
pub fn row(fields: &[u8], reading: &[u8]) -> Vec<u8> {
    fields.iter().map(|&field| reading[field as usize]).collect()
}

/// "A full reading gives each field one code so that each table holds the row."
pub fn full_readings(book: &Book) -> impl Iterator<Item = Vec<u8>> + '_ {
    let held: Vec<HashSet<&Vec<u8>>> = book.tables.iter().map(|table| table.rows.iter().collect()).collect();
    let is_full =
        move |reading: &Vec<u8>| book.tables.iter().zip(&held).all(|(of, rows)| rows.contains(&row(&of.fields, reading)));
    readings(&book.counts).filter(is_full)
}

/// "Keeps all photographed answers."
pub fn is_kept(sheet: &Sheet, reading: &[u8]) -> bool {
    (0..reading.len()).all(|field| !sheet.is_photographed(field) || reading[field] == sheet.answers[field])
}

/// The answered fields to which the reading gives another code.
pub fn differing<'a>(sheet: &'a Sheet, reading: &'a [u8]) -> impl Iterator<Item = usize> + 'a {
    (0..reading.len()).filter(|&field| sheet.is_answered(field) && reading[field] != sheet.answers[field])
}

/// The reading with the number of fields in which it differs.
pub fn measured(sheet: &Sheet, reading: Vec<u8>) -> Nearest {
    Nearest { differing: differing(sheet, &reading).count(), reading }
}

/// "Show one that keeps all photographed answers and differs from the other answers in the fewest fields."
pub fn nearest(book: &Book, sheet: &Sheet) -> Option<Nearest> {
    full_readings(book).filter(|reading| is_kept(sheet, reading)).map(|reading| measured(sheet, reading)).min()
}

/// A reading or none as the cells behind the place: found, in how many fields it differs, and how many bytes are written.
pub fn told(found: Option<[u64; 2]>) -> Vec<u64> {
    found.map_or(vec![0; 3], |[differing, written]| vec![1, differing, written])
}

#[cfg(test)]
mod tests {
    use super::{is_too_large, nearest, readings, Nearest};
    use crate::book::{Book, Table};
    use crate::calls::Call;
    use crate::desk::Desk;
    use crate::examples::{e1, e4, e6, two_pairs, E1_READINGS};
    use crate::sheet::{Sheet, FRESH, NO_ANSWER};

    fn found(differing: usize, reading: &[u8]) -> Option<Nearest> {
        Some(Nearest { differing, reading: reading.to_vec() })
    }

    #[test]
    fn readings_in_their_order() {
        let all: Vec<Vec<u8>> = readings(&[2, 1, 3]).collect();
        assert_eq!(all, [[0, 0, 0], [0, 0, 1], [0, 0, 2], [1, 0, 0], [1, 0, 1], [1, 0, 2]]);
        assert_eq!(readings(&[2; 16]).count(), 65_536);
    }

    #[test]
    fn examples_of_e1() {
        for (answers, photographed, expected) in E1_READINGS {
            let sheet = Sheet::of(answers).with_photographs(photographed);
            assert_eq!(nearest(&e1(), &sheet), expected.and_then(|(differing, reading)| found(differing, &reading)));
        }
    }

    #[test]
    fn books_without_a_full_reading() {
        assert_eq!(nearest(&e4(), &FRESH), None);
        assert_eq!(nearest(&e4(), &Sheet::of(&[0, 1, 0])), None);
        assert_eq!(nearest(&e6(), &Sheet::of(&[0])), None);
    }

    /// Each pair has one answer to change, and the lower code is taken; a photograph leaves the other.
    #[test]
    fn two_contradictions() {
        let answers = Sheet::of(&[0, 1, 1, 0]);
        assert_eq!(nearest(&two_pairs(), &answers), found(2, &[0; 4]));
        assert_eq!(nearest(&two_pairs(), &answers.with_photographs(&[1])), found(2, &[1, 1, 0, 0]));
        assert_eq!(nearest(&two_pairs(), &answers.with_photographs(&[1, 2])), found(2, &[1; 4]));
        assert_eq!(nearest(&two_pairs(), &answers.with_photographs(&[0, 1])), None);
        assert_eq!(nearest(&two_pairs(), &Sheet::of(&[NO_ANSWER, 1])), found(0, &[1, 1, 0, 0]));
    }

    /// The number of the call on a book of these counts without tables, on an empty sheet and with so many bytes lent.
    fn number(counts: &[u8], lent: usize) -> u64 {
        let answer = Desk::default().answer(&Call::Nearest, &Ok(Book::new(counts.to_vec(), Vec::new())), &FRESH);
        answer.left(&Call::Nearest, &vec![7u8; lent].into()).number
    }

    #[test]
    fn products_at_the_limit() {
        for accepted in [&[2; 16][..], &[16; 4], &[32, 32, 32, 2], &[1; 60]] {
            assert_eq!(number(accepted, accepted.len()), 0, "{accepted:?}");
            assert_eq!(number(accepted, accepted.len() - 1), 18, "{accepted:?}");
        }
        for refused in [&[2; 17][..], &[6, 25, 19, 23], &[32, 32, 32, 3], &[2; 32], &[32; 60], &[4; 60], &[2; 60]] {
            assert!(is_too_large(&Book::new(refused.to_vec(), Vec::new())), "{refused:?}");
            assert_eq!((number(refused, refused.len()), number(refused, 0)), (23, 23), "{refused:?}");
        }
    }

    /// A reading is written in front of what is lent; none leaves it, asks for as many bytes, and is no refusal.
    #[test]
    fn bytes_and_cells() {
        let (desk, call, sheet) = (Desk::default(), Call::Nearest, Sheet::of(&[1, 0]));
        let shown = desk.answer(&call, &Ok(e1()), &sheet).left(&call, &vec![7u8; 4].into());
        assert_eq!((shown.number, shown.cells, shown.out.bytes), (0, vec![0, 1, 1, 3], vec![0, 0, 0, 7]));
        assert_eq!(shown.sheet, sheet);
        let none = desk.answer(&call, &Ok(e4()), &sheet);
        let left = none.left(&call, &vec![7u8; 4].into());
        assert_eq!((left.number, left.cells, left.out.bytes), (0, vec![0; 4], vec![7; 4]));
        let short = none.left(&call, &vec![7u8; 2].into());
        assert_eq!((short.number, short.cells, short.out.bytes), (18, vec![0; 4], vec![7; 2]));
        let fault = desk.answer(&call, &Ok(Book::new(vec![32; 60], Vec::new())), &FRESH.with_photographs(&[59]));
        let refused = fault.left(&call, &vec![7u8; 2].into());
        assert_eq!((refused.number, refused.cells, refused.out.bytes), (14, vec![59, 0, 0, 0], vec![7; 2]));
    }

    /// A table's row is that of all its columns, and all tables are looked at.
    #[test]
    fn each_column_and_table() {
        let rows = vec![vec![0, 1, 1], vec![1, 0, 1], vec![1, 1, 0]];
        let mut book = Book::new(vec![2; 3], vec![Table { fields: vec![0, 1, 2], rows }]);
        assert_eq!(nearest(&book, &Sheet::of(&[0, 0, 0])), found(2, &[0, 1, 1]));
        book.tables.push(Table { fields: vec![1], rows: vec![vec![0]] });
        assert_eq!(nearest(&book, &Sheet::of(&[0, 1, 1])), found(2, &[1, 0, 1]));
    }
}
