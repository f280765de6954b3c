//! The library at each edge of document 02's M-106: every field, code, table and row, the first and the last of the most readings that
//! are searched, products at the limit, and lengths lent.

use sighting::{Nearest, Refusal};

use crate::book::{Book, Table};
use crate::examples::{e1, e4, E1_READINGS};
use crate::sheet::{Sheet, FRESH, NO_ANSWER, PLACES};

/// What the bytes lent hold before a call.
const LENT: u8 = 0xA5;

/// In how many fields the reading differs and the reading; or none, which leaves all bytes.
type Shown = Result<Option<(u64, Vec<u8>)>, Refusal>;

const fn refused(number: u64, place: u64) -> Shown {
    Err(Refusal { number, place })
}

fn found(differing: u64, reading: &[u8]) -> Shown {
    Ok(Some((differing, reading.to_vec())))
}

/// What the library shows where so many bytes are lent. Bytes behind the reading stay, and all of them where there is none.
fn lending(bytes: usize, book: &[u8], sheet: Sheet) -> Shown {
    let mut out = vec![LENT; bytes];
    let shown = sighting::Sheet::from(sheet).nearest(book, &mut out);
    let written = shown.ok().flatten().map_or(0, |Nearest { written, .. }| written as usize);
    assert!(out[written..].iter().all(|&byte| byte == LENT));
    out.truncate(written);
    shown.map(|found| found.map(|Nearest { differing, .. }| (differing, out)))
}

/// What the library shows where as many bytes are lent as the book has fields.
fn nearest(book: &Book, sheet: Sheet) -> Shown {
    lending(book.counts.len(), &book.write(), sheet)
}

fn without_tables(counts: &[u8]) -> Book {
    Book::new(counts.to_vec(), Vec::new())
}

/// A table on one field with these codes.
fn one_field(field: usize, codes: &[u8]) -> Table {
    Table { fields: vec![field as u8], rows: codes.iter().map(|&code| vec![code]).collect() }
}

/// Sixty fields of one code, but for these, which have two.
fn sixty(of_two: &[usize], tables: Vec<Table>) -> Book {
    let mut counts = vec![1; PLACES];
    of_two.iter().for_each(|&field| counts[field] = 2);
    Book::new(counts, tables)
}

/// Sixty codes 0, but for these.
fn codes(others: &[(usize, u8)]) -> [u8; PLACES] {
    let mut codes = [0; PLACES];
    others.iter().for_each(|&(field, code)| codes[field] = code);
    codes
}

#[test]
fn examples() {
    for (answers, photographed, expected) in E1_READINGS {
        let expected = expected.map(|(differing, reading)| (differing as u64, reading.to_vec()));
        assert_eq!(nearest(&e1(), Sheet::of(answers).with_photographs(photographed)), Ok(expected), "{answers:?}");
    }
    assert_eq!(nearest(&e4(), FRESH), Ok(None));
    assert_eq!(lending(4, &e4().write(), Sheet::of(&[0, 1])), Ok(None));
    assert_eq!(lending(2, &e4().write(), FRESH), refused(18, 0));
}

/// One field has two codes, of which its table holds the second.
#[test]
fn each_field() {
    for field in 0..PLACES {
        let (book, reading) = (sixty(&[field], vec![one_field(field, &[1])]), codes(&[(field, 1)]));
        assert_eq!(nearest(&book, FRESH), found(0, &reading));
        assert_eq!(nearest(&book, Sheet::of(&[0; PLACES])), found(1, &reading));
        assert_eq!(nearest(&book, Sheet::of(&reading)), found(0, &reading));
        let all: Vec<usize> = (0..PLACES).collect();
        assert_eq!(nearest(&book, Sheet::of(&reading).with_photographs(&all)), found(0, &reading));
        assert_eq!(nearest(&book, Sheet::of(&[0; PLACES]).with_photographs(&[field])), Ok(None));
    }
}

/// Two fields are equal, and their answers are not: the lower code is shown in both, unless the higher is photographed.
#[test]
fn each_pair_of_fields() {
    for (one, other) in (0..PLACES).flat_map(|other| (0..other).map(move |one| (one, other))) {
        let equal = Table { fields: vec![one as u8, other as u8], rows: vec![vec![1, 1], vec![0, 0]] };
        let book = sixty(&[one, other], vec![equal]);
        for (given, changed) in [(one, other), (other, one)] {
            let mut sheet = FRESH;
            (sheet.answers[given], sheet.answers[changed]) = (1, 0);
            assert_eq!(nearest(&book, sheet), found(1, &[0; PLACES]));
            assert_eq!(nearest(&book, sheet.with_photographs(&[changed])), found(1, &[0; PLACES]));
            assert_eq!(nearest(&book, sheet.with_photographs(&[given])), found(1, &codes(&[(one, 1), (other, 1)])));
            assert_eq!(nearest(&book, sheet.with_photographs(&[one, other])), Ok(None));
        }
    }
}

/// Sixteen fields of two codes in four tables of one row: one reading of 65,536 is full, the first or the last among them.
#[test]
fn one_reading_of_the_most() {
    for number in (0..65_536u32).step_by(1_285) {
        let reading: Vec<u8> = (0..16).map(|field| (number >> (15 - field) & 1) as u8).collect();
        let table = |first: u8| Table {
            fields: (first..first + 4).collect(),
            rows: vec![reading[first as usize..first as usize + 4].to_vec()],
        };
        let book = Book::new(vec![2; 16], [0, 4, 8, 12].map(table).to_vec());
        assert_eq!(nearest(&book, FRESH), found(0, &reading));
        assert_eq!(nearest(&book, Sheet::of(&[0; 16])), found(number.count_ones() as u64, &reading));
        assert_eq!(nearest(&book, Sheet::of(&[1; 16])), found(number.count_zeros() as u64 - 16, &reading));
    }
}

#[test]
fn each_code() {
    for code in 0..32 {
        let book = Book::new(vec![32, 32], vec![one_field(1, &[code])]);
        for answer in (0..32).chain([NO_ANSWER]) {
            let differing = (answer != code && answer != NO_ANSWER) as u64;
            assert_eq!(nearest(&book, Sheet::of(&[code, answer])), found(differing, &[code; 2]));
            let photographed = nearest(&book, Sheet::of(&[code, answer]).with_photographs(&[0]));
            assert_eq!(photographed, found(differing, &[code; 2]));
        }
    }
}

/// One of the most tables holds the second code alone; or no row, and there is none.
#[test]
fn each_table() {
    for t in 0..64 {
        let table = |rows: &[u8], other: usize| one_field(0, if t == other { rows } else { &[0, 1] });
        let book = |rows: &[u8]| Book::new(vec![2; 2], (0..64).map(|other| table(rows, other)).collect());
        assert_eq!(nearest(&book(&[1]), Sheet::of(&[0, 1])), found(1, &[1, 1]));
        assert_eq!(nearest(&book(&[]), FRESH), Ok(None));
    }
}

/// The first of those that differ from the row in one field.
fn beside(row: &[u8]) -> Vec<u8> {
    let mut other = row.to_vec();
    match row.iter().position(|&code| code > 0) {
        Some(field) => other[field] = 0,
        None => other[3] = 1,
    }
    other
}

/// Four fields of eight codes, and all rows of them but one.
#[test]
fn each_row_of_the_largest_table() {
    let all: Vec<Vec<u8>> = (0..4_096).map(|i| [9, 6, 3, 0].map(|shift| (i >> shift & 7) as u8).to_vec()).collect();
    for missing in (0..4_096).step_by(65) {
        let mut table = Table { fields: vec![0, 1, 2, 3], rows: all.clone() };
        let row = table.rows.remove(missing);
        let book = Book::new(vec![8; 4], vec![table]);
        assert_eq!(nearest(&book, Sheet::of(&row)), found(1, &beside(&row)));
        assert_eq!(nearest(&book, Sheet::of(&row).with_photographs(&[0, 1, 2, 3])), Ok(None));
        assert_eq!(nearest(&book, Sheet::of(&beside(&row))), found(0, &beside(&row)));
    }
}

/// Products up to 65,536 are searched, and a byte for each field suffices; others are refused, whatever is lent and answered.
#[test]
fn products() {
    for counts in [&[2; 16][..], &[16; 4], &[32, 32, 32, 2], &[2, 32, 32, 32], &[1; 60], &[5, 7, 9, 13, 16], &[32]] {
        let (book, fields) = (without_tables(counts).write(), counts.len());
        assert_eq!(lending(fields, &book, FRESH), found(0, &vec![0; fields]), "{counts:?}");
        assert_eq!(lending(PLACES, &book, Sheet::of(&vec![0; fields])), found(0, &vec![0; fields]), "{counts:?}");
        assert_eq!(lending(fields - 1, &book, FRESH), refused(18, 0), "{counts:?}");
    }
    for counts in [&[2; 17][..], &[6, 19, 23, 25], &[16; 5], &[2; 31], &[8; 11], &[8; 21], &[16; 16], &[16; 32]] {
        for (bytes, answers) in [(0, 0), (counts.len(), 0), (PLACES, counts.len())] {
            let sheet = Sheet::of(&vec![0; answers]);
            assert_eq!(lending(bytes, &without_tables(counts).write(), sheet), refused(23, 0), "{counts:?}");
        }
    }
    for codes in 2..=32 {
        let sheet = Sheet::of(&[0; PLACES]).with_photographs(&[0, 31, 59]);
        assert_eq!(lending(PLACES, &without_tables(&[codes; PLACES]).write(), sheet), refused(23, 0), "{codes}");
    }
}

/// Everything is wrong, and is put right one after the other.
#[test]
fn refusals_in_their_order() {
    let (large, small) = (without_tables(&[32; 60]).write(), e1().write());
    assert_eq!(lending(0, &large[..65], Sheet::of(&[32])), refused(2, 64));
    assert_eq!(lending(0, &large, Sheet::of(&[31, 32, 32])), refused(14, 1));
    assert_eq!(lending(0, &large, FRESH.with_photographs(&[59])), refused(14, 59));
    assert_eq!(lending(0, &large, FRESH), refused(23, 0));
    assert_eq!(lending(PLACES, &large, FRESH), refused(23, 0));
    assert_eq!(lending(2, &small, Sheet::of(&[0, 1, 0, 0])), refused(14, 3));
    assert_eq!(lending(2, &small, Sheet::of(&[0, 1, 0])), refused(18, 0));
    assert_eq!(lending(0, &small, Sheet::of(&[1, 0]).with_photographs(&[0, 1])), refused(18, 0));
    assert_eq!(lending(3, &small, Sheet::of(&[0, 1, 0])), found(1, &[0, 0, 0]));
}
