//! Document 01's examples, and books like them.

use crate::book::{Book, Table};
use crate::sheet::NO_ANSWER as NONE;

pub fn e1() -> Book {
    let first = Table { fields: vec![0, 2], rows: vec![vec![0, 0], vec![0, 1], vec![1, 2], vec![0, 1]] };
    let second = Table { fields: vec![1, 2], rows: vec![vec![0, 0], vec![1, 1], vec![1, 2], vec![2, 2]] };
    Book::new(vec![2, 3, 3], vec![first, second])
}

/// What is asked on E1 for the row behind a code: answers; field, code and table; and found and row, or the refusal's number.
pub type RowAsked = ([u8; 3], [usize; 3], Result<[u64; 2], u64>);

/// Row 3 of table 0 is row 1 again. Code 2 of field 2 does not stand with fields 0 and 1 answered, and code 2 of field 1 is not field
/// 1's answer, and both have rows.
pub const E1_ROWS: [RowAsked; 11] = [
    ([0, 1, NONE], [2, 1, 0], Ok([1, 1])),
    ([0, 1, NONE], [0, 0, 0], Ok([1, 1])),
    ([0, 1, NONE], [2, 2, 1], Ok([1, 2])),
    ([0, 1, NONE], [1, 2, 1], Ok([0, 0])),
    ([0, 1, NONE], [0, 1, 0], Ok([0, 0])),
    ([0, 1, NONE], [1, 0, 0], Err(21)),
    ([0, 1, NONE], [0, 0, 2], Err(21)),
    ([0, 1, NONE], [0, 2, 2], Err(16)),
    ([0, 1, NONE], [3, 0, 2], Err(15)),
    ([NONE, 1, NONE], [0, 1, 0], Ok([1, 2])),
    ([NONE, 1, NONE], [1, 2, 1], Ok([1, 3])),
];

/// What the nearest full reading is for: answers, and which of them are photographed; in how many fields it differs, and the reading.
pub type ReadingAsked = (&'static [u8], &'static [usize], Option<(usize, [u8; 3])>);

/// E1's full readings are 0 0 0, 0 1 1, 1 1 2 and 1 2 2. Answers 1 and 0 are in none of them.
pub const E1_READINGS: [ReadingAsked; 11] = [
    (&[], &[], Some((0, [0, 0, 0]))),
    (&[0, 1], &[], Some((0, [0, 1, 1]))),
    (&[1], &[], Some((0, [1, 1, 2]))),
    (&[1, 0], &[], Some((1, [0, 0, 0]))),
    (&[1, 0], &[0], Some((1, [1, 1, 2]))),
    (&[1, 0], &[1], Some((1, [0, 0, 0]))),
    (&[1, 0], &[0, 1], None),
    (&[0, 2, 0], &[], Some((1, [0, 0, 0]))),
    (&[0, 2, 0], &[1], Some((2, [1, 2, 2]))),
    (&[1, 0, 1], &[], Some((2, [0, 0, 0]))),
    (&[1, 0, 1], &[2], Some((2, [0, 1, 1]))),
];

/// What a plan on E1 is for: answers, target and list; and found and questions, or the refusal's number.
pub type PlanAsked = (&'static [u8], usize, &'static [u8], Result<[u64; 2], u64>);

/// Field 2 tells field 0, and fields 0 and 1 together tell field 2.
pub const E1_PLANS: [PlanAsked; 18] = [
    (&[], 0, &[2], Ok([1, 1])),
    (&[], 0, &[1], Ok([0, 0])),
    (&[], 2, &[0, 1], Ok([1, 2])),
    (&[], 2, &[1, 0], Ok([1, 2])),
    (&[], 0, &[1, 2], Ok([1, 1])),
    (&[], 0, &[], Ok([0, 0])),
    (&[0], 2, &[1], Ok([1, 1])),
    (&[1], 0, &[1, 2], Ok([1, 0])),
    (&[NONE, NONE, 2], 0, &[], Ok([1, 0])),
    (&[1, 0], 2, &[], Ok([1, 0])),
    (&[], 3, &[2, 2], Err(15)),
    (&[], 0, &[2, 1, 2], Err(27)),
    (&[], 0, &[0], Err(27)),
    (&[], 0, &[1, 3], Err(27)),
    (&[], 0, &[255], Err(27)),
    (&[0, 1], 2, &[1], Err(27)),
    (&[0], 0, &[0], Err(27)),
    (&[], 0, &[1, 2, 1, 2, 1, 2, 1], Err(27)),
];

/// A sheet on E1 by its answers and those of them that are photographed, and its short form.
pub type Short = (&'static [u8], &'static [usize], &'static [u8]);

pub const E1_SHORT: [Short; 7] = [
    (&[], &[], &[0, 3]),
    (&[0, 1], &[], &[0, 0, 0, 1, 1, 0, 2, 3]),
    (&[0, 1], &[0], &[0, 0, 1, 1, 1, 0, 2, 3]),
    (&[0, 1], &[0, 1], &[0, 0, 1, 1, 1, 1, 2, 3]),
    (&[NONE, NONE, 2], &[], &[2, 2, 0, 1, 3]),
    (&[NONE, NONE, 2], &[2], &[2, 2, 1, 1, 3]),
    (&[1, 2, 0], &[1], &[0, 1, 0, 1, 2, 1, 2, 0, 0, 3, 3]),
];

/// Calls of a list on E1 and the number of each. Fields 0 and 1 are answered by 0 and 1 then, and field 0 is photographed.
pub const E1_PHOTOGRAPHED: [([u8; 3], u64); 12] = [
    ([0, 0, 0], 0),
    ([3, 0, 0], 0),
    ([0, 0, 0], 0),
    ([0, 0, 1], 22),
    ([1, 0, 0], 22),
    ([0, 0, 2], 16),
    ([3, 1, 0], 17),
    ([3, 3, 0], 15),
    ([0, 1, 2], 0),
    ([1, 1, 0], 0),
    ([0, 1, 1], 0),
    ([3, 0, 9], 0),
];

/// A table by its fields and rows.
pub type Rows = (&'static [u8], &'static [&'static [u8]]);

/// The tables of a book with E1's fields: one on fields that E1 has a table on, and one on fields that it has none on, with a repeat.
const E1_WITH: [Rows; 2] = [(&[1, 2], &[&[2, 2], &[1, 1], &[0, 1]]), (&[0], &[&[0], &[0]])];

/// That book.
pub fn with_e1() -> Book {
    let table = |&(fields, rows): &Rows| Table { fields: fields.to_vec(), rows: rows.iter().map(|row| row.to_vec()).collect() };
    Book::new(e1().counts, E1_WITH.iter().map(table).collect())
}

/// The bytes of E1 joined with it, in either order.
pub const JOINED: [u8; 34] = [
    1, 0, 1, 0, 0, // field 0: one row
    2, 0, 2, 3, 0, 0, 0, 0, 1, 1, 2, // fields 0 and 2: E1's three different rows
    2, 1, 2, 2, 0, 1, 1, 2, 2, // fields 1 and 2: the two rows that both have
    2, 3, 3, 25, 0, 3, 3, 2, 0xE5,
];

/// Three fields of two codes, and each pair of fields differs.
pub fn e4() -> Book {
    let pair = |f, g| Table { fields: vec![f, g], rows: vec![vec![0, 1], vec![1, 0]] };
    Book::new(vec![2; 3], vec![pair(0, 1), pair(0, 2), pair(1, 2)])
}

/// Two fields of two codes, and a table on field 1 alone that has no rows.
pub fn e6() -> Book {
    Book::new(vec![2; 2], vec![Table { fields: vec![1], rows: Vec::new() }])
}

/// Four fields of two codes: field 0 equals field 1, and field 2 equals field 3.
pub fn two_pairs() -> Book {
    let equal = |f, g| Table { fields: vec![f, g], rows: vec![vec![0, 0], vec![1, 1]] };
    Book::new(vec![2; 4], vec![equal(0, 1), equal(2, 3)])
}
