//! Questions for the row behind a code: a book and a sheet, and a field, a code and a table to ask for.

use sighting::{NO_ANSWER, PLACES, SHEET_BYTES};

use crate::families::{bytes, unphotographed, Family, Random, Table};
use crate::plain::reader::check;
use crate::plain::{engine, CODES};

pub struct Question {
    pub book_name: &'static str,
    pub n: usize,
    pub what: &'static str,
    pub book: Vec<u8>,
    pub sheet: [u8; SHEET_BYTES],
    pub field: usize,
    pub code: usize,
    pub table: usize,
}

impl Question {
    fn row(&self, code: usize) -> Option<u64> {
        engine::row(&self.sheet, &self.book, self.field, code, self.table).expect("accepted")
    }
}

/// For the first field of the last table, so that the walk to its place is the longest: the code of the reading, which stands.
pub fn standing(family: &Family, n: usize) -> Question {
    let book = check(&family.book).expect("accepted");
    let table = book.view.tables - 1;
    let field = book.view.field(book.tables[table], 0);
    Question {
        book_name: family.name,
        n,
        what: "a code that stands",
        book: family.book.clone(),
        sheet: family.sheet(n),
        field,
        code: family.sheet(family.fields())[field] as usize,
        table,
    }
}

/// For the same field and table the lowest code without a row, where there is one.
fn without_row(family: &Family, n: usize) -> Option<Question> {
    let question = standing(family, n);
    let codes = check(&family.book).expect("accepted").view.codes(question.field);
    let code = (0..codes).find(|&code| question.row(code).is_none())?;
    Some(Question { what: "a code without a row", code, ..question })
}

/// A family's book without answers, with two, and with all fields answered.
pub fn of_family(family: &Family) -> Vec<Question> {
    let each = |n| [Some(standing(family, n)), without_row(family, n)];
    [0, 2, family.fields()].into_iter().flat_map(each).flatten().collect()
}

const ONE_TABLE: &str = "1 table of 4,096 rows";
const ROWS: usize = 4_096;

/// Random rows in which field 0 has code 31 in the last row alone, and code 30 in none. Nothing is answered, so the filtering looks
/// for rows of both codes too.
fn random_rows() -> impl Iterator<Item = Question> {
    let mut r = Random(8);
    let counts = [CODES as u8; 4];
    let below = [CODES as u8 - 2; 4];
    let mut rows: Vec<Vec<u8>> = (0..ROWS).map(|_| r.reading(&below)).collect();
    rows[ROWS - 1][0] = CODES as u8 - 1;
    let of_first = rows[0][0] as usize;
    let book = bytes(1, &counts, &[(vec![0, 1, 2, 3], rows)]);
    let codes = [("a code of row 0", of_first), ("a code of the last row alone", CODES - 1), ("a code of no row", CODES - 2)];
    codes.into_iter().map(move |(what, code)| Question {
        book_name: ONE_TABLE,
        n: 0,
        what,
        book: book.clone(),
        sheet: unphotographed([NO_ANSWER; PLACES]),
        field: 0,
        code,
        table: 0,
    })
}

/// All fields are answered as row 0 says, so the filtering is content with that row. The question, for the other code of field 0,
/// meets rows that it gives up at their last code alone; the last row is one of these, or the one that is found.
fn dearest(what: &'static str, last: [u8; 4]) -> Question {
    let mut rows = vec![vec![0, 0, 0, 1]; ROWS];
    rows[0] = vec![1, 0, 0, 0];
    rows[ROWS - 1] = last.to_vec();
    let table: Table = (vec![0, 1, 2, 3], rows);
    let mut sheet = unphotographed([NO_ANSWER; PLACES]);
    sheet[..4].copy_from_slice(&[1, 0, 0, 0]);
    Question { book_name: ONE_TABLE, n: 4, what, book: bytes(1, &[2; 4], &[table]), sheet, field: 0, code: 0, table: 0 }
}

/// Where in a long table the row stands.
pub fn of_one_table() -> Vec<Question> {
    let given_up = "no row, each given up at its last code";
    let found = "the last row, the others given up at their last code";
    random_rows().chain([dearest(given_up, [0, 0, 0, 1]), dearest(found, [0, 0, 0, 0])]).collect()
}
