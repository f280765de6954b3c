//! Seeded calls for the row behind a code.

use crate::book::Book;
use crate::calls::Call;
use crate::filter::largest;
use crate::random::Random;
use crate::row::Pointed;
use crate::sheet::Sheet;

/// Of more rows than this, the last are often asked for.
const MANY: usize = 200;

/// One for a code of a field and a table with the field; and one of which any number may be none of the book's, or the field not in the
/// table.
pub fn rows(r: &mut Random, book: &Book, sheet: &Sheet) -> [Call; 2] {
    [pointed(r, book, sheet), flawed(r, book, sheet)].map(|Pointed { field, code, table }| Call::Row { field, code, table })
}

/// Where the book has no table, the code of some field.
fn pointed(r: &mut Random, book: &Book, sheet: &Sheet) -> Pointed {
    let Some(table) = some_table(r, book) else {
        return elsewhere(r, book, 0);
    };
    let of = &book.tables[table];
    if of.rows.len() > MANY && r.one_in(2) {
        return furthest(book, sheet, table);
    }
    let column = r.from(0, of.fields.len() - 1);
    let field = of.fields[column] as usize;
    let code = match (r.from(0, 5), of.rows.len()) {
        (0, _) | (_, 0) => some_code(r, book, field),
        (1..=2, rows) => of.rows[rows - 1][column] as usize,
        (_, rows) => of.rows[r.from(0, rows - 1)][column] as usize,
    };
    Pointed { field, code, table }
}

/// Of all codes of the table's fields, one whose row stands furthest down.
fn furthest(book: &Book, sheet: &Sheet, table: usize) -> Pointed {
    let (standing, of) = (largest(book, &sheet.answers), &book.tables[table]);
    // in a book to be refused a row may have a code that its field lacks
    let stands = |field: usize, code: usize| standing[field].get(code).is_some_and(|&stands| stands);
    let row = |asked: &Pointed| of.rows.iter().position(|row| asked.is_kept(of, row, stands));
    let codes = |&field: &u8| (0..book.counts[field as usize] as usize).map(move |code| (field as usize, code));
    let asked = of.fields.iter().flat_map(codes).map(|(field, code)| Pointed { field, code, table });
    asked.max_by_key(row).expect("a table has a field, and a field a code")
}

/// The last table, one with the most rows, or any.
fn some_table(r: &mut Random, book: &Book) -> Option<usize> {
    let last = book.tables.len().checked_sub(1)?;
    let largest = (0..=last).max_by_key(|&table| book.tables[table].rows.len())?;
    Some([last, largest, r.from(0, last), r.from(0, last)][r.from(0, 3)])
}

pub fn some_code(r: &mut Random, book: &Book, field: usize) -> usize {
    r.from(0, book.counts[field] as usize - 1)
}

/// A code of any field, whether it is in the table or not.
fn elsewhere(r: &mut Random, book: &Book, table: usize) -> Pointed {
    let field = r.from(0, book.counts.len() - 1);
    Pointed { field, code: some_code(r, book, field), table }
}

fn flawed(r: &mut Random, book: &Book, sheet: &Sheet) -> Pointed {
    let mut asked = pointed(r, book, sheet);
    if r.one_in(3) {
        asked = elsewhere(r, book, asked.table);
    }
    let codes = book.counts[asked.field] as usize;
    if r.one_in(4) {
        asked.field = beyond(r, asked.field, book.counts.len());
    }
    if r.one_in(4) {
        asked.code = beyond(r, asked.code, codes);
    }
    if r.one_in(3) {
        asked.table = beyond(r, asked.table, book.tables.len());
    }
    asked
}

/// No number below the count: the next ones, the ends of a byte, the largest, or one that is equal to this number in its low bits.
pub fn beyond(r: &mut Random, number: usize, count: usize) -> usize {
    let low = [8, 16, 16, 32, 32, 63].map(|bit| number + (1 << bit));
    match r.from(0, 9) {
        0..=1 => count,
        2 => count + r.from(1, 64),
        3 => 255,
        4 => 256,
        5 => usize::MAX - [0, 0, r.from(1, 255)][r.from(0, 2)],
        _ => r.one_of(&low),
    }
}
