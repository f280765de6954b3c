//! Seeded books of more fields than version 1 allows: what holds behind its limit, and at the last field of all.

use crate::book::{field_limit, Book, Table};
use crate::parts;
use crate::random::{allow_a_reading, row_of, table_of, Random};

pub fn book(r: &mut Random) -> Book {
    let fields = number(r);
    let mut book = match r.from(0, 15) {
        0..=5 => parts::of_fields(r, fields),
        6..=9 => chain(r, fields),
        10..=11 => scattered(r, fields),
        _ => full(r),
    };
    if r.one_in(3) {
        limit_one(r, &mut book);
    }
    book
}

/// One field more than version 1 allows, as many as version 2 allows or one less, or any number between them.
fn number(r: &mut Random) -> usize {
    let (least, most) = (field_limit(1) + 1, field_limit(2));
    match r.from(0, 7) {
        0 => least,
        1 => most - 1,
        2..=4 => most,
        _ => r.from(least, most),
    }
}

/// Where a run of so many fields begins: it lies across version 1's limit, behind it, or at the end.
fn first_of(r: &mut Random, length: usize, fields: usize) -> usize {
    let (limit, last) = (field_limit(1), fields - length);
    match r.from(0, 3) {
        0 => r.from(limit - length + 1, limit - 1).min(last),
        1 => last,
        _ => r.from(limit.min(last), last),
    }
}

/// Each field of a run has the code of the one before it, so that strikes go from one field to the next; the others have no table.
fn chain(r: &mut Random, fields: usize) -> Book {
    let (length, codes) = (r.from(2, 6), r.from(2, 4) as u8);
    let first = first_of(r, length, fields);
    let mut counts: Vec<u8> = (0..fields).map(|_| r.from(1, 3) as u8).collect();
    counts[first..first + length].fill(codes);
    let equal = |f: usize| Table { fields: vec![f as u8, f as u8 + 1], rows: (0..codes).map(|c| vec![c, c]).collect() };
    let mut tables: Vec<Table> = (first..first + length - 1).map(equal).collect();
    r.shuffle(&mut tables);
    Book::new(counts, tables)
}

/// A few tables on any fields, by which a full reading is possible.
fn scattered(r: &mut Random, fields: usize) -> Book {
    let counts: Vec<u8> = (0..fields).map(|_| r.from(1, 4) as u8).collect();
    let tables = (0..r.from(1, 8)).map(|_| {
        let rows = r.from(1, 10);
        table_of(r, &counts, rows)
    });
    let tables = tables.collect();
    let mut book = Book::new(counts, tables);
    allow_a_reading(r, &mut book);
    book
}

/// The most codes, so that lists and counts are longest: with no table, or with every field in one table of few rows or of none.
fn full(r: &mut Random) -> Book {
    let counts = vec![32; field_limit(2)];
    let all: Vec<u8> = (0..counts.len() as u8).collect();
    let rows = r.one_of(&[0, 1, 2]);
    let tables = all.chunks(4).map(|fields| {
        let rows = (0..rows).map(|_| row_of(r, &counts, fields)).collect();
        Table { fields: fields.to_vec(), rows }
    });
    let tables = tables.collect();
    Book::new(counts, if r.one_in(2) { Vec::new() } else { tables })
}

/// One more table, with no row or one, on the field before version 1's limit, behind it, or at the end.
fn limit_one(r: &mut Random, book: &mut Book) {
    let field = r.one_of(&[field_limit(1) - 1, field_limit(1), book.counts.len() - 1, book.counts.len() - 1]) as u8;
    let rows = (0..r.from(0, 1)).map(|_| row_of(r, &book.counts, &[field])).collect();
    book.tables.push(Table { fields: vec![field], rows });
}

#[cfg(test)]
mod tests {
    use super::book;
    use crate::book::field_limit;
    use crate::random::Random;
    use crate::reader::Reader;

    #[test]
    fn each_book_has_fields_that_version_1_lacks() {
        let (reader, mut r) = (Reader::default(), Random(1));
        for _ in 0..500 {
            let book = book(&mut r);
            assert!((field_limit(1) + 1..=field_limit(2)).contains(&book.counts.len()));
            assert_eq!(reader.read(&book.write()), Ok(book));
        }
    }
}
