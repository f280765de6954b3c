//! Seeded books in parts that no table ties to each other: what is empty in one part leaves the codes of the others.

use crate::book::{field_limit, Book, Table};
use crate::examples::e4;
use crate::random::{allow_a_reading, table_of, Random};

/// A few parts, in some books with as many fields beside them as version 1 allows.
pub fn book(r: &mut Random) -> Book {
    let least = if r.one_in(4) { field_limit(1) } else { 0 };
    of_fields(r, least)
}

/// Two to four parts, with fields of no table beside them where there would be fewer fields than this.
pub fn of_fields(r: &mut Random, least: usize) -> Book {
    let mut parts: Vec<Book> = (0..r.from(2, 4)).map(|_| part(r)).collect();
    let fields: usize = parts.iter().map(|part| part.counts.len()).sum();
    parts.extend((fields..least).map(|_| lone(r)));
    joined(r, &parts)
}

fn part(r: &mut Random) -> Book {
    match r.from(0, 7) {
        0..=2 => equal(r),
        3..=4 => related(r),
        5 => e4(),
        6 => lone(r),
        _ => limited(r),
    }
}

/// Two or three fields, each with the code of the one before it.
fn equal(r: &mut Random) -> Book {
    let (fields, codes) = (r.from(2, 3), r.from(2, 4) as u8);
    let table = |f| Table { fields: vec![f, f + 1], rows: (0..codes).map(|c| vec![c, c]).collect() };
    Book::new(vec![codes; fields], (0..fields as u8 - 1).map(table).collect())
}

/// Some tables on one to three fields, by which a full reading is possible where all of them have rows.
fn related(r: &mut Random) -> Book {
    let counts: Vec<u8> = (0..r.from(1, 3)).map(|_| r.from(1, 4) as u8).collect();
    let tables = (0..r.from(1, 3)).map(|_| {
        let rows = if r.one_in(16) { 0 } else { r.from(1, 8) };
        table_of(r, &counts, rows)
    });
    let tables = tables.collect();
    let mut book = Book::new(counts, tables);
    allow_a_reading(r, &mut book);
    book
}

/// One field, and no table.
fn lone(r: &mut Random) -> Book {
    Book::new(vec![r.from(1, 3) as u8], Vec::new())
}

/// One field, and a table on it alone with some of its codes or none.
fn limited(r: &mut Random) -> Book {
    let codes = r.from(1, 4);
    let (rows, first) = (r.from(0, codes - 1), r.from(0, codes - 1));
    let rows = (0..rows).map(|i| vec![((first + i) % codes) as u8]).collect();
    Book::new(vec![codes as u8], vec![Table { fields: vec![0], rows }])
}

/// All parts in one book, with their fields and their tables in any order.
pub fn joined(r: &mut Random, parts: &[Book]) -> Book {
    let fields: usize = parts.iter().map(|part| part.counts.len()).sum();
    let mut places: Vec<u8> = (0..fields as u8).collect();
    r.shuffle(&mut places);
    let mut book = Book::new(vec![0; fields], Vec::new());
    let mut rest = &places[..];
    for part in parts {
        let (own, behind) = rest.split_at(part.counts.len());
        own.iter().zip(&part.counts).for_each(|(&place, &count)| book.counts[place as usize] = count);
        book.tables.extend(part.tables.iter().map(|table| placed(table, own)));
        rest = behind;
    }
    r.shuffle(&mut book.tables);
    book
}

/// The table with its fields at these places of the book. Its columns are put in order, since field numbers rise.
fn placed(table: &Table, places: &[u8]) -> Table {
    let place = |&k: &usize| places[table.fields[k] as usize];
    let mut columns: Vec<usize> = (0..table.fields.len()).collect();
    columns.sort_by_key(place);
    let rows = table.rows.iter().map(|row| columns.iter().map(|&k| row[k]).collect());
    Table { fields: columns.iter().map(place).collect(), rows: rows.collect() }
}

#[cfg(test)]
mod tests {
    use super::{book, placed};
    use crate::book::Table;
    use crate::random::Random;
    use crate::reader::Reader;

    #[test]
    fn columns_follow_their_fields() {
        let table = Table { fields: vec![0, 1, 2], rows: vec![vec![7, 8, 9]] };
        assert_eq!(placed(&table, &[5, 1, 3]), Table { fields: vec![1, 3, 5], rows: vec![vec![8, 9, 7]] });
    }

    #[test]
    fn each_book_is_accepted() {
        let (reader, mut r) = (Reader::default(), Random(1));
        for _ in 0..500 {
            let book = book(&mut r);
            assert_eq!(reader.read(&book.write()), Ok(book));
        }
    }
}
