//! Seeded books for the row behind a code: one table has a row that keeps a code at a chosen place, behind rows with other codes and
//! rows with the code beside one that another table strikes.

use crate::book::{field_limit, Book, Table};
use crate::random::{fields_of, Random};

const MOST_ROWS: usize = 4_096;
const MOST_TABLES: usize = 64;

/// The fields of a table, the row that keeps a code, the code's column, and for each column a code that may be struck.
struct Aim {
    fields: Vec<u8>,
    column: usize,
    kept: Vec<u8>,
    struck: Vec<u8>,
}

pub fn book(r: &mut Random) -> Book {
    let (arity, is_full) = (r.from(1, 4), r.one_in(16));
    let counts = if is_full { vec![32; field_limit(2)] } else { counts(r, arity) };
    let aim = Aim::some(r, &counts, arity);
    let mut tables = aim.strikes(r, &counts);
    if is_full {
        tables.extend(aim.strikes_elsewhere(&counts));
    } else if r.one_in(8) {
        tables.resize_with(MOST_TABLES - 1, || filler(r, &counts));
    }
    let place = place(r);
    if place + 1 == MOST_ROWS {
        tables.clear();
    }
    let room = MOST_ROWS - tables.iter().map(|table| table.rows.len()).sum::<usize>();
    let aimed = aim.table(r, &counts, place, room);
    let position = [0, r.from(0, tables.len()), tables.len(), tables.len()][r.from(0, 3)];
    tables.insert(position, aimed);
    Book::new(counts, tables)
}

/// As many fields as the table asks for and a few more, or the most of version 2.
fn counts(r: &mut Random, arity: usize) -> Vec<u8> {
    let fields = if r.one_in(4) { field_limit(2) } else { arity + r.from(0, 2) };
    (0..fields).map(|_| if r.one_in(8) { 32 } else { r.from(2, 6) as u8 }).collect()
}

/// How many rows stand before the one that keeps the code: about as many as a byte counts, the most, or fewer.
fn place(r: &mut Random) -> usize {
    match r.from(0, 99) {
        0..=1 => MOST_ROWS - 1,
        2..=3 => [511, 512, 1_000, 2_048, 4_094][r.from(0, 4)],
        4..=27 => [254, 255, 255, 256, 256, 257, 300][r.from(0, 6)],
        28..=43 => r.from(10, 60),
        _ => r.from(0, 9),
    }
}

/// All codes of some field, in any order, so that nothing is struck.
fn filler(r: &mut Random, counts: &[u8]) -> Table {
    let field = r.from(0, counts.len() - 1);
    one_field(r, field as u8, 0..counts[field])
}

/// A table on this field alone with these codes.
fn one_field(r: &mut Random, field: u8, codes: impl Iterator<Item = u8>) -> Table {
    let mut rows: Vec<Vec<u8>> = codes.map(|code| vec![code]).collect();
    r.shuffle(&mut rows);
    Table { fields: vec![field], rows }
}

/// Another code of a field with so many.
fn another(r: &mut Random, code: u8, count: u8) -> u8 {
    (code + r.from(1, count as usize - 1) as u8) % count
}

impl Aim {
    /// On any fields, or on the last.
    fn some(r: &mut Random, counts: &[u8], arity: usize) -> Aim {
        let last = (counts.len() - arity..counts.len()).map(|field| field as u8).collect();
        let fields: Vec<u8> = if r.one_in(2) { last } else { fields_of(r, counts.len(), arity) };
        let of = |column: usize| counts[fields[column] as usize];
        let kept: Vec<u8> = (0..arity).map(|column| r.from(0, of(column) as usize - 1) as u8).collect();
        let struck = (0..arity).map(|column| another(r, kept[column], of(column))).collect();
        Aim { column: r.from(0, arity - 1), fields, kept, struck }
    }

    /// Tables that strike a code of each column beside the aimed one, and in some books the aimed code too.
    fn strikes(&self, r: &mut Random, counts: &[u8]) -> Vec<Table> {
        let mut tables = Vec::new();
        for (column, &field) in self.fields.iter().enumerate() {
            let struck = if column == self.column { self.kept[column] } else { self.struck[column] };
            if column != self.column || r.one_in(4) {
                tables.push(one_field(r, field, (0..counts[field as usize]).filter(|&code| code != struck)));
            }
        }
        tables
    }

    /// Tables that leave each field that is not in the table one code, so that the most codes are struck.
    fn strikes_elsewhere(&self, counts: &[u8]) -> Vec<Table> {
        let fields = (0..counts.len() as u8).filter(|field| !self.fields.contains(field));
        fields.map(|field| Table { fields: vec![field], rows: vec![vec![0]] }).collect()
    }

    /// The row that keeps the code behind so many that do not, as far as there is room; in some tables it is missing, and behind it are
    /// mostly repeats of it or other rows.
    fn table(&self, r: &mut Random, counts: &[u8], place: usize, room: usize) -> Table {
        let mut rows: Vec<Vec<u8>> = (0..place).map(|_| self.decoy(r, counts)).collect();
        if !r.one_in(6) {
            rows.push(self.kept.clone());
        }
        for _ in 0..r.from(0, 3) {
            let behind = if r.one_in(2) { self.kept.clone() } else { self.behind(r, counts) };
            rows.push(behind);
        }
        rows.truncate(room);
        Table { fields: self.fields.clone(), rows }
    }

    /// The row that keeps the code but for a struck code in another column, or but for the code.
    fn decoy(&self, r: &mut Random, counts: &[u8]) -> Vec<u8> {
        let (mut row, other) = (self.kept.clone(), r.from(0, self.kept.len() - 1));
        row[other] = if other == self.column {
            another(r, self.kept[other], counts[self.fields[other] as usize])
        } else {
            self.struck[other]
        };
        row
    }

    /// A row with the code and any others.
    fn behind(&self, r: &mut Random, counts: &[u8]) -> Vec<u8> {
        let any = |r: &mut Random, column: usize| r.from(0, counts[self.fields[column] as usize] as usize - 1) as u8;
        (0..self.kept.len()).map(|column| if column == self.column { self.kept[column] } else { any(r, column) }).collect()
    }
}

#[cfg(test)]
mod tests {
    use super::book;
    use crate::filter::largest;
    use crate::random::Random;
    use crate::reader::Reader;
    use crate::row::{first_row, Pointed};
    use crate::sheet::NO_ANSWER;

    #[test]
    fn rows_far_down_are_kept_and_none() {
        let (reader, mut r) = (Reader::default(), Random(1));
        let mut found = Vec::new();
        for _ in 0..500 {
            let book = book(&mut r);
            assert_eq!(reader.read(&book.write()), Ok(book.clone()));
            let answers = vec![NO_ANSWER; book.counts.len()];
            let table = (0..book.tables.len()).max_by_key(|&table| book.tables[table].rows.len()).expect("it has a table");
            let field = book.tables[table].fields[0] as usize;
            let codes = 0..book.counts[field] as usize;
            found.extend(codes.map(|code| first_row(&book, &answers, largest, Pointed { field, code, table })));
        }
        for row in [None, Some(0), Some(255), Some(256), Some(300), Some(4_095)] {
            assert!(found.contains(&row), "{row:?}");
        }
    }
}
