//! Seeded books for the counting of different rows: how many rows a table has, how they differ, where they are repeated, and in which
//! order they stand.

use std::collections::BTreeSet;

use crate::book::{Book, Table};
use crate::random::{fields_of, Random};

/// Where there is little to count; at and around the most rows that a library compares where they stand, and the most that it holds
/// against each other; about the most that a byte counts; and up to the most of a book.
const LEAST: [usize; 3] = [0, 1, 2];
const SMALL: [usize; 6] = [15, 16, 16, 17, 17, 18];
const FEW: [usize; 4] = [63, 64, 65, 66];
const MORE: [usize; 4] = [128, 255, 256, 257];
const MOST: [usize; 3] = [1_000, 4_095, 4_096];

/// One table with a number of rows at an edge; or a few, with rows of one that come again in another.
pub fn book(r: &mut Random) -> Book {
    if r.one_in(5) {
        return several(r);
    }
    let rows = match r.from(0, 58) {
        0..=3 => r.one_of(&MOST),
        4..=10 => r.one_of(&MORE),
        11..=18 => r.from(67, 127),
        19..=20 => r.one_of(&LEAST),
        21..=36 => r.one_of(&SMALL),
        37..=40 => r.from(19, 62),
        _ => r.one_of(&FEW),
    };
    with_tables(r, &[rows])
}

/// A table for each number of rows. All fields have the same number of codes, so that a row's codes may change places.
pub fn with_tables(r: &mut Random, rows: &[usize]) -> Book {
    let counts = vec![r.one_of(&[3, 8, 17, 32, 32]); r.from(4, 5)];
    let tables = rows.iter().map(|&rows| table(r, &counts, rows)).collect();
    Book::new(counts, tables)
}

/// Three tables of more than 64 rows, with this many rows in all.
pub fn three_large(r: &mut Random, rows: usize) -> Book {
    let (first, second) = (r.from(65, 2_000), r.from(65, 2_000));
    with_tables(r, &[first, second, rows - first - second])
}

/// All 4,096 rows of four fields of eight codes in some order; in some books the first of them is there again for the last.
pub fn every_row(r: &mut Random) -> Book {
    let row = |i: u32| [9, 6, 3, 0].map(|shift| (i >> shift & 7) as u8).to_vec();
    let mut rows: Vec<Vec<u8>> = (0..4_096).map(row).collect();
    if r.one_in(3) {
        repeat(&mut rows, 0, 4_095);
    }
    arrange(r, &mut rows);
    Book::new(vec![8; 4], vec![Table { fields: vec![0, 1, 2, 3], rows }])
}

/// Two to four tables, mostly with the rows of the one before.
fn several(r: &mut Random) -> Book {
    let rows = r.one_of(&[1, 2, 16, 17, 20, 64, 65, 80]);
    let mut book = with_tables(r, &[rows]);
    for _ in 0..r.from(1, 3) {
        let next = match book.tables.last() {
            Some(before) if !r.one_in(4) => again(r, before, book.counts.len()),
            _ => table(r, &book.counts, rows),
        };
        book.tables.push(next);
    }
    book
}

/// The table's rows once more, all or some of them, and in some tables with a code 0 behind each.
fn again(r: &mut Random, table: &Table, fields: usize) -> Table {
    let (mut rows, mut arity) = (table.rows.clone(), table.fields.len());
    r.shuffle(&mut rows);
    rows.truncate(r.from(0, 2 * table.rows.len()));
    if arity < 4 && r.one_in(2) {
        rows.iter_mut().for_each(|row| row.push(0));
        arity += 1;
    }
    Table { fields: fields_of(r, fields, arity), rows }
}

fn table(r: &mut Random, counts: &[u8], rows: usize) -> Table {
    let arity = r.one_of(&[1, 2, 3, 3, 4, 4]);
    let fields = fields_of(r, counts.len(), arity);
    let most = [rows, rows, rows, rows / 2, r.from(1, 8)][r.from(0, 4)];
    let pool = pool(r, arity, counts[0], most.max(1));
    let mut rows = filled(r, &pool, rows);
    arrange(r, &mut rows);
    Table { fields, rows }
}

/// What rows of one kind are made from: one of them, the number of codes, and a column.
struct Origin {
    row: Vec<u8>,
    codes: u8,
    column: usize,
}

/// The kinds of rows that one table has.
const KINDS: [fn(&Origin, &mut Random) -> Vec<u8>; 8] = [
    Origin::any,
    Origin::any,
    Origin::any,
    Origin::at_the_ends,
    Origin::parting,
    Origin::parting,
    Origin::permuted,
    Origin::with_its_sum,
];

impl Origin {
    fn any(&self, r: &mut Random) -> Vec<u8> {
        any_row(r, self.row.len(), self.codes)
    }

    /// The first code or the last in each column.
    fn at_the_ends(&self, r: &mut Random) -> Vec<u8> {
        self.row.iter().map(|_| r.one_of(&[0, self.codes - 1])).collect()
    }

    /// Another code in the one column.
    fn parting(&self, r: &mut Random) -> Vec<u8> {
        let mut row = self.row.clone();
        row[self.column] = any_row(r, 1, self.codes)[0];
        row
    }

    fn permuted(&self, r: &mut Random) -> Vec<u8> {
        let mut row = self.row.clone();
        r.shuffle(&mut row);
        row
    }

    /// Something taken from the one column and added to another.
    fn with_its_sum(&self, r: &mut Random) -> Vec<u8> {
        let (mut row, other) = (self.row.clone(), r.from(0, self.row.len() - 1));
        let moved = r.from(0, row[self.column].min(self.codes - 1 - row[other]) as usize) as u8;
        row[self.column] -= moved;
        row[other] += moved;
        row
    }
}

fn any_row(r: &mut Random, arity: usize, codes: u8) -> Vec<u8> {
    (0..arity).map(|_| r.from(0, codes as usize - 1) as u8).collect()
}

/// Different rows of one kind in any order, mostly as many as asked for where there are so many.
fn pool(r: &mut Random, arity: usize, codes: u8, most: usize) -> Vec<Vec<u8>> {
    let origin = Origin { row: any_row(r, arity, codes), codes, column: r.from(0, arity - 1) };
    let kind = r.one_of(&KINDS);
    let mut rows = BTreeSet::from([kind(&origin, r)]);
    for _ in 0..2 * most {
        if rows.len() < most {
            rows.insert(kind(&origin, r));
        }
    }
    let mut rows: Vec<Vec<u8>> = rows.into_iter().collect();
    r.shuffle(&mut rows);
    rows
}

/// So many rows of the pool: all of them again and again, so that repeats stand far apart; the same but for the last, which is the first
/// again; any; or one alone.
fn filled(r: &mut Random, pool: &[Vec<u8>], rows: usize) -> Vec<Vec<u8>> {
    let mut filled: Vec<Vec<u8>> = pool.iter().cycle().take(rows).cloned().collect();
    match r.from(0, 9) {
        0..=2 => {}
        3..=6 => repeat(&mut filled, 0, rows.saturating_sub(1)),
        7 => filled.iter_mut().for_each(|row| row.clone_from(&pool[r.from(0, pool.len() - 1)])),
        _ => filled.fill(pool[0].clone()),
    }
    filled
}

/// Puts the row of one place in another too, where there are so many rows.
fn repeat(rows: &mut [Vec<u8>], from: usize, to: usize) {
    if from.max(to) < rows.len() {
        rows[to] = rows[from].clone();
    }
}

/// Leaves the rows, or puts them in another order: any, rising in each half, or rising in all or nearly all.
fn arrange(r: &mut Random, rows: &mut [Vec<u8>]) {
    match r.from(0, 11) {
        0..=3 => {}
        4 => r.shuffle(rows),
        5 => rows.chunks_mut(rows.len().div_ceil(2).max(1)).for_each(<[_]>::sort),
        _ => arrange_rising(r, rows),
    }
}

/// Rising or falling, so that a repeat stands next to its row; or rising but for the first row or the last, which is repeated elsewhere
/// or belongs at the other end.
fn arrange_rising(r: &mut Random, rows: &mut [Vec<u8>]) {
    let last = rows.len().saturating_sub(1);
    let some = r.from(0, last);
    rows.sort();
    match r.from(0, 7) {
        0..=1 => {}
        2..=3 => rows.reverse(),
        4 => repeat(rows, some, 0),
        5 => repeat(rows, some, last),
        6 => rows.rotate_left(last.min(1)),
        _ => rows.rotate_right(last.min(1)),
    }
}

#[cfg(test)]
mod tests {
    use super::{book, every_row, three_large};
    use crate::book::{refuse, Book};
    use crate::random::Random;
    use crate::reader::Reader;

    #[test]
    fn books_of_4096_rows_at_most_are_accepted() {
        let (reader, mut r) = (Reader::default(), Random(1));
        let accepted = |book: Book| assert_eq!(reader.read(&book.write()), Ok(book));
        (0..500).for_each(|_| accepted(book(&mut r)));
        (0..10).for_each(|_| accepted(three_large(&mut r, 4_096)));
        let mut above = three_large(&mut r, 4_097);
        let refused = reader.read(&above.write());
        above.tables.pop();
        let behind_two = above.write().len() - above.counts.len() - 6;
        assert_eq!(refused, refuse(12, behind_two));
    }

    #[test]
    fn every_row_once_or_all_but_one() {
        let mut r = Random(1);
        let different: Vec<usize> = (0..20).map(|_| every_row(&mut r).different_rows()).collect();
        assert!(different.contains(&4_096) && different.contains(&4_095));
    }
}
