//! What tables show of document 02's M-102: how many rows they have, how these differ, and in which order they stand.

use std::collections::HashSet;
use std::ops::RangeInclusive;

use crate::book::Book;

type Rows = [Vec<u8>];

/// A shape of a table: its name, how often it has to be reached in a run of 52,500 cases, how many rows the table has, and what has it.
type TableShape = (&'static str, u64, RangeInclusive<usize>, fn(&Rows) -> bool);

/// A shape of a book in the same way.
type BookShape = (&'static str, u64, fn(&Book) -> bool);

/// More rows than a library compares where they stand, and no more than it holds against each other.
const FEW: RangeInclusive<usize> = 17..=64;

/// More rows than a library need hold against each other.
const LARGE: RangeInclusive<usize> = 65..=4_096;

const TABLES: [TableShape; 69] = [
    ("no rows", 850, 0..=0, |_| true),
    ("1 row", 1_000, 1..=1, |_| true),
    ("2 rows", 1_500, 2..=2, |_| true),
    ("15 rows", 75, 15..=15, |_| true),
    ("16 rows, in no order", 85, 16..=16, in_no_order),
    ("16 rows, rising", 7, 16..=16, rise),
    ("16 rows, falling", 2, 16..=16, fall),
    ("16 rows, all equal", 20, 16..=16, |rows| different(rows) == 1),
    ("16 rows, all different", 4, 16..=16, |rows| different(rows) == 16),
    ("16 rows with one repeat, next to its row", 3, 16..=16, one_repeat_next),
    ("16 rows with one repeat, from the first to the last", 2, 16..=16, one_repeat_far),
    ("16 rows, parting in the last column alone", 3, 16..=16, part_at_last),
    ("17 rows, in no order", 95, 17..=17, in_no_order),
    ("17 rows, rising", 5, 17..=17, rise),
    ("17 rows, falling", 6, 17..=17, fall),
    ("17 rows, all equal", 20, 17..=17, |rows| different(rows) == 1),
    ("17 rows, all different", 6, 17..=17, |rows| different(rows) == 17),
    ("17 rows with one repeat, from the first to the last", 2, 17..=17, one_repeat_far),
    ("18 rows", 75, 18..=18, |_| true),
    ("63 rows", 50, 63..=63, |_| true),
    ("64 rows", 60, 64..=64, |_| true),
    ("65 rows", 50, 65..=65, |_| true),
    ("66 rows", 35, 66..=66, |_| true),
    ("128 rows", 10, 128..=128, |_| true),
    ("255 rows", 10, 255..=255, |_| true),
    ("256 rows", 15, 256..=256, |_| true),
    ("257 rows", 15, 257..=257, |_| true),
    ("1000 rows", 9, 1_000..=1_000, |_| true),
    ("4095 rows", 15, 4_095..=4_095, |_| true),
    ("4096 rows in no order", 9, 4_096..=4_096, in_no_order),
    ("4096 rows that rise", 3, 4_096..=4_096, rise),
    ("4096 rows that fall", 1, 4_096..=4_096, fall),
    ("4096 equal rows", 3, 4_096..=4_096, |rows| different(rows) == 1),
    ("4096 different rows", 3, 4_096..=4_096, |rows| different(rows) == 4_096),
    ("17 to 64 rows, in no order", 750, FEW, in_no_order),
    ("17 to 64 rows, rising", 40, FEW, rise),
    ("17 to 64 rows, falling", 25, FEW, fall),
    ("17 to 64 rows, all equal", 145, FEW, |rows| different(rows) == 1),
    ("17 to 64 rows, all different", 45, FEW, |rows| different(rows) == rows.len()),
    ("17 to 64 rows, rising but for a first row that comes again", 20, FEW, rise_but_for_first),
    ("17 to 64 rows, rising but for a last row that was there", 18, FEW, rise_but_for_last),
    ("17 to 64 rows, rising but for a new first row", 3, FEW, rise_but_for_new_first),
    ("17 to 64 rows, rising but for a new last row", 4, FEW, rise_but_for_new_last),
    ("17 to 64 rows with one repeat, next to its row", 18, FEW, one_repeat_next),
    ("17 to 64 rows with one repeat, from the first to the last", 9, FEW, one_repeat_far),
    ("large in one column", 60, LARGE, |rows| rows[0].len() == 1),
    ("large in two columns", 60, LARGE, |rows| rows[0].len() == 2),
    ("large in three columns", 100, LARGE, |rows| rows[0].len() == 3),
    ("large in four columns", 100, LARGE, |rows| rows[0].len() == 4),
    ("large, in no order", 150, LARGE, in_no_order),
    ("large, rising", 25, LARGE, rise),
    ("large, falling", 25, LARGE, fall),
    ("large, all equal", 85, LARGE, |rows| different(rows) == 1),
    ("large, all different", 10, LARGE, |rows| different(rows) == rows.len()),
    ("large, rising but for a first row that comes again", 15, LARGE, rise_but_for_first),
    ("large, rising but for a last row that was there", 25, LARGE, rise_but_for_last),
    ("large, rising but for a new first row", 1, LARGE, rise_but_for_new_first),
    ("large, rising but for a new last row", 1, LARGE, rise_but_for_new_last),
    ("large, rising in each half and with repeats between them", 15, LARGE, rise_in_halves),
    ("large with one repeat, next to its row", 5, LARGE, one_repeat_next),
    ("large with one repeat, from the first to the last", 5, LARGE, one_repeat_far),
    ("large, parting in the first column alone", 4, LARGE, |rows| part_in(rows, 0)),
    ("large, parting in the second column alone", 4, LARGE, |rows| part_in(rows, 1)),
    ("large, parting in the third column alone", 3, LARGE, |rows| part_in(rows, 2)),
    ("large, parting in the fourth column alone", 2, LARGE, |rows| part_in(rows, 3)),
    ("large, the same codes in other columns", 20, LARGE, |rows| part(rows) && alike(rows, sorted)),
    ("large, other codes with the same sum", 15, LARGE, |rows| !alike(rows, sorted) && alike(rows, sum)),
    ("large, a code 256 times in a column and others too", 40, LARGE, |rows| (0..rows[0].len()).any(|k| code_too_often(rows, k))),
    ("large, of codes 0 and 31", 7, LARGE, |rows| part(rows) && rows.concat().iter().all(|code| [0, 31].contains(code))),
];

const BOOKS: [BookShape; 5] = [
    ("64 tables of 64 rows, in one column and in more", 4, |book| {
        let columns: HashSet<usize> = book.tables.iter().map(|table| table.fields.len()).collect();
        book.tables.len() == 64 && tables(book).all(|rows| rows.len() == 64) && columns.contains(&1) && columns.len() > 1
    }),
    ("4096 rows in three large tables", 4, |book| book.rows() == 4_096 && large(book).count() == 3),
    ("a large table behind a larger one", 10, |book| {
        large(book).zip(large(book).skip(1)).any(|(first, second)| first.len() > second.len())
    }),
    ("a row in two tables", 3_000, |book| in_two_tables(book, <[u8]>::to_vec)),
    ("a row in a table, and with a 0 behind it in another", 1_500, |book| in_two_tables(book, |row| [row, &[0]].concat())),
];

/// The names of all shapes, and how often each has to be reached.
pub fn asked() -> impl Iterator<Item = (&'static str, u64)> {
    let of_tables = TABLES.iter().map(|(name, least, ..)| (*name, *least));
    of_tables.chain(BOOKS.iter().map(|(name, least, _)| (*name, *least)))
}

/// The names of the shapes that a book has.
pub fn shapes(book: &Book) -> impl Iterator<Item = &'static str> + '_ {
    let some =
        |sizes: &RangeInclusive<usize>, has: fn(&Rows) -> bool| tables(book).any(|rows| sizes.contains(&rows.len()) && has(rows));
    let of_tables = TABLES.iter().filter(move |(_, _, sizes, has)| some(sizes, *has)).map(|(name, ..)| *name);
    of_tables.chain(BOOKS.iter().filter(|(_, _, has)| has(book)).map(|(name, ..)| *name))
}

fn tables(book: &Book) -> impl Iterator<Item = &Rows> {
    book.tables.iter().map(|table| &table.rows[..])
}

fn large(book: &Book) -> impl Iterator<Item = &Rows> {
    tables(book).filter(|rows| LARGE.contains(&rows.len()))
}

fn different(rows: &Rows) -> usize {
    rows.iter().collect::<HashSet<_>>().len()
}

/// Not all are equal.
fn part(rows: &Rows) -> bool {
    rows.iter().any(|row| *row != rows[0])
}

fn rise(rows: &Rows) -> bool {
    part(rows) && rows.is_sorted()
}

fn fall(rows: &Rows) -> bool {
    part(rows) && rows.iter().rev().is_sorted()
}

fn in_no_order(rows: &Rows) -> bool {
    part(rows) && !rise(rows) && !fall(rows)
}

fn rise_but_for_first(rows: &Rows) -> bool {
    !rise(rows) && rise(&rows[1..]) && rows[1..].contains(&rows[0])
}

fn rise_but_for_last(rows: &Rows) -> bool {
    let last = rows.len() - 1;
    !rise(rows) && rise(&rows[..last]) && rows[..last].contains(&rows[last])
}

fn rise_but_for_new_first(rows: &Rows) -> bool {
    !rise(rows) && rise(&rows[1..]) && !rows[1..].contains(&rows[0])
}

fn rise_but_for_new_last(rows: &Rows) -> bool {
    let last = rows.len() - 1;
    !rise(rows) && rise(&rows[..last]) && !rows[..last].contains(&rows[last])
}

fn rise_in_halves(rows: &Rows) -> bool {
    let (first, second) = rows.split_at(rows.len().div_ceil(2));
    !rise(rows) && rise(first) && rise(second) && second.iter().any(|row| first.binary_search(row).is_ok())
}

fn one_repeat(rows: &Rows) -> bool {
    different(rows) + 1 == rows.len()
}

fn one_repeat_next(rows: &Rows) -> bool {
    rows.windows(2).any(|pair| pair[0] == pair[1]) && one_repeat(rows)
}

fn one_repeat_far(rows: &Rows) -> bool {
    rows.first() == rows.last() && one_repeat(rows)
}

/// All rows have the same of this.
fn alike<T: PartialEq>(rows: &Rows, of: fn(&[u8]) -> T) -> bool {
    let first = of(&rows[0]);
    rows.iter().all(|row| of(row) == first)
}

fn sorted(row: &[u8]) -> Vec<u8> {
    let mut codes = row.to_vec();
    codes.sort();
    codes
}

fn sum(row: &[u8]) -> u32 {
    row.iter().map(|&code| code as u32).sum()
}

/// The rows are of four codes and differ in this column and in no other.
fn part_in(rows: &Rows, column: usize) -> bool {
    let same = |row: &Vec<u8>| (0..4).all(|k| k == column || row[k] == rows[0][k]);
    rows[0].len() == 4 && part(rows) && rows.iter().all(same)
}

/// The rows are of more than one code and differ in the last alone.
fn part_at_last(rows: &Rows) -> bool {
    let last = rows[0].len() - 1;
    last > 0 && part(rows) && rows.iter().all(|row| row[..last] == rows[0][..last])
}

/// Some code stands in the column so often that no byte counts it, and another one stands there too.
fn code_too_often(rows: &Rows, column: usize) -> bool {
    let times = |code: u8| rows.iter().filter(|row| row[column] == code).count();
    (0..32).any(|code| (256..rows.len()).contains(&times(code)))
}

/// Some row of one table is made by this from a row of another.
fn in_two_tables(book: &Book, made: fn(&[u8]) -> Vec<u8>) -> bool {
    let made: Vec<HashSet<Vec<u8>>> = tables(book).map(|rows| rows.iter().map(|row| made(row)).collect()).collect();
    let others = |i: usize| (0..made.len()).filter(move |&k| k != i);
    tables(book).enumerate().any(|(i, rows)| others(i).any(|k| rows.iter().any(|row| made[k].contains(row))))
}

#[cfg(test)]
mod tests {
    use super::shapes;
    use crate::book::{Book, Table};
    use crate::examples::e1;

    /// The shapes of a book of one table on two fields of 32 codes.
    fn names(rows: &[Vec<u8>]) -> Vec<&'static str> {
        let book = Book::new(vec![32; 2], vec![Table { fields: vec![0, 1], rows: rows.to_vec() }]);
        shapes(&book).collect()
    }

    #[test]
    fn shapes_of_tables() {
        let mut rows: Vec<Vec<u8>> = (0..65).map(|i| vec![i / 32, i % 32]).collect();
        assert_eq!(names(&rows), ["65 rows", "large in two columns", "large, rising", "large, all different"]);
        rows.reverse();
        assert_eq!(names(&rows), ["65 rows", "large in two columns", "large, falling", "large, all different"]);
        rows.sort();
        rows[64] = rows[0].clone();
        let last = ["large, rising but for a last row that was there", "large with one repeat, from the first to the last"];
        assert_eq!(names(&rows), ["65 rows", "large in two columns", "large, in no order", last[0], last[1]]);
        assert_eq!(names(&rows[..64]), ["64 rows", "17 to 64 rows, rising", "17 to 64 rows, all different"]);
        assert_eq!(
            names(&rows[..16]),
            ["16 rows, rising", "16 rows, all different", "16 rows, parting in the last column alone"]
        );
        let few = ["17 to 64 rows, in no order", "17 to 64 rows, all different", "17 to 64 rows, rising but for a new last row"];
        assert_eq!(
            names(&[&rows[1..17], &rows[..1]].concat()),
            [&["17 rows, in no order", "17 rows, all different"], &few[..]].concat()
        );
        rows.fill(vec![0, 31]);
        assert_eq!(names(&rows), ["65 rows", "large in two columns", "large, all equal"]);
        rows[0] = vec![31, 0];
        let codes = ["large, the same codes in other columns", "large, of codes 0 and 31"];
        assert_eq!(names(&rows), ["65 rows", "large in two columns", "large, falling", codes[0], codes[1]]);
    }

    #[test]
    fn rows_in_two_tables() {
        assert_eq!(shapes(&e1()).collect::<Vec<_>>(), ["a row in two tables"]);
        let lone = |arity: u8| Table { fields: (0..arity).collect(), rows: vec![vec![0; arity as usize]] };
        let book = Book::new(vec![1; 3], vec![lone(3), lone(2)]);
        assert_eq!(shapes(&book).collect::<Vec<_>>(), ["1 row", "a row in a table, and with a 0 behind it in another"]);
    }
}
