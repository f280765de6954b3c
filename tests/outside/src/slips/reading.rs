//! Wrong readers: document 01's tests in another order, with another limit, or not made.

use super::{Listed, Wrong::Part};
use crate::book::Book;
use crate::desk::Desk;
use crate::reader::{codes_outside, length_outside, tables_above, Stage, TableTest, Test};

/// Each shows wherever a book is read, and best in the call that does nothing else.
const fn of(name: &'static str, exchange: fn(&mut Desk)) -> Listed {
    (name, &["read"], Part(exchange))
}

pub const SLIPS: &[Listed] = &[
    of("2 tested before 1", |desk| desk.reader.stages.swap(0, 1)),
    of("3 tested before 2", |desk| desk.reader.stages.swap(1, 2)),
    of("4 tested before 3", |desk| desk.reader.stages.swap(2, 3)),
    of("5 tested before 4", |desk| desk.reader.stages.swap(3, 4)),
    of("6 tested before 5", |desk| desk.reader.stages.swap(4, 5)),
    of("7 tested before 6", |desk| desk.reader.stages.swap(5, 6)),
    of("8 to 12 tested before 7", |desk| desk.reader.stages.swap(6, 7)),
    of("9 tested before the 8 of no byte", |desk| desk.reader.table_tests().swap(0, 1)),
    of("the head's 8 tested before 9", |desk| desk.reader.table_tests().swap(1, 2)),
    of("10 tested before the head's 8", |desk| desk.reader.table_tests().swap(2, 3)),
    of("the rows' 8 tested before 10", |desk| desk.reader.table_tests().swap(3, 4)),
    of("12 tested before the rows' 8", |desk| desk.reader.table_tests().swap(4, 5)),
    of("11 tested before 12", |desk| desk.reader.table_tests().swap(5, 6)),
    of("11 tested when all tables have passed the other tests", codes_last),
    of("exactly 6 bytes refused by 1", |desk| whole(desk, 0, |bytes| length_outside(bytes, 7..=32_768))),
    of("exactly 32,768 bytes refused by 1", |desk| whole(desk, 0, |bytes| length_outside(bytes, 6..=32_767))),
    of("32,769 bytes read", |desk| whole(desk, 0, |bytes| length_outside(bytes, 6..=32_769))),
    of("64 tables refused by 5", |desk| whole(desk, 4, |bytes| tables_above(bytes, 63))),
    of("65 tables read", |desk| whole(desk, 4, |bytes| tables_above(bytes, 65))),
    of("7 names the last bad field", |desk| whole(desk, 6, |bytes| codes_outside(bytes, 1..=32).last().copied())),
    of("32 codes refused by 7", |desk| whole(desk, 6, |bytes| codes_outside(bytes, 1..=31).first().copied())),
    of("33 codes read", |desk| whole(desk, 6, |bytes| codes_outside(bytes, 1..=33).first().copied())),
    of("a field of no codes read", |desk| whole(desk, 6, |bytes| codes_outside(bytes, 0..=32).first().copied())),
    of("a head one byte short read", |desk| table(desk, 2, |table| table.head_short_by(1))),
    of("a field number equal to the one before it read", |desk| table(desk, 3, |table| table.fields_not_rising_by(0))),
    of("4,096 rows refused by 12", |desk| table(desk, 5, |table| table.rows_above(4_095, table.rows_before))),
    of("4,097 rows read", |desk| table(desk, 5, |table| table.rows_above(4_097, table.rows_before))),
    of("the rows of each table counted by themselves", |desk| table(desk, 5, |table| table.rows_above(4_096, 0))),
    of("row 4,096 of a table not tested by 11", |desk| table(desk, 6, |table| table.bad_code_in(4_095))),
    of("the top bit of a row count ignored", |desk| desk.reader.rows = |bytes| u16::from_le_bytes(bytes) as usize & 0x7FFF),
    of("the high byte of a row count first", |desk| desk.reader.rows = |bytes| u16::from_be_bytes(bytes) as usize),
    of("13 not tested", |desk| desk.reader.stages.truncate(8)),
    of("row 4,096 of a table not counted as different", |desk| desk.different_rows = |book| first_rows(book).different_rows()),
    of("a repeated row counted each time as different", |desk| desk.different_rows = Book::rows),
    of("a row repeated in another table not counted as different", |desk| desk.different_rows = different_in_all),
];

pub fn whole(desk: &mut Desk, stage: usize, test: Test) {
    desk.reader.stages[stage] = Stage::Whole(test);
}

pub fn table(desk: &mut Desk, place: usize, test: TableTest) {
    desk.reader.table_tests()[place] = test;
}

/// Goes over all tables with the other tests, and then over all of them with the test of the codes.
fn codes_last(desk: &mut Desk) {
    let codes = desk.reader.table_tests().pop().expect("the last test is that of the codes");
    desk.reader.stages.insert(8, Stage::Tables(vec![codes]));
}

/// The book without row 4,096 of each table.
pub fn first_rows(book: &Book) -> Book {
    let mut first = book.clone();
    first.tables.iter_mut().for_each(|table| table.rows.truncate(4_095));
    first
}

fn different_in_all(book: &Book) -> usize {
    let mut rows: Vec<_> = book.tables.iter().flat_map(|table| table.rows.iter().map(|row| (&table.fields, row))).collect();
    rows.sort();
    rows.dedup();
    rows.len()
}
