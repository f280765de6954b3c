//! Wrong results of joining two books, after document 02's M-109: rows of other tables, in another order or more than once, tables on
//! other lists of fields, left out or in another order, and other versions.

use std::collections::{BTreeMap, HashSet};

use super::{Listed, Wrong::Joined};
use crate::book::{field_limit, Book, Table};
use crate::joining::joined;

type Rows = Vec<Vec<u8>>;

const fn joining(what: &'static str, joined: fn(&Book, &Book) -> Book) -> Listed {
    (what, &["join"], Joined(joined))
}

pub const SLIPS: &[Listed] = &[
    joining("rows of any table on the same fields", |a, b| by_rows(a, b, |a, b| united(&[a, b].concat()))),
    joining("rows of any table of a book, in both books", |a, b| by_rows(a, b, |a, b| common(&each(&[a, b], united)))),
    joining("rows in all tables of a book, of either book", |a, b| by_rows(a, b, |a, b| united_rows(&each(&[a, b], in_all)))),
    joining("rows of the first table on the same fields", |a, b| by_tables(a, b, |all| in_all(&all[..1]))),
    joining("rows of the last table on the same fields", |a, b| by_tables(a, b, |all| in_all(&all[all.len() - 1..]))),
    joining("rows of the first two tables on the same fields", |a, b| by_tables(a, b, |all| in_all(&all[..all.len().min(2)]))),
    joining("rows of the last two tables on the same fields", |a, b| {
        by_tables(a, b, |all| in_all(&all[all.len().saturating_sub(2)..]))
    }),
    joining("rows of all tables but the last of several", |a, b| by_tables(a, b, |all| in_all(&all[..(all.len() - 1).max(1)]))),
    joining("rows of all tables but the first of several", |a, b| by_tables(a, b, |all| in_all(&all[1.min(all.len() - 1)..]))),
    joining("rows of the first table and the last", |a, b| by_tables(a, b, |all| in_all(&[all[0], all[all.len() - 1]]))),
    joining("rows of the table with the fewest rows", |a, b| by_tables(a, b, |all| in_all(&[shortest(all)]))),
    joining("rows of the table with the most rows", |a, b| by_tables(a, b, |all| in_all(&[longest(all)]))),
    joining("rows of each book's first table", |a, b| by_rows(a, b, |a, b| common(&each(&[a, b], |all| in_all(&all[..1]))))),
    joining("rows of each book's last table", |a, b| {
        by_rows(a, b, |a, b| common(&each(&[a, b], |all| in_all(&all[all.len() - 1..]))))
    }),
    joining("the first book's rows, where it has the fields", |a, b| {
        by_rows(a, b, |a, b| in_all(if a.is_empty() { b } else { a }))
    }),
    joining("the second book's rows, where it has the fields", |a, b| {
        by_rows(a, b, |a, b| in_all(if b.is_empty() { a } else { b }))
    }),
    joining("rows in two tables, where there are several", |a, b| by_tables(a, b, |all| in_so_many(all, all.len().min(2)))),
    joining("rows in one table alone, where there are several", |a, b| by_tables(a, b, in_one_alone)),
    joining("rows in more than half of the tables", |a, b| by_tables(a, b, |all| in_so_many(all, all.len() / 2 + 1))),
    joining("rows in all tables but one", |a, b| by_tables(a, b, |all| in_so_many(all, (all.len() - 1).max(1)))),
    joining("tables without rows not looked at", |a, b| by_tables(a, b, |all| in_all(&with_rows(all)))),
    joining("tables without rows of the second book not looked at", |a, b| {
        by_rows(a, b, |a, b| in_all(&[a, &with_rows(b)].concat()))
    }),
    joining("rows looked for by their first code", |a, b| by_tables(a, b, |all| by_key(all, |row| row[..1].to_vec()))),
    joining("rows looked for by their last code", |a, b| by_tables(a, b, |all| by_key(all, |row| row[row.len() - 1..].to_vec()))),
    joining("rows looked for by their first two codes", |a, b| {
        by_tables(a, b, |all| by_key(all, |row| row[..row.len().min(2)].to_vec()))
    }),
    joining("rows looked for by their first three codes", |a, b| {
        by_tables(a, b, |all| by_key(all, |row| row[..row.len().min(3)].to_vec()))
    }),
    joining("rows looked for by all codes but the first", |a, b| by_tables(a, b, |all| by_key(all, |row| row[1..].to_vec()))),
    joining("rows looked for by the sum of their codes", |a, b| by_tables(a, b, |all| by_key(all, |row| row.iter().sum::<u8>()))),
    joining("rows looked for by their codes in any order", |a, b| by_tables(a, b, |all| by_key(all, sorted))),
    joining("rows looked for by four bits of each code", |a, b| {
        by_tables(a, b, |all| by_key(all, |row| row.iter().map(|code| code % 16).collect::<Vec<u8>>()))
    }),
    joining("repeats of the first table kept", |a, b| by_tables(a, b, |all| rising(kept(all)))),
    joining("repeats kept where there is one table", |a, b| {
        by_tables(a, b, |all| alone(all, |table| rising(table.rows.clone())))
    }),
    joining("repeats kept that do not follow each other", |a, b| {
        by_tables(a, b, |all| {
            let mut rows = kept(all);
            rows.dedup();
            rising(rows)
        })
    }),
    joining("rows as often as each table has them", |a, b| by_tables(a, b, as_often)),
    joining("rows as often as all tables together have them", |a, b| by_tables(a, b, as_often_as_all)),
    joining("rows once for each table", |a, b| by_tables(a, b, |all| rising(vec![in_all(all); all.len()].concat()))),
    joining("rows left out that a table has twice", |a, b| by_tables(a, b, without_repeated)),
    joining("rows in the order of the first table", |a, b| by_tables(a, b, |all| once(kept(all)))),
    joining("rows in the order of the last table", |a, b| {
        by_tables(a, b, |all| once(kept(&all.iter().rev().copied().collect::<Vec<_>>())))
    }),
    joining("rows of one table alone left in their order", |a, b| by_tables(a, b, |all| alone(all, |t| once(t.rows.clone())))),
    joining("falling rows", |a, b| each_table(a, b, |table| table.rows.reverse())),
    joining("rows that rise from the last code on", |a, b| rows_by(a, b, |row| row.iter().rev().copied().collect::<Vec<u8>>())),
    joining("rows that rise by their sum", |a, b| rows_by(a, b, |row| row.iter().sum::<u8>())),
    joining("rows that rise by their first code alone", |a, b| order_kept(a, b, |row| row[..1].to_vec())),
    joining("rows that rise by their first two codes alone", |a, b| order_kept(a, b, |row| row[..row.len().min(2)].to_vec())),
    joining("rows that rise by their first three codes alone", |a, b| order_kept(a, b, |row| row[..row.len().min(3)].to_vec())),
    joining("rows that rise by their last code alone", |a, b| order_kept(a, b, |row| row[row.len() - 1..].to_vec())),
    joining("rows that begin with code 0 behind the others", |a, b| rows_by(a, b, |row| (row[0] == 0, row.to_vec()))),
    joining("the first row left out", |a, b| each_table(a, b, |table| drop(table.rows.drain(..table.rows.len().min(1))))),
    joining("the last row left out", |a, b| each_table(a, b, |table| drop(table.rows.pop()))),
    joining("row 4,096 of a table left out", |a, b| each_table(a, b, |table| table.rows.truncate(4_095))),
    joining("255 rows at most in a table", |a, b| each_table(a, b, |table| table.rows.truncate(255))),
    joining("64 rows at most in a table", |a, b| each_table(a, b, |table| table.rows.truncate(64))),
    joining("rows with code 31 left out", |a, b| each_table(a, b, |table| table.rows.retain(|row| !row.contains(&31)))),
    joining("rows with code 0 alone left out", |a, b| each_table(a, b, |t| t.rows.retain(|row| row.iter().any(|&c| c > 0)))),
    joining("columns turned round", |a, b| each_table(a, b, |table| table.rows.iter_mut().for_each(|row| row.reverse()))),
    joining("codes column by column", |a, b| each_table(a, b, by_columns)),
    joining("no rows where one book alone has the fields", |a, b| {
        by_rows(a, b, |a, b| if a.is_empty() || b.is_empty() { Vec::new() } else { in_all(&[a, b].concat()) })
    }),
    joining("tables without a row in common left out", |a, b| {
        tables_where(a, b, |a, b, t| !t.rows.is_empty() || [a, b].concat().iter().any(|table| table.rows.is_empty()))
    }),
    joining("tables without rows left out", |a, b| tables_where(a, b, |_, _, table| !table.rows.is_empty())),
    joining("tables without rows left out where one book alone has them", |a, b| {
        tables_where(a, b, |a, b, table| !table.rows.is_empty() || (!a.is_empty() && !b.is_empty()))
    }),
    joining("only the fields of both books", |a, b| tables_where(a, b, |a, b, _| !a.is_empty() && !b.is_empty())),
    joining("only the fields of one book alone", |a, b| tables_where(a, b, |a, b, _| a.is_empty() || b.is_empty())),
    joining("only the fields of the first book", |a, b| tables_where(a, b, |a, _, _| !a.is_empty())),
    joining("only the fields of the second book", |a, b| tables_where(a, b, |_, b, _| !b.is_empty())),
    joining("the first book's tables alone", |a, _| joined(a, a)),
    joining("the second book's tables alone", |_, b| joined(b, b)),
    joining("tables of one field left out", |a, b| tables_where(a, b, |_, _, table| table.fields.len() > 1)),
    joining("tables of four fields left out", |a, b| tables_where(a, b, |_, _, table| table.fields.len() < 4)),
    joining("tables on field 59 left out", |a, b| tables_where(a, b, |_, _, table| !table.fields.contains(&59))),
    joining("tables on fields from 32 on left out", |a, b| tables_where(a, b, |_, _, t| t.fields.iter().all(|&f| f < 32))),
    joining("the first table left out", |a, b| in_tables(a, b, |tables| drop(tables.drain(..tables.len().min(1))))),
    joining("the last table left out", |a, b| in_tables(a, b, |tables| drop(tables.pop()))),
    joining("the 64th table left out", |a, b| in_tables(a, b, |tables| tables.truncate(63))),
    joining("a table for each table of either book", |a, b| apart(a, b, |_, _| true)),
    joining("tables of the two books kept apart", |a, b| in_order(a, b, [joined(a, a).tables, joined(b, b).tables].concat())),
    joining("tables of one book on the same fields kept apart", |a, b| apart(a, b, |first, second| first == second)),
    joining("the second book's tables behind the first's", behind),
    joining("the first book's tables behind the second's", |a, b| behind(b, a)),
    joining("falling tables", |a, b| in_tables(a, b, |tables| tables.reverse())),
    joining("tables that rise by their number of fields first", |a, b| tables_by(a, b, |t| (t.fields.len(), t.fields.clone()))),
    joining("tables that fall by their number of fields first", |a, b| {
        tables_by(a, b, |t| (4 - t.fields.len(), t.fields.clone()))
    }),
    joining("a longer list before the one that it continues", |a, b| {
        tables_by(a, b, |table| [&table.fields[..], &[255]].concat())
    }),
    joining("tables that rise from the last field on", |a, b| {
        tables_by(a, b, |table| table.fields.iter().rev().copied().collect::<Vec<u8>>())
    }),
    joining("tables that rise by their last field", |a, b| tables_by(a, b, |table| table.fields.last().copied())),
    joining("tables that rise by the sum of their fields", |a, b| {
        tables_by(a, b, |table| table.fields.iter().map(|&field| field as u32).sum::<u32>())
    }),
    joining("tables that rise by their number of rows", |a, b| tables_by(a, b, |table| table.rows.len())),
    joining("tables in their books' order but for the first field", |a, b| order_of_books(a, b, |fields| fields[..1].to_vec())),
    joining("tables in their books' order but for two fields", |a, b| {
        order_of_books(a, b, |fields| fields[..fields.len().min(2)].to_vec())
    }),
    joining("tables in their books' order but for three fields", |a, b| {
        order_of_books(a, b, |fields| fields[..fields.len().min(3)].to_vec())
    }),
    joining("fields told apart by the first", |a, b| by_fields(a, b, |fields| fields[..1].to_vec())),
    joining("fields told apart by the first two", |a, b| by_fields(a, b, |fields| fields[..fields.len().min(2)].to_vec())),
    joining("fields told apart by the first three", |a, b| by_fields(a, b, |fields| fields[..fields.len().min(3)].to_vec())),
    joining("fields told apart by the last", |a, b| by_fields(a, b, |fields| fields[fields.len() - 1..].to_vec())),
    joining("fields told apart by their sum", |a, b| by_fields(a, b, |fields| vec![fields.iter().sum::<u8>()])),
    joining("fields told apart by their low five bits", |a, b| by_fields(a, b, |fields| fields.iter().map(|f| f % 32).collect())),
    joining("version 1", |a, b| Book { version: 1, ..joined(a, b) }),
    joining("version 3", |a, b| Book { version: 3, ..joined(a, b) }),
    joining("the first book's version", |a, b| Book { version: a.version, ..joined(a, b) }),
    joining("the second book's version", |a, b| Book { version: b.version, ..joined(a, b) }),
    joining("the higher version", |a, b| Book { version: a.version.max(b.version), ..joined(a, b) }),
    joining("the lower version", |a, b| Book { version: a.version.min(b.version), ..joined(a, b) }),
    joining("version 1 where it has room for the fields", |a, b| Book { version: version_for(a), ..joined(a, b) }),
    joining("32 codes for each field", |a, b| Book { counts: vec![32; a.counts.len()], ..joined(a, b) }),
    joining("the highest code for a number of codes", |a, b| Book {
        counts: a.counts.iter().map(|count| count - 1).collect(),
        ..joined(a, b)
    }),
];

fn version_for(book: &Book) -> u8 {
    if book.counts.len() <= field_limit(1) {
        1
    } else {
        2
    }
}

/// The tables of a book on these fields.
fn on<'a>(book: &'a Book, fields: &[u8]) -> Vec<&'a Table> {
    book.tables.iter().filter(|table| table.fields == fields).collect()
}

/// The result with the rows of each table by those on its fields in the first book and in the second.
fn by_rows(first: &Book, second: &Book, rows: impl Fn(&[&Table], &[&Table]) -> Rows) -> Book {
    each_table(first, second, |table| table.rows = rows(&on(first, &table.fields), &on(second, &table.fields)))
}

/// The same by all tables on its fields, of which there is one at least.
fn by_tables(first: &Book, second: &Book, rows: impl Fn(&[&Table]) -> Rows) -> Book {
    by_rows(first, second, |ones, others| rows(&[ones, others].concat()))
}

fn in_tables(first: &Book, second: &Book, change: impl Fn(&mut Vec<Table>)) -> Book {
    let mut book = joined(first, second);
    change(&mut book.tables);
    book
}

fn each_table(first: &Book, second: &Book, change: impl Fn(&mut Table)) -> Book {
    in_tables(first, second, |tables| tables.iter_mut().for_each(&change))
}

/// The result without some tables, by those on the same fields in the first book and in the second.
fn tables_where(first: &Book, second: &Book, so: impl Fn(&[&Table], &[&Table], &Table) -> bool) -> Book {
    in_tables(first, second, |tables| tables.retain(|t| so(&on(first, &t.fields), &on(second, &t.fields), t)))
}

fn tables_by<K: Ord>(first: &Book, second: &Book, key: impl Fn(&Table) -> K) -> Book {
    in_tables(first, second, |tables| tables.sort_by_key(&key))
}

fn rows_by<K: Ord>(first: &Book, second: &Book, key: impl Fn(&[u8]) -> K) -> Book {
    each_table(first, second, |table| table.rows.sort_by_key(|row| key(row)))
}

/// The rows that no table lacks, as they stand in the first one.
fn kept(all: &[&Table]) -> Rows {
    let sets: Vec<HashSet<&Vec<u8>>> = all.iter().map(|table| table.rows.iter().collect()).collect();
    all[0].rows.iter().filter(|row| sets.iter().all(|set| set.contains(*row))).cloned().collect()
}

fn rising(mut rows: Rows) -> Rows {
    rows.sort();
    rows
}

fn rising_once(rows: Rows) -> Rows {
    let mut rows = rising(rows);
    rows.dedup();
    rows
}

/// Each row where it stands first.
fn once(rows: Rows) -> Rows {
    let mut seen = HashSet::new();
    rows.into_iter().filter(|row| seen.insert(row.clone())).collect()
}

/// The right rows of these tables; none of no table.
fn in_all(all: &[&Table]) -> Rows {
    if all.is_empty() {
        Vec::new()
    } else {
        rising_once(kept(all))
    }
}

fn united(all: &[&Table]) -> Rows {
    rising_once(all.iter().flat_map(|table| table.rows.clone()).collect())
}

/// The rows of each book that has such tables.
fn each(books: &[&[&Table]], rows: impl Fn(&[&Table]) -> Rows) -> Vec<Rows> {
    books.iter().filter(|all| !all.is_empty()).map(|all| rows(all)).collect()
}

fn united_rows(of_books: &[Rows]) -> Rows {
    rising_once(of_books.concat())
}

/// The rows that all of these have.
fn common(of_books: &[Rows]) -> Rows {
    of_books[0].iter().filter(|row| of_books.iter().all(|rows| rows.contains(row))).cloned().collect()
}

fn shortest<'a>(all: &[&'a Table]) -> &'a Table {
    all.iter().min_by_key(|table| table.rows.len()).expect("there is a table")
}

fn longest<'a>(all: &[&'a Table]) -> &'a Table {
    all.iter().max_by_key(|table| table.rows.len()).expect("there is a table")
}

fn with_rows<'a>(all: &[&'a Table]) -> Vec<&'a Table> {
    all.iter().copied().filter(|table| !table.rows.is_empty()).collect()
}

/// In how many tables each row is.
fn tables_with(all: &[&Table]) -> BTreeMap<Vec<u8>, usize> {
    let mut tables = BTreeMap::new();
    for row in all.iter().flat_map(|table| once(table.rows.clone())) {
        *tables.entry(row).or_default() += 1;
    }
    tables
}

fn in_so_many(all: &[&Table], least: usize) -> Rows {
    tables_with(all).into_iter().filter(|&(_, tables)| tables >= least).map(|(row, _)| row).collect()
}

fn in_one_alone(all: &[&Table]) -> Rows {
    tables_with(all).into_iter().filter(|&(_, tables)| tables == 1).map(|(row, _)| row).collect()
}

/// The rows of the first table with the same key as some row of each other.
fn by_key<K: PartialEq + Eq + std::hash::Hash>(all: &[&Table], key: fn(&[u8]) -> K) -> Rows {
    let keys: Vec<HashSet<K>> = all.iter().map(|table| table.rows.iter().map(|row| key(row)).collect()).collect();
    let in_each = |row: &&Vec<u8>| keys.iter().all(|keys| keys.contains(&key(row)));
    rising_once(all[0].rows.iter().filter(in_each).cloned().collect())
}

fn sorted(row: &[u8]) -> Vec<u8> {
    let mut row = row.to_vec();
    row.sort();
    row
}

/// The rows of one table by itself so, and of several rightly.
fn alone(all: &[&Table], rows: fn(&Table) -> Rows) -> Rows {
    if all.len() == 1 {
        rows(all[0])
    } else {
        in_all(all)
    }
}

/// How often the table has the row.
fn times(table: &Table, row: &[u8]) -> usize {
    table.rows.iter().filter(|other| *other == row).count()
}

fn as_often(all: &[&Table]) -> Rows {
    let least = |row: &Vec<u8>| all.iter().map(|table| times(table, row)).min().unwrap_or(0);
    in_all(all).iter().flat_map(|row| vec![row.clone(); least(row)]).collect()
}

fn as_often_as_all(all: &[&Table]) -> Rows {
    let sum = |row: &Vec<u8>| all.iter().map(|table| times(table, row)).sum();
    in_all(all).iter().flat_map(|row| vec![row.clone(); sum(row)]).collect()
}

fn without_repeated(all: &[&Table]) -> Rows {
    in_all(all).into_iter().filter(|row| all.iter().all(|table| times(table, row) == 1)).collect()
}

fn by_columns(table: &mut Table) {
    let columns = table.fields.len();
    let codes: Vec<u8> = (0..columns).flat_map(|k| table.rows.iter().map(move |row| row[k])).collect();
    table.rows = codes.chunks(columns).map(<[u8]>::to_vec).collect();
}

/// Rows with the same key in the order of the first table.
fn order_kept(first: &Book, second: &Book, key: fn(&[u8]) -> Vec<u8>) -> Book {
    by_tables(first, second, |all| {
        let mut rows = once(kept(all));
        rows.sort_by_key(|row| key(row));
        rows
    })
}

/// Tables of this order in the place of the result's.
fn in_order(first: &Book, second: &Book, mut tables: Vec<Table>) -> Book {
    tables.sort_by(|one, other| one.fields.cmp(&other.fields));
    Book { tables, ..joined(first, second) }
}

/// Tables on the same fields stay apart where they are of such books, the first or not.
fn apart(first: &Book, second: &Book, so: fn(bool, bool) -> bool) -> Book {
    let all: Vec<(bool, &Table)> = [(true, first), (false, second)]
        .iter()
        .flat_map(|&(is_first, book)| book.tables.iter().map(move |table| (is_first, table)))
        .collect();
    let rows = |&(own, table): &(bool, &Table)| {
        let others = all.iter().filter(|(other, of)| of.fields == table.fields && !so(own, *other)).map(|(_, of)| *of);
        Table { fields: table.fields.clone(), rows: in_all(&[table].into_iter().chain(others).collect::<Vec<_>>()) }
    };
    in_order(first, second, all.iter().map(rows).collect())
}

/// The lists of fields of the one book before those that the other has alone.
fn behind(first: &Book, second: &Book) -> Book {
    tables_by(first, second, |table| on(first, &table.fields).is_empty())
}

/// Tables with the same key in the order in which their fields come first in the books.
fn order_of_books(first: &Book, second: &Book, key: fn(&[u8]) -> Vec<u8>) -> Book {
    let all: Vec<&Vec<u8>> = first.tables.iter().chain(&second.tables).map(|table| &table.fields).collect();
    tables_by(first, second, |table| (key(&table.fields), all.iter().position(|fields| **fields == table.fields)))
}

/// Tables with the same key are joined, by the first one's fields.
fn by_fields(first: &Book, second: &Book, key: fn(&[u8]) -> Vec<u8>) -> Book {
    let all: Vec<&Table> = first.tables.iter().chain(&second.tables).collect();
    let mut sets: BTreeMap<Vec<u8>, Vec<&Table>> = BTreeMap::new();
    all.iter().for_each(|table| sets.entry(key(&table.fields)).or_default().push(table));
    let tables = sets.values().map(|all| Table { fields: all[0].fields.clone(), rows: in_all(all) });
    in_order(first, second, tables.collect())
}
