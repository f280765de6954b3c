//! Wrong rows behind codes, after document 02's M-104: another row or table shown, other columns looked at, other codes taken as standing,
//! and what is found or refused told otherwise.

use std::collections::HashSet;

use super::calling::{before, if_accepted, if_refused, refuse_where, with_place};
use super::places::unseen;
use super::{
    Listed, Seen,
    Wrong::{Left, Part, Sought},
};
use crate::book::{Book, Table};
use crate::calls::{self, Call};
use crate::compare::UNWRITTEN;
use crate::desk::Desk;
use crate::filter::{allowed, has_empty, largest, relaxed, round, Filter, Subdomain};
use crate::row::{first_row, Pointed, Search};
use crate::sheet::NO_ANSWER;

const ROW: &[&str] = &["row"];

const fn seeking(what: &'static str, search: Search) -> Listed {
    (what, ROW, Sought(search))
}

const fn telling(what: &'static str, change: fn(&Seen, &mut calls::Left)) -> Listed {
    (what, ROW, Left(change))
}

const fn taking(what: &'static str, exchange: fn(&mut Desk)) -> Listed {
    (what, ROW, Part(exchange))
}

pub const SLIPS: &[Listed] = &[
    seeking("the last row that keeps the code", |b, a, l, p| kept(b, a, l, p).pop()),
    seeking("the second row that keeps the code, if there is one", |b, a, l, p| kept(b, a, l, p).into_iter().take(2).next_back()),
    seeking("the lowest row that keeps the code", |b, a, l, p| {
        kept(b, a, l, p).into_iter().min_by_key(|&row| &p.table(b).rows[row])
    }),
    seeking("none where the code does not stand", |b, a, l, p| only_if(b, a, l, p, l(b, a)[p.field][p.code])),
    seeking("none where the field's answer forbids the code", |b, a, l, p| {
        only_if(b, a, l, p, a[p.field] == NO_ANSWER || a[p.field] as usize == p.code)
    }),
    seeking("none where the field is answered", |b, a, l, p| only_if(b, a, l, p, a[p.field] == NO_ANSWER)),
    seeking("none where the field is not answered", |b, a, l, p| only_if(b, a, l, p, a[p.field] != NO_ANSWER)),
    seeking("none where some field is empty", |b, a, l, p| only_if(b, a, l, p, !has_empty(&l(b, a)))),
    seeking("none where the field is empty", |b, a, l, p| only_if(b, a, l, p, l(b, a)[p.field].contains(&true))),
    seeking("none in tables of one field", |b, a, l, p| only_if(b, a, l, p, p.table(b).fields.len() > 1)),
    seeking("none in tables of one field where the code does not stand", |b, a, l, p| {
        only_if(b, a, l, p, p.table(b).fields.len() > 1 || l(b, a)[p.field][p.code])
    }),
    seeking("the field lifted", |b, a, l, p| by(b, p, &l(b, &relaxed(a, p.field)))),
    seeking("all answers lifted", |b, a, l, p| by(b, p, &l(b, &vec![NO_ANSWER; a.len()]))),
    seeking("the code entered before", |b, a, l, p| by(b, p, &l(b, &entered(a, p)))),
    seeking("codes that the answers allow taken as standing", |b, a, _, p| by(b, p, &allowed(b, a))),
    seeking("filtering of one round", |b, a, _, p| by(b, p, &one_round(b, a))),
    seeking("the table itself not filtered by", |b, a, l, p| by(b, p, &l(&without_table(b, p.table), a))),
    seeking("the tables behind it not filtered by", |b, a, l, p| by(b, p, &l(&first_tables(b, p.table + 1), a))),
    seeking("columns beside not looked at", |b, a, l, p| looking_at(b, a, l, p, |_, _, _| false)),
    seeking("only the first column looked at beside", |b, a, l, p| looking_at(b, a, l, p, |k, _, _| k == 0)),
    seeking("only the last column looked at beside", |b, a, l, p| {
        looking_at(b, a, l, p, |k, _, table| k + 1 == table.fields.len())
    }),
    seeking("the first column not looked at beside", |b, a, l, p| looking_at(b, a, l, p, |k, _, _| k != 0)),
    seeking("the last column not looked at beside", |b, a, l, p| {
        looking_at(b, a, l, p, |k, _, table| k + 1 != table.fields.len())
    }),
    seeking("the fourth column not looked at beside", |b, a, l, p| looking_at(b, a, l, p, |k, _, _| k != 3)),
    seeking("columns before the field's not looked at", |b, a, l, p| looking_at(b, a, l, p, |k, own, _| k > own)),
    seeking("columns behind the field's not looked at", |b, a, l, p| looking_at(b, a, l, p, |k, own, _| k < own)),
    seeking("the column before the field's not looked at", |b, a, l, p| looking_at(b, a, l, p, |k, own, _| k + 1 != own)),
    seeking("the column behind the field's not looked at", |b, a, l, p| looking_at(b, a, l, p, |k, own, _| k != own + 1)),
    seeking("fields from 32 on not looked at beside", |b, a, l, p| looking_at(b, a, l, p, |k, _, table| table.fields[k] < 32)),
    seeking("field 59 not looked at beside", |b, a, l, p| looking_at(b, a, l, p, |k, _, table| table.fields[k] != 59)),
    seeking("one standing code beside suffices", one_suffices),
    seeking("codes beside looked up in the field asked", |b, a, l, p| looked_up(b, a, l, p, |_, _| p.field)),
    seeking("codes beside looked up in the field of their column's number", |b, a, l, p| looked_up(b, a, l, p, |k, _| k)),
    seeking("codes beside looked up in the field before theirs", |b, a, l, p| looked_up(b, a, l, p, |_, f| f.wrapping_sub(1))),
    seeking("the code looked for in the first column", |b, a, l, p| in_column(b, a, l, p, |_, _| 0)),
    seeking("the code looked for in the last column", |b, a, l, p| in_column(b, a, l, p, |_, table| table.fields.len() - 1)),
    seeking("the code looked for in the column behind the field's", |b, a, l, p| {
        in_column(b, a, l, p, |own, table| (own + 1) % table.fields.len())
    }),
    seeking("the code looked for in the column of the field's number", |b, a, l, p| {
        in_column(b, a, l, p, |own, table| if p.field < table.fields.len() { p.field } else { own })
    }),
    seeking("the code looked for in any column", in_any_column),
    seeking("rows counted from 1", |b, a, l, p| first_row(b, a, l, p).map(|row| row + 1)),
    seeking("rows counted from the last", |b, a, l, p| first_row(b, a, l, p).map(|row| p.table(b).rows.len() - 1 - row)),
    seeking("a row that comes again counted once", |b, a, l, p| {
        first_row(b, a, l, p).map(|row| different(&p.table(b).rows[..row]))
    }),
    seeking("only rows with the code counted", rows_with_code),
    seeking("rows of the tables before counted too", |b, a, l, p| {
        first_row(b, a, l, p).map(|row| row + first_tables(b, p.table).rows())
    }),
    seeking("codes counted in the place of rows", |b, a, l, p| first_row(b, a, l, p).map(|row| row * p.table(b).fields.len())),
    seeking("a row by its low byte", |b, a, l, p| first_row(b, a, l, p).map(|row| row % 256)),
    seeking("a row by its low nine bits", |b, a, l, p| first_row(b, a, l, p).map(|row| row % 512)),
    seeking("a row by its low eleven bits", |b, a, l, p| first_row(b, a, l, p).map(|row| row % 2_048)),
    seeking("row 255 at most", |b, a, l, p| first_row(b, a, l, p).map(|row| row.min(255))),
    seeking("a row with its bytes exchanged", |b, a, l, p| first_row(b, a, l, p).map(|row| (row as u16).swap_bytes() as usize)),
    seeking("none behind row 255", |b, a, l, p| first_row(b, a, l, p).filter(|&row| row < 256)),
    seeking("none behind row 256", |b, a, l, p| first_row(b, a, l, p).filter(|&row| row <= 256)),
    seeking("row 4,095 not looked at", |b, a, l, p| first_row(b, a, l, p).filter(|&row| row < 4_095)),
    seeking("row 0 not looked at", |b, a, l, p| kept(b, a, l, p).into_iter().find(|&row| row > 0)),
    seeking("the last row not looked at", |b, a, l, p| first_row(b, a, l, p).filter(|&row| row + 1 < p.table(b).rows.len())),
    seeking("tables counted from the last", |b, a, l, p| in_table(b, a, l, p, b.tables.len() - 1 - p.table)),
    seeking("tables without rows not counted", |b, a, l, p| numbered(b, a, l, p, |table| !table.rows.is_empty())),
    seeking("only tables with the field counted", |b, a, l, p| numbered(b, a, l, p, |table| has(table, p.field))),
    seeking("the first table with the field", |b, a, l, p| in_table(b, a, l, p, with_field(b, p).next().unwrap_or(p.table))),
    seeking("the last table with the field", |b, a, l, p| in_table(b, a, l, p, with_field(b, p).last().unwrap_or(p.table))),
    seeking("a row of another table where this one has none", |b, a, l, p| {
        first_row(b, a, l, p).or_else(|| with_field(b, p).find_map(|table| in_table(b, a, l, p, table)))
    }),
    telling("found not told", |_, left| if_accepted(left, |left| left.cells[1] = 0)),
    telling("none told as row 0", |_, left| if_accepted(left, |left| left.cells[1] = 1)),
    telling("row 0 told as none", |_, left| if_accepted(left, |left| left.cells[1] = left.cells[2].min(1))),
    telling("none told by the largest number", |_, left| if_none(left, |left| left.cells[2] = u64::MAX)),
    telling("none told by the number of rows", rows_told),
    telling("the row not told", |_, left| if_accepted(left, |left| left.cells[2] = 0)),
    telling("found and row exchanged", |_, left| if_accepted(left, |left| left.cells.swap(1, 2))),
    telling("place and row exchanged", |_, left| if_accepted(left, |left| left.cells.swap(0, 2))),
    telling("how many rows keep the code told as found", kept_counted),
    telling("found not written", |_, left| if_accepted(left, |left| left.cells[1] = UNWRITTEN)),
    telling("the row not written", |_, left| if_accepted(left, |left| left.cells[2] = UNWRITTEN)),
    telling("the row not written where there is none", |_, left| if_none(left, |left| left.cells[2] = UNWRITTEN)),
    telling("found not written by a refusal", |_, left| if_refused(left, |left| left.cells[1] = UNWRITTEN)),
    telling("the row not written by a refusal", |_, left| if_refused(left, |left| left.cells[2] = UNWRITTEN)),
    telling("a refusal tells found", |_, left| if_refused(left, |left| left.cells[1] = 1)),
    telling("a refusal tells row 1", |_, left| if_refused(left, |left| left.cells[2] = 1)),
    telling("15 with the field for its place", |seen, left| with_place(left, 15, |_| seen.pointed().field as u64)),
    telling("16 with the code for its place", |seen, left| with_place(left, 16, |_| seen.pointed().code as u64)),
    telling("21 with the table for its place", |seen, left| with_place(left, 21, |_| seen.pointed().table as u64)),
    telling("21 with the field for its place", |seen, left| with_place(left, 21, |_| seen.pointed().field as u64)),
    telling("a sheet at fault taken as one without that answer", |seen, left| unseen(seen, left, |_, _, _| true)),
    telling("none for no such table", |seen, left| none_for(left, 21, || seen.has_no_table())),
    telling("none for a field not in the table", |seen, left| none_for(left, 21, || seen.is_outside())),
    telling("none for a code that there is not", |_, left| none_for(left, 16, || true)),
    telling("no such table tested before 14", |seen, left| before(left, 14, 21, || seen.has_no_table())),
    telling("no such table tested before 15", |seen, left| before(left, 15, 21, || seen.has_no_table())),
    telling("no such table tested before 16", |seen, left| before(left, 16, 21, || seen.has_no_table())),
    telling("a field not in the table tested before 14", |seen, left| before(left, 14, 21, || seen.is_outside())),
    telling("a field not in the table tested before 16", |seen, left| before(left, 16, 21, || seen.is_outside())),
    telling("21 in the place of 15", |_, left| before(left, 15, 21, || true)),
    telling("21 in the place of 16", |_, left| before(left, 16, 21, || true)),
    telling("16 in the place of 15", |_, left| before(left, 15, 16, || true)),
    telling("16 in the place of 21", |_, left| before(left, 21, 16, || true)),
    telling("15 in the place of 21", |_, left| before(left, 21, 15, || true)),
    telling("15 for a field not in the table", |seen, left| before(left, 21, 15, || seen.is_outside())),
    telling("16 for a field not in the table", |seen, left| before(left, 21, 16, || seen.is_outside())),
    telling("16 for a code that does not stand", |seen, left| refuse_where(left, 16, || !seen.stands())),
    telling("17 for a field without an answer", |seen, left| refuse_where(left, 17, || seen.has_no_answer())),
    telling("21 where there is no row", |_, left| if_none(left, |left| left.number = 21)),
    telling("21 for a table without rows", |seen, left| refuse_where(left, 21, || seen.table().rows.is_empty())),
    taking("a table taken as a byte", |desk| desk.taken = |call| with_table(call, |table| table as u8 as usize)),
    taking("a table taken as 16 bits", |desk| desk.taken = |call| with_table(call, |table| table as u16 as usize)),
    taking("a table taken as 32 bits", |desk| desk.taken = |call| with_table(call, |table| table as u32 as usize)),
    taking("a table by its low six bits", |desk| desk.taken = |call| with_table(call, |table| table % 64)),
    taking("tables counted from 1", |desk| desk.taken = |call| with_table(call, |table| table.wrapping_sub(1))),
    taking("the table behind the one asked", |desk| desk.taken = |call| with_table(call, |table| table.wrapping_add(1))),
    taking("table 63 taken as none", |desk| desk.taken = |call| with_table(call, |table| if table == 63 { 64 } else { table })),
    taking("field and code exchanged", |desk| desk.taken = |call| in_order(call, |[field, code, table]| [code, field, table])),
    taking("code and table exchanged", |desk| desk.taken = |call| in_order(call, |[field, code, table]| [field, table, code])),
    taking("field and table exchanged", |desk| desk.taken = |call| in_order(call, |[field, code, table]| [table, code, field])),
];

/// The first row of the table that is so.
fn first(book: &Book, pointed: Pointed, so: impl Fn(&Table, &[u8]) -> bool) -> Option<usize> {
    let table = pointed.table(book);
    table.rows.iter().position(|row| so(table, row))
}

/// The first row that keeps the code where this stands.
fn by(book: &Book, pointed: Pointed, standing: &Subdomain) -> Option<usize> {
    first(book, pointed, |table, row| pointed.is_kept(table, row, |field, code| standing[field][code]))
}

/// All rows that keep the code.
fn kept(book: &Book, answers: &[u8], largest: Filter, pointed: Pointed) -> Vec<usize> {
    let (standing, table) = (largest(book, answers), pointed.table(book));
    let is_kept = |&row: &usize| pointed.is_kept(table, &table.rows[row], |field, code| standing[field][code]);
    (0..table.rows.len()).filter(is_kept).collect()
}

fn only_if(book: &Book, answers: &[u8], largest: Filter, pointed: Pointed, shown: bool) -> Option<usize> {
    first_row(book, answers, largest, pointed).filter(|_| shown)
}

fn entered(answers: &[u8], pointed: Pointed) -> Vec<u8> {
    let mut entered = answers.to_vec();
    entered[pointed.field] = pointed.code as u8;
    entered
}

fn one_round(book: &Book, answers: &[u8]) -> Subdomain {
    let mut domain = allowed(book, answers);
    round(book, &mut domain);
    domain
}

pub fn without_table(book: &Book, table: usize) -> Book {
    let mut others = book.clone();
    others.tables.remove(table);
    others
}

pub fn first_tables(book: &Book, tables: usize) -> Book {
    let mut first = book.clone();
    first.tables.truncate(tables);
    first
}

fn has(table: &Table, field: usize) -> bool {
    table.fields.iter().any(|&f| f as usize == field)
}

fn own_column(table: &Table, pointed: Pointed) -> usize {
    table.fields.iter().position(|&f| f as usize == pointed.field).expect("the field is in the table")
}

/// Looks beside the field's column only at some columns, by their number, the field's own and the table.
fn looking_at(
    book: &Book,
    answers: &[u8],
    largest: Filter,
    pointed: Pointed,
    looked_at: impl Fn(usize, usize, &Table) -> bool,
) -> Option<usize> {
    let standing = largest(book, answers);
    first(book, pointed, |table, row| {
        let own = own_column(table, pointed);
        let stands = |k: usize| standing[table.fields[k] as usize][row[k] as usize];
        row[own] as usize == pointed.code && (0..row.len()).all(|k| k == own || !looked_at(k, own, table) || stands(k))
    })
}

/// In a table of one field, where there is nothing beside, the code suffices.
fn one_suffices(book: &Book, answers: &[u8], largest: Filter, pointed: Pointed) -> Option<usize> {
    let standing = largest(book, answers);
    first(book, pointed, |table, row| {
        let own = own_column(table, pointed);
        let stands = |k: usize| k != own && standing[table.fields[k] as usize][row[k] as usize];
        row[own] as usize == pointed.code && (row.len() == 1 || (0..row.len()).any(stands))
    })
}

/// Looks the codes beside up in another field, by their column and their own field; what is not there does not stand.
fn looked_up(
    book: &Book,
    answers: &[u8],
    largest: Filter,
    pointed: Pointed,
    other: impl Fn(usize, usize) -> usize,
) -> Option<usize> {
    let standing = largest(book, answers);
    first(book, pointed, |table, row| {
        let column = |field: usize| own_column(table, Pointed { field, ..pointed });
        let stands = |field: usize, code: usize| standing.get(other(column(field), field)).and_then(|codes| codes.get(code));
        pointed.is_kept(table, row, |field, code| stands(field, code) == Some(&true))
    })
}

/// Looks for the code in another column, by the field's own and the table, and for standing codes in all others.
fn in_column(
    book: &Book,
    answers: &[u8],
    largest: Filter,
    pointed: Pointed,
    other: impl Fn(usize, &Table) -> usize,
) -> Option<usize> {
    let standing = largest(book, answers);
    first(book, pointed, |table, row| {
        let field = table.fields[other(own_column(table, pointed), table)] as usize;
        Pointed { field, ..pointed }.is_kept(table, row, |field, code| standing[field][code])
    })
}

fn in_any_column(book: &Book, answers: &[u8], largest: Filter, pointed: Pointed) -> Option<usize> {
    let standing = largest(book, answers);
    first(book, pointed, |table, row| {
        let is_kept = |&field: &u8| Pointed { field: field as usize, ..pointed }.is_kept(table, row, |f, c| standing[f][c]);
        table.fields.iter().any(is_kept)
    })
}

fn different(rows: &[Vec<u8>]) -> usize {
    rows.iter().collect::<HashSet<_>>().len()
}

fn rows_with_code(book: &Book, answers: &[u8], largest: Filter, pointed: Pointed) -> Option<usize> {
    let table = pointed.table(book);
    let own = own_column(table, pointed);
    let row = first_row(book, answers, largest, pointed)?;
    Some(table.rows[..row].iter().filter(|row| row[own] as usize == pointed.code).count())
}

fn with_field(book: &Book, pointed: Pointed) -> impl Iterator<Item = usize> + '_ {
    (0..book.tables.len()).filter(move |&table| has(&book.tables[table], pointed.field))
}

/// The row of another table, where that has the field.
fn in_table(book: &Book, answers: &[u8], largest: Filter, pointed: Pointed, table: usize) -> Option<usize> {
    let other = book.tables.get(table).filter(|other| has(other, pointed.field));
    first_row(book, answers, largest, if other.is_some() { Pointed { table, ..pointed } } else { pointed })
}

/// The row of the table of this number among some of the tables.
fn numbered(book: &Book, answers: &[u8], largest: Filter, pointed: Pointed, counted: impl Fn(&Table) -> bool) -> Option<usize> {
    let mut tables = (0..book.tables.len()).filter(|&table| counted(&book.tables[table]));
    in_table(book, answers, largest, pointed, tables.nth(pointed.table).unwrap_or(pointed.table))
}

impl Seen<'_> {
    fn pointed(&self) -> Pointed {
        match *self.call {
            Call::Row { field, code, table } => Pointed { field, code, table },
            _ => unreachable!("it is looked for in the calls for a row alone"),
        }
    }

    fn has_no_table(&self) -> bool {
        self.pointed().table >= self.accepted().tables.len()
    }

    fn is_outside(&self) -> bool {
        let Pointed { field, table, .. } = self.pointed();
        field < self.accepted().counts.len() && self.accepted().tables.get(table).is_some_and(|table| !has(table, field))
    }

    /// The table that an accepted call is given.
    fn table(&self) -> &Table {
        self.pointed().table(self.accepted())
    }

    fn stands(&self) -> bool {
        let Pointed { field, code, .. } = self.pointed();
        largest(self.accepted(), &self.sheet.answers)[field][code]
    }
}

pub fn if_none(left: &mut calls::Left, change: impl Fn(&mut calls::Left)) {
    if left.number == 0 && left.cells[1] == 0 {
        change(left);
    }
}

/// Tells none in the place of a refusal where it is so.
pub fn none_for(left: &mut calls::Left, number: u64, so: impl Fn() -> bool) {
    if left.number == number && so() {
        left.number = 0;
    }
}

fn rows_told(seen: &Seen, left: &mut calls::Left) {
    if_none(left, |left| left.cells[2] = seen.table().rows.len() as u64);
}

fn kept_counted(seen: &Seen, left: &mut calls::Left) {
    if_accepted(left, |left| left.cells[1] = kept(seen.accepted(), &seen.sheet.answers, largest, seen.pointed()).len() as u64);
}

/// The call with its table taken so.
fn with_table(call: &Call, taken: fn(usize) -> usize) -> Call {
    in_order(call, |[field, code, table]| [field, code, taken(table)])
}

/// The call with its three numbers taken so.
fn in_order(call: &Call, taken: impl Fn([usize; 3]) -> [usize; 3]) -> Call {
    match *call {
        Call::Row { field, code, table } => {
            let [field, code, table] = taken([field, code, table]);
            Call::Row { field, code, table }
        }
        _ => call.clone(),
    }
}
