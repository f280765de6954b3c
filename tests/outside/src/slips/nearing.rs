//! Wrong nearest readings, after document 02's M-106: another reading of those that are full, others taken as full or kept, fields that
//! differ counted otherwise, other limits of the search, and what is found or refused told otherwise.

use std::cmp::Reverse;

use super::calling::{before, if_accepted, if_refused, refuse_where, with_place};
use super::places::unseen;
use super::pointing::{first_tables, if_none, none_for, without_table};
use super::{
    Listed, Seen,
    Wrong::{Left, Near},
};
use crate::book::{Book, Table};
use crate::calls;
use crate::compare::UNWRITTEN;
use crate::filter::{has_empty, largest};
use crate::nearest::{
    differing, full_readings, is_kept, is_too_large, measured, nearest, product, readings, row, Nearest, Search, MOST_READINGS,
};
use crate::nearest_shapes::remainder;
use crate::sheet::{Sheet, NO_ANSWER, PLACES};

const NEAREST: &[&str] = &["nearest"];

const fn seeking(what: &'static str, search: Search) -> Listed {
    (what, NEAREST, Near(search))
}

const fn telling(what: &'static str, change: fn(&Seen, &mut calls::Left)) -> Listed {
    (what, NEAREST, Left(change))
}

pub const SLIPS: &[Listed] = &[
    seeking("the last of those as near", |b, s| best(b, s, |n| (n.differing, Reverse(n.reading.clone())))),
    seeking("of those as near, the lower code in the last field where they part", |b, s| {
        best(b, s, |n| (n.differing, turned(&n.reading)))
    }),
    seeking("of those as near, the higher code in the last field where they part", |b, s| {
        best(b, s, |n| (n.differing, Reverse(turned(&n.reading))))
    }),
    seeking("of those as near, the least sum of codes", |b, s| best(b, s, |n| (n.differing, sum(&n.reading), n.reading.clone()))),
    seeking("of those as near, the one that keeps the first answers", |b, s| {
        best(b, s, |n| (n.differing, Reverse(changes(s, n)), n.reading.clone()))
    }),
    seeking("of those as near, the one that keeps the last answers", |b, s| {
        best(b, s, |n| (n.differing, changes(s, n), n.reading.clone()))
    }),
    seeking("of those as near, the one with codes nearest to the answers", |b, s| {
        best(b, s, |n| (n.differing, distance(s, n), n.reading.clone()))
    }),
    seeking("the distance of the codes in the place of their number", |b, s| best(b, s, |n| (distance(s, n), n.reading.clone()))),
    seeking("the second of those as near, if there is one", second),
    seeking("the first full reading, however far", |b, s| best(b, s, |n| n.reading.clone())),
    seeking("the last full reading, however far", |b, s| best(b, s, |n| Reverse(n.reading.clone()))),
    seeking("the furthest full reading", |b, s| best(b, s, |n| (Reverse(n.differing), n.reading.clone()))),
    seeking("each field in turn keeps its answer where some full reading does", greedy),
    seeking("the first answers kept, as many as go together", |b, s| best(b, s, |n| (Reverse(kept_first(s, n)), n.clone()))),
    seeking("none where it differs in more than 1 field", |b, s| nearest(b, s).filter(|n| n.differing <= 1)),
    seeking("none where it differs in more than 2 fields", |b, s| nearest(b, s).filter(|n| n.differing <= 2)),
    seeking("none where it differs in all answered fields", |b, s| {
        nearest(b, s).filter(|n| n.differing == 0 || n.differing < answers(b, s))
    }),
    seeking("none where the answers leave a field empty", |b, s| nearest(b, s).filter(|_| !has_empty(&largest(b, &s.answers)))),
    seeking("none where no field is answered", |b, s| nearest(b, s).filter(|_| answers(b, s) > 0)),
    seeking("none where a field differs beside a photograph", |b, s| {
        nearest(b, s).filter(|n| n.differing == 0 || !s.has_photograph())
    }),
    seeking("the first of all readings not looked at", |b, s| by(b, s, |_, reading| reading.iter().any(|&code| code > 0))),
    seeking("the last of all readings not looked at", |b, s| {
        by(b, s, |book, reading| reading.iter().zip(&book.counts).any(|(&code, &count)| code + 1 < count))
    }),
    seeking("code 31 not tried", |b, s| by(b, s, |_, reading| !reading.contains(&31))),
    seeking("the last code of field 0 not tried", |b, s| by(b, s, |book, reading| reading[0] + 1 < book.counts[0].max(2))),
    seeking("open fields given code 0", |b, s| by(b, s, |_, reading| open(s, reading).all(|(_, code)| code == 0))),
    seeking("open fields given codes that stand", |b, s| {
        let standing = largest(b, &s.answers);
        by(b, s, |_, reading| open(s, reading).all(|(field, code)| standing[field][code as usize]))
    }),
    seeking("photographed answers not kept", |b, s| nearest(b, &s.photographed_where(|_| false))),
    seeking("a photographed field taken as open", |b, s| nearest(b, &answered_where(s, |field| !s.is_photographed(field)))),
    seeking("all answers kept", |b, s| nearest(b, &s.photographed_where(|field| s.is_answered(field)))),
    seeking("answers beside photographed ones taken as open", |b, s| {
        let is_taken = |field: usize| s.is_photographed(field) || !s.has_photograph();
        nearest(b, &answered_where(s, is_taken))
    }),
    seeking("answers not looked at", |b, s| nearest(b, &answered_where(s, |_| false))),
    seeking("the answer of field 0 not looked at", |b, s| nearest(b, &answered_where(s, |field| field > 0))),
    seeking("the last answer not looked at", |b, s| nearest(b, &answered_where(s, |field| field + 1 < b.counts.len()))),
    seeking("code 0 taken as no answer", |b, s| nearest(b, &answered_where(s, |field| s.answers[field] > 0))),
    seeking("answers from field 32 on not looked at", |b, s| nearest(b, &answered_where(s, |field| field < 32))),
    seeking("photographs from field 32 on not kept", |b, s| {
        nearest(b, &s.photographed_where(|field| field < 32 && s.is_photographed(field)))
    }),
    seeking("the first photographed answer kept alone", |b, s| {
        let first = s.photographed().next();
        nearest(b, &s.photographed_where(|field| Some(field) == first))
    }),
    seeking("a photographed code kept only in a table of one field", |b, s| {
        let alone = with_tables(b, |table| table.fields.len() == 1);
        nearest(b, &s.photographed_where(|field| s.is_photographed(field) && is_tied(&alone, field)))
    }),
    seeking("a photographed code kept only where it stands", |b, s| {
        let standing = largest(b, &s.answers);
        nearest(b, &s.photographed_where(|field| s.is_photographed(field) && standing[field][s.answers[field] as usize]))
    }),
    seeking("only the first table tested", |b, s| nearest(&first_tables(b, 1), s)),
    seeking("the first table not tested", |b, s| nearest(&but_table(b, |_| 0), s)),
    seeking("the last table not tested", |b, s| nearest(&but_table(b, |tables| tables - 1), s)),
    seeking("tables from the eighth on not tested", |b, s| nearest(&first_tables(b, 7), s)),
    seeking("tables of one field not tested", |b, s| nearest(&with_tables(b, |table| table.fields.len() > 1), s)),
    seeking("tables of four fields not tested", |b, s| nearest(&with_tables(b, |table| table.fields.len() < 4), s)),
    seeking("tables without rows not tested", |b, s| nearest(&with_tables(b, |table| !table.rows.is_empty()), s)),
    seeking("tables on fields from 32 on not tested", |b, s| {
        nearest(&with_tables(b, |table| table.fields.iter().all(|&field| field < 32)), s)
    }),
    seeking("tables on open fields not tested", |b, s| {
        nearest(&with_tables(b, |table| table.fields.iter().all(|&field| s.is_answered(field as usize))), s)
    }),
    seeking("one table that holds its row suffices", |b, s| {
        among(b, s, |reading| {
            b.tables.is_empty() || b.tables.iter().any(|table| table.rows.contains(&row(&table.fields, reading)))
        })
    }),
    seeking("rows tested by their first column", |b, s| columns(b, s, |k, _| k == 0)),
    seeking("rows tested without their last column", |b, s| columns(b, s, |k, arity| k + 1 < arity)),
    seeking("rows tested without their first column", |b, s| columns(b, s, |k, _| k > 0)),
    seeking("rows tested by columns of different rows", |b, s| among(b, s, |reading| each_column(b, reading))),
    seeking("rows tested with their codes in another order", |b, s| {
        among(b, s, |reading| b.tables.iter().all(|table| in_any_order(table, reading)))
    }),
    seeking("the first row of each table not looked at", |b, s| nearest(&with_rows(b, |row, _| row > 0), s)),
    seeking("the last row of each table not looked at", |b, s| nearest(&with_rows(b, |row, rows| row + 1 < rows), s)),
    seeking("rows from 32 on not looked at", |b, s| nearest(&with_rows(b, |row, _| row < 32), s)),
    seeking("codes that stand taken as a full reading", |b, s| {
        let standing = largest(b, &[NO_ANSWER; PLACES]);
        among(b, s, |reading| (0..reading.len()).all(|field| standing[field][reading[field] as usize]))
    }),
    seeking("open fields counted as differing", |b, s| {
        counted(b, s, |n| n.reading.iter().enumerate().filter(|&(field, &code)| s.answers[field] != code).count())
    }),
    seeking("fields that keep their answer counted", |b, s| counted(b, s, |n| answers(b, s) - n.differing)),
    seeking("all answered fields counted", |b, s| counted(b, s, |_| answers(b, s))),
    seeking("the distance of the codes counted", |b, s| counted(b, s, |n| distance(s, n))),
    seeking("photographed fields counted too", |b, s| counted(b, s, |n| n.differing + s.photographed().count())),
    seeking("fields that differ counted up to field 31", |b, s| {
        counted(b, s, |n| differing(s, &n.reading).filter(|&field| field < 32).count())
    }),
    seeking("1 counted for any number of fields", |b, s| counted(b, s, |n| n.differing.min(1))),
    seeking("two fields counted at most", |b, s| counted(b, s, |n| n.differing.min(2))),
    seeking("open fields written as 255", |b, s| {
        written(b, s, |field, code| if s.is_answered(field) { code } else { NO_ANSWER })
    }),
    seeking("photographed fields written as 255", |b, s| {
        written(b, s, |field, code| if s.is_photographed(field) { NO_ANSWER } else { code })
    }),
    seeking("answers written in the place of the reading", |b, s| {
        written(b, s, |field, code| if s.is_answered(field) { s.answers[field] } else { code })
    }),
    seeking("the reading from its last field on", |b, s| nearest(b, s).map(|n| Nearest { reading: turned(&n.reading), ..n })),
    seeking("the reading up to field 31", |b, s| written(b, s, |field, code| if field < 32 { code } else { 0 })),
    seeking("fields that keep their answer written as 255", |b, s| {
        written(b, s, |field, code| if s.answers[field] == code { NO_ANSWER } else { code })
    }),
    telling("found not told", |_, left| if_accepted(left, |left| left.cells[1] = 0)),
    telling("differing not told", |_, left| if_accepted(left, |left| left.cells[2] = 0)),
    telling("written not told", |_, left| if_accepted(left, |left| left.cells[3] = 0)),
    telling("found and differing exchanged", |_, left| if_accepted(left, |left| left.cells.swap(1, 2))),
    telling("differing and written exchanged", |_, left| if_accepted(left, |left| left.cells.swap(2, 3))),
    telling("differing counted from 1", |_, left| if_found(left, |left| left.cells[2] += 1)),
    telling("no difference told as none", |_, left| if_found(left, |left| left.cells[1] = left.cells[2].min(1))),
    telling("written told as what is lent", |seen, left| if_found(left, |left| left.cells[3] = seen.lent as u64)),
    telling("written told as the answered fields", |seen, left| {
        if_found(left, |left| left.cells[3] = answers(seen.accepted(), seen.sheet) as u64)
    }),
    telling("written told as a sheet's places", |_, left| if_found(left, |left| left.cells[3] = PLACES as u64)),
    telling("found not written", |_, left| if_accepted(left, |left| left.cells[1] = UNWRITTEN)),
    telling("written not written where there is none", |_, left| if_none(left, |left| left.cells[3] = UNWRITTEN)),
    telling("counts not written by a refusal", |_, left| if_refused(left, |left| left.cells[1..].fill(UNWRITTEN))),
    telling("a refusal tells found", |_, left| if_refused(left, |left| left.cells[1] = 1)),
    telling("a refusal tells written", |_, left| if_refused(left, |left| left.cells[3] = 1)),
    telling("none told as found", |_, left| if_none(left, |left| left.cells[1] = 1)),
    telling("none told as 23", |_, left| if_none(left, |left| left.number = 23)),
    telling("none told as 18", |_, left| if_none(left, |left| left.number = 18)),
    telling("none told as 14", |_, left| if_none(left, |left| left.number = 14)),
    telling("none told with all answers differing", |seen, left| {
        if_none(left, |left| left.cells[2] = answers(seen.accepted(), seen.sheet) as u64)
    }),
    telling("none told by the largest number", |_, left| if_none(left, |left| left.cells[2] = u64::MAX)),
    telling("none told with the fields as written", |seen, left| {
        if_none(left, |left| left.cells[3] = seen.accepted().counts.len() as u64)
    }),
    telling("none told with place 1", |_, left| if_none(left, |left| left.cells[0] = 1)),
    telling("zeros written where there is none", |seen, left| none_written(seen, left, |_| 0)),
    telling("255 written where there is none", |seen, left| none_written(seen, left, |_| NO_ANSWER)),
    telling("the answers written where there is none", |seen, left| none_written(seen, left, |field| seen.sheet.answers[field])),
    telling("the first byte written where there is none", |_, left| {
        if_none(left, |left| left.out.bytes.iter_mut().take(1).for_each(|byte| *byte = !*byte))
    }),
    telling("18 only after the search", |seen, left| none_for(left, 18, || seen.shows_none())),
    telling("18 only where nothing is lent, if there is none", |seen, left| {
        none_for(left, 18, || seen.lent > 0 && seen.shows_none())
    }),
    telling("18 by the answered fields, if there is none", |seen, left| {
        none_for(left, 18, || seen.lent >= answers(seen.accepted(), seen.sheet) && seen.shows_none())
    }),
    telling("18 tested before 23", |seen, left| before(left, 23, 18, || seen.lacks_room())),
    telling("23 tested before 14", |seen, left| before(left, 14, 23, || is_too_large(seen.accepted()))),
    telling("23 told as 18", |_, left| before(left, 23, 18, || true)),
    telling("23 told as 14", |_, left| before(left, 23, 14, || true)),
    telling("23 told as 20", |_, left| before(left, 23, 20, || true)),
    telling("23 told as none", |_, left| none_for(left, 23, || true)),
    telling("23 with the number of fields for its place", |seen, left| {
        with_place(left, 23, |_| seen.accepted().counts.len() as u64)
    }),
    telling("23 with the field that exceeds the limit for its place", |seen, left| with_place(left, 23, |_| seen.exceeding())),
    telling("23 tells found", |_, left| if_number(left, 23, |left| left.cells[1] = 1)),
    telling("23 tells the product", |seen, left| {
        if_number(left, 23, |left| left.cells[2] = product(seen.accepted().counts.iter().copied()))
    }),
    telling("65,536 readings refused", |seen, left| refused_from(seen, left, MOST_READINGS)),
    telling("65,520 readings refused", |seen, left| refused_from(seen, left, 65_500)),
    telling("more than 4,096 readings refused", |seen, left| refused_from(seen, left, 4_097)),
    telling("65,550 readings searched", |seen, left| none_for(left, 23, || seen.readings() == 65_550)),
    telling("fewer than 131,072 readings searched", |seen, left| none_for(left, 23, || seen.readings() < 131_072)),
    telling("131,072 readings searched", |seen, left| none_for(left, 23, || seen.readings() == 131_072)),
    telling("the product in 8 bits", |seen, left| none_for(left, 23, || seen.fits(8))),
    telling("the product in 16 bits", |seen, left| none_for(left, 23, || seen.fits(16))),
    telling("the product in 17 bits", |seen, left| none_for(left, 23, || seen.fits(17))),
    telling("the product in 32 bits", |seen, left| none_for(left, 23, || seen.fits(32))),
    telling("the product in 64 bits", |seen, left| none_for(left, 23, || seen.fits(64))),
    telling("the product in 32 bits with a sign", |seen, left| none_for(left, 23, || seen.fits_signed(32))),
    telling("the product in 64 bits with a sign", |seen, left| none_for(left, 23, || seen.fits_signed(64))),
    telling("the product of the open fields", |seen, left| {
        none_for(left, 23, || seen.few_where(|field| !seen.sheet.is_answered(field)))
    }),
    telling("the product of the answered fields", |seen, left| {
        none_for(left, 23, || seen.few_where(|field| seen.sheet.is_answered(field)))
    }),
    telling("the product of the fields without a photograph", |seen, left| {
        none_for(left, 23, || seen.few_where(|field| !seen.sheet.is_photographed(field)))
    }),
    telling("the product of the fields in tables", |seen, left| {
        none_for(left, 23, || seen.few_where(|field| is_tied(seen.accepted(), field)))
    }),
    telling("the product of the first 32 fields", |seen, left| none_for(left, 23, || seen.few_where(|field| field < 32))),
    telling("the product without the first field", |seen, left| none_for(left, 23, || seen.few_where(|field| field > 0))),
    telling("the product without the last field", |seen, left| {
        none_for(left, 23, || seen.few_where(|field| field + 1 < seen.accepted().counts.len()))
    }),
    telling("the product of codes that stand", |seen, left| none_for(left, 23, || seen.few_stand())),
    telling("a sheet at fault taken as one without that answer", |seen, left| unseen(seen, left, |_, _, _| true)),
    telling("22 for a sheet with a photograph", |seen, left| refuse_where(left, 22, || seen.sheet.has_photograph())),
    telling("17 for a sheet without answers", |seen, left| refuse_where(left, 17, || answers(seen.accepted(), seen.sheet) == 0)),
];

/// All full readings that keep the photographed answers.
fn all<'a>(book: &'a Book, sheet: &'a Sheet) -> impl Iterator<Item = Nearest> + 'a {
    full_readings(book).filter(|reading| is_kept(sheet, reading)).map(|reading| measured(sheet, reading))
}

/// The first of them by another order.
fn best<K: Ord>(book: &Book, sheet: &Sheet, key: impl Fn(&Nearest) -> K) -> Option<Nearest> {
    all(book, sheet).min_by_key(key)
}

/// The nearest of those that are so.
fn by(book: &Book, sheet: &Sheet, so: impl Fn(&Book, &[u8]) -> bool) -> Option<Nearest> {
    all(book, sheet).filter(|found| so(book, &found.reading)).min()
}

/// The nearest of all readings that are taken as full.
fn among(book: &Book, sheet: &Sheet, is_full: impl Fn(&[u8]) -> bool) -> Option<Nearest> {
    let taken = readings(&book.counts).filter(|reading| is_kept(sheet, reading) && is_full(reading));
    taken.map(|reading| measured(sheet, reading)).min()
}

/// The nearest with another number of fields that differ.
fn counted(book: &Book, sheet: &Sheet, differing: impl Fn(&Nearest) -> usize) -> Option<Nearest> {
    nearest(book, sheet).map(|found| Nearest { differing: differing(&found), ..found })
}

/// The nearest with another code for each field.
fn written(book: &Book, sheet: &Sheet, other: impl Fn(usize, u8) -> u8) -> Option<Nearest> {
    let found = nearest(book, sheet)?;
    let reading = found.reading.iter().enumerate().map(|(field, &code)| other(field, code)).collect();
    Some(Nearest { reading, ..found })
}

fn second(book: &Book, sheet: &Sheet) -> Option<Nearest> {
    let mut found: Vec<Nearest> = all(book, sheet).collect();
    found.sort();
    let is_tied = found.len() > 1 && found[0].differing == found[1].differing;
    found.into_iter().nth(is_tied as usize)
}

fn greedy(book: &Book, sheet: &Sheet) -> Option<Nearest> {
    let mut left: Vec<Nearest> = all(book, sheet).collect();
    for field in 0..book.counts.len() {
        let keeps = |found: &Nearest| found.reading[field] == sheet.answers[field];
        if left.iter().any(keeps) {
            left.retain(keeps);
        }
    }
    left.into_iter().min()
}

fn turned(reading: &[u8]) -> Vec<u8> {
    reading.iter().rev().copied().collect()
}

fn sorted(row: &[u8]) -> Vec<u8> {
    let mut codes = row.to_vec();
    codes.sort();
    codes
}

fn sum(reading: &[u8]) -> usize {
    reading.iter().map(|&code| code as usize).sum()
}

fn changes(sheet: &Sheet, found: &Nearest) -> Vec<usize> {
    differing(sheet, &found.reading).collect()
}

/// The first field whose answer is changed.
fn kept_first(sheet: &Sheet, found: &Nearest) -> usize {
    differing(sheet, &found.reading).next().unwrap_or(PLACES)
}

/// How far the codes lie from the answers, added up.
fn distance(sheet: &Sheet, found: &Nearest) -> usize {
    let far = |field: usize| found.reading[field].abs_diff(sheet.answers[field]) as usize;
    differing(sheet, &found.reading).map(far).sum()
}

fn answers(book: &Book, sheet: &Sheet) -> usize {
    (0..book.counts.len()).filter(|&field| sheet.is_answered(field)).count()
}

/// The fields without an answer, with the codes that the reading gives them.
fn open<'a>(sheet: &'a Sheet, reading: &'a [u8]) -> impl Iterator<Item = (usize, u8)> + 'a {
    reading.iter().copied().enumerate().filter(|&(field, _)| !sheet.is_answered(field))
}

/// The sheet with the answers and photographs of such fields alone.
fn answered_where(sheet: &Sheet, so: impl Fn(usize) -> bool) -> Sheet {
    let mut some = sheet.photographed_where(|field| sheet.is_photographed(field) && so(field));
    (0..PLACES).filter(|&field| !so(field)).for_each(|field| some.answers[field] = NO_ANSWER);
    some
}

fn is_tied(book: &Book, field: usize) -> bool {
    book.tables.iter().any(|table| table.fields.contains(&(field as u8)))
}

/// The book without one of its tables, if it has any.
fn but_table(book: &Book, which: fn(usize) -> usize) -> Book {
    if book.tables.is_empty() {
        return book.clone();
    }
    without_table(book, which(book.tables.len()))
}

fn with_tables(book: &Book, so: impl Fn(&Table) -> bool) -> Book {
    let mut some = book.clone();
    some.tables.retain(so);
    some
}

/// The book with such rows alone, by their number and how many there are.
fn with_rows(book: &Book, so: fn(usize, usize) -> bool) -> Book {
    let mut some = book.clone();
    for table in &mut some.tables {
        let (rows, mut row) = (table.rows.len(), 0..);
        table.rows.retain(|_| row.next().is_some_and(|row| so(row, rows)));
    }
    some
}

/// Looks only at some columns of a row, by their number and how many there are.
fn columns(book: &Book, sheet: &Sheet, looked_at: fn(usize, usize) -> bool) -> Option<Nearest> {
    let fits = |held: &[u8], asked: &[u8]| (0..held.len()).all(|k| !looked_at(k, held.len()) || held[k] == asked[k]);
    let holds = |table: &Table, asked: &[u8]| table.rows.iter().any(|held| fits(held, asked));
    among(book, sheet, |reading| book.tables.iter().all(|table| holds(table, &row(&table.fields, reading))))
}

/// Each table has each code of the reading in its column, in one row or another.
fn each_column(book: &Book, reading: &[u8]) -> bool {
    book.tables.iter().all(|table| {
        let asked = row(&table.fields, reading);
        (0..asked.len()).all(|k| table.rows.iter().any(|held| held[k] == asked[k]))
    })
}

/// One of the rows has the codes of the reading, in any order.
fn in_any_order(table: &Table, reading: &[u8]) -> bool {
    let asked = sorted(&row(&table.fields, reading));
    table.rows.iter().any(|held| sorted(held) == asked)
}

impl Seen<'_> {
    fn shows_none(&self) -> bool {
        self.answer.result.is_ok() && self.answer.written.elements() == 0
    }

    fn readings(&self) -> u64 {
        product(self.accepted().counts.iter().copied())
    }

    /// The first field with which the product exceeds the limit.
    fn exceeding(&self) -> u64 {
        let counts = &self.accepted().counts;
        let exceeds = |&field: &usize| product(counts[..=field].iter().copied()) > MOST_READINGS;
        (0..counts.len()).find(exceeds).unwrap_or(0) as u64
    }

    /// The product in so many bits does not exceed the limit.
    fn fits(&self, bits: u32) -> bool {
        remainder(self.accepted(), bits) <= MOST_READINGS
    }

    /// The same where the highest bit is a sign.
    fn fits_signed(&self, bits: u32) -> bool {
        self.fits(bits) || remainder(self.accepted(), bits) >> (bits - 1) == 1
    }

    /// The product of such fields does not exceed the limit.
    fn few_where(&self, so: impl Fn(usize) -> bool) -> bool {
        let counts = self.accepted().counts.iter().enumerate();
        product(counts.filter(|(field, _)| so(*field)).map(|(_, &count)| count)) <= MOST_READINGS
    }

    fn few_stand(&self) -> bool {
        let standing = largest(self.accepted(), &self.sheet.answers);
        product(standing.iter().map(|codes| codes.iter().filter(|&&stands| stands).count() as u8)) <= MOST_READINGS
    }
}

fn if_number(left: &mut calls::Left, number: u64, change: impl Fn(&mut calls::Left)) {
    if left.number == number {
        change(left);
    }
}

fn if_found(left: &mut calls::Left, change: impl Fn(&mut calls::Left)) {
    if left.number == 0 && left.cells[1] == 1 {
        change(left);
    }
}

/// So many readings and more are refused by 23.
fn refused_from(seen: &Seen, left: &mut calls::Left, readings: u64) {
    refuse_where(left, 23, || seen.readings() >= readings);
}

/// Writes a byte for each field although there is no reading.
fn none_written(seen: &Seen, left: &mut calls::Left, byte: impl Fn(usize) -> u8) {
    if_none(left, |left| (0..seen.accepted().counts.len()).for_each(|field| left.out.bytes[field] = byte(field)));
}
