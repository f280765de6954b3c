//! Wrong showing and wrong writing: numbers in another order or form, listings taken for what they do not say, bytes laid out
//! otherwise.

use super::calling::{before, if_accepted, if_refused};
use super::reading::{first_rows, table, whole};
use super::{
    Listed, Seen,
    Wrong::{Left, Part},
};
use crate::book::Book;
use crate::calls::{self, Answer, Call, WRITING};
use crate::desk::Desk;
use crate::listing::{book_bytes, Fault, ListedTable, Listing};
use crate::reader::{codes_outside, tables_above, Reader};

const TELLING: &[&str] = &["show", "write", "write_tree"];

pub const fn showing(what: &'static str, exchange: fn(&mut Desk)) -> Listed {
    (what, &["show"], Part(exchange))
}

pub const fn writing(what: &'static str, exchange: fn(&mut Desk)) -> Listed {
    (what, WRITING, Part(exchange))
}

pub const fn leaving(what: &'static str, change: fn(&Seen, &mut calls::Left)) -> Listed {
    (what, WRITING, Left(change))
}

pub const SLIPS: &[Listed] = &[
    ("one element more told", TELLING, Left(|_, left| if_accepted(left, |left| left.cells[1] += 1))),
    ("how many elements not told", TELLING, Left(|_, left| if_accepted(left, |left| left.cells[1] = 0))),
    ("a refusal tells one element", TELLING, Left(|_, left| if_refused(left, |left| left.cells[1] = 1))),
    showing("rows in rising order", |desk| desk.listing = |book| changed(book, sorted)),
    showing("repeated rows once", |desk| desk.listing = |book| changed(book, once)),
    showing("tables from the last to the first", |desk| desk.listing = |book| changed_whole(book, |l| l.tables.reverse())),
    showing("tables without rows left out", |desk| desk.listing = |book| changed_whole(book, with_rows)),
    showing("codes column by column", |desk| desk.listing = |book| changed(book, by_columns)),
    showing("a number of rows by its low byte", |desk| desk.listing = |book| changed(book, |t| t.rows %= 256)),
    showing("a number of rows with its bytes exchanged", |desk| {
        desk.listing = |book| changed(book, |t| t.rows = t.rows.swap_bytes())
    }),
    showing("row 4,096 of a table left out", |desk| desk.listing = |book| Listing::of(&first_rows(book)).numbers()),
    showing("different rows counted", |desk| desk.listing = |book| changed(book, |t| t.rows = once_of(t).rows)),
    showing("the highest code for a number of codes", |desk| {
        desk.listing = |book| changed_whole(book, |l| l.counts.iter_mut().for_each(|count| *count -= 1))
    }),
    showing("fields from 1", |desk| desk.listing = |book| changed(book, |t| t.fields.iter_mut().for_each(|f| *f += 1))),
    showing("the number of tables before the numbers of codes", |desk| desk.listing = tables_first),
    showing("the number of fields left out", |desk| desk.listing = |book| Listing::of(book).numbers().split_off(1)),
    showing("bytes of all numbers exchanged", |desk| desk.listing = all_exchanged),
    ("18 tested before 1 to 13", &["show"], Left(nothing_lent_first)),
    writing("rows in rising order", |desk| desk.taken = |call| taken(call, sorted)),
    writing("repeated rows once", |desk| desk.taken = |call| taken(call, once)),
    writing("tables from the last to the first", |desk| desk.taken = |call| taken_whole(call, |l| l.tables.reverse())),
    writing("tables without rows left out", |desk| desk.taken = |call| taken_whole(call, with_rows)),
    writing("fields that do not rise put in order", |desk| desk.taken = |call| taken(call, |t| t.fields.sort())),
    writing("codes by their low byte", |desk| desk.taken = |call| taken(call, |t| low_bytes(&mut t.codes))),
    writing("fields by their low byte", |desk| desk.taken = |call| taken(call, |t| low_bytes(&mut t.fields))),
    writing("numbers of codes by their low byte", |desk| desk.taken = |call| taken_whole(call, |l| low_bytes(&mut l.counts))),
    writing("numbers left over dropped", |desk| desk.taken = left_over_dropped),
    writing("missing numbers taken as 1", |desk| desk.taken = missing_as_1),
    writing("a length of 16 bits", |desk| desk.taken = |call| first_numbers(call, call.listing().len() % 65_536)),
    writing("a length of 15 bits", |desk| desk.taken = |call| first_numbers(call, call.listing().len() % 32_768)),
    writing("64 tables refused", |desk| whole(desk, 4, |bytes| tables_above(bytes, 63))),
    writing("65 tables written", |desk| whole(desk, 4, |bytes| tables_above(bytes, 65))),
    writing("32 codes refused", |desk| whole(desk, 6, |bytes| codes_outside(bytes, 1..=31).first().copied())),
    writing("33 codes written", |desk| whole(desk, 6, |bytes| codes_outside(bytes, 1..=33).first().copied())),
    writing("a field of no codes written", |desk| whole(desk, 6, |bytes| codes_outside(bytes, 0..=32).first().copied())),
    writing("equal fields written", |desk| table(desk, 3, |table| table.fields_not_rising_by(0))),
    writing("4,096 rows refused", |desk| table(desk, 5, |table| table.rows_above(4_095, table.rows_before))),
    writing("4,097 rows written", |desk| table(desk, 5, |table| table.rows_above(4_097, table.rows_before))),
    writing("row 4,096 of a table not tested", |desk| table(desk, 6, |table| table.bad_code_in(4_095))),
    leaving("18 tested before 20", |seen, left| before(left, 20, 18, || laid_out(seen).is_some_and(|b| b.len() > seen.lent))),
    leaving("20 where too few bytes are lent", |_, left| before(left, 18, 20, || true)),
    leaving("18 for a listing of no book", |_, left| before(left, 20, 18, || true)),
    leaving("20 by reading's number", |seen, left| if_refused_by_reading(seen, left, |left, number, _| left.number = number)),
    leaving("20 with reading's place", |seen, left| if_refused_by_reading(seen, left, |left, _, place| left.cells[0] = place)),
    leaving("bytes laid out where they are lent before 20", laid_out_in_place),
    leaving("bytes laid out from 0 again at 65,536", laid_out_again),
    leaving("no closing byte", |_, left| in_bytes(left, |bytes| bytes[bytes.len() - 1] = 0)),
    leaving("the place of the field list one more", |_, left| in_bytes(left, place_one_more)),
    leaving("the place of the field list high byte first", |_, left| {
        in_bytes(left, |bytes| bytes.swap(bytes.len() - 6, bytes.len() - 5))
    }),
    leaving("the place of the field list by its low byte", |_, left| in_bytes(left, |bytes| bytes[bytes.len() - 5] = 0)),
    leaving("tables and fields exchanged", |_, left| in_bytes(left, |bytes| bytes.swap(bytes.len() - 4, bytes.len() - 3))),
    leaving("a number of rows high byte first", |seen, left| in_row_count(seen, left, <[u8]>::reverse)),
    leaving("a number of rows by its low byte", |seen, left| in_row_count(seen, left, |bytes| bytes[1] = 0)),
];

/// What the book shows, after this change.
pub fn changed_whole(book: &Book, change: impl Fn(&mut Listing)) -> Vec<u16> {
    let mut listing = Listing::of(book);
    change(&mut listing);
    listing.numbers()
}

/// What the book shows, after this change in each table.
fn changed(book: &Book, change: fn(&mut ListedTable)) -> Vec<u16> {
    changed_whole(book, |listing| listing.tables.iter_mut().for_each(change))
}

/// The call with this change in its listing, where that has its parts.
pub fn taken_whole(call: &Call, change: impl Fn(&mut Listing)) -> Call {
    let Ok(mut listing) = Listing::taken_apart(call.listing()) else {
        return call.clone();
    };
    change(&mut listing);
    call.with_listing(listing.numbers())
}

/// The call with this change in each table of its listing.
fn taken(call: &Call, change: fn(&mut ListedTable)) -> Call {
    taken_whole(call, |listing| listing.tables.iter_mut().for_each(change))
}

/// The rows of a table; none where it has no fields.
fn rows(table: &ListedTable) -> Vec<Vec<u16>> {
    table.codes.chunks(table.fields.len().max(1)).map(<[u16]>::to_vec).collect()
}

fn sorted(table: &mut ListedTable) {
    let mut rows = rows(table);
    rows.sort();
    table.codes = rows.concat();
}

fn once(table: &mut ListedTable) {
    let rows = rows(table);
    let first: Vec<_> = (0..rows.len()).filter(|&i| !rows[..i].contains(&rows[i])).map(|i| rows[i].clone()).collect();
    table.rows = first.len() as u16;
    table.codes = first.concat();
}

fn once_of(table: &ListedTable) -> ListedTable {
    let mut table = table.clone();
    once(&mut table);
    table
}

fn by_columns(table: &mut ListedTable) {
    let rows = rows(table);
    table.codes = (0..table.fields.len()).flat_map(|column| rows.iter().map(move |row| row[column])).collect();
}

fn with_rows(listing: &mut Listing) {
    listing.tables.retain(|table| table.rows > 0);
}

fn low_bytes(numbers: &mut [u16]) {
    numbers.iter_mut().for_each(|number| *number %= 256);
}

fn tables_first(book: &Book) -> Vec<u16> {
    let mut numbers = Listing::of(book).numbers();
    numbers[1..book.counts.len() + 2].rotate_right(1);
    numbers
}

fn all_exchanged(book: &Book) -> Vec<u16> {
    Listing::of(book).numbers().into_iter().map(u16::swap_bytes).collect()
}

fn first_numbers(call: &Call, numbers: usize) -> Call {
    call.with_listing(call.listing()[..numbers].to_vec())
}

fn left_over_dropped(call: &Call) -> Call {
    match Listing::in_front(call.listing()) {
        Ok((listing, _)) => call.with_listing(listing.numbers()),
        Err(_) => call.clone(),
    }
}

fn missing_as_1(call: &Call) -> Call {
    let continued = [call.listing(), &[1; 70_000]].concat();
    match (Listing::taken_apart(call.listing()), Listing::in_front(&continued)) {
        (Err(Fault::Missing), Ok((listing, _))) => call.with_listing(listing.numbers()),
        _ => call.clone(),
    }
}

pub fn nothing_lent_first(seen: &Seen, left: &mut calls::Left) {
    if (1..=13).contains(&left.number) && seen.lent == 0 {
        left.number = 18;
        left.cells.fill(0);
    }
}

fn laid_out(seen: &Seen) -> Option<Vec<u8>> {
    Listing::taken_apart(seen.call.listing()).and_then(|listing| listing.lay_out()).ok()
}

/// Changes what 20 leaves by the number and the place with which reading refuses the bytes laid out.
fn if_refused_by_reading(seen: &Seen, left: &mut calls::Left, change: fn(&mut calls::Left, u64, u64)) {
    if let (20, Err(Fault::Refused(r))) = (left.number, book_bytes(&Reader::default(), seen.call.listing())) {
        change(left, r.number, r.place);
    }
}

fn laid_out_in_place(seen: &Seen, left: &mut calls::Left) {
    if let (20, Some(bytes)) = (left.number, laid_out(seen)) {
        left.out.write(&bytes.into());
    }
}

/// Of what lies in the same bytes, the later stays.
fn laid_out_again(seen: &Seen, left: &mut calls::Left) {
    let again = || {
        let listing = Listing::taken_apart(seen.call.listing()).ok()?;
        listing.lay_out_behind(listing.lay_out_tables().ok()?.get(65_536..)?).ok()
    };
    if let Some(bytes) = again().filter(|bytes| Reader::default().read(bytes).is_ok()) {
        let asked = bytes.len();
        let answer = Answer { result: Ok(vec![asked as u64]), sheet: *seen.sheet, written: bytes.into(), asked };
        *left = answer.left(seen.call, &left.out);
    }
}

/// Changes the bytes written.
pub fn in_bytes(left: &mut calls::Left, change: impl Fn(&mut [u8])) {
    if left.number == 0 {
        change(&mut left.out.bytes[..left.cells[1] as usize]);
    }
}

fn place_one_more(bytes: &mut [u8]) {
    let place = bytes.len() - 6;
    bytes[place] = bytes[place].wrapping_add(1);
}

/// Changes the two bytes for the first table's number of rows.
fn in_row_count(seen: &Seen, left: &mut calls::Left, change: fn(&mut [u8])) {
    let tables = Listing::taken_apart(seen.call.listing()).map_or(0, |listing| listing.tables.len());
    in_bytes(left, |bytes| {
        if tables > 0 {
            let fields = bytes[0] as usize;
            change(&mut bytes[1 + fields..3 + fields]);
        }
    });
}
