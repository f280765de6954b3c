//! Wrong answers of the calls of tree books, after document 02's M-111: 28 and 29 in another order or told as another number, other places,
//! other counts, books taken that are no tree books or not taken that are, and bytes written, asked for or told otherwise.

use super::calling::{before, if_accepted, if_refused, refuse_where, with_place};
use super::listing::{in_bytes, taken_whole};
use super::photographs::of;
use super::shortening::asking;
use super::{Listed, Seen, Wrong::Part};
use crate::book::{field_limit, Book, Table};
use crate::calls::{self, Call, OF_TREES};
use crate::compare::UNWRITTEN;
use crate::desk::Desk;
use crate::listing::{ListedTable, Listing};
use crate::tree_asked::{laid_out, said, tables_before};
use crate::trees::{first_byte, first_closing, first_wide, has_ring, is_wide, links, Trees};

const READ: &[&str] = &["read_tree"];
const WRITE: &[&str] = &["write_tree"];

const fn both(what: &'static str, change: fn(&Seen, &mut calls::Left)) -> Listed {
    of(OF_TREES, what, change)
}

const fn reading(what: &'static str, change: fn(&Seen, &mut calls::Left)) -> Listed {
    of(READ, what, change)
}

const fn leaving(what: &'static str, change: fn(&Seen, &mut calls::Left)) -> Listed {
    of(WRITE, what, change)
}

const fn taking(what: &'static str, exchange: fn(&mut Desk)) -> Listed {
    (what, WRITE, Part(exchange))
}

pub const SLIPS: &[Listed] = &[
    both("29 tested before 28", |seen, left| instead(seen, left, 28, 29, first_closing)),
    both("28 or 29 by the table that stands first", |seen, left| {
        instead(seen, left, 28, 29, |book| first_closing(book).filter(|at| first_wide(book).is_some_and(|wide| *at < wide)))
    }),
    both("29 only where no table has more than two fields", |seen, left| before(left, 28, 0, || seen.is_book(has_ring_too))),
    both("28 told as 29", |_, left| told_as(left, 28, 29)),
    both("29 told as 28", |_, left| told_as(left, 29, 28)),
    both("28 told as 9", |_, left| told_as(left, 28, 9)),
    both("28 told as 27", |_, left| told_as(left, 28, 27)),
    both("28 told as 20", |_, left| told_as(left, 28, 20)),
    both("29 told as 30", |_, left| told_as(left, 29, 30)),
    both("29 told as 20", |_, left| told_as(left, 29, 20)),
    both("29 told as 10", |_, left| told_as(left, 29, 10)),
    both("28 where there are no tables", |seen, left| refuse_where(left, 28, || seen.is_book(|book| book.tables.is_empty()))),
    both("29 where there are no links", |seen, left| {
        refuse_where(left, 29, || seen.is_book(|book| links(&book.tables).is_empty()))
    }),
    both("29 where the links do not tie all fields", |seen, left| {
        refuse_where(left, 29, || seen.is_book(|book| links(&book.tables).len() + 1 < book.counts.len()))
    }),
    both("28 for a field without a table", |seen, left| refuse_where(left, 28, || seen.is_book(has_free_field))),
    both("3 for version 2", |seen, left| refuse_where(left, 3, || seen.is_book(|book| book.version == 2))),
    both("4 for more than 32 fields", |seen, left| refuse_where(left, 4, || seen.is_book(|b| b.counts.len() > field_limit(1)))),
    both("4 for 60 fields", |seen, left| refuse_where(left, 4, || seen.is_book(|book| book.counts.len() == field_limit(2)))),
    both("5 for 64 tables", |seen, left| refuse_where(left, 5, || seen.is_book(|book| book.tables.len() == 64))),
    both("5 for as many tables as fields", |seen, left| {
        refuse_where(left, 5, || seen.is_book(|b| b.tables.len() >= b.counts.len()))
    }),
    both("12 for 4,096 rows", |seen, left| refuse_where(left, 12, || seen.is_book(|book| book.rows() == 4_096))),
    both("13 for a table without rows", |seen, left| {
        refuse_where(left, 13, || seen.is_book(|book| book.tables.iter().any(|table| table.rows.is_empty())))
    }),
    both("a refusal's count not written", |_, left| if_refused(left, |left| left.cells[1] = UNWRITTEN)),
    both("a refusal tells a count", |_, left| if_refused(left, |left| left.cells[1] = 1)),
    both("an accepted call's count not written", |_, left| if_accepted(left, |left| left.cells[1] = UNWRITTEN)),
    both("an accepted call with place 1", |_, left| if_accepted(left, |left| left.cells[0] = 1)),
    reading("28 before 8 to 10 of a table behind", |seen, left| wide_before(seen, left, 8..=10)),
    reading("28 before 11", |seen, left| wide_before(seen, left, 11..=11)),
    reading("28 before 12", |seen, left| wide_before(seen, left, 12..=12)),
    reading("28 before 13", |seen, left| wide_before(seen, left, 13..=13)),
    reading("29 before 8 to 10 of a table behind", |seen, left| ring_before(seen, left, 8..=10)),
    reading("29 before 11", |seen, left| ring_before(seen, left, 11..=11)),
    reading("29 before 12", |seen, left| ring_before(seen, left, 12..=12)),
    reading("29 before 13", |seen, left| ring_before(seen, left, 13..=13)),
    reading("28 at place 0", |_, left| with_place(left, 28, |_| 0)),
    reading("29 at place 0", |_, left| with_place(left, 29, |_| 0)),
    reading("28 at the first field of the table", |_, left| with_place(left, 28, |place| place + 1)),
    reading("28 at the third field of the table", |_, left| with_place(left, 28, |place| place + 3)),
    reading("29 at the first field of the table", |_, left| with_place(left, 29, |place| place + 1)),
    reading("29 at the second field of the table", |_, left| with_place(left, 29, |place| place + 2)),
    reading("29 at the table's number of rows", |_, left| with_place(left, 29, |place| place + 3)),
    reading("28 at the byte before", |_, left| with_place(left, 28, |place| place.saturating_sub(1))),
    reading("29 at the byte before", |_, left| with_place(left, 29, |place| place - 1)),
    reading("28 at the place of the field list", |seen, left| with_place(left, 28, |_| seen.list())),
    reading("29 at the place of the field list", |seen, left| with_place(left, 29, |_| seen.list())),
    reading("29 at the trailer's number of tables", |seen, left| with_place(left, 29, |_| seen.book.len() as u64 - 3)),
    reading("28 at a place by its low byte", |_, left| with_place(left, 28, |place| place % 256)),
    reading("29 at a place by its low byte", |_, left| with_place(left, 29, |place| place % 256)),
    reading("28 with the number of the table for its place", |seen, left| named(seen, left, 28, first_wide, |_, at| at)),
    reading("29 with the number of the table for its place", |seen, left| named(seen, left, 29, first_closing, |_, at| at)),
    reading("29 with the first field of the table for its place", |seen, left| {
        named(seen, left, 29, first_closing, |book, at| book.tables[at].fields[0] as usize)
    }),
    reading("28 at the place where the table ends", |seen, left| {
        named(seen, left, 28, first_wide, |b, at| first_byte(b, at + 1))
    }),
    reading("29 at the place where the table ends", |seen, left| {
        named(seen, left, 29, first_closing, |book, at| first_byte(book, at + 1))
    }),
    reading("places of tables without their rows", |seen, left| {
        let bare = |book: &Book, at: usize| book.tables[..at].iter().map(|table| 3 + table.fields.len()).sum();
        named(seen, left, 28, first_wide, bare);
        named(seen, left, 29, first_closing, bare);
    }),
    reading("28 and 29 tell what reading counts", |seen, left| {
        if let (28..=29, Ok(book)) = (left.number, seen.reading) {
            left.cells[1..].copy_from_slice(&counts(book));
        }
    }),
    reading("29 tells the tables passed", |_, left| {
        if left.number == 29 {
            left.cells[2] = 1;
        }
    }),
    reading("links counted for tables", |seen, left| counted(seen, left, 2, |book| links(&book.tables).len())),
    reading("tables without rows not counted", |seen, left| {
        counted(seen, left, 2, |book| book.tables.iter().filter(|table| !table.rows.is_empty()).count())
    }),
    reading("fields that a table ties counted alone", |seen, left| {
        counted(seen, left, 1, |book| (0..60).filter(|field| book.tables.iter().any(|t| t.fields.contains(field))).count())
    }),
    reading("rows of links counted alone", |seen, left| {
        counted(seen, left, 3, |book| book.tables.iter().filter(|t| t.fields.len() == 2).map(|t| t.rows.len()).sum())
    }),
    reading("different rows told for all rows", |_, left| if_accepted(left, |left| left.cells[3] = left.cells[4])),
    reading("rows written told for different ones", |_, left| if_accepted(left, |left| left.cells[4] = left.cells[3])),
    reading("rows not told", |_, left| if_accepted(left, |left| left.cells[3..].fill(0))),
    reading("different rows not written", |_, left| if_accepted(left, |left| left.cells[4] = UNWRITTEN)),
    reading("fields and tables exchanged", |_, left| if_accepted(left, |left| left.cells.swap(1, 2))),
    reading("one table more counted", |_, left| if_accepted(left, |left| left.cells[2] += 1)),
    reading("nothing counted", |_, left| if_accepted(left, |left| left.cells[1..].fill(0))),
    leaving("28 before 20", |seen, left| before(left, 20, 28, || said(seen.call.listing()).iter().any(is_wide))),
    leaving("29 before 20", |seen, left| before(left, 20, 29, || has_ring(&said(seen.call.listing())))),
    leaving("18 before 28", |seen, left| before(left, 28, 18, || seen.lacks_bytes())),
    leaving("18 before 29", |seen, left| before(left, 29, 18, || seen.lacks_bytes())),
    leaving("28 with reading's place", |seen, left| named(seen, left, 28, first_wide, first_byte)),
    leaving("29 with reading's place", |seen, left| named(seen, left, 29, first_closing, first_byte)),
    leaving("28 with the number of the table for its place", |seen, left| named(seen, left, 28, first_wide, |_, at| at)),
    leaving("29 with the number of the table for its place", |seen, left| named(seen, left, 29, first_closing, |_, at| at)),
    leaving("28 and 29 tell the bytes laid out", |seen, left| {
        if let (28..=29, Some(book)) = (left.number, seen.tree_book()) {
            left.cells[1] = book.write().len() as u64;
        }
    }),
    leaving("28 writes what fits", |seen, left| written_by(seen, left, 28, Book::write)),
    leaving("29 writes what fits", |seen, left| written_by(seen, left, 29, Book::write)),
    leaving("29 writes the tables before", |seen, left| {
        written_by(seen, left, 29, |book| {
            let bytes = book.write();
            first_closing(book).map_or(Vec::new(), |at| bytes[..first_byte(book, at)].to_vec())
        })
    }),
    leaving("28 and 29 clear the bytes lent", |_, left| {
        if (28..=29).contains(&left.number) {
            left.out.bytes.fill(0);
        }
    }),
    leaving("18 clears the bytes lent", |_, left| {
        if left.number == 18 {
            left.out.bytes.fill(0);
        }
    }),
    leaving("a refusal clears the last byte lent", |_, left| {
        if_refused(left, |left| left.out.bytes.iter_mut().last().into_iter().for_each(|byte| *byte = !*byte))
    }),
    leaving("written at the end of the bytes lent", |seen, left| {
        if_accepted(left, |left| left.out.bytes.rotate_right(seen.lent - seen.answer.asked))
    }),
    leaving("the byte behind written", |seen, left| {
        if_accepted(left, |left| left.out.bytes.iter_mut().skip(seen.answer.asked).take(1).for_each(|byte| *byte = !*byte))
    }),
    leaving("the last byte not written", |seen, left| {
        if_accepted(left, |left| left.out.bytes[seen.answer.asked - 1] = !left.out.bytes[seen.answer.asked - 1])
    }),
    leaving("one byte fewer told", |_, left| if_accepted(left, |left| left.cells[1] -= 1)),
    leaving("what is lent told", |seen, left| if_accepted(left, |left| left.cells[1] = seen.lent as u64)),
    leaving("the numbers of the listing told", |seen, left| {
        if_accepted(left, |left| left.cells[1] = seen.call.listing().len() as u64)
    }),
    leaving("the number of tables told", |seen, left| {
        if_accepted(left, |left| left.cells[1] = left.out.bytes[seen.answer.asked - 3] as u64)
    }),
    leaving("18 by the numbers of the listing", |seen, left| asking(seen, left, seen.call.listing().len())),
    leaving("18 without the trailer's bytes", |seen, left| asking(seen, left, seen.answer.asked.saturating_sub(6))),
    leaving("18 by one byte less", |seen, left| asking(seen, left, seen.answer.asked.saturating_sub(1))),
    leaving("18 where fewer than 16,898 bytes are lent", |seen, left| asking(seen, left, sighting::BOOK_BYTES)),
    leaving("18 for more than 8,192 bytes", |seen, left| refuse_where(left, 18, || seen.answer.asked > 8_192)),
    leaving("18 for more than 255 bytes", |seen, left| refuse_where(left, 18, || seen.answer.asked > 255)),
    leaving("28 for a listing of no book", |_, left| told_as(left, 20, 28)),
    leaving("29 for a listing of no book", |_, left| told_as(left, 20, 29)),
    taking("tables of more than two fields left out", |desk| {
        desk.taken = |call| tree_listing(call, |tables| tables.retain(|table| table.fields.len() <= 2))
    }),
    taking("the tables that close a ring left out", |desk| desk.taken = |call| tree_listing(call, without_closing)),
    taking("two tables on a pair made one", |desk| desk.taken = |call| tree_listing(call, on_other_fields)),
    taking("tables of one field behind all others", |desk| {
        desk.taken = |call| tree_listing(call, |tables| tables.sort_by_key(|table| table.fields.len() == 1))
    }),
    taking("tables of one field left out", |desk| {
        desk.taken = |call| tree_listing(call, |tables| tables.retain(|table| table.fields.len() != 1))
    }),
    taking("tables by their fields", |desk| {
        desk.taken = |call| tree_listing(call, |tables| tables.sort_by(|one, other| one.fields.cmp(&other.fields)))
    }),
    taking("the rows of links left out", |desk| {
        desk.taken = |call| {
            tree_listing(call, |tables| {
                tables.iter_mut().filter(|table| table.fields.len() == 2).for_each(|table| {
                    table.rows = 0;
                    table.codes.clear();
                })
            })
        }
    }),
    leaving("columns of links exchanged", |seen, left| {
        let Some(book) = seen.tree_book() else {
            return;
        };
        in_bytes(left, |bytes| {
            for (at, table) in book.tables.iter().enumerate().filter(|(_, table)| table.fields.len() == 2) {
                let first = first_byte(&book, at) + 5;
                bytes[first..first + 2 * table.rows.len()].chunks_mut(2).for_each(<[u8]>::reverse);
            }
        })
    }),
];

/// What reading counts of a book.
fn counts(book: &Book) -> [u64; 4] {
    [book.counts.len(), book.tables.len(), book.rows(), book.different_rows()].map(|count| count as u64)
}

fn has_ring_too(book: &Book) -> bool {
    has_ring(&book.tables)
}

fn has_free_field(book: &Book) -> bool {
    (0..book.counts.len()).any(|field| book.tables.iter().all(|table| !table.fields.contains(&(field as u8))))
}

impl Seen<'_> {
    /// The book that is read, or that a listing says; none where reading refuses it.
    fn tree_book(&self) -> Option<Book> {
        match self.call {
            Call::WriteTree { listing } => laid_out(listing).ok(),
            _ => self.reading.clone().ok(),
        }
    }

    fn is_book(&self, so: impl Fn(&Book) -> bool) -> bool {
        self.tree_book().is_some_and(|book| so(&book))
    }

    /// The place of the field list of an accepted book.
    fn list(&self) -> u64 {
        (self.book.len() - 6 - self.accepted().counts.len()) as u64
    }

    /// Fewer bytes are lent than the book has.
    fn lacks_bytes(&self) -> bool {
        self.is_book(|book| self.lent < book.write().len())
    }
}

/// Tells a refusal by another number, with its own place.
fn told_as(left: &mut calls::Left, number: u64, other: u64) {
    if left.number == number {
        left.number = other;
    }
}

/// Tells a refusal by another number, where a table is found for that one: reading at the table's first byte, writing at place 0.
fn instead(seen: &Seen, left: &mut calls::Left, number: u64, other: u64, find: fn(&Book) -> Option<usize>) {
    if let (true, Some(book)) = (left.number == number, seen.tree_book()) {
        if let Some(table) = find(&book) {
            left.number = other;
            left.cells[0] = if *seen.call == Call::ReadTree { first_byte(&book, table) as u64 } else { 0 };
        }
    }
}

/// Names another place with a refusal of this number, by the book and the number of its table.
fn named(seen: &Seen, left: &mut calls::Left, number: u64, find: fn(&Book) -> Option<usize>, place: fn(&Book, usize) -> usize) {
    if let (true, Some(book)) = (left.number == number, seen.tree_book()) {
        left.cells[0] = find(&book).map_or(0, |table| place(&book, table) as u64);
    }
}

/// Tells another count in this cell.
fn counted(seen: &Seen, left: &mut calls::Left, cell: usize, count: impl Fn(&Book) -> usize) {
    if let (0, Ok(book)) = (left.number, seen.reading) {
        left.cells[cell] = count(book) as u64;
    }
}

/// A refusal of this number writes these bytes, as far as they fit.
fn written_by(seen: &Seen, left: &mut calls::Left, number: u64, bytes: fn(&Book) -> Vec<u8>) {
    if let (true, Some(book)) = (left.number == number, seen.tree_book()) {
        left.out.write(&bytes(&book).into());
    }
}

/// The tables before the place of a refusal by such a number, and where each begins.
fn passed(seen: &Seen, left: &calls::Left, numbers: std::ops::RangeInclusive<u64>) -> Vec<(usize, Table)> {
    match seen.reading {
        Err(refusal) if numbers.contains(&left.number) => tables_before(seen.book, refusal),
        _ => Vec::new(),
    }
}

fn refuse_at(left: &mut calls::Left, number: u64, place: usize) {
    left.number = number;
    left.cells[0] = place as u64;
}

/// Refuses by 28 as soon as a table has been passed.
fn wide_before(seen: &Seen, left: &mut calls::Left, numbers: std::ops::RangeInclusive<u64>) {
    if let Some((place, _)) = passed(seen, left, numbers).iter().find(|(_, table)| is_wide(table)) {
        refuse_at(left, 28, *place);
    }
}

/// Refuses by 29 in the same way.
fn ring_before(seen: &Seen, left: &mut calls::Left, numbers: std::ops::RangeInclusive<u64>) {
    let (places, tables): (Vec<usize>, Vec<Table>) = passed(seen, left, numbers).into_iter().unzip();
    if let Some(table) = first_closing(&Book::new(Vec::new(), tables)) {
        refuse_at(left, 29, places[table]);
    }
}

/// The call with this change in the tables of its listing, where that is a book's.
fn tree_listing(call: &Call, change: fn(&mut Vec<ListedTable>)) -> Call {
    if laid_out(call.listing()).is_err() {
        return call.clone();
    }
    taken_whole(call, |listing| change(&mut listing.tables))
}

/// Leaves the tables out that close a ring, one after the other.
fn without_closing(tables: &mut Vec<ListedTable>) {
    let listing = |tables: &[ListedTable]| Listing { counts: vec![32; 60], tables: tables.to_vec(), version: 2 };
    while let Ok(book) = laid_out(&listing(tables).numbers()) {
        match Trees::default().broken(&book) {
            Some((29, table)) => drop(tables.remove(table)),
            _ => return,
        }
    }
}

/// Leaves the tables out whose fields an earlier one has.
fn on_other_fields(tables: &mut Vec<ListedTable>) {
    let mut passed: Vec<Vec<u16>> = Vec::new();
    tables.retain(|table| {
        let is_new = !passed.contains(&table.fields);
        passed.push(table.fields.clone());
        is_new
    });
}
