//! Two books taken for joining otherwise than document 02's M-109 has it: counts compared in part, limits at other numbers or of what is
//! not the result, refusals in another order or of the other book, other places, and bytes written, asked for or told otherwise.

use super::calling::{before, if_accepted, if_refused, refuse_where, with_place};
use super::listing::in_bytes;
use super::photographs::of;
use super::shortening::asking;
use super::{
    Listed, Seen,
    Wrong::{Breaks, Differ, Part},
};
use crate::book::{field_limit, refuse, Book};
use crate::calls::{self, Answer, Call};
use crate::desk::{Desk, Reading};
use crate::joining::{breaks, joined};
use crate::nearest::product;
use crate::reader::{field_list, Reader};

const JOIN: &[&str] = &["join"];

const fn differing(what: &'static str, differ: fn(&Book, &Book) -> bool) -> Listed {
    (what, JOIN, Differ(differ))
}

const fn limited(what: &'static str, breaks: fn(&Book) -> bool) -> Listed {
    (what, JOIN, Breaks(breaks))
}

const fn taking(what: &'static str, exchange: fn(&mut Desk)) -> Listed {
    (what, JOIN, Part(exchange))
}

const fn leaving(what: &'static str, change: fn(&Seen, &mut calls::Left)) -> Listed {
    of(JOIN, what, change)
}

pub const SLIPS: &[Listed] = &[
    differing("no 25", |_, _| false),
    differing("25 by the number of fields alone", |a, b| a.counts.len() != b.counts.len()),
    differing("25 by the counts that both have", |a, b| a.counts.iter().zip(&b.counts).any(|(one, other)| one != other)),
    differing("counts that continue the first's taken", |a, b| !b.counts.starts_with(&a.counts)),
    differing("counts that the first's continue taken", |a, b| !a.counts.starts_with(&b.counts)),
    differing("25 by the sum of the counts", |a, b| sum(a) != sum(b)),
    differing("25 by the sum of as many counts", |a, b| a.counts.len() != b.counts.len() || sum(a) != sum(b)),
    differing("25 by the product of the counts", |a, b| product(a.counts.clone()) != product(b.counts.clone())),
    differing("25 by the counts in any order", |a, b| sorted(a) != sorted(b)),
    differing("25 by the first count", |a, b| a.counts[0] != b.counts[0]),
    differing("25 by the last count", |a, b| a.counts.last() != b.counts.last()),
    differing("25 by the highest count", |a, b| a.counts.iter().max() != b.counts.iter().max()),
    differing("the first count not compared", |a, b| a.counts[1..] != b.counts[1..]),
    differing("the last count not compared", |a, b| differ_in(a, b, |field| field + 1 < a.counts.len())),
    differing("counts from field 32 on not compared", |a, b| differ_in(a, b, |field| field < 32)),
    differing("the count of field 59 not compared", |a, b| differ_in(a, b, |field| field != 59)),
    differing("counts of fields without tables not compared", |a, b| {
        differ_in(a, b, |field| is_tied(a, field) || is_tied(b, field))
    }),
    differing("counts compared by four bits", |a, b| low_bits(a, 16) != low_bits(b, 16)),
    differing("counts compared by their lowest bit", |a, b| low_bits(a, 2) != low_bits(b, 2)),
    differing("25 only where the second has fewer codes", |a, b| differ_in(a, b, |field| b.counts[field] < a.counts[field])),
    differing("25 only where the second has more codes", |a, b| differ_in(a, b, |field| b.counts[field] > a.counts[field])),
    differing("25 only for several counts", |a, b| differ_in(a, b, |field| differ_in(a, b, |other| other != field))),
    differing("25 for other versions", |a, b| (a.version, &a.counts) != (b.version, &b.counts)),
    differing("25 for equal books", |a, b| a == b || a.counts != b.counts),
    differing("25 for books without tables", |a, b| a.counts != b.counts || (a.tables.is_empty() && b.tables.is_empty())),
    differing("25 for more than 32 fields", |a, b| a.counts != b.counts || a.counts.len() > 32),
    limited("no 26", |_| false),
    limited("63 tables at most", |book| over(book, 63, 4_096)),
    limited("65 tables at most", |book| over(book, 65, 4_096)),
    limited("127 tables at most", |book| over(book, 127, 4_096)),
    limited("32 tables at most", |book| over(book, 32, 4_096)),
    limited("4,095 rows at most", |book| over(book, 64, 4_095)),
    limited("4,097 rows at most", |book| over(book, 64, 4_097)),
    limited("8,191 rows at most", |book| over(book, 64, 8_191)),
    limited("2,048 rows at most", |book| over(book, 64, 2_048)),
    limited("no 26 for tables", |book| book.rows() > 4_096),
    limited("no 26 for rows", |book| book.tables.len() > 64),
    limited("26 for tables and rows together", |book| book.tables.len() > 64 && book.rows() > 4_096),
    limited("tables without rows not counted by 26", |book| {
        book.rows() > 4_096 || book.tables.iter().filter(|table| !table.rows.is_empty()).count() > 64
    }),
    limited("rows of each table by themselves counted", |book| {
        book.tables.len() > 64 || book.tables.iter().any(|table| table.rows.len() > 4_096)
    }),
    limited("rows counted by 13 bits", |book| book.tables.len() > 64 || book.rows() % 8_192 > 4_096),
    limited("tables counted by seven bits", |book| book.rows() > 4_096 || book.tables.len() % 128 > 64),
    limited("version 1's limit of fields", |book| breaks(book) || book.counts.len() > field_limit(1)),
    limited("59 fields at most", |book| breaks(book) || book.counts.len() > 59),
    limited("26 for no tables", |book| breaks(book) || book.tables.is_empty()),
    limited("26 for a table without rows", |book| breaks(book) || book.tables.iter().any(|table| table.rows.is_empty())),
    limited("26 for no rows", |book| breaks(book) || book.rows() == 0),
    limited("26 for more than 16,384 bytes", |book| breaks(book) || book.write().len() > 16_384),
    limited("26 for more bytes than a book of version 1 has", |book| breaks(book) || book.write().len() > 16_870),
    leaving("26 for tables of both books", |seen, left| refuse_where(left, 26, || seen.together(|book| book.tables.len()) > 64)),
    leaving("26 for rows of both books", |seen, left| refuse_where(left, 26, || seen.together(Book::rows) > 4_096)),
    leaving("26 for different rows of both books", |seen, left| {
        refuse_where(left, 26, || seen.together(Book::different_rows) > 4_096)
    }),
    leaving("the second's refusal before the first's", |seen, left| {
        if seen.reading.is_err() {
            refused_by(seen.second(), left)
        }
    }),
    leaving("the first's refusal with the second's place", |seen, left| {
        if let (Err(_), Err(r)) = (seen.reading, seen.second()) {
            left.cells[0] = r.place;
        }
    }),
    leaving("the lower of both refusals", |seen, left| {
        if let (Err(first), Err(second)) = (seen.reading, seen.second()) {
            refused_by(Err(if second.number < first.number { second } else { *first }), left);
        }
    }),
    leaving("25 before the second's 8 to 13", |seen, left| instead(left, 25, seen.is_of_tables(true) && seen.has_other_list())),
    leaving("25 before the first's 8 to 13", |seen, left| instead(left, 25, seen.is_of_tables(false) && seen.has_other_list())),
    leaving("26 before 25", |seen, left| before(left, 25, 26, || seen.joined().is_some_and(|book| breaks(&book)))),
    leaving("18 before 25", |seen, left| before(left, 25, 18, || seen.lent == 0)),
    leaving("18 before 26", |seen, left| before(left, 26, 18, || seen.lent == 0)),
    leaving("18 before the second's refusal", |seen, left| instead(left, 18, seen.is_of_second() && seen.lent == 0)),
    leaving("25 told as 24", |_, left| before(left, 25, 24, || true)),
    leaving("25 told as 26", |_, left| before(left, 25, 26, || true)),
    leaving("25 told as 7", |_, left| before(left, 25, 7, || true)),
    leaving("26 told as 25", |_, left| before(left, 26, 25, || true)),
    leaving("26 told as 18", |_, left| before(left, 26, 18, || true)),
    leaving("26 told as 20", |_, left| before(left, 26, 20, || true)),
    leaving("26 told as reading's refusal of the result", |seen, left| {
        if let (26, Some(book)) = (left.number, seen.joined()) {
            refused_by(Reader::default().read(&book.write()), left);
        }
    }),
    leaving("18 told as 26", |_, left| before(left, 18, 26, || true)),
    leaving("25 with the place of the first field", |seen, left| with_place(left, 25, |_| seen.first_other())),
    leaving("25 with the place of its byte", |seen, left| {
        with_place(left, 25, |_| (seen.book.len() - 6 - seen.accepted().counts.len()) as u64 + seen.first_other())
    }),
    leaving("25 with place 1", |_, left| with_place(left, 25, |_| 1)),
    leaving("26 with place 1", |_, left| with_place(left, 26, |_| 1)),
    leaving("26 with the number of tables", |seen, left| {
        with_place(left, 26, |_| seen.joined().map_or(0, |book| book.tables.len() as u64))
    }),
    leaving("the second's places behind the first's bytes", |seen, left| {
        of_second(seen, left, |left| left.cells[0] += seen.book.len() as u64)
    }),
    leaving("the second's places by the first's length", |seen, left| {
        of_second(seen, left, |left| {
            left.cells[0] = (left.cells[0] + seen.book.len() as u64).saturating_sub(seen.second_bytes().len() as u64);
        })
    }),
    leaving("the second's refusal with place 0", |seen, left| of_second(seen, left, |left| left.cells[0] = 0)),
    leaving("the second's refusal by 13 more", |seen, left| of_second(seen, left, |left| left.number += 13)),
    leaving("the second's refusal told as 25", |seen, left| of_second(seen, left, |left| left.number = 25)),
    leaving("the first's refusal with place 0", |seen, left| {
        if seen.reading.is_err() {
            left.cells[0] = 0;
        }
    }),
    leaving("a refused second taken as one without tables", |seen, left| {
        if let (Ok(first), Err(_)) = (seen.reading, seen.second()) {
            let empty = Book { tables: Vec::new(), ..first.clone() };
            joined_with(seen, left, seen.reading, &empty.write());
        }
    }),
    leaving("a refused first taken as one without tables", |seen, left| {
        if let (Err(_), Ok(second)) = (seen.reading, seen.second()) {
            let empty: Reading = Ok(Book { tables: Vec::new(), ..second });
            joined_with(seen, left, &empty, seen.second_bytes());
        }
    }),
    taking("the first book lent for both", |desk| desk.taken = |_| Call::Join { second: None }),
    taking("the second's closing byte not looked at", |desk| desk.taken = |call| in_second(call, 1, 0xE5)),
    taking("the second's version not looked at", |desk| desk.taken = |call| in_second(call, 2, 2)),
    taking("codes behind row 31 of a table of either book not looked at", |desk| {
        desk.reader.table_tests()[6] = |table| table.bad_code_in(31);
    }),
    taking("4,097 rows of either read", |desk| {
        desk.reader.table_tests()[5] = |table| table.rows_above(4_097, table.rows_before);
    }),
    leaving("a second of more than 32 fields refused by 4", |seen, left| {
        let bytes = seen.second_bytes();
        if seen.reading.is_ok() && seen.second().is_ok_and(|second| second.counts.len() > field_limit(1)) {
            refused_by(refuse(4, bytes.len() - 4), left);
        }
    }),
    leaving("a second of version 1 refused by 3", |seen, left| {
        let bytes = seen.second_bytes();
        if seen.reading.is_ok() && seen.second().is_ok_and(|second| second.version == 1) {
            refused_by(refuse(3, bytes.len() - 2), left);
        }
    }),
    leaving("18 by the first book's length", |seen, left| asking(seen, left, seen.book.len())),
    leaving("18 by the second book's length", |seen, left| asking(seen, left, seen.second_bytes().len())),
    leaving("18 by the longer book", |seen, left| asking(seen, left, seen.book.len().max(seen.second_bytes().len()))),
    leaving("18 by both books together", |seen, left| asking(seen, left, seen.book.len() + seen.second_bytes().len())),
    leaving("18 where fewer than 16,898 bytes are lent", |seen, left| asking(seen, left, sighting::BOOK_BYTES)),
    leaving("18 without the trailer's bytes", |seen, left| asking(seen, left, seen.answer.asked.saturating_sub(6))),
    leaving("18 by one byte less", |seen, left| asking(seen, left, seen.answer.asked.saturating_sub(1))),
    leaving("18 for 16,898 bytes", |seen, left| refuse_where(left, 18, || seen.answer.asked == sighting::BOOK_BYTES)),
    leaving("the first book's length told", |seen, left| if_accepted(left, |left| left.cells[1] = seen.book.len() as u64)),
    leaving("the second book's length told", |seen, left| {
        if_accepted(left, |left| left.cells[1] = seen.second_bytes().len() as u64)
    }),
    leaving("the number of tables told", |seen, left| {
        if_accepted(left, |left| left.cells[1] = left.out.bytes[seen.answer.asked - 3] as u64)
    }),
    leaving("the place of the field list told", |seen, left| {
        if_accepted(left, |left| left.cells[1] -= 6 + seen.accepted().counts.len() as u64)
    }),
    leaving("the bytes told by 14 bits", |_, left| if_accepted(left, |left| left.cells[1] %= 16_384)),
    leaving("25 writes the first book", |seen, left| {
        if left.number == 25 {
            left.out.write(&seen.book.to_vec().into());
        }
    }),
    leaving("26 writes what fits", |seen, left| {
        if let (26, Some(book)) = (left.number, seen.joined()) {
            left.out.write(&book.write().into());
        }
    }),
    leaving("a refused second leaves the first's bytes", |seen, left| {
        of_second(seen, left, |left| left.out.write(&seen.book.to_vec().into()));
    }),
    leaving("18 clears the bytes lent", |_, left| {
        if left.number == 18 {
            left.out.bytes.fill(0);
        }
    }),
    leaving("a refusal clears the last byte lent", |_, left| {
        if_refused(left, |left| left.out.bytes.iter_mut().last().into_iter().for_each(|byte| *byte = !*byte))
    }),
    leaving("written at the end of the bytes lent", |seen, left| {
        if_accepted(left, |left| left.out.bytes.rotate_right(seen.lent - seen.answer.asked))
    }),
    leaving("no closing byte", |_, left| in_bytes(left, |bytes| bytes[bytes.len() - 1] = 0)),
    leaving("the place of the field list high byte first", |_, left| {
        in_bytes(left, |bytes| bytes.swap(bytes.len() - 6, bytes.len() - 5))
    }),
    leaving("the place of the field list by its low byte", |_, left| in_bytes(left, |bytes| bytes[bytes.len() - 5] = 0)),
    leaving("the place of the first book's field list", |seen, left| {
        in_bytes(left, |bytes| {
            let (from, to) = (seen.book.len() - 6, bytes.len() - 6);
            bytes[to..to + 2].copy_from_slice(&seen.book[from..from + 2]);
        })
    }),
    leaving("the first book's number of tables", |seen, left| {
        in_bytes(left, |bytes| bytes[bytes.len() - 3] = seen.book[seen.book.len() - 3])
    }),
    leaving("tables and fields exchanged", |_, left| in_bytes(left, |bytes| bytes.swap(bytes.len() - 4, bytes.len() - 3))),
    leaving("the first number of rows by its low byte", |_, left| {
        in_bytes(left, |bytes| {
            if bytes[bytes.len() - 3] > 0 {
                bytes[bytes[0] as usize + 2] = 0
            }
        })
    }),
    leaving("the first number of rows high byte first", |_, left| {
        in_bytes(left, |bytes| {
            let place = bytes[0] as usize + 1;
            if bytes[bytes.len() - 3] > 0 {
                bytes.swap(place, place + 1);
            }
        })
    }),
];

fn sum(book: &Book) -> usize {
    book.counts.iter().map(|&count| count as usize).sum()
}

fn sorted(book: &Book) -> Vec<u8> {
    let mut counts = book.counts.clone();
    counts.sort();
    counts
}

fn low_bits(book: &Book, modulus: u8) -> Vec<u8> {
    book.counts.iter().map(|count| count % modulus).collect()
}

/// There are not as many fields, or the counts of such a field differ.
fn differ_in(first: &Book, second: &Book, so: impl Fn(usize) -> bool) -> bool {
    let (ones, others) = (&first.counts, &second.counts);
    ones.len() != others.len() || (0..ones.len()).any(|field| ones[field] != others[field] && so(field))
}

fn is_tied(book: &Book, field: usize) -> bool {
    book.tables.iter().any(|table| table.fields.contains(&(field as u8)))
}

/// More tables or more rows than a book may have.
pub fn is_over(book: &Book) -> bool {
    over(book, 64, 4_096)
}

/// More tables or more rows than this.
fn over(book: &Book, tables: usize, rows: usize) -> bool {
    book.tables.len() > tables || book.rows() > rows
}

impl Seen<'_> {
    fn second_bytes(&self) -> &[u8] {
        match self.call {
            Call::Join { second: Some(second) } => second,
            _ => self.book,
        }
    }

    fn second(&self) -> Reading {
        Reader::default().read(self.second_bytes())
    }

    /// Both books joined, whatever counts and limits say; none where one is refused.
    fn joined(&self) -> Option<Book> {
        Some(joined(self.reading.as_ref().ok()?, &self.second().ok()?))
    }

    /// What both books have together of this; 0 where one is refused.
    fn together(&self, of: fn(&Book) -> usize) -> usize {
        match (self.reading, self.second()) {
            (Ok(first), Ok(second)) => of(first) + of(&second),
            _ => 0,
        }
    }

    /// The second book is refused, and the first is not.
    fn is_of_second(&self) -> bool {
        self.reading.is_ok() && self.second().is_err()
    }

    /// The first refused book, which is the second or not, is refused by 8 to 13.
    fn is_of_tables(&self, second: bool) -> bool {
        let refused = if second { self.second().err() } else { self.reading.as_ref().err().copied() };
        self.reading.is_ok() == second && refused.is_some_and(|r| (8..=13).contains(&r.number))
    }

    /// Both books have a field list, and they are not equal.
    fn has_other_list(&self) -> bool {
        let lists = field_list(self.book).zip(field_list(self.second_bytes()));
        lists.is_some_and(|((_, first), (_, second))| first != second)
    }

    /// The first field whose counts differ; that behind the last where one book has more fields.
    fn first_other(&self) -> u64 {
        let (first, second) = (&self.accepted().counts, self.second().map_or(Vec::new(), |second| second.counts));
        first.iter().zip(&second).take_while(|(one, other)| one == other).count() as u64
    }
}

/// Refuses by this number and place 0 where it is so, whatever was refused before.
fn instead(left: &mut calls::Left, number: u64, so: bool) {
    if so {
        refused_by(refuse(number, 0), left);
    }
}

/// Refuses as reading does, if it does.
fn refused_by(reading: Reading, left: &mut calls::Left) {
    if let Err(r) = reading {
        left.number = r.number;
        left.cells.copy_from_slice(&[r.place, 0]);
    }
}

/// Changes what a refused second book leaves.
fn of_second(seen: &Seen, left: &mut calls::Left, change: impl Fn(&mut calls::Left)) {
    if seen.is_of_second() {
        change(left);
    }
}

/// Leaves what joining these books leaves. Nothing was written before.
fn joined_with(seen: &Seen, left: &mut calls::Left, first: &Reading, second: &[u8]) {
    let result = Desk::default().join(first, Some(second));
    let written = result.clone().unwrap_or_default();
    let (result, asked) = (result.map(|bytes| vec![bytes.len() as u64]), written.len());
    *left = Answer { result, sheet: *seen.sheet, written: written.into(), asked }.left(seen.call, &left.out);
}

/// The call with another byte so far from the second book's end, if it has so many.
fn in_second(call: &Call, back: usize, byte: u8) -> Call {
    let mut call = call.clone();
    if let Call::Join { second: Some(second) } = &mut call {
        if let Some(place) = second.len().checked_sub(back) {
            second[place] = byte;
        }
    }
    call
}
