//! Tree books: read and written for the profile, some of them refused at their last table.

use sighting::{read_tree, show, write, write_tree, BOOK_BYTES, LISTING_NUMBERS, PLACES};

use crate::families::{bytes, small, Random, Table};
use crate::measure::{in_turn, medians_for_one, read, same};
use crate::plain::reader::{self, Counts};
use crate::plain::{trees, Refused, CODES};
use crate::stack;
use crate::timing::Contender;

const COUNTS: [u8; PLACES] = [CODES as u8; PLACES];

/// The sets of fields of a book's tables.
type Sets = Vec<Vec<u8>>;

/// Books of 60 fields whose tables all have so many rows, and what they are refused by, at their last table.
struct Shape {
    what: &'static str,
    sets: fn(&mut Random) -> Sets,
    rows: usize,
    refused: Option<u64>,
    /// How many books are read in turn, so that the processor does not learn how their rows compare.
    books: usize,
}

fn in_no_order(sets: Sets, r: &mut Random) -> Sets {
    r.shuffled(sets.len()).into_iter().map(|i| sets[i].clone()).collect()
}

/// The pairs of neighbours on a way through these fields.
fn pairs(way: &[usize]) -> Sets {
    way.windows(2).map(|pair| vec![pair[0].min(pair[1]) as u8, pair[0].max(pair[1]) as u8]).collect()
}

/// A way through all fields, and so many fields alone.
fn path(alone: usize, r: &mut Random) -> Sets {
    let mut sets = pairs(&r.shuffled(PLACES));
    sets.extend((0..alone).map(|_| r.fields(PLACES, 1)));
    in_no_order(sets, r)
}

/// A way through all fields and back to the first.
fn ring(r: &mut Random) -> Sets {
    let mut way = r.shuffled(PLACES);
    way.push(way[0]);
    in_no_order(pairs(&way), r)
}

/// 63 sets of a tree book, and four fields.
fn wide_at_last(r: &mut Random) -> Sets {
    let mut sets = path(4, r);
    sets.push(r.fields(PLACES, 4));
    sets
}

const PATH: Shape = Shape { what: "a path: 59 tables of 4 rows", sets: |r| path(0, r), rows: 4, refused: None, books: 16 };

static SHAPES: [Shape; 6] = [
    PATH,
    Shape { what: "the same and 5 tables of one field", sets: |r| path(5, r), ..PATH },
    Shape { what: "the same 64 tables, of 64 rows", sets: |r| path(5, r), rows: 64, ..PATH },
    Shape { what: "1 table of 4,096 rows of 2 codes", sets: |r| vec![r.fields(PLACES, 2)], rows: 4_096, books: 8, ..PATH },
    Shape { what: "a ring of 60 tables of 4 rows", sets: ring, refused: Some(29), ..PATH },
    Shape { what: "63 tables and one of 4 fields, of 4 rows", sets: wide_at_last, refused: Some(28), ..PATH },
];

impl Shape {
    fn table(&self, set: Vec<u8>, r: &mut Random) -> Table {
        let rows = (0..self.rows).map(|_| r.reading(&COUNTS[..set.len()])).collect();
        (set, rows)
    }

    fn book(&self, r: &mut Random) -> Vec<u8> {
        let sets = (self.sets)(r);
        let tables: Vec<_> = sets.into_iter().map(|set| self.table(set, r)).collect();
        bytes(2, &COUNTS, &tables)
    }

    fn books(&self) -> Vec<Vec<u8>> {
        let mut r = Random(10);
        (0..self.books).map(|_| self.book(&mut r)).collect()
    }
}

/// The medians of a call for the profile, by the library and by plain Rust, and of the library's for any book.
pub struct Call {
    pub library: f64,
    pub plain: f64,
    pub any_book: f64,
}

/// What reading and writing take, and reading by plain Rust with roots; and what the first book has.
pub struct TreeBooks {
    pub what: &'static str,
    pub tables: u64,
    pub rows: u64,
    pub refused: Option<u64>,
    pub read: Call,
    pub read_by_roots: f64,
    pub write: Call,
}

/// The counts that the library's reading for the profile gives, in plain Rust's form.
fn counted(book: &[u8]) -> Result<Counts, Refused> {
    let counted = read_tree(book).map_err(|r| (r.number, r.place));
    counted.map(|counts| [counts.fields, counts.tables, counts.rows, counts.different_rows])
}

fn listing(book: &[u8]) -> Vec<u16> {
    let mut numbers = vec![0; LISTING_NUMBERS];
    let many = show(book, &mut numbers).expect("accepted");
    numbers.truncate(many as usize);
    numbers
}

/// Library and plain Rust answer this for a book and for its listing; a tree book's counts are those of any book.
fn agree(book: &[u8], listing: &[u16], refused: Option<u64>) {
    let answer = counted(book);
    assert_eq!((trees::read(book), trees::read_by_roots(book)), (answer, answer));
    assert_eq!(answer.err().map(|(number, _)| number), refused);
    assert!(answer.is_err() || answer == reader::read(book));
    let written = refused.map_or(Ok(book.len() as u64), |number| Err((number, 0)));
    same(BOOK_BYTES, written, |out| write_tree(listing, out), |out| trees::write(listing, out));
    let mut out = [0; BOOK_BYTES];
    assert_eq!(write(listing, &mut out), Ok(book.len() as u64));
    assert_eq!(&out[..book.len()], book);
}

/// A way to write, to a buffer of its own.
fn writes<'a, E>(listings: &'a [Vec<u16>], call: impl Fn(&[u16], &mut [u8]) -> Result<u64, E> + 'a) -> Contender<'a> {
    let mut out = [0; BOOK_BYTES];
    in_turn(listings, move |listing: &[u16]| call(listing, &mut out).unwrap_or(0))
}

fn measured(what: &'static str, refused: Option<u64>, books: &[Vec<u8>]) -> TreeBooks {
    let listings: Vec<_> = books.iter().map(|book| listing(book)).collect();
    books.iter().zip(&listings).for_each(|(book, listing)| agree(book, listing, refused));
    let [_, tables, rows, _] = reader::read(&books[0]).expect("accepted");
    let reads = medians_for_one(
        books,
        &mut [
            in_turn(books, |book: &[u8]| read_tree(book).map_or(0, |counts| counts.different_rows)),
            in_turn(books, |book: &[u8]| trees::read(book).map_or(0, |counts| counts[3])),
            in_turn(books, |book: &[u8]| trees::read_by_roots(book).map_or(0, |counts| counts[3])),
            in_turn(books, read),
        ],
    );
    let contenders = &mut [writes(&listings, write_tree), writes(&listings, trees::write), writes(&listings, write)];
    let [library, plain, any_book] = medians_for_one(books, contenders)[..] else { unreachable!("three contenders") };
    TreeBooks {
        what,
        tables,
        rows,
        refused,
        read: Call { library: reads[0], plain: reads[1], any_book: reads[3] },
        read_by_roots: reads[2],
        write: Call { library, plain, any_book },
    }
}

pub fn all() -> Vec<TreeBooks> {
    let [e1, _] = small();
    let shaped = SHAPES.iter().map(|shape| measured(shape.what, shape.refused, &shape.books()));
    [measured("E1", None, &[e1.book])].into_iter().chain(shaped).collect()
}

/// The stack bytes of reading and writing 64 tables of 64 rows, and of reading one table of as many rows as may be.
pub fn stacks() -> Vec<(&'static str, usize)> {
    let [_, _, full, one_table, ..] = SHAPES.each_ref().map(|shape| shape.books().remove(0));
    let (listing, mut out) = (listing(&full), [0; BOOK_BYTES]);
    vec![
        ("read_tree, 64 tables of 64 rows", stack::bytes(&mut || assert!(read_tree(&full).is_ok()))),
        ("read_tree, 4,096 rows in one table", stack::bytes(&mut || assert!(read_tree(&one_table).is_ok()))),
        ("write_tree, 64 tables of 64 rows", stack::bytes(&mut || assert!(write_tree(&listing, &mut out).is_ok()))),
    ]
}
