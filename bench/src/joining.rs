//! Two books joined: large ones by the shape of their tables and the order of their rows, and small ones.

use sighting::{join, BOOK_BYTES};

use crate::families::{bytes, small, Family, Random, Table};
use crate::measure::{in_turn, medians_for_one, read, same};
use crate::plain::{joining, CODES};
use crate::shapes::{Order, ONE_TABLE};
use crate::stack;
use crate::timing::Contender;

/// Two books that are joined.
type Pair = (Vec<u8>, Vec<u8>);

/// So many sets of fields, and in either book so many tables on each, all with so many rows of so many codes. Half of a table's rows stand
/// in all tables on its set.
struct Shape {
    what: &'static str,
    sets: usize,
    tables: usize,
    rows: usize,
    arity: usize,
    order: Order,
    /// How many pairs are joined in turn, so that the processor does not learn how their rows compare.
    pairs: usize,
}

const COUNTS: [u8; 18] = [CODES as u8; 18];

/// One of 64 sets of so many fields.
fn set(number: usize, arity: usize) -> Vec<u8> {
    [number as u8 / 8, 8 + number as u8 % 8, 16, 17][..arity].to_vec()
}

impl Shape {
    fn table(&self, set: &[u8], common: &[Vec<u8>], r: &mut Random) -> Table {
        let mut rows = common.to_vec();
        rows.resize_with(self.rows, || r.reading(&COUNTS[..self.arity]));
        let mut rows: Vec<_> = r.shuffled(self.rows).into_iter().map(|i| rows[i].clone()).collect();
        self.order.put(&mut rows);
        (set.to_vec(), rows)
    }

    /// A book whose tables stand in no order of their sets.
    fn book(&self, common: &[Vec<Vec<u8>>], r: &mut Random) -> Vec<u8> {
        let order = r.shuffled(self.sets * self.tables).into_iter().map(|i| i % self.sets);
        let tables: Vec<_> = order.map(|i| self.table(&set(i, self.arity), &common[i], r)).collect();
        bytes(2, &COUNTS, &tables)
    }

    fn pairs(&self) -> Vec<Pair> {
        let mut r = Random(9);
        let mut pair = || {
            let mut rows = || (0..self.rows / 2).map(|_| r.reading(&COUNTS[..self.arity])).collect();
            let common: Vec<_> = (0..self.sets).map(|_| rows()).collect();
            (self.book(&common, &mut r), self.book(&common, &mut r))
        };
        (0..self.pairs).map(|_| pair()).collect()
    }
}

const ONE_SET: Shape =
    Shape { what: "1 set, 1 table of 4,096 rows", sets: 1, tables: 1, rows: 4_096, arity: 4, order: Order::Random, pairs: 8 };
const MANY_SETS: Shape = Shape { what: "64 sets, 1 table of 64 rows on each", sets: 64, rows: 64, pairs: 16, ..ONE_SET };
const MANY_TABLES: Shape = Shape { what: "1 set, 64 tables of 64 rows", tables: 64, rows: 64, pairs: 16, ..ONE_SET };
const TEN_ROWS: Shape = Shape { what: "1 set, 1 table of 10 rows", rows: 10, arity: 2, pairs: 64, ..ONE_SET };

static SHAPES: [Shape; 9] = [
    ONE_SET,
    Shape { order: Order::Rising, ..ONE_SET },
    MANY_SETS,
    Shape { order: Order::Rising, ..MANY_SETS },
    MANY_TABLES,
    Shape { order: Order::Rising, ..MANY_TABLES },
    TEN_ROWS,
    Shape { order: Order::Rising, ..TEN_ROWS },
    Shape { what: "2 sets, 1 table of 5 rows on each", sets: 2, rows: 5, ..TEN_ROWS },
];

/// The medians of joining two books, by the library and by plain Rust, and of the library's reading of both; and what the first pair is
/// joined to.
pub struct Join {
    pub what: &'static str,
    pub order: &'static str,
    pub tables: u64,
    pub rows: u64,
    pub library: f64,
    pub plain: f64,
    pub reading: f64,
}

/// The book that two are joined to, by library and plain Rust the same.
fn agreed(first: &[u8], second: &[u8]) -> Vec<u8> {
    let mut book = vec![0; BOOK_BYTES];
    let length = join(first, second, &mut book).expect("accepted");
    same(BOOK_BYTES, Ok(length), |out| join(first, second, out), |out| joining::join(first, second, out));
    book.truncate(length as usize);
    book
}

/// A way to join, to a buffer of its own.
fn joins<'a, E>(pairs: &'a [Pair], call: impl Fn(&[u8], &[u8], &mut [u8]) -> Result<u64, E> + 'a) -> Contender<'a> {
    let mut out = [0; BOOK_BYTES];
    in_turn(pairs, move |(first, second): &Pair| call(first, second, &mut out).unwrap_or(0))
}

fn measured(what: &'static str, order: &'static str, pairs: &[Pair]) -> Join {
    let books: Vec<_> = pairs.iter().map(|(first, second)| agreed(first, second)).collect();
    let counts = sighting::read(&books[0]).expect("accepted");
    let reading = in_turn(pairs, |(first, second): &Pair| read(first) + read(second));
    let times = medians_for_one(pairs, &mut [joins(pairs, join), joins(pairs, joining::join), reading]);
    let [library, plain, reading] = times[..] else { unreachable!("three contenders") };
    Join { what, order, tables: counts.tables, rows: counts.rows, library, plain, reading }
}

pub fn all() -> Vec<Join> {
    let [e1, _] = small();
    let shaped = SHAPES.iter().map(|shape| measured(shape.what, shape.order.name(), &shape.pairs()));
    shaped.chain([measured("E1 with E1", "–", &[(e1.book.clone(), e1.book)])]).collect()
}

/// The stack bytes of joining this book with itself, and one table of as many rows as may be with itself.
pub fn stacks(family: &Family) -> Vec<(&'static str, usize)> {
    let (book, one_table) = (&family.book[..], &ONE_TABLE.books(Order::Random)[0][..]);
    let mut out = [0; BOOK_BYTES];
    vec![
        ("join with itself", stack::bytes(&mut || assert!(join(book, book, &mut out).is_ok()))),
        (
            "join with itself, 4,096 rows in one table",
            stack::bytes(&mut || assert!(join(one_table, one_table, &mut out).is_ok())),
        ),
    ]
}
