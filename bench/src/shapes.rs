//! Books by the shape of their tables and the order of their rows, for what counting the different rows takes.

use crate::families::{bytes, Random, Table};
use crate::plain::CODES;

#[derive(Clone, Copy)]
pub enum Order {
    Random,
    Rising,
    Falling,
    Equal,
}

impl Order {
    pub fn name(self) -> &'static str {
        match self {
            Order::Random => "random",
            Order::Rising => "rising",
            Order::Falling => "falling",
            Order::Equal => "all equal",
        }
    }

    pub fn put(self, rows: &mut [Vec<u8>]) {
        match self {
            Order::Random => {}
            Order::Rising => rows.sort(),
            Order::Falling => rows.sort_by(|row, other| other.cmp(row)),
            Order::Equal => rows.fill(rows[0].clone()),
        }
    }
}

/// The codes of each field: so few fields that reading is about the rows.
const COUNTS: [u8; 4] = [CODES as u8; 4];

/// A stored sheet without answers, for all of these books.
pub const FRESH: [u8; COUNTS.len()] = [255; COUNTS.len()];

const ANY: &[Order] = &[Order::Random, Order::Rising, Order::Falling, Order::Equal];
const SMALL: &[Order] = &[Order::Random, Order::Rising];

/// Tables that all have so many rows of so many codes.
pub struct Shape {
    pub what: &'static str,
    pub tables: usize,
    pub rows: usize,
    arity: usize,
    /// The orders that are measured.
    pub orders: &'static [Order],
    /// How many books are read in turn: a processor that meets the same rows again and again learns how they compare, where a desk
    /// meets its book's rows once.
    books: usize,
}

impl Shape {
    fn table(&self, order: Order, r: &mut Random) -> Table {
        let mut rows: Vec<Vec<u8>> = (0..self.rows).map(|_| r.reading(&COUNTS[..self.arity])).collect();
        order.put(&mut rows);
        ((0..self.arity as u8).collect(), rows)
    }

    /// Books of this shape with rows in this order.
    pub fn books(&self, order: Order) -> Vec<Vec<u8>> {
        let mut r = Random(6);
        let mut tables = || (0..self.tables).map(|_| self.table(order, &mut r)).collect::<Vec<Table>>();
        (0..self.books).map(|_| bytes(1, &COUNTS, &tables())).collect()
    }
}

/// All rows that a book may have, in one table.
pub const ONE_TABLE: Shape =
    Shape { what: "1 table of 4,096 rows of 4 codes", tables: 1, rows: 4_096, arity: 4, orders: ANY, books: 8 };

pub static ALL: [Shape; 7] = [
    ONE_TABLE,
    Shape { what: "1 table of 4,096 rows of 2 codes", tables: 1, rows: 4_096, arity: 2, orders: ANY, books: 8 },
    Shape { what: "16 tables of 256 rows of 4 codes", tables: 16, rows: 256, arity: 4, orders: ANY, books: 16 },
    Shape { what: "64 tables of 64 rows of 4 codes", tables: 64, rows: 64, arity: 4, orders: ANY, books: 16 },
    Shape { what: "35 tables of 60 rows of 2 codes", tables: 35, rows: 60, arity: 2, orders: ANY, books: 16 },
    Shape { what: "1 table of 10 rows of 2 codes", tables: 1, rows: 10, arity: 2, orders: SMALL, books: 64 },
    Shape { what: "2 tables of 5 rows of 2 codes", tables: 2, rows: 5, arity: 2, orders: SMALL, books: 64 },
];
