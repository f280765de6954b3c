//! Seeded books and sheets.

use std::collections::BTreeSet;

use crate::book::{field_limit, Book, Table};
use crate::filter::{largest, relaxed};
use crate::kept;
use crate::many;
use crate::parts;
use crate::repeats;
use crate::sheet::NO_ANSWER;

/// SplitMix64.
pub struct Random(pub u64);

impl Random {
    pub fn word(&mut self) -> u64 {
        self.0 = self.0.wrapping_add(0x9E37_79B9_7F4A_7C15);
        let mut z = self.0;
        z = (z ^ (z >> 30)).wrapping_mul(0xBF58_476D_1CE4_E5B9);
        z = (z ^ (z >> 27)).wrapping_mul(0x94D0_49BB_1331_11EB);
        z ^ (z >> 31)
    }

    /// A number from lo to hi.
    pub fn from(&mut self, lo: usize, hi: usize) -> usize {
        lo + (self.word() % (hi - lo + 1) as u64) as usize
    }

    pub fn one_in(&mut self, n: u64) -> bool {
        self.word().is_multiple_of(n)
    }

    pub fn one_of<T: Copy>(&mut self, elements: &[T]) -> T {
        elements[self.from(0, elements.len() - 1)]
    }

    /// Puts the elements into any order.
    pub fn shuffle<T>(&mut self, elements: &mut [T]) {
        for i in 1..elements.len() {
            let k = self.from(0, i);
            elements.swap(i, k);
        }
    }
}

/// That many different fields, rising.
pub fn fields_of(r: &mut Random, fields: usize, arity: usize) -> Vec<u8> {
    let mut all: Vec<u8> = (0..fields as u8).collect();
    for i in 0..arity {
        let k = r.from(i, fields - 1);
        all.swap(i, k);
    }
    let mut chosen = all[..arity].to_vec();
    chosen.sort();
    chosen
}

pub fn row_of(r: &mut Random, counts: &[u8], fields: &[u8]) -> Vec<u8> {
    fields.iter().map(|&f| r.from(0, counts[f as usize] as usize - 1) as u8).collect()
}

pub fn table_of(r: &mut Random, counts: &[u8], rows: usize) -> Table {
    let arity = r.from(1, counts.len().min(4));
    let fields = fields_of(r, counts.len(), arity);
    let mut table = Table { fields, rows: Vec::new() };
    for _ in 0..rows {
        let repeat = !table.rows.is_empty() && r.one_in(6);
        let row = if repeat {
            let k = r.from(0, table.rows.len() - 1);
            table.rows[k].clone()
        } else {
            row_of(r, counts, &table.fields)
        };
        table.rows.push(row);
    }
    table
}

/// A few fields and tables, with more or fewer rows. In most of them some full reading is possible.
fn small(r: &mut Random) -> Book {
    let fields = r.from(1, 6);
    let counts: Vec<u8> = (0..fields).map(|_| r.from(1, 5) as u8).collect();
    let tables = r.from(0, 6);
    let most = [2, 6, 14, 40][r.from(0, 3)];
    let tables = (0..tables)
        .map(|_| {
            let rows = if r.one_in(12) { 0 } else { r.from(1, most) };
            table_of(r, &counts, rows)
        })
        .collect();
    let mut book = Book::new(counts, tables);
    if !r.one_in(3) {
        allow_a_reading(r, &mut book);
    }
    book
}

/// Gives every table that has rows one of the same reading of all fields.
pub fn allow_a_reading(r: &mut Random, book: &mut Book) {
    let reading: Vec<u8> = book.counts.iter().map(|&count| r.from(0, count as usize - 1) as u8).collect();
    for table in book.tables.iter_mut().filter(|table| !table.rows.is_empty()) {
        let k = r.from(0, table.rows.len() - 1);
        table.rows[k] = table.fields.iter().map(|&f| reading[f as usize]).collect();
    }
}

/// Many fields with many codes.
fn wide(r: &mut Random) -> Book {
    let most = field_limit(r.one_of(&[1, 1, 1, 2]));
    let fields = if r.one_in(2) { most } else { r.from(20, most) };
    let counts: Vec<u8> = (0..fields).map(|_| if r.one_in(3) { 32 } else { r.from(1, 32) as u8 }).collect();
    let tables = (0..r.from(1, 12))
        .map(|_| {
            let rows = r.from(0, 60);
            table_of(r, &counts, rows)
        })
        .collect();
    Book::new(counts, tables)
}

/// The most tables, each with few rows.
fn many_tables(r: &mut Random) -> Book {
    let most = field_limit(r.one_of(&[1, 1, 2]));
    let fields = r.from(2, most);
    let counts: Vec<u8> = (0..fields).map(|_| r.from(1, 6) as u8).collect();
    let tables = (0..64)
        .map(|_| {
            let rows = r.from(3, 12);
            table_of(r, &counts, rows)
        })
        .collect();
    Book::new(counts, tables)
}

/// The most rows.
fn many_rows(r: &mut Random) -> Book {
    let counts: Vec<u8> = (0..6).map(|_| r.from(8, 32) as u8).collect();
    let first = r.from(0, 4_096);
    let tables = [first, 4_096 - first].iter().map(|&rows| table_of(r, &counts, rows)).collect();
    Book::new(counts, tables)
}

/// A ring of tables in which each code goes with the next one, so that one strike follows another.
fn ring(r: &mut Random) -> Book {
    let fields = r.from(2, 6);
    let codes = r.from(2, 8) as u8;
    let shift = r.from(0, 2) as u8;
    let mut tables = Vec::new();
    for f in 0..fields as u8 {
        let g = (f + 1) % fields as u8;
        if f == g {
            continue;
        }
        let rows = (0..codes).filter(|c| c + shift < codes || f != 0).map(|c| {
            let d = if f == 0 { c + shift } else { c };
            if f < g {
                vec![c, d]
            } else {
                vec![d, c]
            }
        });
        tables.push(Table { fields: vec![f.min(g), f.max(g)], rows: rows.collect() });
    }
    Book::new(vec![codes; fields], tables)
}

/// The rows of a table that carries each strike from one field to the next and none back: each code goes with the same code, or the
/// one behind it, of the next field, and every code goes with the next field's last one.
fn carrying(codes: u8, step: u8) -> Vec<(u8, u8)> {
    let same = (0..codes - 1 - step).map(|c| (c, c + step));
    same.chain((0..codes).map(|c| (c, codes - 1))).collect()
}

/// A ring of tables along which all codes but the last one of each field are struck one after another, in one direction. It begins
/// where the step of one code leaves the first code without a partner. With the tables in any order, no few sweeps over them suffice.
fn long_fall(r: &mut Random) -> Book {
    let (few, most) = (r.from(3, 4) as u8, field_limit(r.one_of(&[1, 1, 1, 1, 1, 2])) as u8);
    let (fields, codes) = if r.one_in(2) { (few, 32) } else { (most, few) };
    let mut tables: Vec<Table> = (0..fields)
        .map(|f| {
            let next = (f + 1) % fields;
            let rows = carrying(codes, (next == 0) as u8);
            let in_order = |(c, d): (u8, u8)| if f < next { vec![c, d] } else { vec![d, c] };
            Table { fields: vec![f.min(next), f.max(next)], rows: rows.into_iter().map(in_order).collect() }
        })
        .collect();
    r.shuffle(&mut tables);
    Book::new(vec![codes; fields as usize], tables)
}

pub fn book(r: &mut Random) -> Book {
    let book = of_some_kind(r);
    in_some_version(r, book)
}

/// The book in the version that its fields ask for; where either has room for them, in either.
pub fn in_some_version(r: &mut Random, book: Book) -> Book {
    let version = if r.one_in(3) { 2 } else { book.version };
    Book { version, ..book }
}

fn of_some_kind(r: &mut Random) -> Book {
    match r.from(0, 398) {
        0..=11 => wide(r),
        12..=23 => many_tables(r),
        24 => many_rows(r),
        25..=26 => long_fall(r),
        27..=62 => ring(r),
        63..=122 => parts::book(r),
        123..=172 => repeats::book(r),
        173..=203 => many::book(r),
        204..=234 => kept::book(r),
        _ => small(r),
    }
}

/// A stored sheet for the book: from none to all fields answered. Where few fields have tables most answers stand when they are chosen,
/// so that something is left of the book, and in some of these sheets one or two are then changed so that they contradict the others.
pub fn form(r: &mut Random, book: &Book) -> Vec<u8> {
    let answered = r.from(0, 4) as u64;
    let tied: BTreeSet<u8> = book.tables.iter().flat_map(|table| table.fields.iter().copied()).collect();
    let guided = tied.len() <= 12 && book.rows() < 400 && !r.one_in(4);
    let mut form = vec![NO_ANSWER; book.counts.len()];
    for f in 0..form.len() {
        if r.word() % 4 < answered {
            let guided = guided && tied.contains(&(f as u8));
            form[f] = if guided { standing_code(r, book, &form, f) } else { r.from(0, book.counts[f] as usize - 1) as u8 };
        }
    }
    if guided {
        (0..[0, 0, 1, 2][r.from(0, 3)]).for_each(|_| contradict(r, book, &mut form));
    }
    form
}

/// Changes some answer to a code that the other answers strike, if there is one.
fn contradict(r: &mut Random, book: &Book, form: &mut [u8]) {
    let answered: Vec<usize> = (0..form.len()).filter(|&f| form[f] != NO_ANSWER).collect();
    if answered.is_empty() {
        return;
    }
    let f = answered[r.from(0, answered.len() - 1)];
    let domain = largest(book, &relaxed(form, f));
    let struck: Vec<u8> = (0..book.counts[f]).filter(|&c| !domain[f][c as usize]).collect();
    if !struck.is_empty() {
        form[f] = struck[r.from(0, struck.len() - 1)];
    }
}

/// Mostly a code of the field that stands by these answers, if one does.
fn standing_code(r: &mut Random, book: &Book, answers: &[u8], f: usize) -> u8 {
    let domain = largest(book, answers);
    let standing: Vec<u8> = (0..book.counts[f]).filter(|&c| domain[f][c as usize]).collect();
    if standing.is_empty() || r.one_in(8) {
        return r.from(0, book.counts[f] as usize - 1) as u8;
    }
    standing[r.from(0, standing.len() - 1)]
}
