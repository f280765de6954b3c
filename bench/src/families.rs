//! The five families of books, three small ones and one without tables, each with answers for any n.

use std::ops::Range;

use sighting::{Sheet, NO_ANSWER, PLACES, SHEET_BYTES};

use crate::plain::reader::field_limit;
use crate::plain::CODES;

/// The fields of each book of version 1: as many as it allows.
const FIELDS: usize = field_limit(1);

/// A book with the reading that its answers are taken from.
pub struct Family {
    pub name: &'static str,
    pub what: &'static str,
    pub book: Vec<u8>,
    reading: Vec<u8>,
    /// The fields in the order in which they are answered.
    order: Vec<usize>,
}

impl Family {
    pub fn fields(&self) -> usize {
        self.order.len()
    }

    /// The numbers of answers that are measured: each double the one before, and last all fields.
    pub fn answers(&self) -> impl Iterator<Item = usize> + '_ {
        (0..).map(|k| 1 << k).take_while(|&n| n < self.fields()).chain([self.fields()])
    }

    /// A sheet with n answers, without photographs.
    pub fn sheet(&self, n: usize) -> [u8; SHEET_BYTES] {
        self.photographed(n, 0)
    }

    /// A sheet with n answers, the first k of them photographed.
    pub fn photographed(&self, n: usize, k: usize) -> [u8; SHEET_BYTES] {
        let mut sheet = unphotographed([NO_ANSWER; PLACES]);
        for &f in &self.order[..n] {
            sheet[f] = self.reading[f];
        }
        for &f in &self.order[..k] {
            sheet[PLACES + f] = 1;
        }
        sheet
    }

    /// The field that is answered last.
    pub fn last(&self) -> usize {
        self.order[self.fields() - 1]
    }

    /// The stored form of that sheet.
    pub fn stored(&self, n: usize) -> Vec<u8> {
        self.sheet(n)[..self.fields()].to_vec()
    }
}

/// The sheet with these answers, none of them photographed.
pub fn unphotographed(answers: [u8; PLACES]) -> [u8; SHEET_BYTES] {
    *Sheet::from(answers).bytes()
}

/// SplitMix64.
pub struct Random(pub u64);

impl Random {
    pub fn below(&mut self, n: usize) -> usize {
        self.0 = self.0.wrapping_add(0x9E37_79B9_7F4A_7C15);
        let mut z = self.0;
        z = (z ^ (z >> 30)).wrapping_mul(0xBF58_476D_1CE4_E5B9);
        z = (z ^ (z >> 27)).wrapping_mul(0x94D0_49BB_1331_11EB);
        ((z ^ (z >> 31)) % n as u64) as usize
    }

    pub fn shuffled(&mut self, n: usize) -> Vec<usize> {
        let mut all: Vec<usize> = (0..n).collect();
        for i in 0..n {
            let k = i + self.below(n - i);
            all.swap(i, k);
        }
        all
    }

    pub fn reading(&mut self, counts: &[u8]) -> Vec<u8> {
        counts.iter().map(|&count| self.below(count as usize) as u8).collect()
    }

    /// That many different fields, rising.
    pub fn fields(&mut self, of: usize, arity: usize) -> Vec<u8> {
        let mut fields: Vec<u8> = self.shuffled(of)[..arity].iter().map(|&f| f as u8).collect();
        fields.sort();
        fields
    }
}

/// The fields of a table, and its rows.
pub type Table = (Vec<u8>, Vec<Vec<u8>>);

fn on(fields: &[u8], reading: &[u8]) -> Vec<u8> {
    fields.iter().map(|&f| reading[f as usize]).collect()
}

/// The book's bytes, as document 01 lays them out.
pub fn bytes(version: u8, counts: &[u8], tables: &[Table]) -> Vec<u8> {
    let mut out = Vec::new();
    for (fields, rows) in tables {
        out.push(fields.len() as u8);
        out.extend(fields);
        out.extend((rows.len() as u16).to_le_bytes());
        out.extend(rows.iter().flatten());
    }
    let list = out.len() as u16;
    out.extend(counts);
    out.extend(list.to_le_bytes());
    out.extend([counts.len() as u8, tables.len() as u8, version, 0xE5]);
    out
}

/// A: 32 fields of 2 to 10 codes, 35 binary tables that allow six pairs in ten.
fn configuration() -> Family {
    let mut r = Random(1);
    let counts: Vec<u8> = (0..FIELDS).map(|_| 2 + r.below(9) as u8).collect();
    let reading = r.reading(&counts);
    let mut tables = Vec::new();
    for _ in 0..35 {
        let fields = r.fields(FIELDS, 2);
        let mut rows = vec![on(&fields, &reading)];
        for c in 0..counts[fields[0] as usize] {
            for d in 0..counts[fields[1] as usize] {
                if r.below(10) < 6 {
                    rows.push(vec![c, d]);
                }
            }
        }
        tables.push((fields, rows));
    }
    let order = r.shuffled(FIELDS);
    Family { name: "A", what: "32 fields, 35 binary tables", book: bytes(1, &counts, &tables), reading, order }
}

/// A full book: all fields of its version with 32 codes each, 64 tables of arity 4 with that many rows together; a quarter of the
/// rows come from readings that all tables allow, the others are chosen at random.
fn full(name: &'static str, what: &'static str, version: u8, rows: usize) -> Family {
    let mut r = Random(2);
    let counts = vec![CODES as u8; field_limit(version)];
    let each = rows / 64;
    let readings: Vec<Vec<u8>> = (0..each.div_ceil(4)).map(|_| r.reading(&counts)).collect();
    let mut tables = Vec::new();
    for _ in 0..64 {
        let fields = r.fields(counts.len(), 4);
        let mut rows: Vec<Vec<u8>> = readings.iter().map(|reading| on(&fields, reading)).collect();
        while rows.len() < each {
            let reading = r.reading(&counts);
            rows.push(on(&fields, &reading));
        }
        let order = r.shuffled(each);
        tables.push((fields, order.iter().map(|&i| rows[i].clone()).collect()));
    }
    let (reading, order) = (readings[0].clone(), r.shuffled(counts.len()));
    Family { name, what, book: bytes(version, &counts, &tables), reading, order }
}

/// B: the full book of version 1, with that many rows.
pub fn full_of_version_1(rows: usize) -> Family {
    full("B", "32 × 32 codes, 64 tables, 4,096 rows", 1, rows)
}

/// E: the full book of version 2.
fn full_of_version_2() -> Family {
    full("E", "60 × 32 codes, 64 tables, 4,096 rows", 2, 4_096)
}

/// C: a ring of 16 fields in which each has the code of the one before, and the first the one that follows the last's. On each hangs
/// a field whose answer strikes code 0 there, and from then on all 512 codes of the ring fall one after another. Those 16 fields are
/// answered first. The tables stand against the direction of the fall.
fn ring() -> Family {
    let mut tables: Vec<Table> = vec![(vec![0, 15], (0..32).map(|c| vec![(c + 1) % 32, c]).collect())];
    for f in (0..15).rev() {
        tables.push((vec![f, f + 1], (0..32).map(|c| vec![c, c]).collect()));
    }
    for f in 0..16 {
        let held = (1..32).map(|c| vec![c, 0]);
        tables.push((vec![f, f + 16], held.chain((0..32).map(|c| vec![c, 1])).collect()));
    }
    let counts: Vec<u8> = (0..32).map(|f| if f < 16 { 32 } else { 2 }).collect();
    let order = (16..32).chain(0..16).collect();
    let what = "a ring that strikes 512 codes one after another";
    Family { name: "C", what, book: bytes(1, &counts, &tables), reading: vec![0; 32], order }
}

/// D: 4,096 rows of which each table has 12 different ones.
fn repeated() -> Family {
    let mut r = Random(4);
    let counts = vec![4; FIELDS];
    let readings: Vec<Vec<u8>> = (0..6).map(|_| r.reading(&counts)).collect();
    let mut tables = Vec::new();
    for _ in 0..16 {
        let fields = r.fields(FIELDS, 4);
        let mut different: Vec<Vec<u8>> = readings.iter().map(|reading| on(&fields, reading)).collect();
        for _ in 0..6 {
            let reading = r.reading(&counts);
            different.push(on(&fields, &reading));
        }
        let rows = (0..256).map(|_| different[r.below(12)].clone()).collect();
        tables.push((fields, rows));
    }
    let (reading, order) = (readings[0].clone(), r.shuffled(FIELDS));
    Family { name: "D", what: "4,096 rows, few of them different", book: bytes(1, &counts, &tables), reading, order }
}

pub fn all() -> [Family; 5] {
    [configuration(), full_of_version_1(4_096), ring(), repeated(), full_of_version_2()]
}

/// E1, the first book of document 01: three fields and two tables of four rows.
fn smallest() -> Family {
    let first = (vec![0, 2], [[0, 0], [0, 1], [1, 2], [0, 1]].map(Vec::from).to_vec());
    let second = (vec![1, 2], [[0, 0], [1, 1], [1, 2], [2, 2]].map(Vec::from).to_vec());
    let book = bytes(1, &[2, 3, 3], &[first, second]);
    Family { name: "E1", what: "3 fields, 2 tables, 8 rows", book, reading: vec![0, 1, 1], order: vec![0, 1, 2] }
}

/// 8 fields with numbers of codes from a range, and six tables of ten rows.
fn eight_fields(name: &'static str, codes: Range<usize>) -> Family {
    let mut r = Random(7);
    let counts: Vec<u8> = (0..8).map(|_| (codes.start + r.below(codes.len())) as u8).collect();
    let reading = r.reading(&counts);
    let mut tables = Vec::new();
    for _ in 0..6 {
        let fields = r.fields(counts.len(), 3);
        let mut rows = vec![on(&fields, &reading)];
        while rows.len() < 10 {
            let other = r.reading(&counts);
            rows.push(on(&fields, &other));
        }
        tables.push((fields, rows));
    }
    let order = r.shuffled(counts.len());
    Family { name, what: "8 fields, 6 tables, 60 rows", book: bytes(1, &counts, &tables), reading, order }
}

pub fn small() -> [Family; 2] {
    [smallest(), eight_fields("8 fields", 2..7)]
}

/// All fields of version 2 and no table: what the check of the rows takes is not in the time.
pub fn without_tables() -> Family {
    let mut r = Random(8);
    let counts = vec![CODES as u8; field_limit(2)];
    let (reading, order) = (r.reading(&counts), r.shuffled(counts.len()));
    Family { name: "60 fields, no table", what: "60 × 32 codes", book: bytes(2, &counts, &[]), reading, order }
}

/// Small books whose readings are few enough to be searched.
pub fn searchable() -> [Family; 2] {
    [smallest(), eight_fields("8 fields of 3 or 4 codes", 3..5)]
}
