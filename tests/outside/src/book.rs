//! A book and its bytes.

use std::collections::HashSet;

use crate::draft::Draft;

/// The most fields that a book of this version has; 0 for a number that is no version.
pub const fn field_limit(version: u8) -> usize {
    match version {
        1 => 32,
        2 => 60,
        _ => 0,
    }
}

#[derive(Clone, Debug, PartialEq)]
pub struct Table {
    pub fields: Vec<u8>,
    pub rows: Vec<Vec<u8>>,
}

#[derive(Clone, Debug, PartialEq)]
pub struct Book {
    pub version: u8,
    pub counts: Vec<u8>,
    pub tables: Vec<Table>,
}

/// A refusal: document 01's number, and its place.
#[derive(Clone, Copy, Debug, PartialEq)]
pub struct Refusal {
    pub number: u64,
    pub place: u64,
}

pub fn refuse<T>(number: u64, place: usize) -> Result<T, Refusal> {
    Err(Refusal { number, place: place as u64 })
}

impl Book {
    /// A book of the first version that has room for so many fields.
    pub fn new(counts: Vec<u8>, tables: Vec<Table>) -> Book {
        let version = if counts.len() <= field_limit(1) { 1 } else { 2 };
        Book { version, counts, tables }
    }

    /// The book's bytes. Limits are not looked at: a book that breaks one is written too, where its numbers fit their bytes.
    pub fn write(&self) -> Vec<u8> {
        Draft::of(self).write()
    }

    pub fn rows(&self) -> usize {
        self.tables.iter().map(|t| t.rows.len()).sum()
    }

    /// The different rows of each table, for all tables: as many as the set of its rows has.
    pub fn different_rows(&self) -> usize {
        self.tables.iter().map(|table| table.rows.iter().collect::<HashSet<_>>().len()).sum()
    }
}
