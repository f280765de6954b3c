//! Listings to write and to show again, and some to refuse.

use crate::families::Random;
use crate::plain::reader::field_limit;
use crate::plain::CODES;

pub struct Listed {
    pub what: &'static str,
    pub listing: Vec<u16>,
}

/// A listing of all fields of a version with 32 codes each, and of tables of one shape with random rows.
fn tables(what: &'static str, version: u8, tables: u16, rows: u16, arity: u16) -> Listed {
    let mut r = Random(5);
    let fields = field_limit(version);
    let mut listing = vec![fields as u16];
    listing.extend(vec![CODES as u16; fields]);
    listing.push(tables);
    for _ in 0..tables {
        listing.push(arity);
        listing.extend(r.fields(fields, arity as usize).into_iter().map(u16::from));
        listing.push(rows);
        listing.extend((0..rows as usize * arity as usize).map(|_| r.below(CODES) as u16));
    }
    listing.push(version as u16);
    Listed { what, listing }
}

/// The longest listing that is accepted.
fn longest() -> Listed {
    tables("version 2: 64 tables of 64 rows of 4 codes", 2, 64, 64, 4)
}

/// More than 100,000 numbers that are all there, in a table that no book has room for.
pub fn refused() -> Listed {
    tables("refused: 1 table of 24,990 rows of 4 codes", 1, 1, 24_990, 4)
}

/// As long as any that is accepted, and found at fault at its last code alone.
fn refused_at_the_end() -> Listed {
    let mut listing = longest().listing;
    let last_code = listing.len() - 2;
    listing[last_code] = CODES as u16;
    Listed { what: "refused: the longest with its last code too large", listing }
}

pub fn all() -> [Listed; 7] {
    [
        longest(),
        tables("64 tables of 64 rows of 4 codes", 1, 64, 64, 4),
        tables("1 table of 4,096 rows of 4 codes", 1, 1, 4_096, 4),
        tables("35 tables of 60 rows of 2 codes", 1, 35, 60, 2),
        tables("no tables", 1, 0, 0, 0),
        refused_at_the_end(),
        refused(),
    ]
}
