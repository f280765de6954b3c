//! The desk's reader, sheet, short form, engine, search, listings, joining and tree books once more as plain Rust: the same form, the same
//! checks, no heap, and nothing proved. Rows are sorted by the standard library.

pub mod engine;
pub mod joining;
pub mod listing;
pub mod nearest;
pub mod plan;
pub mod reader;
pub mod sheet;
pub mod short;
pub mod trees;

/// The places of a sheet: as many as a book of any version has fields at most.
pub const PLACES: usize = 60;

/// The most codes of a field.
pub const CODES: usize = 32;

/// A refusal: number and place.
pub type Refused = (u64, u64);
