//! The sighting desk: a safe wrapper over its proved static library.
//!
//! A book is a slice of bytes, checked in every call; a [`Sheet`] holds the answers, and which of them a photograph backs. Nothing is
//! taken from the heap: results go to buffers that the caller lends; [`PAIRS_BYTES`], [`NUMBERS`], [`STORED_BYTES`], [`SHORT_BYTES`],
//! [`REPORT_BYTES`], [`LISTING_NUMBERS`] and [`BOOK_BYTES`] suffice for every book, sheet and listing. A refused call changes neither
//! the sheet nor a buffer. Any number may be passed as a field, a code, a table or a target: one that is none is refused.
//!
//! The book below has three fields, of 2, 3 and 3 codes, and two tables. With field 0 answered by 0 and field 1 by 1, code 1 of
//! field 2 stands, and each answer has an alternative beside itself.
//!
//! ```
//! use sighting::{read, Sheet};
//!
//! # fn main() -> Result<(), sighting::Refusal> {
//! let book = [
//!     2, 0, 2, 4, 0, 0, 0, 0, 1, 1, 2, 0, 1, // fields 0 and 2: 4 rows
//!     2, 1, 2, 4, 0, 0, 0, 1, 1, 1, 2, 2, 2, // fields 1 and 2: 4 rows
//!     2, 3, 3, 0x1A, 0, 3, 2, 1, 0xE5, // codes of each field, then the trailer
//! ];
//! let counts = read(&book)?;
//! assert_eq!((counts.fields, counts.tables, counts.rows, counts.different_rows), (3, 2, 8, 7));
//!
//! let mut sheet = Sheet::fresh();
//! sheet.enter(&book, 0, 0)?;
//! sheet.enter(&book, 1, 1)?;
//! assert_eq!(sheet.enter(&book, 3, 0).unwrap_err().number, 15); // there is no field 3
//!
//! let mut pairs = [0; sighting::PAIRS_BYTES];
//! let found = sheet.alternatives(&book, &mut pairs)?;
//! assert_eq!((found.total, found.struck), (4, 11));
//! assert_eq!(pairs[..8], [0, 0, 0, 1, 1, 0, 1, 1]); // field, code; field, code; ..
//!
//! let mut codes = [0; sighting::NUMBERS];
//! sheet.filtered(&book, None, &mut codes)?;
//! assert_eq!(codes[..3], [0b001, 0b010, 0b010]); // bit c of number f: code c of field f stands
//!
//! assert_eq!(sheet.row(&book, 2, 1, 0)?, Some(1)); // row 1 of table 0 keeps code 1 of field 2
//! assert_eq!(sheet.row(&book, 0, 1, 0)?, None); // no row of table 0 keeps code 1 of field 0
//!
//! sheet.photograph(&book, 0)?; // field 0's answer is beyond doubt: it has no alternatives any more, and cannot be changed
//! assert_eq!((sheet.answer(0), sheet.is_photographed(0)), (Some(0), true));
//! let found = sheet.alternatives(&book, &mut pairs)?;
//! assert_eq!((found.total, found.struck), (2, 8));
//! assert_eq!(pairs[..4], [1, 0, 1, 1]);
//! sheet.enter(&book, 0, 0)?; // the same answer sent again is accepted, and the sheet stays as it is
//! assert_eq!(sheet.enter(&book, 0, 1).unwrap_err().number, 22);
//! # Ok(())
//! # }
//! ```
//!
//! Answers that contradict each other leave fields without any code. The nearest full reading, with a code for each field, is then a
//! suggestion: it keeps what is photographed, and changes as few of the other answers as it can.
//!
//! ```
//! use sighting::{Nearest, Sheet};
//!
//! # fn main() -> Result<(), sighting::Refusal> {
//! # let book = [
//! #     2, 0, 2, 4, 0, 0, 0, 0, 1, 1, 2, 0, 1, 2, 1, 2, 4, 0, 0, 0, 1, 1, 1, 2, 2, 2, 2, 3, 3, 0x1A, 0, 3, 2, 1, 0xE5,
//! # ];
//! let mut sheet = Sheet::fresh();
//! sheet.enter(&book, 0, 1)?;
//! sheet.enter(&book, 1, 0)?; // no row of the same book has both
//!
//! let mut reading = [255; sighting::STORED_BYTES];
//! assert_eq!(sheet.nearest(&book, &mut reading)?, Some(Nearest { differing: 1, written: 3 }));
//! assert_eq!(reading[..4], [0, 0, 0, 255]); // field 0 is changed; 1 1 2, in which field 1 is, has the higher code first
//!
//! sheet.photograph(&book, 0)?;
//! assert_eq!(sheet.nearest(&book, &mut reading)?, Some(Nearest { differing: 1, written: 3 }));
//! assert_eq!(reading[..4], [1, 1, 2, 255]); // now field 1 has to change
//!
//! sheet.photograph(&book, 1)?;
//! assert_eq!(sheet.nearest(&book, &mut reading)?, None); // no full reading keeps both
//! assert_eq!(reading[..4], [1, 1, 2, 255]); // and the bytes stay as they were
//!
//! let each_pair_differs = [
//!     2, 0, 1, 2, 0, 0, 1, 1, 0, // fields 0 and 1: 2 rows
//!     2, 0, 2, 2, 0, 0, 1, 1, 0, // fields 0 and 2
//!     2, 1, 2, 2, 0, 0, 1, 1, 0, // fields 1 and 2
//!     2, 2, 2, 27, 0, 3, 3, 1, 0xE5, // two codes each
//! ];
//! assert_eq!(Sheet::fresh().nearest(&each_pair_differs, &mut reading)?, None); // though every code stands
//! # Ok(())
//! # }
//! ```
//!
//! After landing the next question is chosen, and the observer answers. The debrief plan tells how many questions it takes at most until a
//! field surely has at most one standing code:
//!
//! ```
//! use sighting::Sheet;
//!
//! # fn main() -> Result<(), sighting::Refusal> {
//! # let book = [
//! #     2, 0, 2, 4, 0, 0, 0, 0, 1, 1, 2, 0, 1, 2, 1, 2, 4, 0, 0, 0, 1, 1, 1, 2, 2, 2, 2, 3, 3, 0x1A, 0, 3, 2, 1, 0xE5,
//! # ];
//! let mut sheet = Sheet::fresh();
//! assert_eq!(sheet.plan(&book, 0, &[2])?, Some(1)); // by the same book: each code of field 2 goes with one of field 0
//! assert_eq!(sheet.plan(&book, 0, &[1])?, None); // code 1 of field 1 goes with both
//! assert_eq!(sheet.plan(&book, 2, &[0, 1])?, Some(2)); // field 2 takes both others
//!
//! sheet.enter(&book, 0, 0)?;
//! assert_eq!(sheet.plan(&book, 2, &[1])?, Some(1)); // one of them is answered now
//! assert_eq!(sheet.plan(&book, 0, &[])?, Some(0)); // and has one standing code
//!
//! let answered = sheet.plan(&book, 2, &[0, 1]).unwrap_err();
//! assert_eq!(answered.to_string(), "refused 27 at 0: the list of questions is none that may be asked");
//! # Ok(())
//! # }
//! ```
//!
//! A sheet is stored in one of two forms. One has a byte for each field, and no photographs. The short one keeps them, and has bytes for
//! the answered fields alone, by rising field: three for each, the field, its code, and 1 if it is photographed, else 0; and behind them
//! two, the number of answers and the number of fields.
//!
//! ```
//! use sighting::{lengthen, shorten, Sheet};
//!
//! # fn main() -> Result<(), sighting::Refusal> {
//! # let book = [
//! #     2, 0, 2, 4, 0, 0, 0, 0, 1, 1, 2, 0, 1, 2, 1, 2, 4, 0, 0, 0, 1, 1, 1, 2, 2, 2, 2, 3, 3, 0x1A, 0, 3, 2, 1, 0xE5,
//! # ];
//! let mut sheet = Sheet::load(&book, &[0, 1, 255])?; // by the same book: field 0 answered by 0, field 1 by 1, field 2 not
//! sheet.photograph(&book, 0)?;
//!
//! let mut short = [0; sighting::SHORT_BYTES];
//! let bytes = sheet.store_short(&book, &mut short)? as usize;
//! assert_eq!(short[..bytes], [0, 0, 1, 1, 1, 0, 2, 3]); // field 0, photographed; field 1, not; two answers of three fields
//! assert_eq!(Sheet::load_short(&book, &short[..bytes])?, sheet);
//!
//! let bytes = shorten(&book, &[0, 1, 255], &mut short)? as usize; // from one form to the other, and back
//! assert_eq!(short[..bytes], [0, 0, 0, 1, 1, 0, 2, 3]);
//! let mut stored = [0; sighting::STORED_BYTES];
//! assert_eq!(lengthen(&book, &short[..bytes], &mut stored)?, 3);
//! assert_eq!(stored[..3], [0, 1, 255]);
//!
//! short[2] = 1; // a photograph has no place in the other form
//! assert_eq!(lengthen(&book, &short[..bytes], &mut stored).unwrap_err().number, 22);
//! let no_sheet = Sheet::load_short(&book, &short[1..bytes]).unwrap_err();
//! assert_eq!(no_sheet.to_string(), "refused 24 at 0: the bytes are no short stored sheet of this book");
//! # Ok(())
//! # }
//! ```
//!
//! A compiler makes such a book from a listing, and sees a book's listing again:
//!
//! ```
//! use sighting::{show, write};
//!
//! # fn main() -> Result<(), sighting::Refusal> {
//! let listing = [
//!     3, 2, 3, 3, // three fields, and the codes of each
//!     2, // tables
//!     2, 0, 2, 4, 0, 0, 0, 1, 1, 2, 0, 1, // two fields, 0 and 2; 4 rows
//!     2, 1, 2, 4, 0, 0, 1, 1, 1, 2, 2, 2, // two fields, 1 and 2; 4 rows
//!     1, // version
//! ];
//! let mut book = [0; sighting::BOOK_BYTES];
//! let bytes = write(&listing, &mut book)? as usize;
//! assert_eq!(bytes, 35);
//!
//! let mut shown = [0; sighting::LISTING_NUMBERS];
//! let numbers = show(&book[..bytes], &mut shown)? as usize;
//! assert_eq!(shown[..numbers], listing);
//!
//! let no_book = write(&listing[1..], &mut book).unwrap_err();
//! assert_eq!(no_book.to_string(), "refused 20 at 0: no book has this listing");
//! # Ok(())
//! # }
//! ```
//!
//! Small aircraft carry a tree book. Its tables tie one field or two, and no ring of tables leads from a field back to it:
//!
//! ```
//! use sighting::{read, read_tree, write_tree};
//!
//! # fn main() -> Result<(), sighting::Refusal> {
//! # let book = [
//! #     2, 0, 2, 4, 0, 0, 0, 0, 1, 1, 2, 0, 1, 2, 1, 2, 4, 0, 0, 0, 1, 1, 1, 2, 2, 2, 2, 3, 3, 0x1A, 0, 3, 2, 1, 0xE5,
//! # ];
//! assert_eq!(read_tree(&book)?, read(&book)?); // the first book above: field 2 is linked to both others, and they not to each other
//!
//! let each_pair_differs = [
//!     2, 0, 1, 2, 0, 0, 1, 1, 0, // fields 0 and 1
//!     2, 0, 2, 2, 0, 0, 1, 1, 0, // fields 0 and 2
//!     2, 1, 2, 2, 0, 0, 1, 1, 0, // fields 1 and 2: from field 0 by 1 and 2 back to 0
//!     2, 2, 2, 27, 0, 3, 3, 1, 0xE5,
//! ];
//! let ring = read_tree(&each_pair_differs).unwrap_err();
//! assert_eq!(ring.to_string(), "refused 29 at 18: the tables' links form a ring");
//!
//! let mut out = [0; sighting::BOOK_BYTES];
//! let pair = [2, 2, 2, 1, 2, 0, 1, 1, 0, 1, 1]; // a listing: two fields of two codes, and one table with one row
//! assert_eq!(write_tree(&pair, &mut out)?, 15);
//! assert_eq!(read_tree(&out[..15])?.tables, 1);
//!
//! let three = [3, 2, 2, 2, 1, 3, 0, 1, 2, 0, 1]; // a table of three fields
//! assert_eq!(write_tree(&three, &mut out).unwrap_err().to_string(), "refused 28 at 0: a table ties more than two fields");
//! # Ok(())
//! # }
//! ```
//!
//! Two survey blocks that share one aircraft need one book. The joined one has a table for each set of fields that either book has, with
//! the rows that stand in all tables on these fields:
//!
//! ```
//! use sighting::{join, show};
//!
//! # fn main() -> Result<(), sighting::Refusal> {
//! # let book = [
//! #     2, 0, 2, 4, 0, 0, 0, 0, 1, 1, 2, 0, 1, 2, 1, 2, 4, 0, 0, 0, 1, 1, 1, 2, 2, 2, 2, 3, 3, 0x1A, 0, 3, 2, 1, 0xE5,
//! # ];
//! let other = [
//!     2, 1, 2, 3, 0, 2, 2, 1, 1, 2, 1, // fields 1 and 2, as in the first book: 3 rows
//!     1, 0, 2, 0, 1, 0, // field 0: 2 rows
//!     2, 3, 3, 17, 0, 3, 2, 2, 0xE5, // the same numbers of codes
//! ];
//! let mut joined = [0; sighting::BOOK_BYTES];
//! let bytes = join(&book, &other, &mut joined)? as usize;
//!
//! let mut shown = [0; sighting::LISTING_NUMBERS];
//! let numbers = show(&joined[..bytes], &mut shown)? as usize;
//! let listing = [
//!     3, 2, 3, 3, // the three fields
//!     3, // tables
//!     1, 0, 2, 0, 1, // field 0: the other book's rows, rising
//!     2, 0, 2, 3, 0, 0, 0, 1, 1, 2, // fields 0 and 2: the first book's rows, each once
//!     2, 1, 2, 2, 1, 1, 2, 2, // fields 1 and 2: the rows that both books have
//!     2, // version
//! ];
//! assert_eq!(shown[..numbers], listing);
//!
//! let one_field = [2, 0, 0, 1, 0, 1, 0xE5];
//! let no_pair = join(&book, &one_field, &mut joined).unwrap_err();
//! assert_eq!(no_pair.to_string(), "refused 25 at 0: the fields of the two books differ in their numbers of codes");
//! # Ok(())
//! # }
//! ```

pub mod ffi;
mod refusal;

use std::fmt;

pub use refusal::Refusal;

/// The places of a sheet, one for each field that a book may have.
pub const PLACES: usize = 60;

/// The bytes of a sheet, as in `include/sighting.h`: an answer for each place, then for each place whether it is photographed.
pub const SHEET_BYTES: usize = 2 * PLACES;

/// In a place of a sheet: no answer.
pub const NO_ANSWER: u8 = 255;

/// So many bytes suffice for [`Sheet::alternatives`] and [`Sheet::replay`], whatever the book and the sheet.
pub const PAIRS_BYTES: usize = 3840;

/// So many numbers suffice for [`Sheet::filtered`].
pub const NUMBERS: usize = 60;

/// So many bytes suffice for [`Sheet::store`], [`lengthen`] and [`Sheet::nearest`].
pub const STORED_BYTES: usize = 60;

/// So many bytes suffice for [`Sheet::store_short`] and [`shorten`]: three for each place, and two.
pub const SHORT_BYTES: usize = 3 * PLACES + 2;

/// So many bytes suffice for [`report`].
pub const REPORT_BYTES: usize = 21162;

/// So many numbers suffice for [`show`].
pub const LISTING_NUMBERS: usize = 16831;

/// So many bytes suffice for [`write()`], [`write_tree`] and [`join`].
pub const BOOK_BYTES: usize = 16898;

/// What a book has. A row that is repeated in its table counts once among the different rows.
#[derive(Clone, Copy, Debug, PartialEq, Eq)]
pub struct Counts {
    pub fields: u64,
    pub tables: u64,
    pub rows: u64,
    pub different_rows: u64,
}

/// What the one pass counts: the alternatives that are listed, and the marks struck in all cases, listed or not.
#[derive(Clone, Copy, Debug, PartialEq, Eq)]
pub struct Alternatives {
    pub total: u64,
    pub struck: u64,
}

/// What is told of the nearest full reading: in how many fields it differs from the answers, and how many bytes were written.
#[derive(Clone, Copy, Debug, PartialEq, Eq)]
pub struct Nearest {
    pub differing: u64,
    pub written: u64,
}

/// A call in a list for [`Sheet::replay`]. In the list's bytes a field and a code are bytes.
#[derive(Clone, Copy, Debug, PartialEq, Eq)]
pub enum Call {
    Enter { field: u8, code: u8 },
    Withdraw { field: u8 },
    Clear,
    Photograph { field: u8 },
}

impl Call {
    /// The call's three bytes in the list.
    pub fn bytes(self) -> [u8; 3] {
        match self {
            Call::Enter { field, code } => [0, field, code],
            Call::Withdraw { field } => [1, field, 0],
            Call::Clear => [2, 0, 0],
            Call::Photograph { field } => [3, field, 0],
        }
    }
}

fn answer<T>(number: u64, place: u64, value: T) -> Result<T, Refusal> {
    match number {
        0 => Ok(value),
        _ => Err(Refusal { number, place }),
    }
}

/// A call that reads a book and counts: five cells, place and what it counted.
type Reader = unsafe extern "C" fn(*const u8, usize, *mut u64) -> u64;

/// What such a call answers.
///
/// # Safety
/// `call` reads and writes no more than the slice and cells that it is lent.
unsafe fn read_by(call: Reader, book: &[u8]) -> Result<Counts, Refusal> {
    let mut cells = [0; 5];
    let number = call(book.as_ptr(), book.len(), cells.as_mut_ptr());
    let [place, fields, tables, rows, different_rows] = cells;
    answer(number, place, Counts { fields, tables, rows, different_rows })
}

/// Reads a book and counts what it has. Refusals: 1 to 13.
pub fn read(book: &[u8]) -> Result<Counts, Refusal> {
    // SAFETY: the call keeps to what it is lent.
    unsafe { read_by(ffi::sighting_read, book) }
}

/// Reads a tree book and counts what [`read`] counts. A tree book is a book whose tables tie one field or two, and whose links form no
/// ring. Two fields are linked where a table ties the two, also one without rows; two tables on the same two fields are a ring. Every
/// other call takes such a book like any, and what it shows means more: for an answered field without a photograph [`Sheet::alternatives`]
/// lists a code exactly where a full reading (see [`Sheet::nearest`]) has it at that field and keeps all other answers; and where
/// [`Sheet::filtered`] writes no number 0, it shows exactly the codes of the full readings that keep all answers, but for the one left out,
/// if any. Refusals: 1 to 13, 28 at the first byte of the first table of more than two fields, and, where there is none, 29 at that of the
/// first table that closes a ring.
pub fn read_tree(book: &[u8]) -> Result<Counts, Refusal> {
    // SAFETY: the call keeps to what it is lent.
    unsafe { read_by(ffi::sighting_read_tree, book) }
}

/// A call that reads a book and a stored sheet, or another book, and writes bytes: two cells, place and how many it wrote.
type Writer = unsafe extern "C" fn(*const u8, usize, *const u8, usize, *mut u8, usize, *mut u64) -> u64;

/// What such a call answers.
///
/// # Safety
/// `call` reads and writes no more than the slices and cells that it is lent.
unsafe fn write_by(call: Writer, book: &[u8], beside: &[u8], out: &mut [u8]) -> Result<u64, Refusal> {
    let mut cells = [0; 2];
    let number = call(book.as_ptr(), book.len(), beside.as_ptr(), beside.len(), out.as_mut_ptr(), out.len(), cells.as_mut_ptr());
    let [place, written] = cells;
    answer(number, place, written)
}

/// Writes the text that the program `desk` prints for this book and this stored sheet, and answers its length. A field has `alt` lines
/// only where, with its answer left out, no field of the book is empty, and the total counts these lines. What the text says of a book
/// or a sheet that is turned down is no refusal of this call. Refusals: 18.
pub fn report(book: &[u8], form: &[u8], out: &mut [u8]) -> Result<u64, Refusal> {
    // SAFETY: the call keeps to what it is lent.
    unsafe { write_by(ffi::sighting_report, book, form, out) }
}

/// Moves a stored sheet, one byte for each field of the book, to the short form, and answers how many bytes that has: those that
/// [`Sheet::store_short`] writes for the sheet loaded. No answer is photographed in it. Refusals: 1 to 13, 19, 14, 18.
pub fn shorten(book: &[u8], form: &[u8], out: &mut [u8]) -> Result<u64, Refusal> {
    // SAFETY: the call keeps to what it is lent.
    unsafe { write_by(ffi::sighting_shorten, book, form, out) }
}

/// Moves a short stored sheet to the form with one byte for each field of the book, and answers how many they are. It is the way back
/// from [`shorten`], and [`shorten`] the one from here. That form has no photographs. Refusals: 1 to 13, 24, 14, 22 where some field is
/// photographed, 18.
pub fn lengthen(book: &[u8], form: &[u8], out: &mut [u8]) -> Result<u64, Refusal> {
    // SAFETY: the call keeps to what it is lent.
    unsafe { write_by(ffi::sighting_lengthen, book, form, out) }
}

/// Shows a book's listing, and answers how many numbers it has: the number of fields and each field's number of codes; the number of
/// tables; for each table its number of fields, the fields, its number of rows, and the rows' codes; last its version. Refusals: 1 to 13,
/// 18.
pub fn show(book: &[u8], out: &mut [u16]) -> Result<u64, Refusal> {
    let mut cells = [0; 2];
    // SAFETY: each pointer has its slice's length beside it; two cells are lent.
    let number = unsafe { ffi::sighting_show(book.as_ptr(), book.len(), out.as_mut_ptr(), out.len(), cells.as_mut_ptr()) };
    let [place, written] = cells;
    answer(number, place, written)
}

/// Writes the bytes of the book that a listing says, and answers how many they are. It is the way back from [`show`]: writing what a
/// book shows gives the book's bytes, and the bytes written show the listing. One that ends without a version is refused by 20.
/// Refusals: 20, 18.
pub fn write(listing: &[u16], out: &mut [u8]) -> Result<u64, Refusal> {
    // SAFETY: the call keeps to what it is lent.
    unsafe { lay_out_by(ffi::sighting_write, listing, out) }
}

/// Writes the bytes of the tree book that a listing says, as [`write()`] does, and refuses the listing of any other book. What it writes
/// is accepted by [`read_tree`]. Refusals: 20, 28 where a table ties more than two fields, 29 where the links form a ring, 18; each has
/// place 0.
pub fn write_tree(listing: &[u16], out: &mut [u8]) -> Result<u64, Refusal> {
    // SAFETY: the call keeps to what it is lent.
    unsafe { lay_out_by(ffi::sighting_write_tree, listing, out) }
}

/// A call that reads a listing and writes bytes: two cells, place and how many it wrote.
type Layout = unsafe extern "C" fn(*const u16, usize, *mut u8, usize, *mut u64) -> u64;

/// What such a call answers.
///
/// # Safety
/// `call` reads and writes no more than the slices and cells that it is lent.
unsafe fn lay_out_by(call: Layout, listing: &[u16], out: &mut [u8]) -> Result<u64, Refusal> {
    let mut cells = [0; 2];
    let number = call(listing.as_ptr(), listing.len(), out.as_mut_ptr(), out.len(), cells.as_mut_ptr());
    let [place, written] = cells;
    answer(number, place, written)
}

/// Joins two books whose fields have the same numbers of codes into one of version 2, and answers how many bytes that has. Each set of
/// fields that some table of either is on has one table, with the rows that stand in every table on these fields, in either book: each
/// one time, rising by the first code where they part. Tables rise by the lists of their fields, a shorter one before one that continues
/// it. A full reading fits the joined book exactly when it fits both, and a code that stands under a sheet by the joined book stands by
/// each. Refusals: 1 to 13 of the first book, 1 to 13 of the second, 25, 26 where the joined book would have more than 64 tables or more
/// than 4,096 rows, 18.
pub fn join(first: &[u8], second: &[u8], out: &mut [u8]) -> Result<u64, Refusal> {
    // SAFETY: the call keeps to what it is lent.
    unsafe { write_by(ffi::sighting_join, first, second, out) }
}

/// The number that goes over as the field to relax. The library takes 255 for none, and no book has a field 255: a caller's own 255
/// goes over as another number that is no field, and is refused like it.
fn relaxed_number(relaxed: Option<usize>) -> usize {
    const NONE: usize = NO_ANSWER as usize;
    match relaxed {
        None => NONE,
        Some(NONE) => usize::MAX,
        Some(field) => field,
    }
}

/// The answers, and which of them a photograph backs: the bytes of `include/sighting.h`, in which a photograph is always told by 1.
#[derive(Clone, Copy, PartialEq, Eq)]
pub struct Sheet([u8; SHEET_BYTES]);

impl fmt::Debug for Sheet {
    /// The places that hold something: for each the answer, and whether it is photographed.
    fn fmt(&self, f: &mut fmt::Formatter<'_>) -> fmt::Result {
        let held = (0..PLACES).map(|place| (place, (self.answer(place), self.is_photographed(place))));
        f.debug_map().entries(held.filter(|&(_, held)| held != (None, false))).finish()
    }
}

impl Default for Sheet {
    fn default() -> Sheet {
        Sheet::fresh()
    }
}

impl From<[u8; SHEET_BYTES]> for Sheet {
    /// Any bytes: calls refuse by 14 what a book's fields cannot hold. As a photograph any byte but 0 counts as 1, and becomes 1, so that
    /// sheets are equal that hold the same.
    fn from(mut bytes: [u8; SHEET_BYTES]) -> Sheet {
        bytes[PLACES..].iter_mut().for_each(|photograph| *photograph = (*photograph).min(1));
        Sheet(bytes)
    }
}

impl From<[u8; PLACES]> for Sheet {
    /// The answers of all places, none of them photographed.
    fn from(answers: [u8; PLACES]) -> Sheet {
        let mut bytes = [0; SHEET_BYTES];
        bytes[..PLACES].copy_from_slice(&answers);
        Sheet(bytes)
    }
}

// SAFETY of every call below: a sheet is an array of SHEET_BYTES, each pointer has its slice's length beside it, as many cells are
// lent as the header says, and Rust's borrows keep what is written apart from all else.
impl Sheet {
    /// A sheet without answers and photographs.
    pub fn fresh() -> Sheet {
        let mut bytes = [0; SHEET_BYTES];
        unsafe { ffi::sighting_fresh(bytes.as_mut_ptr()) };
        Sheet(bytes)
    }

    pub fn bytes(&self) -> &[u8; SHEET_BYTES] {
        &self.0
    }

    /// The answer of a field, if it has one.
    pub fn answer(&self, field: usize) -> Option<u8> {
        self.0[..PLACES].get(field).copied().filter(|&code| code != NO_ANSWER)
    }

    /// Whether a photograph backs the answer of a field.
    pub fn is_photographed(&self, field: usize) -> bool {
        self.0[PLACES..].get(field).is_some_and(|&photograph| photograph != 0)
    }

    /// Takes all answers and photographs away. Nothing else takes a photograph from an answer.
    pub fn clear(&mut self) {
        unsafe { ffi::sighting_clear(self.0.as_mut_ptr()) };
    }

    /// Enters a code as the answer of a field. The code that the field holds is accepted and changes nothing, photographed or not.
    /// Refusals: 1 to 13, 14, 15, 16, and 22 for another code on a photographed field.
    pub fn enter(&mut self, book: &[u8], field: usize, code: usize) -> Result<(), Refusal> {
        let mut cells = [0; 1];
        let number =
            unsafe { ffi::sighting_enter(self.0.as_mut_ptr(), book.as_ptr(), book.len(), field, code, cells.as_mut_ptr()) };
        answer(number, cells[0], ())
    }

    /// Withdraws the answer of a field. Refusals: 1 to 13, 14, 15, 17, and 22 for a photographed field.
    pub fn withdraw(&mut self, book: &[u8], field: usize) -> Result<(), Refusal> {
        let mut cells = [0; 1];
        let number = unsafe { ffi::sighting_withdraw(self.0.as_mut_ptr(), book.as_ptr(), book.len(), field, cells.as_mut_ptr()) };
        answer(number, cells[0], ())
    }

    /// Notes that a photograph backs the answer of a field. From then on, until [`Sheet::clear`], withdraw and enter with another code
    /// are refused on that field, and it has no alternatives. Noting it again changes nothing. Refusals: 1 to 13, 14, 15, 17.
    pub fn photograph(&mut self, book: &[u8], field: usize) -> Result<(), Refusal> {
        let mut cells = [0; 1];
        let number =
            unsafe { ffi::sighting_photograph(self.0.as_mut_ptr(), book.as_ptr(), book.len(), field, cells.as_mut_ptr()) };
        answer(number, cells[0], ())
    }

    /// Plain filtering, with the answer of one field left out, photographed or not, or of none. It writes one number for each field of
    /// the book, with bit c set where code c stands. Refusals: 1 to 13, 14, 15 for every `Some` that is no field of the book, 17, 18.
    pub fn filtered(&self, book: &[u8], relaxed: Option<usize>, out: &mut [u32]) -> Result<(), Refusal> {
        let mut cells = [0; 1];
        let number = unsafe {
            ffi::sighting_filtered(
                self.0.as_ptr(),
                book.as_ptr(),
                book.len(),
                relaxed_number(relaxed),
                out.as_mut_ptr(),
                out.len(),
                cells.as_mut_ptr(),
            )
        };
        answer(number, cells[0], ())
    }

    /// The alternatives of every answered field without a photograph: its codes that stand with its own answer left out, written as
    /// pairs of bytes, field then code. A field has some only where no field of the book is then empty, and the total counts these
    /// pairs. A photographed field has none, and no case of its own. Refusals: 1 to 13, 14, 18.
    pub fn alternatives(&self, book: &[u8], out: &mut [u8]) -> Result<Alternatives, Refusal> {
        let mut cells = [0; 3];
        let number = unsafe {
            ffi::sighting_alternatives(
                self.0.as_ptr(),
                book.as_ptr(),
                book.len(),
                out.as_mut_ptr(),
                out.len(),
                cells.as_mut_ptr(),
            )
        };
        answer(number, cells[0], Alternatives { total: cells[1], struck: cells[2] })
    }

    /// The row behind a code: the first row of the table that has the code in the field's column and only standing codes in its other
    /// columns, with all answers kept; or `None` where the table has no such row. Whether the code itself stands plays no part, and one
    /// that stands has a row in every table with its field. Tables and rows count from 0 in the book's order, repeated rows too.
    /// Refusals: 1 to 13, 14, 15, 16, 21.
    pub fn row(&self, book: &[u8], field: usize, code: usize, table: usize) -> Result<Option<u64>, Refusal> {
        let mut cells = [0; 3];
        let number =
            unsafe { ffi::sighting_row(self.0.as_ptr(), book.as_ptr(), book.len(), field, code, table, cells.as_mut_ptr()) };
        let [place, found, row] = cells;
        answer(number, place, (found == 1).then_some(row))
    }

    /// The nearest full reading, written as one byte for each field of the book; or `None` where there is none, and then no byte is
    /// written. A full reading gives each field one of its codes so that each table has the row of its fields' codes. Of those that keep
    /// every photographed answer it is the one that differs from the other answers in the fewest fields; among several, the one with the
    /// lower code in the first field where they part. A field without an answer never differs. Refusals: 1 to 13, 14, 23, and 18 where
    /// fewer bytes are lent than the book has fields, also where there is no reading.
    pub fn nearest(&self, book: &[u8], out: &mut [u8]) -> Result<Option<Nearest>, Refusal> {
        let mut cells = [0; 4];
        let number = unsafe {
            ffi::sighting_nearest(self.0.as_ptr(), book.as_ptr(), book.len(), out.as_mut_ptr(), out.len(), cells.as_mut_ptr())
        };
        let [place, found, differing, written] = cells;
        answer(number, place, (found == 1).then_some(Nearest { differing, written }))
    }

    /// The debrief plan: the least number of questions, 0 to 3, after which the target surely has at most one standing code; or `None`
    /// where three do not suffice. A question is one of these fields, at most six, chosen when the answers to those before it are known.
    /// The observer may answer with any code of the field that stands and, once it is entered, leaves no field of the book without a
    /// standing code; where there is no such code, that branch counts as settled. The target may have an answer, and then needs no
    /// question; the list may be empty. Refusals: 1 to 13, 14, 15 for the target, and 27 for more than six questions, one that comes
    /// again, the target among them, or one that is no field of the book or has an answer.
    pub fn plan(&self, book: &[u8], target: usize, questions: &[u8]) -> Result<Option<u64>, Refusal> {
        let mut cells = [0; 3];
        let number = unsafe {
            ffi::sighting_plan(
                self.0.as_ptr(),
                book.as_ptr(),
                book.len(),
                target,
                questions.as_ptr(),
                questions.len(),
                cells.as_mut_ptr(),
            )
        };
        let [place, found, least] = cells;
        answer(number, place, (found == 1).then_some(least))
    }

    /// Loads a stored sheet, one byte for each field of the book; none is photographed. Refusals: 1 to 13, 19, 14.
    pub fn load(book: &[u8], form: &[u8]) -> Result<Sheet, Refusal> {
        let (mut sheet, mut cells) = ([0; SHEET_BYTES], [0; 1]);
        let number = unsafe {
            ffi::sighting_load(sheet.as_mut_ptr(), book.as_ptr(), book.len(), form.as_ptr(), form.len(), cells.as_mut_ptr())
        };
        answer(number, cells[0], Sheet(sheet))
    }

    /// Stores the sheet, one byte for each field of the book. That form has no photographs. Refusals: 1 to 13, 14, 22 where some field is
    /// photographed, 18.
    pub fn store(&self, book: &[u8], out: &mut [u8]) -> Result<(), Refusal> {
        let mut cells = [0; 1];
        let number = unsafe {
            ffi::sighting_store(self.0.as_ptr(), book.as_ptr(), book.len(), out.as_mut_ptr(), out.len(), cells.as_mut_ptr())
        };
        answer(number, cells[0], ())
    }

    /// Loads a short stored sheet, with its photographs; a field that it does not name has no answer. Refusals: 1 to 13, 24, and 14 for a
    /// code that its field lacks, 255 too.
    pub fn load_short(book: &[u8], form: &[u8]) -> Result<Sheet, Refusal> {
        let (mut sheet, mut cells) = ([0; SHEET_BYTES], [0; 1]);
        let number = unsafe {
            ffi::sighting_load_short(sheet.as_mut_ptr(), book.as_ptr(), book.len(), form.as_ptr(), form.len(), cells.as_mut_ptr())
        };
        answer(number, cells[0], Sheet(sheet))
    }

    /// Stores the sheet in the short form, with its photographs, and answers how many bytes that has: for each answered field, by rising
    /// field, the field, its code, and 1 if it is photographed, else 0; then the number of answers, and the book's number of fields.
    /// Refusals: 1 to 13, 14, 18.
    pub fn store_short(&self, book: &[u8], out: &mut [u8]) -> Result<u64, Refusal> {
        let mut cells = [0; 2];
        let number = unsafe {
            ffi::sighting_store_short(self.0.as_ptr(), book.as_ptr(), book.len(), out.as_mut_ptr(), out.len(), cells.as_mut_ptr())
        };
        let [place, written] = cells;
        answer(number, place, written)
    }

    /// Runs a list of calls, three bytes each as [`Call::bytes`] gives them, from a fresh sheet, and then the alternatives of the
    /// sheet reached, as [`Sheet::alternatives`] lists and counts them: of a field only where, with its answer left out, no field of
    /// the book is empty. A call of the list that is refused changes nothing, and the list goes on. Refusals: 1 to 13, 18.
    ///
    /// The sheet that the list reached comes back beside the answer, also where that is a refusal: after an 18 it holds the answers and
    /// photographs after the list. By a refused book, 1 to 13, every call but clear is refused too, so a fresh sheet comes back.
    pub fn replay(book: &[u8], calls: &[u8], out: &mut [u8]) -> (Sheet, Result<Alternatives, Refusal>) {
        let (mut sheet, mut cells) = ([0; SHEET_BYTES], [0; 3]);
        let number = unsafe {
            ffi::sighting_replay(
                sheet.as_mut_ptr(),
                book.as_ptr(),
                book.len(),
                calls.as_ptr(),
                calls.len(),
                out.as_mut_ptr(),
                out.len(),
                cells.as_mut_ptr(),
            )
        };
        (Sheet(sheet), answer(number, cells[0], Alternatives { total: cells[1], struck: cells[2] }))
    }
}
