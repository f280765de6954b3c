//! The nearest full reading: the codes of each field are tried in their order, and one is passed over where the best is not beaten, where a
//! photographed answer is another, or where a table has no row that begins with the codes chosen.

use std::mem;

use super::reader::{check, pack, Checked, View};
use super::sheet::{Sheet, NO_ANSWER, SHEET_BYTES};
use super::{Refused, PLACES};

/// The most readings, full or not, of a book that is searched.
const READINGS: usize = 65_536;

/// The most tables and rows of a book.
const TABLES: usize = 64;
const ROWS: usize = 4_096;

/// The fields of a table, and its rows, a word each.
#[derive(Clone, Copy)]
struct Packed<'a> {
    fields: &'a [u8],
    words: &'a [u32],
}

/// Whether one of the words begins with this front of `width` codes. There is no way out where one is found: so several are compared at a
/// time.
fn has_front(words: &[u32], front: u32, width: usize) -> bool {
    let shift = 32 - 8 * width;
    words.iter().fold(false, |found, word| found | (word >> shift == front))
}

impl Packed<'_> {
    /// Whether a row begins with the reading's codes for the table's fields up to f, where it has f.
    fn can_hold(&self, reading: &[u8; PLACES], f: usize) -> bool {
        let Some(last) = self.fields.iter().position(|&g| g as usize == f) else {
            return true;
        };
        let front = self.fields[..=last].iter().fold(0, |word, &g| word << 8 | reading[g as usize] as u32);
        has_front(self.words, front, last + 1)
    }
}

/// The nearest reading so far, and in how many fields it differs; more than the book has where none is found.
struct Found {
    least: usize,
    reading: [u8; PLACES],
}

struct Search<'a> {
    view: &'a View<'a>,
    tables: &'a [Packed<'a>],
    sheet: &'a Sheet,
}

impl Search<'_> {
    /// Never inlined: within the recursion the loop over the rows is compiled one way or another from build to build, and may take a third
    /// longer.
    #[inline(never)]
    fn can_hold(&self, reading: &[u8; PLACES], f: usize) -> bool {
        self.tables.iter().all(|table| table.can_hold(reading, f))
    }

    /// How many fields differ with this code of field f, unless the best is not beaten then or a photographed answer is another.
    fn more(&self, f: usize, code: u8, differing: usize, least: usize) -> Option<usize> {
        let answer = self.sheet.answers[f];
        let differs = answer != NO_ANSWER && answer != code;
        let more = differing + differs as usize;
        (more < least && !(differs && self.sheet.photographed[f])).then_some(more)
    }

    /// The next field and the number of differing ones behind the fields of one code that come next, which need no test: each row that
    /// begins with the codes before them goes on with theirs.
    fn passed(&self, reading: &mut [u8; PLACES], mut f: usize, mut differing: usize, least: usize) -> (usize, usize) {
        while f < self.view.fields && self.view.codes(f) == 1 {
            let Some(more) = self.more(f, 0, differing, least) else {
                break;
            };
            reading[f] = 0;
            (f, differing) = (f + 1, more);
        }
        (f, differing)
    }

    /// Goes on from the codes of the fields below f, of which `differing` differ.
    fn visit(&self, reading: &mut [u8; PLACES], f: usize, differing: usize, best: &mut Found) {
        let (f, differing) = self.passed(reading, f, differing, best.least);
        if f == self.view.fields {
            *best = Found { least: differing, reading: *reading };
            return;
        }
        for code in 0..self.view.codes(f) as u8 {
            let Some(more) = self.more(f, code, differing, best.least) else {
                continue;
            };
            reading[f] = code;
            if self.can_hold(reading, f) {
                self.visit(reading, f + 1, more, best);
            }
        }
    }
}

/// The nearest reading of a book in which each table has a row.
fn search(book: &Checked, sheet: &Sheet) -> Found {
    let mut words = [0; ROWS];
    let mut free = &mut words[..];
    let mut packed = [Packed { fields: &[], words: &[] }; TABLES];
    let tables = &book.tables[..book.view.tables];
    for (packed, table) in packed.iter_mut().zip(tables) {
        let (words, rest) = mem::take(&mut free).split_at_mut(table.rows);
        free = rest;
        let end = table.first + table.rows * table.arity;
        pack(&book.view.bytes[table.first..end], table.arity, words);
        *packed = Packed { fields: &book.view.bytes[table.at + 1..table.at + 1 + table.arity], words };
    }
    let mut best = Found { least: book.view.fields + 1, reading: [0; PLACES] };
    let search = Search { view: &book.view, tables: &packed[..tables.len()], sheet };
    search.visit(&mut [0; PLACES], 0, 0, &mut best);
    best
}

/// In how many fields the nearest full reading differs, and how many bytes it has; they go to `out`.
pub fn nearest(sheet: &[u8; SHEET_BYTES], bytes: &[u8], out: &mut [u8]) -> Result<Option<(u64, u64)>, Refused> {
    let book = check(bytes)?;
    let sheet = Sheet::held(sheet);
    sheet.check(&book.view)?;
    let fields = book.view.fields;
    let within = |many: &usize| *many <= READINGS;
    (0..fields).try_fold(1, |many, f| Some(many * book.view.codes(f)).filter(within)).ok_or((23, 0))?;
    let out = out.get_mut(..fields).ok_or((18, 0))?;
    if book.tables[..book.view.tables].iter().any(|table| table.rows == 0) {
        return Ok(None);
    }
    let found = search(&book, &sheet);
    if found.least > fields {
        return Ok(None);
    }
    out.copy_from_slice(&found.reading[..fields]);
    Ok(Some((found.least as u64, fields as u64)))
}
