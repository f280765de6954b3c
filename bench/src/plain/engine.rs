//! The engine: all cases in one pass, one bit for each case in a word for each field and code, revised a column at a time.

use super::reader::{check, Checked, Table};
use super::sheet::{Sheet, NO_ANSWER, SHEET_BYTES};
use super::{Refused, CODES, PLACES};

/// A word of marks for each place and code.
const WORDS: usize = PLACES * CODES;

/// Filters a book in several cases at once: bit k of a mark says that it stands in case k.
pub struct Engine<'a> {
    book: &'a Checked<'a>,
    marks: [u64; WORDS],
    pub watch: [u64; PLACES],
    queue: u64,
    struck: u64,
}

fn first_bits(n: usize) -> u64 {
    if n == 0 {
        0
    } else {
        u64::MAX >> (64 - n)
    }
}

impl<'a> Engine<'a> {
    /// The marks that the answers allow: of an answered field the held code in all cases, the others in those that relax the
    /// field.
    pub fn start(book: &'a Checked<'a>, answers: &[u8; PLACES], cases: usize, relaxing: &[u64; PLACES]) -> Engine<'a> {
        let mut engine = Engine { book, marks: [0; WORDS], watch: [0; PLACES], queue: first_bits(book.view.tables), struck: 0 };
        let all = first_bits(cases);
        for f in 0..book.view.fields {
            for c in 0..book.view.codes(f) {
                let open = answers[f] == NO_ANSWER || answers[f] as usize == c;
                let word = if open { all } else { relaxing[f] };
                engine.marks[f * CODES + c] = word;
                engine.struck += (all ^ word).count_ones() as u64;
            }
        }
        for (i, &table) in book.tables[..book.view.tables].iter().enumerate() {
            for j in 0..table.arity {
                engine.watch[book.view.field(table, j)] |= 1 << i;
            }
        }
        engine
    }

    /// The codes of field q asked for, a case for each: begun with what stands, so that only the tables with q are to be looked at.
    pub fn begun(book: &'a Checked<'a>, watch: &[u64; PLACES], standing: &[u32; PLACES], q: usize) -> Engine<'a> {
        let mut engine = Engine { book, marks: [0; WORDS], watch: *watch, queue: watch[q], struck: 0 };
        let cases = standing[q] as u64;
        for (f, &standing) in standing.iter().enumerate().take(book.view.fields) {
            for c in (0..book.view.codes(f)).filter(|c| standing >> c & 1 == 1) {
                engine.marks[f * CODES + c] = if f == q { 1 << c } else { cases };
            }
        }
        engine
    }

    /// The same begun with the answers, and with all tables to be looked at.
    pub fn begun_anew(book: &'a Checked<'a>, answers: &[u8; PLACES], q: usize) -> Engine<'a> {
        let codes = book.view.codes(q);
        let mut engine = Engine::start(book, answers, codes, &[0; PLACES]);
        for c in 0..codes {
            engine.marks[q * CODES + c] = 1 << c;
        }
        engine
    }

    /// The codes of field f that stand in case k, as a number.
    pub fn standing(&self, k: usize, f: usize) -> u32 {
        (0..self.book.view.codes(f)).fold(0, |bits, c| bits | ((self.marks[f * CODES + c] >> k & 1) as u32) << c)
    }

    /// The first row from `from` on that keeps its code in column j in a case of need[code], with those cases.
    fn support(&self, table: Table, j: usize, need: &[u64; CODES], from: usize) -> Option<(usize, u64)> {
        let bytes = self.book.view.bytes;
        'rows: for r in from..table.rows {
            let row = table.first + r * table.arity;
            let mut cases = need[bytes[row + j] as usize];
            if cases == 0 {
                continue 'rows;
            }
            for k in 0..table.arity {
                if k != j {
                    let field = bytes[table.at + 1 + k] as usize;
                    cases &= self.marks[field * CODES + bytes[row + k] as usize];
                    if cases == 0 {
                        continue 'rows;
                    }
                }
            }
            return Some((r, cases));
        }
        None
    }

    /// Of the marks of column j, those that no row supports.
    fn unsupported(&self, table: Table, j: usize, field: usize) -> [u64; CODES] {
        let mut need = [0; CODES];
        let mut waiting = 0;
        for (c, word) in need.iter_mut().enumerate().take(self.book.view.codes(field)) {
            *word = self.marks[field * CODES + c];
            waiting += (*word != 0) as usize;
        }
        let mut from = 0;
        while waiting != 0 {
            let Some((r, cases)) = self.support(table, j, &need, from) else {
                break;
            };
            let c = self.book.view.bytes[table.first + r * table.arity + j] as usize;
            need[c] ^= cases;
            waiting -= (need[c] == 0) as usize;
            from = r + 1;
        }
        need
    }

    fn revise(&mut self, i: usize) {
        let table = self.book.tables[i];
        for j in 0..table.arity {
            let field = self.book.view.field(table, j);
            let left = self.unsupported(table, j, field);
            let mut any = 0;
            for (c, &word) in left.iter().enumerate().take(self.book.view.codes(field)) {
                self.marks[field * CODES + c] ^= word;
                self.struck += word.count_ones() as u64;
                any |= word;
            }
            if any != 0 {
                self.queue |= self.watch[field] & !(1 << i);
            }
        }
    }

    pub fn propagate(&mut self) {
        let mut from = 0;
        while self.queue != 0 {
            let later = self.queue >> from;
            let i = if later == 0 { self.queue.trailing_zeros() } else { from + later.trailing_zeros() };
            self.queue &= !(1 << i);
            self.revise(i as usize);
            from = (i + 1) % 64;
        }
    }

    /// The cases in which some field is empty: all but those in which every field has a code that stands.
    pub fn empty_cases(&self) -> u64 {
        let mut full = u64::MAX;
        for f in 0..self.book.view.fields {
            let codes = &self.marks[f * CODES..f * CODES + self.book.view.codes(f)];
            full &= codes.iter().fold(0, |any, word| any | word);
        }
        !full
    }

    /// The cases in which field f has more than one mark.
    pub fn crowded_cases(&self, f: usize) -> u64 {
        let (mut once, mut twice) = (0, 0);
        for word in &self.marks[f * CODES..(f + 1) * CODES] {
            twice |= once & word;
            once |= word;
        }
        twice
    }
}

/// Total and struck; the pairs go to `out`. A field has none where it is photographed, or where with its answer left out some field is
/// empty.
pub fn alternatives(sheet: &[u8; SHEET_BYTES], bytes: &[u8], out: &mut [u8]) -> Result<(u64, u64), Refused> {
    let book = check(bytes)?;
    let sheet = Sheet::held(sheet);
    sheet.check(&book.view)?;
    let mut relaxing = [0; PLACES];
    let mut cases = 1;
    for f in (0..book.view.fields).filter(|&f| sheet.in_doubt(f)) {
        relaxing[f] = 1 << cases;
        cases += 1;
    }
    let mut engine = Engine::start(&book, &sheet.answers, cases, &relaxing);
    engine.propagate();
    let empty = engine.empty_cases();
    let listed = |f: usize, c: usize| engine.marks[f * CODES + c] & relaxing[f] & !empty != 0;
    let places = || (0..book.view.fields).flat_map(|f| (0..book.view.codes(f)).map(move |c| (f, c)));
    let total = places().filter(|&(f, c)| listed(f, c)).count();
    if out.len() < 2 * total {
        return Err((18, 0));
    }
    for (pair, (f, c)) in out.chunks_mut(2).zip(places().filter(|&(f, c)| listed(f, c))) {
        pair.copy_from_slice(&[f as u8, c as u8]);
    }
    Ok((total as u64, engine.struck))
}

/// One number for each field, with nothing relaxed.
pub fn filtered(sheet: &[u8; SHEET_BYTES], bytes: &[u8], out: &mut [u32]) -> Result<(), Refused> {
    let book = check(bytes)?;
    let sheet = Sheet::held(sheet);
    sheet.check(&book.view)?;
    if out.len() < book.view.fields {
        return Err((18, 0));
    }
    let mut engine = Engine::start(&book, &sheet.answers, 1, &[0; PLACES]);
    engine.propagate();
    for (f, number) in out.iter_mut().enumerate().take(book.view.fields) {
        *number = engine.standing(0, f);
    }
    Ok(())
}

/// The first row of a table that has the code in the field's column and only standing codes in its others, with nothing relaxed.
pub fn row(sheet: &[u8; SHEET_BYTES], bytes: &[u8], field: usize, code: usize, table: usize) -> Result<Option<u64>, Refused> {
    let book = check(bytes)?;
    let sheet = Sheet::held(sheet);
    sheet.check(&book.view)?;
    if field >= book.view.fields {
        return Err((15, 0));
    }
    if code >= book.view.codes(field) {
        return Err((16, 0));
    }
    let table = *book.tables[..book.view.tables].get(table).ok_or((21, 0))?;
    let column = (0..table.arity).find(|&j| book.view.field(table, j) == field).ok_or((21, 0))?;
    let mut need = [0; CODES];
    need[code] = 1;
    let mut engine = Engine::start(&book, &sheet.answers, 1, &[0; PLACES]);
    engine.propagate();
    Ok(engine.support(table, column, &need, 0).map(|(r, _)| r as u64))
}
