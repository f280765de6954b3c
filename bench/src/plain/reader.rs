//! The reader: refusals 1 to 13 in their order, then the counts.

use super::{Refused, CODES, PLACES};

const NO_TABLE: Table = Table { at: 0, arity: 0, first: 0, rows: 0 };

/// Where a table stands, its number of fields, the place of its first row, and its number of rows.
#[derive(Clone, Copy)]
pub struct Table {
    pub at: usize,
    pub arity: usize,
    pub first: usize,
    pub rows: usize,
}

/// A view on the bytes of an accepted book.
pub struct View<'a> {
    pub bytes: &'a [u8],
    pub list: usize,
    pub fields: usize,
    pub tables: usize,
}

fn pair(bytes: &[u8], at: usize) -> usize {
    bytes[at] as usize + 256 * bytes[at + 1] as usize
}

fn refuse<T>(number: u64, place: usize) -> Result<T, Refused> {
    Err((number, place as u64))
}

/// The most fields of a book of this version; none of one that is neither.
pub const fn field_limit(version: u8) -> usize {
    match version {
        1 => 32,
        2 => PLACES,
        _ => 0,
    }
}

fn trailer(bytes: &[u8]) -> Result<View<'_>, Refused> {
    let n = bytes.len();
    if !(6..=32_768).contains(&n) {
        return refuse(1, 0);
    }
    let (list, fields, tables) = (pair(bytes, n - 6), bytes[n - 4] as usize, bytes[n - 3] as usize);
    let limit = field_limit(bytes[n - 2]);
    let tests = [
        (2, n - 1, bytes[n - 1] == 0xE5),
        (3, n - 2, limit != 0),
        (4, n - 4, (1..=limit).contains(&fields)),
        (5, n - 3, tables <= 64),
        (6, n - 6, list + fields + 6 == n),
    ];
    match tests.iter().find(|test| !test.2) {
        Some(&(number, place, _)) => refuse(number, place),
        None => Ok(View { bytes, list, fields, tables }),
    }
}

impl View<'_> {
    pub fn codes(&self, field: usize) -> usize {
        self.bytes[self.list + field] as usize
    }

    /// The number of codes of each field.
    pub fn counts(&self) -> &[u8] {
        &self.bytes[self.list..self.list + self.fields]
    }

    pub fn field(&self, table: Table, column: usize) -> usize {
        self.bytes[table.at + 1 + column] as usize
    }

    /// The table at `at` of an accepted book.
    pub fn table(&self, at: usize) -> Table {
        let arity = self.bytes[at] as usize;
        Table { at, arity, first: at + 3 + arity, rows: pair(self.bytes, at + 1 + arity) }
    }

    fn check_table(&self, at: usize, rows_before: usize) -> Result<Table, Refused> {
        if at >= self.list {
            return refuse(8, at);
        }
        let arity = self.bytes[at] as usize;
        if !(1..=4).contains(&arity) {
            return refuse(9, at);
        }
        if self.list - at - 1 < arity + 2 {
            return refuse(8, at);
        }
        for j in at + 1..at + 1 + arity {
            if self.bytes[j] as usize >= self.fields || (j > at + 1 && self.bytes[j] <= self.bytes[j - 1]) {
                return refuse(10, j);
            }
        }
        let table = self.table(at);
        if self.list - table.first < arity * table.rows {
            return refuse(8, at);
        }
        if rows_before + table.rows > 4_096 {
            return refuse(12, at);
        }
        self.check_codes(table).map(|()| table)
    }

    fn check_codes(&self, table: Table) -> Result<(), Refused> {
        let mut limits = [0; 4];
        for (j, limit) in limits.iter_mut().enumerate().take(table.arity) {
            *limit = self.codes(self.field(table, j)) as u8;
        }
        for row in 0..table.rows {
            let at = table.first + row * table.arity;
            for (j, &limit) in limits[..table.arity].iter().enumerate() {
                if self.bytes[at + j] >= limit {
                    return refuse(11, at + j);
                }
            }
        }
        Ok(())
    }
}

/// The accepted book and its tables.
pub struct Checked<'a> {
    pub view: View<'a>,
    pub tables: [Table; 64],
}

/// The view on an accepted book and its number of rows; each table goes to `keep` with its number. Reading keeps none: to fill the
/// array of the engine takes longer than to read ten rows.
pub fn accept(bytes: &[u8], mut keep: impl FnMut(usize, Table)) -> Result<(View<'_>, usize), Refused> {
    let view = trailer(bytes)?;
    for f in 0..view.fields {
        if !(1..=CODES).contains(&view.codes(f)) {
            return refuse(7, view.list + f);
        }
    }
    let (mut at, mut rows) = (0, 0);
    for i in 0..view.tables {
        let table = view.check_table(at, rows)?;
        at = table.first + table.arity * table.rows;
        rows += table.rows;
        keep(i, table);
    }
    if at < view.list {
        return refuse(13, at);
    }
    Ok((view, rows))
}

pub fn check(bytes: &[u8]) -> Result<Checked<'_>, Refused> {
    let mut tables = [NO_TABLE; 64];
    let (view, _) = accept(bytes, |i, table| tables[i] = table)?;
    Ok(Checked { view, tables })
}

/// The view on an accepted book, for a call that asks for no table.
pub fn view(bytes: &[u8]) -> Result<View<'_>, Refused> {
    accept(bytes, |_, _| {}).map(|(view, _)| view)
}

/// Puts each row into its word: the first code in the highest byte, zeros behind the last.
fn gather<const ARITY: usize>(rows: &[u8], words: &mut [u32]) {
    for (word, row) in words.iter_mut().zip(rows.chunks_exact(ARITY)) {
        let mut codes = [0; 4];
        codes[..ARITY].copy_from_slice(row);
        *word = u32::from_be_bytes(codes);
    }
}

/// Puts the rows of one table into words. A loop for each number of codes gathers faster than one for all.
pub fn pack(rows: &[u8], arity: usize, words: &mut [u32]) {
    match arity {
        1 => gather::<1>(rows, words),
        2 => gather::<2>(rows, words),
        3 => gather::<3>(rows, words),
        _ => gather::<4>(rows, words),
    }
}

/// The different rows of one table, by sorting their words.
fn different_sorted(rows: &[u8], arity: usize, words: &mut [u32]) -> usize {
    let words = &mut words[..rows.len() / arity];
    pack(rows, arity, words);
    words.sort_unstable();
    !words.is_empty() as usize + words.windows(2).filter(|pair| pair[0] != pair[1]).count()
}

/// The rows of one table that no later row of it repeats. Rows are short: a loop compares them faster than a call does.
fn different_row_by_row(rows: &[u8], arity: usize) -> usize {
    let same = |row: &[u8], later: &[u8]| row.iter().zip(later).all(|(c, d)| c == d);
    let mut different = 0;
    for (i, row) in rows.chunks_exact(arity).enumerate() {
        let mut later = rows[(i + 1) * arity..].chunks_exact(arity);
        if !later.any(|later| same(row, later)) {
            different += 1;
        }
    }
    different
}

/// Fields, tables, rows, different rows.
pub type Counts = [u64; 4];

/// The counts of an accepted book, with a way to count the different rows of one table of so many codes in a row.
fn counts(view: &View, rows: usize, mut different_rows: impl FnMut(&[u8], usize) -> usize) -> Counts {
    let (mut at, mut different) = (0, 0);
    for _ in 0..view.tables {
        let table = view.table(at);
        at = table.first + table.arity * table.rows;
        different += different_rows(&view.bytes[table.first..at], table.arity);
    }
    [view.fields as u64, view.tables as u64, rows as u64, different as u64]
}

/// The counts of an accepted book of at most `ROWS` rows.
fn counts_sorted<const ROWS: usize>(view: &View, rows: usize) -> Counts {
    let mut words = [0; ROWS];
    counts(view, rows, |rows, arity| different_sorted(rows, arity, &mut words))
}

/// The counts of an accepted book of so many rows. A small one does not pay for clearing the words of the largest.
pub fn count(view: &View, rows: usize) -> Counts {
    if rows <= 64 {
        counts_sorted::<64>(view, rows)
    } else {
        counts_sorted::<4_096>(view, rows)
    }
}

pub fn read(bytes: &[u8]) -> Result<Counts, Refused> {
    accept(bytes, |_, _| {}).map(|(view, rows)| count(&view, rows))
}

/// As `read`, but each row is held against the later ones of its table: the form that the library had before it sorted.
pub fn read_row_by_row(bytes: &[u8]) -> Result<Counts, Refused> {
    accept(bytes, |_, _| {}).map(|(view, rows)| counts(&view, rows, different_row_by_row))
}
