//! Joining two books: the tables of both sorted by their fields, the rows of each as words, sorted and each one time, and of the tables on
//! one set those words that all of them have.

use super::reader::{accept, pack, Table, View};
use super::Refused;

const MOST_SETS: usize = 64;
const MOST_ROWS: usize = 4_096;

/// A table of either book, as one number that is sorted: its key, which book it is of, and its place there.
type Head = u64;

/// A set of fields of the joined book: its key, and how many rows its table has.
type Set = (u32, usize);

/// The fields of a table as a word: each number plus one, the first in the highest byte, so that a shorter list comes first.
fn key(bytes: &[u8], table: Table) -> u32 {
    let mut digits = [0; 4];
    for (digit, field) in digits.iter_mut().zip(&bytes[table.at + 1..table.at + 1 + table.arity]) {
        *digit = field + 1;
    }
    u32::from_be_bytes(digits)
}

fn key_of(head: Head) -> u32 {
    (head >> 32) as u32
}

/// What is gathered while the books are checked: a head for each table, and how many rows there are.
struct Gathered {
    heads: [Head; 2 * MOST_SETS],
    tables: usize,
    rows: usize,
}

impl Gathered {
    /// The accepted book, whose tables and rows are added.
    fn add<'a>(&mut self, bytes: &'a [u8], book: u64) -> Result<View<'a>, Refused> {
        let (view, rows) = accept(bytes, |_, table| {
            self.heads[self.tables] = (key(bytes, table) as u64) << 32 | book << 16 | table.at as u64;
            self.tables += 1;
        })?;
        self.rows += rows;
        Ok(view)
    }
}

/// Puts the rows of a table into words, rising, each one time, and answers how many they are.
fn load(head: Head, books: &[View; 2], words: &mut [u32]) -> usize {
    let book = &books[(head >> 16) as usize & 1];
    let table = book.table(head as u16 as usize);
    let words = &mut words[..table.rows];
    pack(&book.bytes[table.first..table.first + table.arity * table.rows], table.arity, words);
    words.sort_unstable();
    let mut kept = 0;
    for i in 0..words.len() {
        words[kept] = words[i];
        kept += (words.get(i + 1) != Some(&words[i])) as usize;
    }
    kept
}

/// Keeps of the words those that the others have too, and answers how many they are. Both rise.
fn meet(words: &mut [u32], others: &[u32]) -> usize {
    let (mut kept, mut i, mut j) = (0, 0, 0);
    while i < words.len() && j < others.len() {
        let (word, other) = (words[i], others[j]);
        words[kept] = word;
        kept += (word == other) as usize;
        i += (word <= other) as usize;
        j += (other <= word) as usize;
    }
    kept
}

/// The sets of both books, rising, and how many they are. The words of their rows stand one behind the other.
fn sets(books: &[View; 2], heads: &[Head], words: &mut [u32], now: &mut [u32]) -> Result<([Set; MOST_SETS], usize), Refused> {
    let (mut sets, mut many, mut used) = ([(0, 0); MOST_SETS], 0, 0);
    for tables in heads.chunk_by(|head, next| key_of(*head) == key_of(*next)) {
        let mut rows = load(tables[0], books, &mut words[used..]);
        for &head in &tables[1..] {
            let others = load(head, books, now);
            rows = meet(&mut words[used..used + rows], &now[..others]);
        }
        used += rows;
        if many == MOST_SETS || used > MOST_ROWS {
            return Err((26, 0));
        }
        sets[many] = (key_of(tables[0]), rows);
        many += 1;
    }
    Ok((sets, many))
}

/// The number of fields: as many as the key has digits that are not 0.
fn arity((key, _): Set) -> usize {
    4 - key.trailing_zeros() as usize / 8
}

/// Writes the first bytes of each word.
fn put<const ARITY: usize>(words: &[u32], out: &mut [u8]) {
    for (row, word) in out.chunks_exact_mut(ARITY).zip(words) {
        row.copy_from_slice(&word.to_be_bytes()[..ARITY]);
    }
}

/// Writes the table of a set, and answers the place behind it.
fn put_table(set: Set, words: &[u32], out: &mut [u8], at: usize) -> usize {
    let (arity, first) = (arity(set), at + 3 + arity(set));
    out[at] = arity as u8;
    for (field, digit) in out[at + 1..at + 1 + arity].iter_mut().zip(set.0.to_be_bytes()) {
        *field = digit - 1;
    }
    out[first - 2..first].copy_from_slice(&(set.1 as u16).to_le_bytes());
    let end = first + arity * set.1;
    let rows = &mut out[first..end];
    match arity {
        1 => put::<1>(words, rows),
        2 => put::<2>(words, rows),
        3 => put::<3>(words, rows),
        _ => put::<4>(words, rows),
    }
    end
}

/// The joined book of two that have at most `ROWS` rows each.
fn joined<const ROWS: usize>(books: &[View; 2], heads: &[Head], out: &mut [u8]) -> Result<u64, Refused> {
    // the rows that are kept, at most as many as one book may have, and behind them those of the table at hand
    let (mut words, mut now) = ([[0; ROWS]; 2], [0; ROWS]);
    let words = words.as_flattened_mut();
    let (sets, many) = sets(books, heads, words, &mut now)?;
    let sets = &sets[..many];
    let list: usize = sets.iter().map(|&set| 3 + arity(set) * (1 + set.1)).sum();
    let fields = books[0].fields;
    let out = out.get_mut(..list + fields + 6).ok_or((18, 0))?;
    let (mut at, mut from) = (0, 0);
    for &set in sets {
        at = put_table(set, &words[from..from + set.1], out, at);
        from += set.1;
    }
    out[at..at + fields].copy_from_slice(books[0].counts());
    let [low, high] = (list as u16).to_le_bytes();
    out[at + fields..].copy_from_slice(&[low, high, fields as u8, many as u8, 2, 0xE5]);
    Ok(out.len() as u64)
}

/// How many bytes the book has that two are joined to; they go to `out`.
pub fn join(first: &[u8], second: &[u8], out: &mut [u8]) -> Result<u64, Refused> {
    let mut gathered = Gathered { heads: [0; 2 * MOST_SETS], tables: 0, rows: 0 };
    let books = [gathered.add(first, 0)?, gathered.add(second, 1)?];
    if books[0].counts() != books[1].counts() {
        return Err((25, 0));
    }
    let heads = &mut gathered.heads[..gathered.tables];
    heads.sort_unstable();
    // small books do not pay for clearing the words of the largest
    if gathered.rows <= 64 {
        joined::<64>(&books, heads, out)
    } else {
        joined::<MOST_ROWS>(&books, heads, out)
    }
}
