//! Wrong countings of different rows, each with one part of `rows` exchanged. What cannot show is not listed: a bound that is another by
//! one, or rows that rise taken for others, since each way counts all rows rightly; and rows that fall throughout counted on the walk,
//! columns or passes in another order, or words of the same byte in reverse, since equal words stand together all the same.

use std::collections::HashSet;
use std::ops::RangeInclusive;

use super::rows::{
    changes, held, held_within, in_each, passes, placed, placed_within, sorted, stable, walked, word, Counting, ALL, RIGHT,
};
use super::{Listed, Wrong::Counted};
use crate::book::{Book, Table};
use crate::calls::COUNTING;

const fn of(what: &'static str, different_rows: fn(&Book) -> usize) -> Listed {
    (what, &["read", "read_tree", "report"], Counted(different_rows))
}

/// What does not show in a tree book, where a row has two codes at most.
const fn of_wider(what: &'static str, different_rows: fn(&Book) -> usize) -> Listed {
    (what, COUNTING, Counted(different_rows))
}

pub const SLIPS: &[Listed] = &[
    of("a row's first code not in its word", |book| by_words(book, |row| without(row, 0))),
    of("a row's second code not in its word", |book| by_words(book, |row| without(row, 1))),
    of_wider("a row's third code not in its word", |book| by_words(book, |row| without(row, 2))),
    of_wider("a row's fourth code not in its word", |book| by_words(book, |row| without(row, 3))),
    of("a row's last code not in its word", |book| by_words(book, |row| word(&row[..row.len() - 1]))),
    of_wider("only a row's last three codes in its word", |book| by_words(book, |row| packed(row, 256) & 0xFF_FFFF)),
    of_wider("only a row's last two codes in its word", |book| by_words(book, |row| packed(row, 256) & 0xFFFF)),
    of("only the low four bits of each code in a word", |book| by_words(book, |row| word(row) & 0x0F0F_0F0F)),
    of("each code without its lowest bit in a word", |book| by_words(book, |row| word(row) & 0xFEFE_FEFE)),
    of("codes as digits of base 31 in a word", |book| by_words(book, |row| packed(row, 31))),
    of("codes as digits of base 16 in a word", |book| by_words(book, |row| packed(row, 16))),
    of("the sum of a row's codes for its word", |book| by_words(book, |row| packed(row, 1))),
    of("codes four bits apart in a word, one laid over the other", |book| {
        by_words(book, |row| row.iter().fold(0, |word, &code| word << 4 | code as u32))
    }),
    of("the code behind a row in its word too", |book| RIGHT.in_book(&running_on(book, 1))),
    of("four codes from each row on in its word", |book| RIGHT.in_book(&running_on(book, 3))),
    of("up to 16 rows compared by their first codes alone", |book| {
        placing(book, |rows, _| placed_within(rows, &vec![0; rows.len()], |i, rows| i + 1..rows))
    }),
    of("up to 16 rows compared without their last codes", |book| {
        placing(book, |rows, _| placed(rows, &rows.iter().map(|row| word(&row[..row.len() - 1])).collect::<Vec<_>>()))
    }),
    of("up to 16 rows all counted as different", |book| placing(book, |rows, _| rows.len())),
    of("each of up to 16 rows compared with itself", |book| {
        placing(book, |rows, words| placed_within(rows, words, |i, rows| i..rows))
    }),
    of("each of up to 16 rows compared with the next alone", |book| {
        placing(book, |rows, words| placed_within(rows, words, |i, rows| i + 1..rows.min(i + 2)))
    }),
    of("none of up to 16 rows compared with the next", |book| {
        placing(book, |rows, words| placed_within(rows, words, |i, rows| i + 2..rows))
    }),
    of("none of up to 16 rows compared with the last", |book| {
        placing(book, |rows, words| placed_within(rows, words, |i, rows| i + 1..rows - 1))
    }),
    of("the first of up to 16 rows counted in any case", |book| {
        placing(book, |rows, words| placed_within(rows, words, |i, rows| if i == 0 { 0..0 } else { i + 1..rows }))
    }),
    of("the last of up to 16 rows left out", |book| placing(book, |rows, words| placed(&rows[..rows.len().max(1) - 1], words))),
    of("the first of 16 rows counted in any case", |book| {
        placing(book, |rows, words| placed_within(rows, words, |i, rows| if rows == 16 && i == 0 { 0..0 } else { i + 1..rows }))
    }),
    of("none of 16 rows compared with the last", |book| {
        placing(book, |rows, words| placed_within(rows, words, |i, rows| i + 1..rows.min(15)))
    }),
    of("16 rows all counted as different", |book| all_of(book, 16..=16, |_| true)),
    of("17 rows all counted as different", |book| all_of(book, 17..=17, |_| true)),
    of("the last of 16 rows left out", |book| without_last(book, 16)),
    of("the last of 17 rows left out", |book| without_last(book, 17)),
    of("the last of 64 rows left out", |book| without_last(book, 64)),
    of("the last of 65 rows left out", |book| without_last(book, 65)),
    of("no fall seen", |book| walking(book, |words| Some(changes(words)))),
    of("rows that fall not counted on a walk", |book| walking(book, |words| Some(climbs(words)))),
    of("a fall in the second row not seen", |book| walking_where(book, |words| words[1..].is_sorted())),
    of("a fall in the last row not seen", |book| walking_where(book, |words| words[..words.len() - 1].is_sorted())),
    of("a fall in the last row not counted on a walk", |book| {
        walking(book, |words| words[..words.len() - 1].is_sorted().then(|| climbs(words)))
    }),
    of("a fall behind row 16 not seen", |book| walking_where(book, |words| words[..16].is_sorted())),
    of("a fall behind row 64 not seen", |book| walking_where(book, |words| words[..words.len().min(64)].is_sorted())),
    of("a first fall not seen", |book| {
        walking_where(book, |words| words.windows(2).filter(|pair| pair[0] > pair[1]).count() < 2)
    }),
    of("falls seen by first codes alone", |book| walking_where(book, |words| words.is_sorted_by_key(|word| word >> 24))),
    of_wider("falls seen by the first two codes alone", |book| {
        walking_where(book, |words| words.is_sorted_by_key(|word| word >> 16))
    }),
    of("the rows before a fall counted alone", |book| walking(book, |words| Some(changes(&words[..rising(words)])))),
    of("the last row left out of a walk", |book| walking(book, |words| walked(&words[..words.len() - 1]))),
    of("the first row not counted on a walk", |book| walking(book, |words| walked(words).map(|found| found - 1))),
    of("equal neighbours counted on a walk", |book| walking(book, |words| walked(words).map(|_| words.len()))),
    of("each row of a walk compared with the first", |book| {
        walking(book, |words| {
            let above = words.iter().filter(|&&word| word > words[0]).count();
            words.iter().all(|&word| word >= words[0]).then_some(above + 1)
        })
    }),
    of("17 to 64 rows that rise all counted as different", |book| all_of(book, 17..=64, <[_]>::is_sorted)),
    of("17 to 64 rows that fall all counted as different", |book| all_of(book, 17..=64, |words| words.iter().rev().is_sorted())),
    of("the first row not gathered", |book| gathering(book, |words| but_for(words, 0))),
    of("the last row not gathered", |book| gathering(book, |words| but_for(words, words.len() - 1))),
    of("row 17 not gathered", |book| gathering(book, |words| but_for(words, 16))),
    of("row 64 not gathered", |book| gathering(book, |words| but_for(words, 63))),
    of("row 65 not gathered", |book| gathering(book, |words| but_for(words, 64))),
    of("row 256 not gathered", |book| gathering(book, |words| but_for(words, 255))),
    of("row 257 not gathered", |book| gathering(book, |words| but_for(words, 256))),
    of("row 1 gathered for row 65", |book| gathering(book, |words| instead(words, 64, 0))),
    of("row 4,095 gathered for row 4,096", |book| gathering(book, |words| instead(words, 4_095, 4_094))),
    of("only the first 16 rows gathered", |book| gathering(book, |words| words[..16].to_vec())),
    of("only the first 64 rows gathered", |book| gathering(book, |words| words[..words.len().min(64)].to_vec())),
    of("only the first 256 rows gathered", |book| gathering(book, |words| words[..words.len().min(256)].to_vec())),
    of("as many rows gathered as one byte says", |book| gathering(book, |words| words[..words.len() % 256].to_vec())),
    of("17 to 64 rows all counted as different where they fall", |book| holding(book, <[_]>::len)),
    of("17 to 64 rows held each against the one before", |book| holding(book, changes)),
    of("64 rows all counted as different", |book| holding(book, |words| if words.len() == 64 { 64 } else { held(words) })),
    of("64 rows held each against the one before", |book| {
        holding(book, |words| if words.len() == 64 { changes(words) } else { held(words) })
    }),
    of("row 64 held against no other", |book| holding(book, |words| held_within(words, |i| if i == 63 { i..i } else { 0..i }))),
    of("a row not held against the first", |book| holding(book, |words| held_within(words, |i| 1.min(i)..i))),
    of("a row not held against the one before", |book| holding(book, |words| held_within(words, |i| 0..i.max(1) - 1))),
    of("a row held against the 32 before it", |book| holding(book, |words| held_within(words, |i| i.max(32) - 32..i))),
    of("one taken off for each pair of equal rows", |book| holding(book, pairs_taken_off)),
    of("more than 64 rows not sorted", |book| sorting(book, <[_]>::to_vec)),
    of("65 rows not sorted", |book| sorting(book, |words| sorted_unless(words, |words| words.len() == 65))),
    of("not sorted by the first code", |book| sorting(book, |words| passes(words, &[0, 1, 2], stable))),
    of("not sorted by the second code", |book| sorting(book, |words| passes(words, &[0, 1, 3], stable))),
    of_wider("not sorted by the third code", |book| sorting(book, |words| passes(words, &[0, 2, 3], stable))),
    of_wider("not sorted by the fourth code", |book| sorting(book, |words| passes(words, &[1, 2, 3], stable))),
    of("sorted by four bits of each code", |book| sorting(book, |words| passes(words, ALL, |byte, _| byte & 15))),
    of("code 31 sorted as 30", |book| sorting(book, |words| passes(words, ALL, |byte, _| byte.min(30)))),
    of("code 0 sorted as 1", |book| sorting(book, |words| passes(words, ALL, |byte, _| byte.max(1)))),
    of("words of the same code parted by their places", |book| {
        sorting(book, |words| passes(words, ALL, |byte, place| 2 * byte + place as u32 % 2))
    }),
    of("the places of sorted words counted in bytes", |book| {
        sorting(book, |words| ALL.iter().fold(words.to_vec(), |words, &byte| pass_in_bytes(&words, byte)))
    }),
    of("the first word not sorted", |book| sorting(book, |words| sorted_within(words, 1, words.len()))),
    of("the last word not sorted", |book| sorting(book, |words| sorted_within(words, 0, words.len() - 1))),
    of("only the first 64 words sorted", |book| sorting(book, |words| sorted_within(words, 0, 64))),
    of("not sorted where the first half rises", |book| {
        sorting(book, |words| sorted_unless(words, |words| words[..words.len() / 2].is_sorted()))
    }),
    of("not sorted where all but the first rise", |book| {
        sorting(book, |words| sorted_unless(words, |words| words[1..].is_sorted()))
    }),
    of("not sorted where all but the last rise", |book| {
        sorting(book, |words| sorted_unless(words, |words| words[..words.len() - 1].is_sorted()))
    }),
    of("not sorted where the last is not below the first", |book| {
        sorting(book, |words| sorted_unless(words, |words| words.first() <= words.last()))
    }),
    of("not sorted where each differs from the one before", |book| {
        sorting(book, |words| sorted_unless(words, |words| changes(words) == words.len()))
    }),
    of("more than 64 rows all counted as different", |book| counting(book, <[_]>::len)),
    of("the first of sorted words not counted", |book| counting(book, |words| changes(words) - 1)),
    of("the last of sorted words not counted", |book| counting(book, |words| changes(&words[..words.len() - 1]))),
    of("a large table's count in one byte", |book| counting(book, |words| changes(words) % 256)),
    of("a count of 4,096 as 0", |book| book.different_rows() % 4_096),
    of("more than 64 rows that rise all counted as different", |book| all_of(book, LARGE, <[_]>::is_sorted)),
    of("more than 64 rows that fall all counted as different", |book| {
        all_of(book, LARGE, |words| words.iter().rev().is_sorted())
    }),
    of("a table of no rows counted as one", |book| in_each(book, |table| RIGHT.in_table(table).max(1))),
    of("only the first table counted", |book| book.tables.first().map_or(0, |table| RIGHT.in_table(table))),
    of("only the last table counted", |book| book.tables.last().map_or(0, |table| RIGHT.in_table(table))),
    of("a word of two tables counted once", |book| {
        book.tables.iter().flat_map(|table| RIGHT.words(table)).collect::<HashSet<_>>().len()
    }),
    of("a word held against the last of the table before", |book| {
        changes(&book.tables.iter().flat_map(|table| sorted(&RIGHT.words(table))).collect::<Vec<_>>())
    }),
    of("a word of the table before not counted", not_in_table_before),
    of("words of a longer table before counted too", left_behind),
];

fn by_words(book: &Book, word: fn(&[u8]) -> u32) -> usize {
    Counting { word, ..RIGHT }.in_book(book)
}

fn placing(book: &Book, placed: fn(&[Vec<u8>], &[u32]) -> usize) -> usize {
    Counting { placed, ..RIGHT }.in_book(book)
}

fn walking(book: &Book, walked: fn(&[u32]) -> Option<usize>) -> usize {
    Counting { walked, ..RIGHT }.in_book(book)
}

/// Rows that are so are counted where neighbours differ.
fn walking_where(book: &Book, rule: fn(&[u32]) -> bool) -> usize {
    in_each(book, |table| {
        let words = RIGHT.words(table);
        if words.len() > 16 && rule(&words) {
            changes(&words)
        } else {
            RIGHT.in_table(table)
        }
    })
}

fn gathering(book: &Book, gathered: fn(&[u32]) -> Vec<u32>) -> usize {
    Counting { gathered, ..RIGHT }.in_book(book)
}

fn holding(book: &Book, held: fn(&[u32]) -> usize) -> usize {
    Counting { held, ..RIGHT }.in_book(book)
}

fn sorting(book: &Book, sorted: fn(&[u32]) -> Vec<u32>) -> usize {
    Counting { sorted, ..RIGHT }.in_book(book)
}

fn counting(book: &Book, changes: fn(&[u32]) -> usize) -> usize {
    Counting { changes, ..RIGHT }.in_book(book)
}

fn without(row: &[u8], column: u32) -> u32 {
    word(row) & !(0xFF00_0000 >> (8 * column))
}

fn packed(row: &[u8], base: u32) -> u32 {
    row.iter().fold(0, |word, &code| word * base + code as u32)
}

/// The book with so many codes of the next rows behind each row, but no more than four in all.
fn running_on(book: &Book, more: usize) -> Book {
    let mut book = book.clone();
    for table in &mut book.tables {
        let (arity, codes) = (table.fields.len(), table.rows.concat());
        let to = |i: usize| codes.len().min(i * arity + 4.min(arity + more));
        table.rows = (0..table.rows.len()).map(|i| codes[i * arity..to(i)].to_vec()).collect();
    }
    book
}

/// Counts the first word and those above the one before.
fn climbs(words: &[u32]) -> usize {
    words.len().min(1) + words.windows(2).filter(|pair| pair[0] < pair[1]).count()
}

/// How many words stand before the first that falls.
fn rising(words: &[u32]) -> usize {
    words.windows(2).position(|pair| pair[0] > pair[1]).map_or(words.len(), |fall| fall + 1)
}

fn but_for(words: &[u32], place: usize) -> Vec<u32> {
    (0..words.len()).filter(|&i| i != place).map(|i| words[i]).collect()
}

fn instead(words: &[u32], place: usize, other: usize) -> Vec<u32> {
    (0..words.len()).map(|i| words[if i == place { other } else { i }]).collect()
}

fn pairs_taken_off(words: &[u32]) -> usize {
    let equal_before = |i: usize| words[..i].iter().filter(|&&word| word == words[i]).count();
    words.len().saturating_sub((0..words.len()).map(equal_before).sum())
}

fn sorted_unless(words: &[u32], rule: fn(&[u32]) -> bool) -> Vec<u32> {
    if rule(words) {
        words.to_vec()
    } else {
        sorted(words)
    }
}

fn sorted_within(words: &[u32], from: usize, to: usize) -> Vec<u32> {
    [&words[..from], &sorted(&words[from..to]), &words[to..]].concat()
}

/// A pass that counts in one byte how many words have a code, so that the words of codes behind it come too early.
fn pass_in_bytes(words: &[u32], byte: u32) -> Vec<u32> {
    let code = |word: u32| (word >> (8 * byte)) as u8;
    let mut times = [0u8; 256];
    words.iter().for_each(|&word| times[code(word) as usize] = times[code(word) as usize].wrapping_add(1));
    let place = |word: u32| times[..code(word) as usize].iter().map(|&times| times as usize).sum::<usize>();
    let mut places = [0; 256];
    let mut out = vec![0; words.len()];
    for &word in words {
        let placed = &mut places[code(word) as usize];
        out[place(word) + *placed] = word;
        *placed += 1;
    }
    out
}

/// More rows than are held against each other.
const LARGE: RangeInclusive<usize> = 65..=4_096;

/// All rows of a table of such a size counted as different where its words are so.
fn all_of(book: &Book, sizes: RangeInclusive<usize>, rule: fn(&[u32]) -> bool) -> usize {
    in_each(book, |table| {
        let words = RIGHT.words(table);
        if sizes.contains(&words.len()) && rule(&words) {
            words.len()
        } else {
            RIGHT.in_table(table)
        }
    })
}

/// The last row left out of each table of so many rows.
fn without_last(book: &Book, rows: usize) -> usize {
    in_each(book, |table| match table.rows.split_last() {
        Some((_, others)) if table.rows.len() == rows => RIGHT.in_table(&Table { rows: others.to_vec(), ..table.clone() }),
        _ => RIGHT.in_table(table),
    })
}

fn not_in_table_before(book: &Book) -> usize {
    let words: Vec<HashSet<u32>> = book.tables.iter().map(|table| RIGHT.words(table).into_iter().collect()).collect();
    let before = [HashSet::new()].into_iter().chain(words.iter().cloned());
    words.iter().zip(before).map(|(words, before)| words.difference(&before).count()).sum()
}

/// The words of each table are written over those of the table before, and what stands behind them is left there.
fn left_behind(book: &Book) -> usize {
    let (mut standing, mut different): (Vec<u32>, usize) = (Vec::new(), 0);
    for table in &book.tables {
        let words = RIGHT.words(table);
        standing = [&words[..], standing.get(words.len()..).unwrap_or_default()].concat();
        different += changes(&sorted(&standing));
    }
    different
}
