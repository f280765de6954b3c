//! Seeded books and sheets for the nearest full reading. Books: with several full readings to choose from, or with none; of few fields, or
//! of many that mostly have one code; and with about as many readings as are searched, or far more. Sheets: near to some full reading, with
//! photographs that rule it out.

use crate::asking::some_code;
use crate::book::{field_limit, Book, Table};
use crate::nearest::{full_readings, is_too_large, row};
use crate::photographs::byte;
use crate::random::{fields_of, in_some_version, row_of, Random};
use crate::sheet::{Sheet, FRESH, NO_ANSWER};

/// So many full readings of a book are looked at to make a sheet.
const LOOKED_AT: usize = 64;

/// Code counts and how many fields have each.
type Counts = &'static [(u8, usize)];

/// 65,536 readings, or a few less.
const SEARCHED: [Counts; 7] = [
    &[(2, 16)],
    &[(4, 8)],
    &[(16, 4)],
    &[(32, 3), (2, 1)],
    &[(8, 5), (2, 1)],
    &[(1, 44), (2, 16)],
    &[(5, 1), (7, 1), (9, 1), (13, 1), (16, 1)],
];

/// The next product above 65,536 that fields can have, and others; then those that are a multiple of 2^31, 2^32, 2^63, 2^64 and 2^128.
const REFUSED: [Counts; 16] = [
    &[(6, 1), (19, 1), (23, 1), (25, 1)],
    &[(1, 56), (6, 1), (19, 1), (23, 1), (25, 1)],
    &[(2, 17)],
    &[(1, 43), (2, 17)],
    &[(32, 3), (3, 1)],
    &[(16, 5)],
    &[(2, 31)],
    &[(2, 32)],
    &[(8, 11)],
    &[(8, 21)],
    &[(16, 16)],
    &[(32, 12), (16, 1)],
    &[(16, 32)],
    &[(2, 60)],
    &[(4, 60)],
    &[(32, 60)],
];

/// Fields at which a sheet or version 1 ends, and their neighbours.
const EDGES: [usize; 4] = [31, 32, 58, 59];

pub fn book(r: &mut Random) -> Book {
    let book = of_some_kind(r);
    in_some_version(r, book)
}

fn of_some_kind(r: &mut Random) -> Book {
    match r.from(0, 15) {
        0..=6 => {
            let counts = few(r);
            with_readings(r, counts)
        }
        7..=8 => without_reading(r),
        9..=12 => {
            let counts = many(r);
            with_readings(r, counts)
        }
        13 => at_limit(r, &SEARCHED),
        _ => at_limit(r, &REFUSED),
    }
}

/// Up to six fields; in some books one has the most codes.
pub fn few(r: &mut Random) -> Vec<u8> {
    let fields = r.from(1, 6);
    let mut counts: Vec<u8> = (0..fields).map(|_| r.from(2, 4) as u8).collect();
    if r.one_in(6) {
        counts[r.from(0, fields - 1)] = 32;
    }
    counts
}

/// More fields than version 1 has, mostly the most, of which a few have more codes than one.
fn many(r: &mut Random) -> Vec<u8> {
    let most = field_limit(2);
    let fields = if r.one_in(4) { r.from(field_limit(1) + 1, most) } else { most };
    let mut counts = vec![1; fields];
    for _ in 0..r.from(2, 8) {
        let field = if r.one_in(2) { r.one_of(&EDGES) } else { r.from(0, fields - 1) };
        counts[field.min(fields - 1)] = r.from(2, 4) as u8;
    }
    counts
}

/// The counts in any order, and for some books no tables, or one without rows.
fn at_limit(r: &mut Random, limits: &[Counts]) -> Book {
    let mut counts: Vec<u8> = r.one_of(limits).iter().flat_map(|&(count, fields)| vec![count; fields]).collect();
    r.shuffle(&mut counts);
    let last = counts.len() - 1;
    match r.from(0, 7) {
        0 => Book::new(counts, Vec::new()),
        1 => Book::new(counts, vec![Table { fields: vec![r.from(0, last) as u8], rows: Vec::new() }]),
        _ => with_readings(r, counts),
    }
}

/// Tables that hold the rows of a few readings, which are full then, and some other rows.
pub fn with_readings(r: &mut Random, counts: Vec<u8>) -> Book {
    let readings = some_readings(r, &counts);
    let tables = (0..r.from(1, 8)).map(|_| holding(r, &counts, &readings)).collect();
    Book::new(counts, tables)
}

/// A few readings, of any codes.
pub fn some_readings(r: &mut Random, counts: &[u8]) -> Vec<Vec<u8>> {
    let all: Vec<u8> = (0..counts.len() as u8).collect();
    (0..r.from(1, 8)).map(|_| row_of(r, counts, &all)).collect()
}

/// Mostly on fields that have a choice.
fn holding(r: &mut Random, counts: &[u8], readings: &[Vec<u8>]) -> Table {
    let with_choice: Vec<u8> = (0..counts.len() as u8).filter(|&field| counts[field as usize] > 1).collect();
    let any = with_choice.is_empty() || r.one_in(8);
    let of: Vec<u8> = if any { (0..counts.len() as u8).collect() } else { with_choice };
    let arity = r.from(1, of.len().min(4));
    let fields: Vec<u8> = fields_of(r, of.len(), arity).into_iter().map(|k| of[k as usize]).collect();
    holding_rows(r, counts, readings, fields)
}

/// The readings' rows for these fields, and a few others.
pub fn holding_rows(r: &mut Random, counts: &[u8], readings: &[Vec<u8>], fields: Vec<u8>) -> Table {
    let mut rows: Vec<Vec<u8>> = readings.iter().map(|reading| row(&fields, reading)).collect();
    let others = r.from(0, 2);
    rows.extend((0..others).map(|_| row_of(r, counts, &fields)));
    r.shuffle(&mut rows);
    Table { fields, rows }
}

/// Fields in a ring, of which each differs from the next by two codes: an odd number of them, so that no reading is full, though each
/// code stands. Beside them are a few others, or many of one code.
fn without_reading(r: &mut Random) -> Book {
    let (ring, others) = (r.one_of(&[3, 3, 5]), r.from(0, 3));
    let (fields, codes) = if r.one_in(4) { (field_limit(2), 1) } else { (ring + others, r.from(1, 3) as u8) };
    let (mut counts, fields) = (vec![codes; fields], fields_of(r, fields, ring));
    fields.iter().for_each(|&field| counts[field as usize] = r.from(2, 3) as u8);
    let mut tables: Vec<Table> = (0..ring).map(|k| differing(fields[k], fields[(k + 1) % ring])).collect();
    r.shuffle(&mut tables);
    Book::new(counts, tables)
}

fn differing(one: u8, other: u8) -> Table {
    Table { fields: vec![one.min(other), one.max(other)], rows: vec![vec![0, 1], vec![1, 0]] }
}

/// Most answers are one full reading's, some another's, of which a few may be photographed; a few fields have any code, or no answer. By a
/// book without full readings, or with too many readings to search, they are those of any two readings.
pub fn sheet(r: &mut Random, book: &Book) -> Sheet {
    let [one, other] = two_readings(r, book);
    let (mut sheet, others) = (FRESH, r.from(0, 3));
    for field in 0..book.counts.len() {
        let any = some_code(r, book, field) as u8;
        sheet.answers[field] = match r.from(0, 7) {
            0 => NO_ANSWER,
            1 => r.one_of(&[one[field], any]),
            drawn if drawn < 2 + others => other[field],
            _ => one[field],
        }
    }
    let parting: Vec<usize> = (0..one.len()).filter(|&field| one[field] != other[field] || r.one_in(8)).collect();
    for _ in 0..r.from(0, parting.len().min(3)) {
        let field = r.one_of(&parting);
        let code = if r.one_in(8) { some_code(r, book, field) as u8 } else { other[field] };
        (sheet.answers[field], sheet.photographs[field]) = (code, byte(r));
    }
    sheet
}

/// Full ones, as far as the book has any and they are searched; often the second is far from the first.
fn two_readings(r: &mut Random, book: &Book) -> [Vec<u8>; 2] {
    let full: Vec<Vec<u8>> = if is_too_large(book) { Vec::new() } else { full_readings(book).take(LOOKED_AT).collect() };
    if full.is_empty() {
        let all: Vec<u8> = (0..book.counts.len() as u8).collect();
        return [row_of(r, &book.counts, &all), row_of(r, &book.counts, &all)];
    }
    let [one, any] = [(); 2].map(|()| full[r.from(0, full.len() - 1)].clone());
    let distance = |reading: &&Vec<u8>| reading.iter().zip(&one).filter(|(code, other)| code != other).count();
    let furthest = full.iter().max_by_key(distance).cloned().filter(|_| r.one_in(2));
    [one, furthest.unwrap_or(any)]
}

#[cfg(test)]
mod tests {
    use super::{book, sheet, without_reading, Counts, REFUSED, SEARCHED};
    use crate::nearest::{full_readings, is_too_large, nearest, product};
    use crate::random::Random;
    use crate::reader::Reader;

    #[test]
    fn books_have_several_readings_or_none() {
        let (reader, mut r) = (Reader::default(), Random(1));
        let mut shares = [0; 4];
        for _ in 0..500 {
            let book = book(&mut r);
            assert_eq!(reader.read(&book.write()), Ok(book.clone()));
            shares[if is_too_large(&book) { 3 } else { full_readings(&book).take(2).count() }] += 1;
        }
        assert!(shares.iter().all(|&times| times > 20), "{shares:?}");
    }

    #[test]
    fn sheets_are_near_a_reading_and_some_photographs_rule_it_out() {
        let mut r = Random(1);
        let mut shares = [0; 3];
        for _ in 0..1_000 {
            let book = book(&mut r);
            if is_too_large(&book) {
                continue;
            }
            let sheet = sheet(&mut r, &book);
            let shown = nearest(&book, &sheet);
            let without = nearest(&book, &sheet.photographed_where(|_| false));
            shares[0] += (shown.is_none() && without.is_some()) as usize;
            shares[1] += shown.as_ref().is_some_and(|shown| shown.differing > 0) as usize;
            shares[2] += (shown.is_some() && shown != without) as usize;
        }
        assert!(shares.iter().all(|&times| times > 5), "{shares:?}");
    }

    #[test]
    fn rings_have_no_reading() {
        let mut r = Random(1);
        assert!((0..50).all(|_| full_readings(&without_reading(&mut r)).next().is_none()));
    }

    #[test]
    fn limits_are_limits() {
        let product = |counts: &Counts| product(counts.iter().flat_map(|&(count, fields)| vec![count; fields]));
        assert!(SEARCHED.iter().all(|counts| (65_520..=65_536).contains(&product(counts))));
        assert!(REFUSED.iter().all(|counts| product(counts) >= 65_550));
    }
}
