//! Books and sheets for the nearest full reading: answers that contradict each other on small books, and the dearest books.

use sighting::{Nearest, Sheet, NO_ANSWER, NUMBERS, PLACES, SHEET_BYTES, STORED_BYTES};

use crate::families::{bytes, searchable, unphotographed, Family, Table};
use crate::plain::nearest::nearest;
use crate::plain::reader::check;
use crate::timing::medians;

pub struct Searched {
    pub name: &'static str,
    pub what: &'static str,
    pub book: Vec<u8>,
    pub sheet: [u8; SHEET_BYTES],
}

/// The number of fields that differ from a family's answers in the nearest full reading.
fn differing(family: &Family, sheet: &[u8; SHEET_BYTES]) -> Option<u64> {
    nearest(sheet, &family.book, &mut [0; STORED_BYTES]).expect("accepted").map(|(differing, _)| differing)
}

/// All fields answered, the first k of them photographed, with so many of the other answers replaced that the nearest full reading has to
/// differ in `wrong` fields.
fn contradicting(what: &'static str, family: &Family, k: usize, wrong: u64) -> Searched {
    let mut sheet = family.photographed(family.fields(), k);
    let view = check(&family.book).expect("accepted").view;
    let places = (0..view.fields).flat_map(|f| (0..view.codes(f)).map(move |code| (f, code as u8)));
    for (f, code) in places.filter(|&(f, _)| sheet[PLACES + f] == 0).collect::<Vec<_>>() {
        let mut other = sheet;
        other[f] = code;
        if differing(family, &other) > differing(family, &sheet) {
            sheet = other;
        }
        if differing(family, &sheet) == Some(wrong) {
            return Searched { name: family.name, what, book: family.book.clone(), sheet };
        }
    }
    unreachable!("so many answers can be wrong")
}

fn unanswered(name: &'static str, what: &'static str, book: Vec<u8>) -> Searched {
    Searched { name, what, book, sheet: unphotographed([NO_ANSWER; PLACES]) }
}

/// All rows of four fields of two codes whose sum is even, or odd, or either. The first is repeated in front of the others until there are
/// so many: a search that stops at the row it looks for stops late.
fn rows(sum: Option<u8>, many: usize) -> Vec<Vec<u8>> {
    let all = (0..16).map(|n| (0..4).rev().map(|bit| n >> bit & 1).collect::<Vec<u8>>());
    let some: Vec<_> = all.filter(|row| sum.is_none_or(|sum| row.iter().sum::<u8>() % 2 == sum)).collect();
    let mut rows = vec![some[0].clone(); many - some.len()];
    rows.extend(some);
    rows
}

/// 64 tables on the last four of 16 fields of two codes, and no full reading: 62 tables have all rows, one those with an even sum, one those
/// with an odd one. So a code is tested by all rows, none is passed over before the last field, and plain filtering strikes nothing.
fn at_odds(fields: [u8; 4]) -> Vec<Table> {
    // rows are compared eight at a time: of 63 seven are left to be compared one by one, and so they take longer than 64
    let table = |sum| (fields.to_vec(), rows(sum, 63));
    (0..62).map(|_| table(None)).chain([table(Some(0)), table(Some(1))]).collect()
}

/// Fields of two codes, 44 of one, and one more of two codes: these 44 are walked through for each reading of those before.
fn last_one_far() -> Vec<u8> {
    let mut counts = vec![1; PLACES];
    counts[..15].fill(2);
    counts[PLACES - 1] = 2;
    counts
}

/// 4,094 rows that are told apart by three fields and agree in the fourth, where another table allows only another code.
fn long_table() -> Vec<u8> {
    let row = |n: usize| vec![(n >> 7) as u8, (n >> 2) as u8 % 32, n as u8 % 4, 15];
    bytes(1, &[32, 32, 4, 16], &[(vec![0, 1, 2, 3], (0..4_094).map(row).collect()), (vec![3], vec![vec![0]])])
}

/// 60 fields and a full reading, so that the search goes down to the last.
pub fn deepest() -> Vec<u8> {
    let mut counts = vec![1; 44];
    counts.extend([2; 16]);
    bytes(2, &counts, &[(vec![56, 57, 58, 59], rows(None, 4_096))])
}

fn all() -> Vec<Searched> {
    let [smallest, eight_fields] = &searchable();
    let last = PLACES as u8 - 1;
    let two_rows = [(vec![last], vec![vec![0]]), (vec![last], vec![vec![1]])];
    vec![
        contradicting("all answered, 1 wrong", smallest, 0, 1),
        contradicting("all answered, 1 wrong", eight_fields, 0, 1),
        contradicting("all answered, 2 wrong", eight_fields, 0, 2),
        contradicting("all answered, 2 wrong, 4 photographed", eight_fields, 4, 2),
        unanswered("long table", "32 × 32 × 4 × 16 codes, 4,094 rows in one table and one against them all", long_table()),
        unanswered(
            "16 fields",
            "of 2 codes; 64 tables of 63 rows on the last four, at odds at the last",
            bytes(1, &[2; 16], &at_odds([12, 13, 14, 15])),
        ),
        unanswered(
            "60 fields",
            "the same with 44 fields of one code before the last",
            bytes(2, &last_one_far(), &at_odds([12, 13, 14, last])),
        ),
        unanswered("60 fields, 2 rows", "only two tables of one row, at odds at the last", bytes(2, &last_one_far(), &two_rows)),
    ]
}

/// The medians of the nearest full reading by the library and by plain Rust, and of one plain filtering of the same sheet.
pub struct Search {
    pub library: f64,
    pub plain: f64,
    pub filtering: f64,
}

/// The library's answer is plain Rust's, and so are the bytes, also where one byte too few is lent.
fn agree(book: &[u8], sheet: &Sheet) {
    let fields = check(book).expect("accepted").view.fields;
    for length in [fields - 1, STORED_BYTES] {
        let (mut ours, mut theirs) = ([NO_ANSWER; STORED_BYTES], [NO_ANSWER; STORED_BYTES]);
        let found = sheet.nearest(book, &mut ours[..length]).map_err(|r| (r.number, r.place));
        let cells = found.map(|found| found.map(|Nearest { differing, written }| (differing, written)));
        assert_eq!(nearest(sheet.bytes(), book, &mut theirs[..length]), cells);
        assert_eq!(ours, theirs);
    }
}

fn search(searched: &Searched) -> Search {
    let (book, sheet) = (&searched.book[..], Sheet::from(searched.sheet));
    agree(book, &sheet);
    let (mut ours, mut theirs, mut numbers) = ([0; STORED_BYTES], [0; STORED_BYTES], [0; NUMBERS]);
    let times = medians(&mut [
        Box::new(|| sheet.nearest(book, &mut ours).expect("accepted").map_or(0, |found| found.differing)),
        Box::new(|| nearest(sheet.bytes(), book, &mut theirs).expect("accepted").map_or(0, |(differing, _)| differing)),
        Box::new(|| sheet.filtered(book, None, &mut numbers).map_or(1, |()| 0)),
    ]);
    Search { library: times[0], plain: times[1], filtering: times[2] }
}

pub fn searches() -> Vec<(Searched, Search)> {
    let measured = |searched| {
        let search = search(&searched);
        (searched, search)
    };
    all().into_iter().map(measured).collect()
}
