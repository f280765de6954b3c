//! Seeded cases for the calls: a book, a sheet, and one call of each kind, but two to enter a code, two for a row and two for a plan.

use crate::asking;
use crate::book::{field_limit, Book, Table};
use crate::calls::Call;
use crate::draft::Draft;
use crate::faults::{changed, faulty, some_faults, turned};
use crate::forests;
use crate::forms;
use crate::listing::Listing;
use crate::listings;
use crate::near;
use crate::pairs::{self, Pair};
use crate::photographs;
use crate::questions;
use crate::random::{self, Random};
use crate::repeats;
use crate::seconds::some_second;
use crate::sheet::{Sheet, NO_ANSWER, PLACES};

pub struct Case {
    pub book: Vec<u8>,
    pub sheet: Sheet,
    pub calls: Vec<Call>,
    /// For a book at a boundary, which.
    pub boundary: Option<&'static str>,
    /// The faults made in the book, by their places in the order.
    pub faults: Vec<usize>,
    /// How the listing to write was made.
    pub listing: &'static str,
    /// How that of a tree book was.
    pub tree_listing: &'static str,
}

impl Case {
    /// A case that was not drawn: a book, a sheet and calls.
    pub fn new(book: Vec<u8>, sheet: Sheet, calls: Vec<Call>) -> Case {
        Case { book, sheet, calls, boundary: None, faults: Vec::new(), listing: "", tree_listing: "" }
    }
}

/// The random numbers of one case of a run.
pub fn random(seed: u64, index: u64) -> Random {
    Random(seed.wrapping_add(index.wrapping_mul(0x1_0000_0001)))
}

/// One case of so many is made for the nearest full reading.
const NEAR: u64 = 16;

/// One case of so many is made for joining two books. Half a turn later than the first, none of them is made for a reading.
const PAIRED: u64 = 18;

/// Of as many cases one is made for the debrief plan: the odd one three before the next turn, so that none of them is made for a reading.
const PLANNED: u64 = PAIRED;

/// Of as many one is made for the profile of tree books: the odd one three behind a turn.
const OF_TREES: u64 = PAIRED;

/// Of as many one is made for what a tree book's lines mean: the odd one five behind a turn.
const OF_MEANING: u64 = PAIRED;

pub fn case(seed: u64, index: u64) -> Case {
    let mut r = random(seed, index);
    let pair = (index % PAIRED == PAIRED / 2).then(|| pairs::pair(&mut r));
    let (book, sheet) = match &pair {
        Some(pair) => first_of(&mut r, pair),
        None if index.is_multiple_of(NEAR) => made_for(&mut r, near::book, near::sheet),
        None if index % PLANNED == PLANNED - 3 => made_for(&mut r, questions::book, questions::sheet),
        None if index % OF_TREES == 3 => of_trees(&mut r),
        None if index % OF_MEANING == 5 => made_for(&mut r, forests::with_readings, near::sheet),
        None => drawn(&mut r),
    };
    let BookCase { model, bytes, boundary, faults } = book;
    let mut calls = calls(&mut r, &model, &sheet);
    let (listing, numbers) = listings::some_listing(&mut r, Listing::of(&model));
    calls.extend([Call::Show, Call::Write { listing: numbers }]);
    calls.extend(asking::rows(&mut r, &model, &sheet));
    calls.push(Call::Nearest);
    calls.extend([Call::LoadShort { form: forms::some_form(&mut r, &model) }, Call::StoreShort]);
    calls.extend([
        Call::Shorten { form: form_to_shorten(&mut r, &model) },
        Call::Lengthen { form: forms::some_form(&mut r, &model) },
    ]);
    calls.push(Call::Join { second: pair.map_or_else(|| some_second(&mut r, &model), |pair| pair.second) });
    calls.extend(questions::plans(&mut r, &model, &sheet));
    let (tree_listing, numbers) = listings::some_for_trees(&mut r, Listing::of(&model));
    calls.extend([Call::ReadTree, Call::WriteTree { listing: numbers }]);
    Case { book: bytes, sheet, calls, boundary, faults, listing, tree_listing }
}

/// A book's bytes, with the book that they were made from.
struct BookCase {
    model: Book,
    bytes: Vec<u8>,
    boundary: Option<&'static str>,
    faults: Vec<usize>,
}

fn drawn(r: &mut Random) -> (BookCase, Sheet) {
    let book = book(r);
    let sheet = sheet(r, &book.model);
    (book, sheet)
}

/// As many of these books are damaged as of others.
fn of_trees(r: &mut Random) -> (BookCase, Sheet) {
    let model = forests::book(r);
    let book = sometimes_faulty(r, model);
    let sheet = sheet(r, &book.model);
    (book, sheet)
}

/// The first book of a pair.
fn first_of(r: &mut Random, pair: &Pair) -> (BookCase, Sheet) {
    let (model, bytes) = (pair.first.clone(), pair.bytes.clone());
    let sheet = sheet(r, &model);
    (BookCase { model, bytes, boundary: None, faults: Vec::new() }, sheet)
}

/// Few of these books and sheets are damaged.
fn made_for(r: &mut Random, book: fn(&mut Random) -> Book, sheet: fn(&mut Random, &Book) -> Sheet) -> (BookCase, Sheet) {
    let model = book(r);
    let mut sheet = sheet(r, &model);
    if r.one_in(12) {
        spoil(r, &model, &mut sheet);
    }
    let bytes = if r.one_in(12) { changed(r, &model) } else { model.write() };
    (BookCase { model, bytes, boundary: None, faults: Vec::new() }, sheet)
}

fn book(r: &mut Random) -> BookCase {
    if let Some((name, at_boundary)) = some_boundary(r) {
        let (model, bytes) = at_boundary(r);
        return BookCase { model, bytes, boundary: Some(name), faults: Vec::new() };
    }
    let model = random::book(r);
    sometimes_faulty(r, model)
}

fn sometimes_faulty(r: &mut Random, model: Book) -> BookCase {
    let mut faults = Vec::new();
    let bytes = match r.from(0, 29) {
        0 => changed(r, &model),
        1..=9 => {
            faults = some_faults(r);
            faulty(r, &model, &faults)
        }
        10 => turned(&model),
        _ => model.write(),
    };
    BookCase { model, bytes, boundary: None, faults }
}

/// A boundary: its name, and a book at it with its bytes.
type Boundary = (&'static str, fn(&mut Random) -> (Book, Vec<u8>));

/// Each version and the numbers beside them, with the most fields that are accepted and one more.
const NUMBERS_OF_FIELDS: [Boundary; 18] = [
    ("no fields of version 1", |r| without_fields(1, random::book(r))),
    ("32 fields of version 1", |_| written(of_fields(1, 32))),
    ("33 fields of version 1", |_| written(of_fields(1, 33))),
    ("60 fields of version 1", |_| written(of_fields(1, 60))),
    ("no fields of version 2", |r| without_fields(2, random::book(r))),
    ("32 fields of version 2", |_| written(of_fields(2, 32))),
    ("33 fields of version 2", |_| written(of_fields(2, 33))),
    ("60 fields of version 2", |_| written(of_fields(2, 60))),
    ("61 fields of version 2", |_| written(of_fields(2, 61))),
    ("255 fields of version 2", |_| written(of_fields(2, 255))),
    ("32 fields of version 0", |_| written(of_fields(0, 32))),
    ("60 fields of version 0", |_| written(of_fields(0, 60))),
    ("no fields of version 3", |r| without_fields(3, random::book(r))),
    ("32 fields of version 3", |_| written(of_fields(3, 32))),
    ("60 fields of version 3", |_| written(of_fields(3, 60))),
    ("61 fields of version 3", |_| written(of_fields(3, 61))),
    ("60 fields of version 255", |_| written(of_fields(255, 60))),
    ("61 fields of version 255", |_| written(of_fields(255, 61))),
];

/// The most of other things that is accepted and one more, the shortest book, and the lengths at which 1 begins.
const SIZES: [Boundary; 18] = [
    ("32 codes", |r| either(r, Book::new(vec![3, 32], vec![unary(2)]))),
    ("33 codes", |r| either(r, Book::new(vec![3, 33], vec![unary(2)]))),
    ("64 tables", |r| either(r, Book::new(vec![2, 3], vec![unary(2); 64]))),
    ("65 tables", |r| either(r, Book::new(vec![2, 3], vec![unary(2); 65]))),
    ("4096 rows", |r| two_tables(r, 4_096)),
    ("4097 rows", |r| two_tables(r, 4_097)),
    ("4096 rows in one table", |r| either(r, one_table(2))),
    ("a fault in row 4096", |r| either(r, one_table(3))),
    ("4095 rows of one kind", |r| written(repeats::with_tables(r, &[4_095]))),
    ("4096 rows of one kind", |r| written(repeats::with_tables(r, &[4_096]))),
    ("every row of four fields", |r| written(repeats::every_row(r))),
    ("4096 rows in three large tables", |r| written(repeats::three_large(r, 4_096))),
    ("4097 rows in three large tables", |r| written(repeats::three_large(r, 4_097))),
    ("64 tables of 64 rows", |r| written(repeats::with_tables(r, &[64; 64]))),
    ("6 bytes", |r| brought_to(6, random::book(r))),
    ("7 bytes", smallest),
    ("32768 bytes", |r| brought_to(32_768, random::book(r))),
    ("32769 bytes", |r| brought_to(32_769, random::book(r))),
];

/// The longest book of each version, which takes longest too.
const LONGEST: [Boundary; 2] =
    [("16870 bytes of version 1", |r| written(longest(r, 1))), ("16898 bytes of version 2", |r| written(longest(r, 2)))];

/// The names of all boundaries.
pub fn boundaries() -> impl Iterator<Item = &'static str> {
    NUMBERS_OF_FIELDS.iter().chain(&SIZES).chain(&LONGEST).map(|(name, _)| *name)
}

fn some_boundary(r: &mut Random) -> Option<Boundary> {
    match r.from(0, 1_199) {
        0 => Some(r.one_of(&LONGEST)),
        1..=12 => Some(r.one_of(&NUMBERS_OF_FIELDS)),
        13..=30 => Some(r.one_of(&SIZES)),
        _ => None,
    }
}

fn written(book: Book) -> (Book, Vec<u8>) {
    let bytes = book.write();
    (book, bytes)
}

/// Of either version.
fn either(r: &mut Random, book: Book) -> (Book, Vec<u8>) {
    written(Book { version: r.from(1, 2) as u8, ..book })
}

/// Fields of two codes, whatever the version allows.
fn of_fields(version: u8, fields: usize) -> Book {
    Book { version, ..Book::new(vec![2; fields], vec![unary(2)]) }
}

/// The trailer alone; sheet and calls are made for the book.
fn without_fields(version: u8, book: Book) -> (Book, Vec<u8>) {
    let bytes = Book { version, ..Book::new(Vec::new(), Vec::new()) }.write();
    (book, bytes)
}

/// The book by its last bytes alone, or with more bytes left over before its field list.
fn brought_to(length: usize, book: Book) -> (Book, Vec<u8>) {
    let draft = Draft { length: Some(length), ..Draft::of(&book) };
    (book, draft.write())
}

/// A table on field 0 with this many rows.
fn unary(rows: usize) -> Table {
    Table { fields: vec![0], rows: (0..rows).map(|i| vec![(i % 2) as u8]).collect() }
}

fn two_tables(r: &mut Random, rows: usize) -> (Book, Vec<u8>) {
    let first = r.from(0, 4_096);
    either(r, Book::new(vec![2, 3], vec![unary(first), unary(rows - first)]))
}

/// One field, and no table.
fn smallest(r: &mut Random) -> (Book, Vec<u8>) {
    let codes = r.from(1, 32) as u8;
    either(r, Book::new(vec![codes], Vec::new()))
}

/// Two fields of three codes and one table of 4,096 rows, of which only the last has this code.
fn one_table(last: u8) -> Book {
    let rows = (0..4_095).map(|i| vec![i as u8 % 2, i as u8 / 2 % 2]).chain([vec![last; 2]]);
    Book::new(vec![3; 2], vec![Table { fields: vec![0, 1], rows: rows.collect() }])
}

/// 64 tables of four fields with 64 rows each: each code goes with itself, or with itself but for the last field.
fn longest(r: &mut Random, version: u8) -> Book {
    let fields = field_limit(version);
    let table = |r: &mut Random| {
        let rows = (0..32).flat_map(|c| [vec![c; 4], vec![c, c, c, r.from(0, 31) as u8]]).collect();
        Table { fields: random::fields_of(r, fields, 4), rows }
    };
    Book::new(vec![32; fields], (0..64).map(|_| table(r)).collect())
}

/// A sheet for the book, in some cases with photographs, and in some with faults below or behind the number of fields.
fn sheet(r: &mut Random, book: &Book) -> Sheet {
    let form = random::form(r, book);
    let mut sheet = Sheet::of(&form[..form.len().min(PLACES)]);
    photographs::take(r, &mut sheet);
    if r.one_in(4) {
        for _ in 0..r.from(1, 2) {
            spoil(r, book, &mut sheet);
        }
    }
    sheet
}

/// A fault in one of the fields, anywhere, or at a place where a number of fields ends: an answer that is none, or a photograph without
/// an answer.
fn spoil(r: &mut Random, book: &Book, sheet: &mut Sheet) {
    let (fields, last) = (book.counts.len().min(PLACES), PLACES - 1);
    let place = match r.from(0, 3) {
        0..=1 => r.from(0, fields - 1),
        2 => r.from(0, last),
        _ => r.one_of(&[field_limit(1) - 1, field_limit(1), fields.min(last), last]),
    };
    if r.one_in(3) {
        return photographs::misplace(r, sheet, place);
    }
    let least = book.counts.get(place).map_or(0, |&count| count as usize);
    sheet.answers[place] = r.from(least, 254) as u8;
}

/// A stored sheet, in some cases of another length, with a fault, or both.
fn form(r: &mut Random, book: &Book) -> Vec<u8> {
    let form = random::form(r, book);
    flawed(r, book, form)
}

/// One to shorten, in a few cases with several faults; and in a few, one that is short.
fn form_to_shorten(r: &mut Random, book: &Book) -> Vec<u8> {
    if r.one_in(24) {
        return forms::some_form(r, book);
    }
    let form = forms::some_old_form(r, book);
    flawed(r, book, form)
}

fn flawed(r: &mut Random, book: &Book, mut form: Vec<u8>) -> Vec<u8> {
    let flaw = r.from(0, 11);
    if flaw < 3 {
        let last = form.len() - 1;
        let f = if r.one_in(4) { last } else { r.from(0, last) };
        form[f] = r.from(book.counts[f] as usize, 254) as u8;
    }
    let fields = form.len();
    // by 5 a sheet's length, version 1's longest, or one that is the number of fields in its low bits
    let length = match flaw {
        1 | 3 if r.one_in(2) => r.from(0, fields - 1),
        1 | 3 => fields - 1,
        2 | 4 => fields + r.from(1, 2),
        5 => r.one_of(&[field_limit(1), PLACES, fields + 32, fields + 64, fields + 256]),
        _ => fields,
    };
    form.resize(length, if r.one_in(2) { NO_ANSWER } else { r.word() as u8 });
    form
}

/// Mostly the number itself; else one that is equal to it in its low bits.
fn widened(r: &mut Random, number: u8) -> usize {
    let number = number as usize;
    match r.from(0, 9) {
        0 => number + (1 << [8, 9, 15, 16, 31, 32, 63][r.from(0, 6)]),
        1 if r.one_in(2) => usize::MAX - r.from(0, 255),
        _ => number,
    }
}

/// Mostly a field of the book; of one with many fields often the first that version 1 lacks, the last, or the one behind it.
fn field(r: &mut Random, book: &Book) -> u8 {
    let fields = book.counts.len();
    match r.from(0, 5) {
        0 => r.word() as u8,
        1..=2 if fields >= field_limit(1) => r.one_of(&[field_limit(1), fields - 1, fields]) as u8,
        _ => r.from(0, fields) as u8,
    }
}

/// Mostly a code of the field.
fn code(r: &mut Random, book: &Book, field: u8) -> u8 {
    match book.counts.get(field as usize) {
        Some(&count) if !r.one_in(6) => r.from(0, count as usize) as u8,
        _ => r.word() as u8,
    }
}

/// Mostly a field with an answer, or 255 for none.
fn answered(r: &mut Random, book: &Book, sheet: &Sheet) -> u8 {
    let held: Vec<u8> = (0..PLACES as u8).filter(|&f| sheet.is_answered(f as usize)).collect();
    match r.from(0, 5) {
        0..=1 => NO_ANSWER,
        2 => field(r, book),
        _ if held.is_empty() => field(r, book),
        3 => held[held.len() - 1],
        _ => held[r.from(0, held.len() - 1)],
    }
}

/// Calls of three bytes, and in some cases an incomplete one behind them. Some lists begin with the answers of a stored sheet, so that
/// they reach one as a call on a sheet is given.
fn list(r: &mut Random, book: &Book) -> Vec<u8> {
    let beginning = if r.one_in(2) { entered(r, book) } else { Vec::new() };
    let mut bytes = if r.one_in(2) { photographs::history(r, book, beginning) } else { blind(r, book, beginning) };
    if r.one_in(3) {
        bytes.extend([0, 0].iter().take(r.from(1, 2)));
    }
    bytes
}

/// Calls that do not look at what those before them reach, mostly few, some of no kind.
fn blind(r: &mut Random, book: &Book, beginning: Vec<[u8; 3]>) -> Vec<u8> {
    let mut bytes = beginning.concat();
    let most = [0, 2, 10, 10, 30, 100][r.from(0, 5)];
    for _ in 0..r.from(0, most) {
        let field = field(r, book);
        let code = code(r, book, field);
        let kind = [0, 0, 0, 0, 0, 0, 1, 1, 2, 3, 4 + (r.word() % 252) as u8][r.from(0, 10)];
        bytes.extend([kind, field, code]);
    }
    bytes
}

/// The calls that enter the answers of a stored sheet, in any order.
fn entered(r: &mut Random, book: &Book) -> Vec<[u8; 3]> {
    let form = random::form(r, book);
    let answers = form.iter().take(PLACES).enumerate().filter(|(_, &code)| code != NO_ANSWER);
    let mut calls: Vec<[u8; 3]> = answers.map(|(f, &code)| [0, f as u8, code]).collect();
    r.shuffle(&mut calls);
    calls
}

/// A field and a code to enter: of a sheet with photographs often of a photographed field, with the code held, another, or none.
fn answer(r: &mut Random, book: &Book, sheet: &Sheet) -> (u8, u8) {
    match photographs::some_photographed(r, book, sheet) {
        Some(field) if r.one_in(3) => {
            let other = code(r, book, field);
            (field, r.one_of(&[sheet.answers[field as usize], other, other]))
        }
        _ => {
            let field = field(r, book);
            (field, code(r, book, field))
        }
    }
}

/// A field and a code to enter once more: mostly of a photographed field, if there is one, and the code held, or what stands in an open
/// place; else another code of the field, or any.
fn again(r: &mut Random, book: &Book, sheet: &Sheet) -> (u8, u8) {
    let field = match photographs::some_photographed(r, book, sheet) {
        Some(field) if !r.one_in(4) => field,
        _ => field(r, book),
    };
    let any = code(r, book, field);
    let code = match r.from(0, 7) {
        0..=4 => sheet.answers.get(field as usize).copied(),
        5..=6 => photographs::another_code(r, book, sheet, field),
        _ => None,
    };
    (field, code.unwrap_or(any))
}

fn calls(r: &mut Random, book: &Book, sheet: &Sheet) -> Vec<Call> {
    let (entered, again) = (answer(r, book, sheet), again(r, book, sheet));
    let (withdrawn, relaxed, photographed) = (answered(r, book, sheet), answered(r, book, sheet), answered(r, book, sheet));
    vec![
        Call::Read,
        Call::Fresh,
        Call::Clear,
        Call::Enter { field: widened(r, entered.0), code: widened(r, entered.1) },
        Call::Enter { field: widened(r, again.0), code: widened(r, again.1) },
        Call::Withdraw { field: widened(r, withdrawn) },
        Call::Photograph { field: widened(r, photographed) },
        Call::Filtered { relaxed: widened(r, relaxed) },
        Call::Alternatives,
        Call::Load { form: form(r, book) },
        Call::Store,
        Call::Replay { calls: list(r, book) },
        Call::Report { form: form(r, book) },
    ]
}
