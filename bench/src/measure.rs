//! What is measured: the library's calls, beside plain Rust and Gecode on the same books.

use std::borrow::Borrow;

use sighting::{Counts, Refusal, Sheet, BOOK_BYTES, LISTING_NUMBERS, NUMBERS, PAIRS_BYTES, PLACES, REPORT_BYTES, STORED_BYTES};

use crate::families::Family;
use crate::gecode::Root;
use crate::listings::{refused, Listed};
use crate::nearest::deepest;
use crate::plain::{engine, listing, reader, Refused};
use crate::questions::{standing, Question};
use crate::shapes::{Order, Shape, FRESH, ONE_TABLE};
use crate::stack;
use crate::timing::{medians, Contender};

/// The medians of one family at one n, in microseconds.
pub struct Pass {
    pub n: usize,
    pub library: f64,
    pub plain: f64,
    pub separate: f64,
    pub gecode: Option<f64>,
}

/// The library's total, by one pass.
pub fn one_pass(book: &[u8], sheet: &Sheet) -> u64 {
    let mut pairs = [0; PAIRS_BYTES];
    sheet.alternatives(book, &mut pairs).expect("accepted").total
}

/// The library's total, by n + 1 separate filterings: nothing relaxed, then each answered field without a photograph.
fn separate(book: &[u8], sheet: &Sheet) -> u64 {
    // those behind the fields stay, and are no empty field's
    let mut numbers = [1; NUMBERS];
    sheet.filtered(book, None, &mut numbers).expect("accepted");
    let mut total = 0;
    for f in (0..PLACES).filter(|&f| sheet.answer(f).is_some() && !sheet.is_photographed(f)) {
        sheet.filtered(book, Some(f), &mut numbers).expect("accepted");
        if !numbers.contains(&0) {
            total += numbers[f].count_ones() as u64;
        }
    }
    total
}

pub fn plain_pass(book: &[u8], sheet: &Sheet) -> u64 {
    let mut pairs = [0; PAIRS_BYTES];
    engine::alternatives(sheet.bytes(), book, &mut pairs).expect("accepted").0
}

/// All ways give the same pairs and totals; Gecode, where a root is given, knows no photographs.
pub fn agree(book: &[u8], sheet: &Sheet, root: Option<&Root>) {
    let (mut pairs, mut plain) = ([0; PAIRS_BYTES], [0; PAIRS_BYTES]);
    let found = sheet.alternatives(book, &mut pairs).expect("accepted");
    assert_eq!(engine::alternatives(sheet.bytes(), book, &mut plain), Ok((found.total, found.struck)));
    assert_eq!(pairs, plain);
    assert_eq!(separate(book, sheet), found.total);
    if let Some(root) = root {
        assert_eq!(root.alternatives(answers(sheet)), found.total);
    }
}

/// Library and plain Rust give this answer, or 18 where a byte too few is lent for it, and write the same bytes. So many suffice always.
pub fn same(
    suffices: usize,
    answer: Result<u64, Refused>,
    library: impl Fn(&mut [u8]) -> Result<u64, Refusal>,
    plain: impl Fn(&mut [u8]) -> Result<u64, Refused>,
) {
    let needed = answer.unwrap_or(0) as usize;
    for lent in [suffices, needed, needed.saturating_sub(1)] {
        let (mut ours, mut theirs) = (vec![7; suffices], vec![7; suffices]);
        let told = library(&mut ours[..lent]).map_err(|r| (r.number, r.place));
        assert_eq!(told, if lent < needed { Err((18, 0)) } else { answer });
        assert_eq!((plain(&mut theirs[..lent]), ours), (told, theirs));
    }
}

fn answers(sheet: &Sheet) -> &[u8; PLACES] {
    sheet.bytes().first_chunk().expect("the first half")
}

pub fn alternatives(family: &Family, n: usize) -> Pass {
    let book = &family.book[..];
    let (sheet, root) = (Sheet::from(family.sheet(n)), Root::open(book));
    agree(book, &sheet, root.as_ref());
    let mut contenders: Vec<Contender> =
        vec![Box::new(|| one_pass(book, &sheet)), Box::new(|| plain_pass(book, &sheet)), Box::new(|| separate(book, &sheet))];
    if let Some(root) = &root {
        contenders.push(Box::new(|| root.alternatives(answers(&sheet))));
    }
    let times = medians(&mut contenders);
    Pass { n, library: times[0], plain: times[1], separate: times[2], gecode: times.get(3).copied() }
}

/// The medians of one pass on the full book of each version, taken in turns.
pub struct Versions {
    pub n_of_1: usize,
    pub n_of_2: usize,
    pub of_1: f64,
    pub of_2: f64,
}

/// With n answers on both books, or all that the one of version 1 can have.
pub fn versions(of_1: &Family, of_2: &Family, n: usize) -> Versions {
    let n_of_1 = n.min(of_1.fields());
    let (sheet_of_1, sheet_of_2) = (Sheet::from(of_1.sheet(n_of_1)), Sheet::from(of_2.sheet(n)));
    let times = medians(&mut [Box::new(|| one_pass(&of_1.book, &sheet_of_1)), Box::new(|| one_pass(&of_2.book, &sheet_of_2))]);
    Versions { n_of_1, n_of_2: n, of_1: times[0], of_2: times[1] }
}

/// The medians of reading, by the library and by plain Rust, and of setting up Gecode.
pub struct Reading {
    pub rows: u64,
    pub library: f64,
    pub plain: f64,
    pub gecode_set_up: Option<f64>,
}

/// The library's different rows.
pub fn read(book: &[u8]) -> u64 {
    sighting::read(book).expect("accepted").different_rows
}

fn plain_read(book: &[u8]) -> u64 {
    reader::read(book).expect("accepted")[3]
}

fn plain_row_by_row(book: &[u8]) -> u64 {
    reader::read_row_by_row(book).expect("accepted")[3]
}

/// What the book has, by all ways the same.
fn agreed_counts(book: &[u8]) -> Counts {
    let counts = sighting::read(book).expect("accepted");
    let cells = [counts.fields, counts.tables, counts.rows, counts.different_rows];
    assert_eq!((reader::read(book), reader::read_row_by_row(book)), (Ok(cells), Ok(cells)));
    counts
}

pub fn reading(book: &[u8]) -> Reading {
    let rows = agreed_counts(book).rows;
    let mut contenders: Vec<Contender> = vec![Box::new(|| read(book)), Box::new(|| plain_read(book))];
    if Root::open(book).is_some() {
        contenders.push(Box::new(|| Root::open(book).is_some() as u64));
    }
    let times = medians(&mut contenders);
    Reading { rows, library: times[0], plain: times[1], gecode_set_up: times.get(2).copied() }
}

/// A call on each of several books, or pairs of them, in turn. The call is known where the loop is made, so going on to the next book
/// costs next to nothing beside reading ten rows.
pub fn in_turn<'a, B: Borrow<T>, T: ?Sized>(books: &'a [B], mut call: impl FnMut(&T) -> u64 + 'a) -> Contender<'a> {
    Box::new(move || books.iter().map(|book| call(book.borrow())).sum())
}

/// The medians of contenders that take these books in turn, for one book.
pub fn medians_for_one<B>(books: &[B], contenders: &mut [Contender]) -> Vec<f64> {
    medians(contenders).into_iter().map(|time| time / books.len() as f64).collect()
}

/// The medians of reading a book of this shape and order, by the library and by plain Rust in two forms.
pub struct Shaped {
    pub shape: &'static Shape,
    pub order: Order,
    pub library: f64,
    pub plain: f64,
    pub row_by_row: f64,
}

pub fn shaped(shape: &'static Shape, order: Order) -> Shaped {
    let books = &shape.books(order)[..];
    for book in books {
        agreed_counts(book);
    }
    let mut contenders = [in_turn(books, read), in_turn(books, plain_read), in_turn(books, plain_row_by_row)];
    let times = medians_for_one(books, &mut contenders);
    Shaped { shape, order, library: times[0], plain: times[1], row_by_row: times[2] }
}

/// The medians of a report, and of reading alone: by the library, and row by row by plain Rust.
pub struct Report {
    pub library: f64,
    pub reading: f64,
    pub row_by_row: f64,
}

pub fn report(books: &[Vec<u8>], form: &[u8]) -> Report {
    let mut text = [0; REPORT_BYTES];
    for book in books {
        // a sheet that is turned down is no refusal, and would be reported in no time
        let length = sighting::report(book, form, &mut text).expect("room for every text") as usize;
        assert!(!text[..length].windows(7).any(|word| word == b"refused"));
    }
    let whole = in_turn(books, move |book: &[u8]| sighting::report(book, form, &mut text).expect("room for every text"));
    let times = medians_for_one(books, &mut [whole, in_turn(books, read), in_turn(books, plain_row_by_row)]);
    Report { library: times[0], reading: times[1], row_by_row: times[2] }
}

/// The medians of one plain filtering with nothing relaxed, by the library and by plain Rust.
pub struct Filtering {
    pub library: f64,
    pub plain: f64,
}

pub fn filtering(family: &Family, n: usize) -> Filtering {
    let (book, bytes) = (&family.book[..], family.sheet(n));
    let library = || {
        let mut numbers = [0; NUMBERS];
        Sheet::from(bytes).filtered(book, None, &mut numbers).expect("accepted");
        numbers.iter().map(|&number| number as u64).sum::<u64>()
    };
    let plain = || {
        let mut numbers = [0; NUMBERS];
        engine::filtered(&bytes, book, &mut numbers).expect("accepted");
        numbers.iter().map(|&number| number as u64).sum()
    };
    assert_eq!(library(), plain());
    let times = medians(&mut [Box::new(library), Box::new(plain)]);
    Filtering { library: times[0], plain: times[1] }
}

/// The median of the row behind a code, and how many times that of the library's filtering alone on the same sheet it is, and that of
/// plain Rust.
pub struct Row {
    pub row: Option<u64>,
    pub library: f64,
    pub filterings: f64,
    pub plain: f64,
}

pub fn row(q: &Question) -> Row {
    let (book, sheet) = (&q.book[..], Sheet::from(q.sheet));
    let library = || sheet.row(book, q.field, q.code, q.table).expect("accepted");
    let plain = || engine::row(&q.sheet, book, q.field, q.code, q.table).expect("accepted");
    let filtering = || {
        let mut numbers = [0; NUMBERS];
        sheet.filtered(book, None, &mut numbers).expect("accepted");
        numbers[q.field] as u64
    };
    let row = library();
    assert_eq!(row, plain());
    let number = |row: Option<u64>| row.map_or(0, |r| r + 1);
    // in pairs: in turns of three the filtering, behind the row, would find its pass learned, and the row, behind plain Rust, would not
    let beside = |other: Contender| {
        let times = medians(&mut [Box::new(|| number(library())), other]);
        (times[0], times[0] / times[1])
    };
    let (time, filterings) = beside(Box::new(filtering));
    Row { row, library: time, filterings, plain: beside(Box::new(|| number(plain()))).1 }
}

/// The medians of asking for a row where it is refused: by 16, by 21 since there is no such table, and by 21 since the last table
/// lacks the field; and of asking for one that is there.
pub struct RefusedRows {
    pub n: usize,
    pub no_code: f64,
    pub no_table: f64,
    pub not_in_it: f64,
    pub accepted: f64,
}

pub fn refused_rows(family: &Family, n: usize) -> RefusedRows {
    let q = standing(family, n);
    let (book, sheet) = (&q.book[..], Sheet::from(q.sheet));
    let checked = reader::check(book).expect("accepted");
    let (view, table) = (&checked.view, checked.tables[q.table]);
    let other =
        (0..view.fields).find(|&f| (0..table.arity).all(|j| view.field(table, j) != f)).expect("a field beside the table's");
    let asked = [(q.field, 255, q.table), (q.field, q.code, q.table + 1), (other, 0, q.table), (q.field, q.code, q.table)];
    let ask = |(field, code, table)| sheet.row(book, field, code, table).map_or_else(|refusal| refusal.number, |_| 0);
    assert_eq!(asked.map(ask), [16, 21, 21, 0]);
    let times = medians(&mut asked.map(|question| Box::new(move || ask(question)) as Contender));
    RefusedRows { n, no_code: times[0], no_table: times[1], not_in_it: times[2], accepted: times[3] }
}

/// The medians of writing a listing, and of showing the book that is written, by the library and by plain Rust.
pub struct Listing {
    pub numbers: usize,
    pub library: f64,
    pub plain: f64,
    pub shown: Option<Showing>,
}

pub struct Showing {
    pub bytes: usize,
    pub library: f64,
    pub plain: f64,
}

fn writing(listing: &[u16]) -> (f64, f64) {
    let (mut ours, mut theirs) = ([0; BOOK_BYTES], [0; BOOK_BYTES]);
    let written = sighting::write(listing, &mut ours).map_err(|r| (r.number, r.place));
    assert_eq!(listing::write(listing, &mut theirs), written);
    assert_eq!(ours, theirs);
    let times = medians(&mut [
        Box::new(|| sighting::write(listing, &mut ours).map_or(0, |bytes| bytes)),
        Box::new(|| listing::write(listing, &mut theirs).map_or(0, |bytes| bytes)),
    ]);
    (times[0], times[1])
}

fn showing(book: &[u8], listing: &[u16]) -> Showing {
    let (mut ours, mut theirs) = ([0; LISTING_NUMBERS], [0; LISTING_NUMBERS]);
    assert_eq!(sighting::show(book, &mut ours), Ok(listing.len() as u64));
    assert_eq!(listing::show(book, &mut theirs), Ok(listing.len() as u64));
    assert_eq!((&ours[..listing.len()], ours), (listing, theirs));
    let times = medians(&mut [
        Box::new(|| sighting::show(book, &mut ours).map_or(0, |numbers| numbers)),
        Box::new(|| listing::show(book, &mut theirs).map_or(0, |numbers| numbers)),
    ]);
    Showing { bytes: book.len(), library: times[0], plain: times[1] }
}

pub fn listing(listed: &Listed) -> Listing {
    let mut book = [0; BOOK_BYTES];
    let (library, plain) = writing(&listed.listing);
    let shown = sighting::write(&listed.listing, &mut book).ok().map(|bytes| showing(&book[..bytes as usize], &listed.listing));
    Listing { numbers: listed.listing.len(), library, plain, shown }
}

/// The stack bytes of each call on this book with all fields answered, of the calls that count different rows on one table of them
/// all, of the nearest reading on the book that takes its search deepest, and of writing the book's listing and one that is refused.
pub fn stacks(family: &Family) -> Vec<(&'static str, usize)> {
    let (book, all) = (&family.book[..], family.fields());
    let (sheet, form) = (Sheet::from(family.sheet(all)), family.stored(all));
    let (mut pairs, mut numbers, mut text) = ([0; PAIRS_BYTES], [0; NUMBERS], [0; REPORT_BYTES]);
    let (mut shown, mut written) = ([0; LISTING_NUMBERS], [0; BOOK_BYTES]);
    let length = sighting::show(book, &mut shown).expect("accepted") as usize;
    let (listing, refused) = (shown[..length].to_vec(), refused().listing);
    let one_table = &ONE_TABLE.books(Order::Random)[0][..];
    let (list, q) = ([0, 0, 0].repeat(all), standing(family, all));
    let (deep, mut reading) = (deepest(), [0; STORED_BYTES]);
    let (mut entered, mut withdrawn, mut photographed, mut stored) = (sheet, sheet, sheet, [0; STORED_BYTES]);
    vec![
        ("read", stack::bytes(&mut || assert!(sighting::read(book).is_ok()))),
        ("read, 4,096 rows in one table", stack::bytes(&mut || assert!(sighting::read(one_table).is_ok()))),
        ("enter", stack::bytes(&mut || assert!(entered.enter(book, 0, 0).is_ok()))),
        ("withdraw", stack::bytes(&mut || assert!(withdrawn.withdraw(book, 0).is_ok()))),
        ("photograph", stack::bytes(&mut || assert!(photographed.photograph(book, 0).is_ok()))),
        ("load", stack::bytes(&mut || assert!(Sheet::load(book, &form).is_ok()))),
        ("store", stack::bytes(&mut || assert!(sheet.store(book, &mut stored).is_ok()))),
        ("filtered", stack::bytes(&mut || assert!(sheet.filtered(book, None, &mut numbers).is_ok()))),
        ("row", stack::bytes(&mut || assert!(sheet.row(book, q.field, q.code, q.table).is_ok()))),
        ("nearest, 60 fields", stack::bytes(&mut || assert!(matches!(Sheet::fresh().nearest(&deep, &mut reading), Ok(Some(_)))))),
        ("alternatives", stack::bytes(&mut || assert!(sheet.alternatives(book, &mut pairs).is_ok()))),
        ("replay", stack::bytes(&mut || assert!(Sheet::replay(book, &list, &mut pairs).1.is_ok()))),
        ("report", stack::bytes(&mut || assert!(sighting::report(book, &form, &mut text).is_ok()))),
        (
            "report, 4,096 rows in one table",
            stack::bytes(&mut || assert!(sighting::report(one_table, &FRESH, &mut text).is_ok())),
        ),
        ("show", stack::bytes(&mut || assert!(sighting::show(book, &mut shown).is_ok()))),
        ("write", stack::bytes(&mut || assert!(sighting::write(&listing, &mut written).is_ok()))),
        ("write, refused", stack::bytes(&mut || assert!(sighting::write(&refused, &mut written).is_err()))),
    ]
}
