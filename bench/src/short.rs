//! Short stored sheets: loaded and stored beside the form with one byte for each field, and each form moved to the other.

use std::hint::black_box;

use sighting::{lengthen, shorten, Sheet, SHORT_BYTES};

use crate::families::{small, without_tables, Family};
use crate::measure::same;
use crate::plain::short;
use crate::stack;
use crate::timing::{medians, Contender};

/// The medians of a call, by the library and by plain Rust.
pub struct Call {
    pub library: f64,
    pub plain: f64,
}

/// What the four calls take on a sheet with n answers, and the library's load and store in the other form. The first half of the answers
/// is photographed where a call takes photographs.
pub struct Stored {
    pub book: &'static str,
    pub n: usize,
    pub load_short: Call,
    pub store_short: Call,
    pub shorten: Call,
    pub lengthen: Call,
    pub load: f64,
    pub store: f64,
}

impl Stored {
    pub fn calls(&self) -> [&Call; 4] {
        [&self.load_short, &self.store_short, &self.shorten, &self.lengthen]
    }
}

/// The short form of a sheet with n answers, the first k of them photographed, on which library and plain Rust agree.
fn agreed(family: &Family, n: usize, k: usize) -> Vec<u8> {
    let (book, old, bytes) = (&family.book[..], family.stored(n), family.photographed(n, k));
    let (sheet, mut form) = (Sheet::from(bytes), vec![0; 3 * n + 2]);
    let length = sheet.store_short(book, &mut form).expect("accepted");
    let back = if k == 0 { Ok(family.fields() as u64) } else { Err((22, 0)) };
    same(SHORT_BYTES, Ok(length), |out| sheet.store_short(book, out), |out| short::store_short(&bytes, book, out));
    same(SHORT_BYTES, Ok(length), |out| shorten(book, &old, out), |out| short::shorten(book, &old, out));
    same(SHORT_BYTES, back, |out| lengthen(book, &form, out), |out| short::lengthen(book, &form, out));
    assert_eq!((Sheet::load_short(book, &form), short::load_short(book, &form)), (Ok(sheet), Ok(bytes)));
    form
}

/// A call that writes to a buffer of its own.
fn writing<'a, E>(call: impl Fn(&mut [u8]) -> Result<u64, E> + 'a) -> Contender<'a> {
    let mut out = [0; SHORT_BYTES];
    Box::new(move || call(&mut out).unwrap_or(0))
}

/// A call that makes a sheet, which is kept from being left out.
fn loading<'a, S, E>(call: impl Fn() -> Result<S, E> + 'a) -> Contender<'a> {
    Box::new(move || black_box(&call()).is_ok() as u64)
}

fn stored(family: &Family, n: usize) -> Stored {
    let (book, old, form) = (&family.book[..], family.stored(n), agreed(family, n, 0));
    let (backed, backed_form) = (family.photographed(n, n / 2), agreed(family, n, n / 2));
    let (sheet, backed_sheet) = (Sheet::from(family.sheet(n)), Sheet::from(backed));
    let times = medians(&mut [
        loading(|| Sheet::load_short(book, &backed_form)),
        loading(|| short::load_short(book, &backed_form)),
        writing(|out| backed_sheet.store_short(book, out)),
        writing(|out| short::store_short(&backed, book, out)),
        writing(|out| shorten(book, &old, out)),
        writing(|out| short::shorten(book, &old, out)),
        writing(|out| lengthen(book, &form, out)),
        writing(|out| short::lengthen(book, &form, out)),
        loading(|| Sheet::load(book, &old)),
        writing(|out| sheet.store(book, out).map(|()| 0)),
    ]);
    let call = |i: usize| Call { library: times[2 * i], plain: times[2 * i + 1] };
    let (load_short, store_short, shorten, lengthen) = (call(0), call(1), call(2), call(3));
    Stored { book: family.name, n, load_short, store_short, shorten, lengthen, load: times[8], store: times[9] }
}

/// No answer, two, and all, on small books, without tables, and on the full books.
pub fn all(b: &Family, e: &Family) -> Vec<Stored> {
    let ([smallest, eight_fields], sixty) = (&small(), &without_tables());
    let books = [smallest, eight_fields, sixty, b, e].into_iter();
    books.flat_map(|family| [0, 2, family.fields()].map(|n| stored(family, n))).collect()
}

/// The stack bytes of the four calls on this book with all fields answered.
pub fn stacks(family: &Family) -> Vec<(&'static str, usize)> {
    let (book, all) = (&family.book[..], family.fields());
    let (sheet, old, form) = (Sheet::from(family.sheet(all)), family.stored(all), agreed(family, all, 0));
    let (mut stored, mut moved, mut back) = ([0; SHORT_BYTES], [0; SHORT_BYTES], [0; SHORT_BYTES]);
    vec![
        ("load_short", stack::bytes(&mut || assert!(Sheet::load_short(book, &form).is_ok()))),
        ("store_short", stack::bytes(&mut || assert!(sheet.store_short(book, &mut stored).is_ok()))),
        ("shorten", stack::bytes(&mut || assert!(shorten(book, &old, &mut moved).is_ok()))),
        ("lengthen", stack::bytes(&mut || assert!(lengthen(book, &form, &mut back).is_ok()))),
    ]
}
