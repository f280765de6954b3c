//! Wrong versions, after document 02's M-103: other limits, other numbers taken for versions, and listings that name theirs otherwise.

use super::calling::{before, longer_refused, with_place};
use super::listing::{changed_whole, in_bytes, leaving, showing, taken_whole, writing};
use super::reading::whole;
use super::{
    Listed,
    Wrong::{Left, Part},
};
use crate::book::{field_limit, Book, Refusal};
use crate::calls::Call;
use crate::desk::Desk;
use crate::listing::Listing;
use crate::reader::{fields_outside, version_outside, Stage};

/// A wrong limit shows where a book is read, and where one is written.
const fn limited(what: &'static str, exchange: fn(&mut Desk)) -> Listed {
    (what, &["read", "write"], Part(exchange))
}

const fn reading(what: &'static str, exchange: fn(&mut Desk)) -> Listed {
    (what, &["read"], Part(exchange))
}

pub const SLIPS: &[Listed] = &[
    limited("version 1 taken as none", |desk| desk.reader.limit = |version| but(version, 1, 0)),
    limited("version 2 taken as none", |desk| desk.reader.limit = |version| but(version, 2, 0)),
    limited("31 fields at most in version 1", |desk| desk.reader.limit = |version| but(version, 1, 31)),
    limited("33 fields at most in version 1", |desk| desk.reader.limit = |version| but(version, 1, 33)),
    limited("60 fields at most in version 1", |desk| desk.reader.limit = |version| but(version, 1, 60)),
    limited("32 fields at most in version 2", |desk| desk.reader.limit = |version| but(version, 2, 32)),
    limited("33 fields at most in version 2", |desk| desk.reader.limit = |version| but(version, 2, 33)),
    limited("59 fields at most in version 2", |desk| desk.reader.limit = |version| but(version, 2, 59)),
    limited("61 fields at most in version 2", |desk| desk.reader.limit = |version| but(version, 2, 61)),
    limited("64 fields at most in version 2", |desk| desk.reader.limit = |version| but(version, 2, 64)),
    limited("255 fields at most in version 2", |desk| desk.reader.limit = |version| but(version, 2, 255)),
    limited("each version with the other's limit", |desk| desk.reader.limit = |version| field_limit(3u8.wrapping_sub(version))),
    limited("version 0 taken as version 1", |desk| desk.reader.limit = |version| but(version, 0, field_limit(1))),
    limited("version 0 taken as version 2", |desk| desk.reader.limit = |version| but(version, 0, field_limit(2))),
    limited("version 3 taken as version 2", |desk| desk.reader.limit = |version| but(version, 3, field_limit(2))),
    limited("version 255 taken as version 2", |desk| desk.reader.limit = |version| but(version, 255, field_limit(2))),
    limited("every number but 1 taken as version 2", |desk| {
        desk.reader.limit = |version| field_limit(if version == 1 { 1 } else { 2 })
    }),
    limited("a version by its low two bits", |desk| desk.reader.limit = |version| field_limit(version % 4)),
    limited("a version by its low seven bits", |desk| desk.reader.limit = |version| field_limit(version % 128)),
    limited("version 2 only for what version 1 does not allow", |desk| {
        desk.reader.stages.insert(4, Stage::Whole(small_of_version_2))
    }),
    reading("no fields read", |desk| whole(desk, 3, |bytes| fields_outside(bytes, 0..=field_limit(2)))),
    reading("4 by version 1's limit tested before 3", |desk| {
        fields_first(desk, |version| field_limit(if version == 2 { 2 } else { 1 }))
    }),
    reading("4 by version 2's limit tested before 3", |desk| {
        fields_first(desk, |version| field_limit(if version == 1 { 1 } else { 2 }))
    }),
    ("3 with the place of the number of fields", &["read"], Left(|_, left| with_place(left, 3, |place| place - 2))),
    ("4 with the place of the version", &["read"], Left(|_, left| with_place(left, 4, |place| place + 2))),
    showing("no version", |desk| desk.listing = |book| in_numbers(book, |numbers| numbers.truncate(numbers.len() - 1))),
    showing("the version twice", |desk| {
        desk.listing = |book| in_numbers(book, |numbers| numbers.extend_from_within(numbers.len() - 1..))
    }),
    showing("the version first", |desk| desk.listing = |book| in_numbers(book, |numbers| numbers.rotate_right(1))),
    showing("the version before the tables", |desk| {
        desk.listing = |book| in_numbers(book, |numbers| numbers[book.counts.len() + 1..].rotate_right(1))
    }),
    showing("version 1 in any case", |desk| desk.listing = |book| changed_whole(book, |l| l.version = 1)),
    showing("version 2 in any case", |desk| desk.listing = |book| changed_whole(book, |l| l.version = 2)),
    showing("the version that the fields ask for", |desk| {
        desk.listing = |book| Listing::of(&Book::new(book.counts.clone(), book.tables.clone())).numbers()
    }),
    showing("the limit for the version", |desk| {
        desk.listing = |book| changed_whole(book, |l| l.version = field_limit(l.version as u8) as u16)
    }),
    showing("the first 32 fields", |desk| desk.listing = |book| changed_whole(book, |l| l.counts.truncate(32))),
    ("18 for more numbers than version 1 has", &["show"], Left(|seen, left| longer_refused(seen, left, 16_803))),
    ("18 for more bytes than version 1 has", &["write"], Left(|seen, left| longer_refused(seen, left, 16_870))),
    (
        "20 for more bytes than version 1 has",
        &["write"],
        Left(|seen, left| before(left, 18, 20, || seen.answer.written.elements() > 16_870)),
    ),
    writing("a listing from before taken as of version 1", |desk| desk.taken = |call| completed(call, 1)),
    writing("a listing from before taken as of version 2", |desk| desk.taken = |call| completed(call, 2)),
    writing("the version taken from the front", |desk| desk.taken = taken_from_front),
    writing("the version by its low byte", |desk| desk.taken = |call| taken_whole(call, |l| l.version %= 256)),
    writing("version 0 written as version 1", |desk| desk.taken = |call| taken_whole(call, |l| l.version = l.version.max(1))),
    writing("versions above 2 written as version 2", |desk| {
        desk.taken = |call| taken_whole(call, |l| l.version = l.version.min(2))
    }),
    writing("version 1 written as version 2 where its limit asks for it", |desk| desk.taken = |call| taken_whole(call, raised)),
    leaving("version 0 in any case", |_, left| in_bytes(left, |bytes| bytes[bytes.len() - 2] = 0)),
    leaving("version 1 in any case", |_, left| in_bytes(left, |bytes| bytes[bytes.len() - 2] = 1)),
    leaving("version 2 in any case", |_, left| in_bytes(left, |bytes| bytes[bytes.len() - 2] = 2)),
    leaving("the version that the fields ask for", |_, left| in_bytes(left, asked_by_fields)),
];

/// The limits, but for this version.
fn but(version: u8, other: u8, limit: usize) -> usize {
    if version == other {
        limit
    } else {
        field_limit(version)
    }
}

fn small_of_version_2(bytes: &[u8]) -> Option<Refusal> {
    let is_2 = version_outside(bytes, 2..=2).is_none();
    fields_outside(bytes, field_limit(1) + 1..=field_limit(2)).filter(|_| is_2)
}

/// Tests the number of fields before the version. So it has a limit for numbers that are none.
fn fields_first(desk: &mut Desk, limit: fn(u8) -> usize) {
    desk.reader.limit = limit;
    whole(desk, 2, |bytes| version_outside(bytes, 1..=2));
    desk.reader.stages.swap(2, 3);
}

/// What the book shows, after this change in its numbers.
fn in_numbers(book: &Book, change: impl Fn(&mut Vec<u16>)) -> Vec<u16> {
    let mut numbers = Listing::of(book).numbers();
    change(&mut numbers);
    numbers
}

fn taken_from_front(call: &Call) -> Call {
    let mut listing = call.listing().to_vec();
    listing.rotate_left(call.listing().len().min(1));
    call.with_listing(listing)
}

/// The call with this version behind a listing that has none.
fn completed(call: &Call, version: u16) -> Call {
    let listing = [call.listing(), &[version]].concat();
    match Listing::taken_apart(&listing) {
        Ok(_) => call.with_listing(listing),
        Err(_) => call.clone(),
    }
}

fn raised(listing: &mut Listing) {
    if listing.version == 1 && listing.counts.len() > field_limit(1) {
        listing.version = 2;
    }
}

fn asked_by_fields(bytes: &mut [u8]) {
    let fields = bytes[bytes.len() - 4] as usize;
    bytes[bytes.len() - 2] = if fields > field_limit(1) { 2 } else { 1 };
}
