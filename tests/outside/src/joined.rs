//! What is promised of books that are joined, held against what a library itself joins, reads and filters.

use std::collections::HashSet;

use crate::book::Book;
use crate::calls::Call;
use crate::cases::Case;
use crate::compare::{hex, Rooms};
use crate::desk::{opened, Desk, Reading};
use crate::library::Library;
use crate::nearest::{full_readings, product};
use crate::reader::Reader;
use crate::sheet::{Sheet, FRESH, NO_ANSWER};
use crate::there_and_back::On;

/// Books with more readings than this are not looked at reading by reading.
const FEW_READINGS: u64 = 1_024;

/// An accepted book with its bytes.
struct Given<'a> {
    book: &'a Book,
    bytes: &'a [u8],
}

impl Given<'_> {
    /// Its tables and the rows of each rise, and nothing stands twice.
    fn is_in_order(&self) -> bool {
        let rise = |rows: &[Vec<u8>]| rows.windows(2).all(|pair| pair[0] < pair[1]);
        let fields = self.book.tables.windows(2).all(|pair| pair[0].fields < pair[1].fields);
        fields && self.book.tables.iter().all(|table| rise(&table.rows))
    }

    fn in_version_2(&self) -> Vec<u8> {
        let mut bytes = self.bytes.to_vec();
        let place = bytes.len() - 2;
        bytes[place] = 2;
        bytes
    }
}

/// A library, and two books that have to be joined.
struct Joins<'a> {
    rooms: &'a Rooms,
    library: &'a dyn Library,
    books: [Given<'a>; 2],
    /// One without a fault, by either book.
    sheet: Sheet,
}

impl Joins<'_> {
    fn on<'b>(&'b self, book: &'b [u8]) -> On<'b> {
        On { rooms: self.rooms, library: self.library, book }
    }

    /// The bytes that the library joins; none where it refuses.
    fn join(&self, first: &[u8], second: Option<&[u8]>) -> Option<Vec<u8>> {
        self.on(first).written(Call::Join { second: second.map(<[u8]>::to_vec) }, FRESH)
    }

    /// "From two accepted books make one book, version 2."
    fn is_book(&self, joined: &[u8]) -> bool {
        self.on(joined).left(Call::Read, FRESH).is_some() && joined[joined.len() - 2] == 2
    }

    /// The result has nothing more to join, and neither has a book in order.
    fn stays(&self, joined: &[u8]) -> bool {
        let itself = |bytes: &[u8], expected: &[u8]| {
            [None, Some(bytes)].iter().all(|&second| self.join(bytes, second).as_deref() == Some(expected))
        };
        let in_order = self.books.iter().filter(|given| given.is_in_order());
        itself(joined, joined) && in_order.into_iter().all(|given| itself(given.bytes, &given.in_version_2()))
    }

    /// "A full reading fits the joined book exactly when it fits both."
    fn has_their_readings(&self, joined: &[u8]) -> bool {
        let [first, second] = &self.books;
        if product(first.book.counts.iter().copied()) > FEW_READINGS {
            return true;
        }
        let of_second: HashSet<Vec<u8>> = full_readings(second.book).collect();
        let both = full_readings(first.book).filter(|reading| of_second.contains(reading));
        Reader::default().read(joined).is_ok_and(|joined| full_readings(&joined).eq(both))
    }

    /// One number for each field, with a bit for each code that stands by this book.
    fn standing(&self, bytes: &[u8]) -> Option<Vec<u32>> {
        let case = Case::new(bytes.to_vec(), self.sheet, Vec::new());
        self.rooms.numbers(self.library, &case, self.books[0].book, NO_ANSWER as usize)
    }

    /// "A code standing under a sheet in the joined book stands in each."
    fn stands_in_each(&self, joined: &[u8]) -> bool {
        let within = |one: &[u32], other: &[u32]| one.iter().zip(other).all(|(one, other)| one & !other == 0);
        let standing = self.standing(joined);
        standing.is_some_and(|standing| {
            self.books.iter().all(|given| self.standing(given.bytes).is_some_and(|numbers| within(&standing, &numbers)))
        })
    }

    /// What does not fit together.
    fn problem(&self) -> Option<&'static str> {
        let [first, second] = &self.books;
        let Some(joined) = self.join(first.bytes, Some(second.bytes)) else {
            return Some("two books that can be joined are not");
        };
        match () {
            _ if !self.is_book(&joined) => Some("the joined book is none of version 2"),
            _ if self.join(second.bytes, Some(first.bytes)) != Some(joined.clone()) => Some("the other order gives another book"),
            _ if !self.stays(&joined) => Some("a book in order joined with itself is another"),
            _ if !self.has_their_readings(&joined) => Some("the full readings are not those of both"),
            _ if !self.stands_in_each(&joined) => Some("a code that stands does not stand in each book"),
            _ => None,
        }
    }
}

impl Rooms {
    /// Where the joined book is not what is promised of it. By two books that have to be refused nothing is held against anything.
    pub fn join_disagreement(&self, library: &dyn Library, case: &Case, reading: &Reading) -> Option<String> {
        let (desk, first) = (Desk::default(), reading.as_ref().ok()?);
        let lent = case.calls.iter().find_map(|call| if let Call::Join { second } = call { Some(second) } else { None })?;
        desk.join(reading, lent.as_deref()).ok()?;
        let bytes = lent.as_deref().unwrap_or(&case.book);
        let second = desk.reader.read(bytes).ok()?;
        let books = [Given { book: first, bytes: &case.book }, Given { book: &second, bytes }];
        let sheet = if opened(reading, &case.sheet).is_ok() { case.sheet } else { FRESH };
        Joins { rooms: self, library, books, sheet }.problem().map(|problem| {
            let (first, second, sheet) = (hex(&case.book), hex(bytes), hex(&sheet.bytes()));
            format!("first {first}\nsecond {second}\nsheet {sheet}\n{problem}")
        })
    }
}
