//! What is promised of tree books, held against what a library itself reads, shows and writes.

use crate::book::Refusal;
use crate::calls::{Call, Left};
use crate::cases::Case;
use crate::compare::{hex, Rooms};
use crate::desk::Reading;
use crate::library::Library;
use crate::memory::End;
use crate::sheet::FRESH;

/// A library with its rooms.
struct Profile<'a> {
    rooms: &'a Rooms,
    library: &'a dyn Library,
}

/// What is written, or why nothing is.
type Written<T> = Result<Vec<T>, Refusal>;

impl Profile<'_> {
    /// What a call leaves on these bytes of a book where enough is lent.
    fn left(&self, call: Call, book: &[u8]) -> Option<Left> {
        let (case, many) = (Case::new(book.to_vec(), FRESH, Vec::new()), call.sufficient().unwrap_or(0));
        let lent = if call == Call::Show { vec![0u16; many].into() } else { vec![0u8; many].into() };
        self.rooms.left(self.library, &case, &call, &lent, End::Back)
    }

    /// Its counts, or its refusal.
    fn told(left: &Left) -> Result<Vec<u64>, Refusal> {
        match left.number {
            0 => Ok(left.cells[1..].to_vec()),
            number => Err(Refusal { number, place: left.cells[0] }),
        }
    }

    fn read(&self, call: Call, book: &[u8]) -> Option<Result<Vec<u64>, Refusal>> {
        self.left(call, book).map(|left| Profile::told(&left))
    }

    fn written(&self, call: Call) -> Option<Written<u8>> {
        let left = self.left(call, &[])?;
        Some(Profile::told(&left).map(|counts| left.out.bytes[..(counts[0] as usize).min(left.out.bytes.len())].to_vec()))
    }

    fn shown(&self, book: &[u8]) -> Option<Written<u16>> {
        let left = self.left(Call::Show, book)?;
        Some(Profile::told(&left).map(|counts| left.out.listing[..(counts[0] as usize).min(left.out.listing.len())].to_vec()))
    }

    /// The bytes of the book without this table and those behind it. Its fields and its trailer stay, but for two numbers.
    fn up_to(book: &[u8], table: usize, place: usize) -> Vec<u8> {
        let list = book.len() - 6 - book[book.len() - 4] as usize;
        let mut shorter = [&book[..place], &book[list..]].concat();
        let trailer = shorter.len() - 6;
        shorter[trailer..trailer + 2].copy_from_slice(&(place as u16).to_le_bytes());
        shorter[trailer + 3] = table as u8;
        shorter
    }

    /// "First byte of the first such table": a table begins there, the book without it and what stands behind it is a tree book, or breaks
    /// the profile by another number, and with it alone it is refused by the same.
    fn is_first(&self, bytes: &[u8], reading: &Reading, refusal: Refusal) -> Option<bool> {
        let (book, place) = (reading.as_ref().ok()?, refusal.place as usize);
        let lengths = book.tables.iter().map(|table| 3 + table.fields.len() * (1 + table.rows.len()));
        let begins: Vec<usize> = lengths.scan(0, |at, length| Some(std::mem::replace(at, *at + length))).collect();
        let Some(table) = begins.iter().position(|&at| at == place) else {
            return Some(false);
        };
        let before = self.read(Call::ReadTree, &Profile::up_to(bytes, table, place))?;
        let end = begins.get(table + 1).copied().unwrap_or(bytes.len() - 6 - book.counts.len());
        let with = self.read(Call::ReadTree, &Profile::up_to(bytes, table + 1, end))?;
        let is_earlier = before.is_ok() || (refusal.number == 28 && before.is_err_and(|other| other.number == 29));
        Some(is_earlier && with == Err(refusal))
    }

    /// What does not fit together of these bytes of a book; an outer none where the library touches what it may not.
    fn problem_of_book(&self, bytes: &[u8], reading: &Reading) -> Option<Option<&'static str>> {
        let (read, tree) = (self.read(Call::Read, bytes)?, self.read(Call::ReadTree, bytes)?);
        if read.is_err() || tree.is_ok() {
            return Some(
                (tree != read).then_some("reading for the profile is not reading where that refuses, or where it accepts"),
            );
        }
        let refusal = tree.expect_err("it is refused");
        if !(28..=29).contains(&refusal.number) {
            return Some(Some("a book is refused by another number than 28 and 29"));
        }
        Some((!self.is_first(bytes, reading, refusal)?).then_some("28 or 29 is not at the first table that breaks the profile"))
    }

    /// What does not fit together where an accepted book is shown, and what it shows is written for the profile.
    fn problem_of_shown(&self, bytes: &[u8]) -> Option<Option<&'static str>> {
        let (tree, shown) = (self.read(Call::ReadTree, bytes)?, self.shown(bytes)?);
        let Ok(listing) = shown else {
            return Some(None);
        };
        let written = self.written(Call::WriteTree { listing })?;
        let expected = tree.map(|_| bytes.to_vec()).map_err(|refusal| Refusal { place: 0, ..refusal });
        Some((written != expected).then_some("what a book shows is not written as the book is read"))
    }

    /// What does not fit together where a listing is written.
    fn problem_of_listing(&self, listing: &[u16]) -> Option<Option<&'static str>> {
        let (any, tree) = (
            self.written(Call::Write { listing: listing.to_vec() })?,
            self.written(Call::WriteTree { listing: listing.to_vec() })?,
        );
        let Ok(bytes) = tree else {
            let is_later = tree.is_err_and(|refusal| (28..=29).contains(&refusal.number) && refusal.place == 0);
            return Some(
                (any.is_ok() != is_later).then_some("a listing is refused that is one of a tree book, or has another refusal"),
            );
        };
        let is_read = self.read(Call::ReadTree, &bytes)?.is_ok();
        let is_shown = self.shown(&bytes)? == Ok(listing.to_vec());
        Some(
            (any != Ok(bytes) || !is_read || !is_shown)
                .then_some("what is written is not read, not shown again, or not what writing writes"),
        )
    }

    fn problem(&self, case: &Case, reading: &Reading) -> Option<Option<&'static str>> {
        if let Some(problem) = self.problem_of_book(&case.book, reading)?.or(self.problem_of_shown(&case.book)?) {
            return Some(Some(problem));
        }
        let listing = case.calls.iter().find(|call| call.name() == "write_tree");
        listing.map_or(Some(None), |call| self.problem_of_listing(call.listing()))
    }
}

impl Rooms {
    /// Where the calls of tree books do not fit together with each other, or with reading, showing and writing.
    pub fn tree_disagreement(&self, library: &dyn Library, case: &Case, reading: &Reading) -> Option<String> {
        let problem =
            Profile { rooms: self, library }.problem(case, reading).unwrap_or(Some("memory beside what is lent is written"));
        problem.map(|problem| {
            let listing = case.calls.iter().find(|call| call.name() == "write_tree").map_or(&[][..], Call::listing);
            format!("book {}\nlisting {listing:?}\n{problem}", hex(&case.book))
        })
    }
}
