//! The calls, and what one answers and leaves in the memory lent.

use crate::book::{refuse, Refusal};
use crate::sheet::Sheet;

/// A call with its arguments other than book, sheet and buffers. No second book to join is named where the first is lent once more.
#[derive(Clone, Debug, PartialEq)]
pub enum Call {
    Read,
    Fresh,
    Clear,
    Enter { field: usize, code: usize },
    Withdraw { field: usize },
    Photograph { field: usize },
    Filtered { relaxed: usize },
    Alternatives,
    Row { field: usize, code: usize, table: usize },
    Nearest,
    Plan { target: usize, questions: Vec<u8> },
    Load { form: Vec<u8> },
    Store,
    LoadShort { form: Vec<u8> },
    StoreShort,
    Shorten { form: Vec<u8> },
    Lengthen { form: Vec<u8> },
    Join { second: Option<Vec<u8>> },
    Replay { calls: Vec<u8> },
    Report { form: Vec<u8> },
    Show,
    Write { listing: Vec<u16> },
    ReadTree,
    WriteTree { listing: Vec<u16> },
}

/// The calls that are given a sheet with answers.
pub const OF_A_SHEET: &[&str] =
    &["enter", "withdraw", "photograph", "filtered", "alternatives", "row", "nearest", "plan", "store", "store_short"];

/// Those of them that hand it back changed, or as it was given.
pub const CHANGING: &[&str] = &["enter", "withdraw", "photograph"];

/// The calls that hand a sheet back of which nothing was there before.
pub const MAKING: &[&str] = &["fresh", "clear", "load", "load_short", "replay"];

/// The calls that are given a field.
pub const OF_A_FIELD: &[&str] = &["enter", "withdraw", "photograph", "filtered", "row", "plan"];

/// The calls that are given a code of it.
pub const OF_A_CODE: &[&str] = &["enter", "row"];

/// The calls that tell a place; the last ones read no book.
pub const TELLING: &[&str] = &[
    "read",
    "enter",
    "withdraw",
    "photograph",
    "filtered",
    "alternatives",
    "row",
    "nearest",
    "plan",
    "load",
    "store",
    "load_short",
    "store_short",
    "shorten",
    "lengthen",
    "join",
    "replay",
    "report",
    "show",
    "read_tree",
    "write",
    "write_tree",
];

/// The calls that write a book from a listing.
pub const WRITING: &[&str] = &["write", "write_tree"];

/// The calls that read a book.
pub const OF_A_BOOK: &[&str] = TELLING.split_at(TELLING.len() - WRITING.len()).0;

/// The calls of tree books.
pub const OF_TREES: &[&str] = &["read_tree", "write_tree"];

/// The calls that ask for one element for each field of the book.
pub const ONE_FOR_EACH: &[&str] = &["filtered", "nearest", "store", "lengthen"];

/// The calls that read a stored sheet, one byte a field.
pub const OF_A_FORM: &[&str] = &["load", "shorten", "report"];

/// The calls of the short form.
pub const OF_SHORT_FORMS: &[&str] = &["load_short", "store_short", "shorten", "lengthen"];

/// Those of them that read one.
pub const OF_A_SHORT_FORM: &[&str] = &["load_short", "lengthen"];

/// Those of them that write one.
pub const SHORTENING: &[&str] = &["store_short", "shorten"];

/// The calls that list alternatives.
pub const LISTING: &[&str] = &["alternatives", "replay", "report"];

/// Those of them that list pairs of a sheet that may have photographs.
pub const WITH_PAIRS: &[&str] = &["alternatives", "replay"];

/// The calls that count different rows.
pub const COUNTING: &[&str] = &["read", "report"];

impl Call {
    pub fn name(&self) -> &'static str {
        match self {
            Call::Read => "read",
            Call::Fresh => "fresh",
            Call::Clear => "clear",
            Call::Enter { .. } => "enter",
            Call::Withdraw { .. } => "withdraw",
            Call::Photograph { .. } => "photograph",
            Call::Filtered { .. } => "filtered",
            Call::Alternatives => "alternatives",
            Call::Row { .. } => "row",
            Call::Nearest => "nearest",
            Call::Plan { .. } => "plan",
            Call::Load { .. } => "load",
            Call::Store => "store",
            Call::LoadShort { .. } => "load_short",
            Call::StoreShort => "store_short",
            Call::Shorten { .. } => "shorten",
            Call::Lengthen { .. } => "lengthen",
            Call::Join { .. } => "join",
            Call::Replay { .. } => "replay",
            Call::Report { .. } => "report",
            Call::Show => "show",
            Call::Write { .. } => "write",
            Call::ReadTree => "read_tree",
            Call::WriteTree { .. } => "write_tree",
        }
    }

    /// The cells of the call's outcome: the place and the counts behind it.
    pub fn cells(&self) -> usize {
        match self {
            Call::Fresh | Call::Clear => 0,
            Call::Read | Call::ReadTree => 5,
            Call::Nearest => 4,
            Call::Alternatives | Call::Row { .. } | Call::Plan { .. } | Call::Replay { .. } => 3,
            Call::StoreShort | Call::Shorten { .. } | Call::Lengthen { .. } => 2,
            Call::Join { .. } | Call::Report { .. } | Call::Show | Call::Write { .. } | Call::WriteTree { .. } => 2,
            _ => 1,
        }
    }

    /// The bytes lent to the call to read, beside book and sheet.
    pub fn list(&self) -> &[u8] {
        match self {
            Call::Load { form } | Call::LoadShort { form } | Call::Report { form } => form,
            Call::Shorten { form } | Call::Lengthen { form } => form,
            Call::Join { second: Some(second) } => second,
            Call::Replay { calls } => calls,
            Call::Plan { questions, .. } => questions,
            _ => &[],
        }
    }

    /// The numbers lent to the call to read.
    pub fn listing(&self) -> &[u16] {
        match self {
            Call::Write { listing } | Call::WriteTree { listing } => listing,
            _ => &[],
        }
    }

    /// The same call with another listing, where it has one.
    pub fn with_listing(&self, listing: Vec<u16>) -> Call {
        match self {
            Call::Write { .. } => Call::Write { listing },
            Call::WriteTree { .. } => Call::WriteTree { listing },
            _ => self.clone(),
        }
    }

    /// The field that the call is given, if it is given one.
    pub fn field(&self) -> Option<usize> {
        match *self {
            Call::Enter { field, .. }
            | Call::Withdraw { field }
            | Call::Photograph { field }
            | Call::Filtered { relaxed: field }
            | Call::Row { field, .. }
            | Call::Plan { target: field, .. } => Some(field),
            _ => None,
        }
    }

    /// The code that the call is given, if it is given one.
    pub fn code(&self) -> Option<usize> {
        match *self {
            Call::Enter { code, .. } | Call::Row { code, .. } => Some(code),
            _ => None,
        }
    }

    /// Whether the call only reads the sheet.
    pub fn only_reads_sheet(&self) -> bool {
        OF_A_SHEET.contains(&self.name()) && !CHANGING.contains(&self.name())
    }

    /// Whether the call lists alternatives.
    pub fn lists(&self) -> bool {
        LISTING.contains(&self.name())
    }

    /// How many elements of a lent buffer suffice by the header; none where the call writes no buffer.
    pub fn sufficient(&self) -> Option<usize> {
        match self {
            Call::Filtered { .. } => Some(sighting::NUMBERS),
            Call::Alternatives | Call::Replay { .. } => Some(sighting::PAIRS_BYTES),
            Call::Nearest | Call::Store | Call::Lengthen { .. } => Some(sighting::STORED_BYTES),
            Call::StoreShort | Call::Shorten { .. } => Some(sighting::SHORT_BYTES),
            Call::Report { .. } => Some(sighting::REPORT_BYTES),
            Call::Show => Some(sighting::LISTING_NUMBERS),
            Call::Join { .. } | Call::Write { .. } | Call::WriteTree { .. } => Some(sighting::BOOK_BYTES),
            _ => None,
        }
    }
}

/// What a call writes, or what is lent to it for that: bytes, the numbers of a listing, or the numbers of a filtering. A call writes one
/// of them at most, and the others are empty.
#[derive(Clone, Debug, Default, PartialEq)]
pub struct Buffers {
    pub bytes: Vec<u8>,
    pub listing: Vec<u16>,
    pub numbers: Vec<u32>,
}

impl From<Vec<u8>> for Buffers {
    fn from(bytes: Vec<u8>) -> Buffers {
        Buffers { bytes, ..Buffers::default() }
    }
}

impl From<Vec<u16>> for Buffers {
    fn from(listing: Vec<u16>) -> Buffers {
        Buffers { listing, ..Buffers::default() }
    }
}

impl From<Vec<u32>> for Buffers {
    fn from(numbers: Vec<u32>) -> Buffers {
        Buffers { numbers, ..Buffers::default() }
    }
}

impl Buffers {
    /// The elements of the one that is not empty.
    pub fn elements(&self) -> usize {
        self.bytes.len().max(self.listing.len()).max(self.numbers.len())
    }

    /// Writes from the front, as far as it fits.
    pub fn write(&mut self, written: &Buffers) {
        self.bytes.iter_mut().zip(&written.bytes).for_each(|(element, &new)| *element = new);
        self.listing.iter_mut().zip(&written.listing).for_each(|(element, &new)| *element = new);
        self.numbers.iter_mut().zip(&written.numbers).for_each(|(element, &new)| *element = new);
    }
}

/// What a call answers where enough is lent: the counts or a refusal, the sheet handed back, what it writes, and how many elements have
/// to be lent for it.
#[derive(Debug, PartialEq)]
pub struct Answer {
    pub result: Result<Vec<u64>, Refusal>,
    pub sheet: Sheet,
    pub written: Buffers,
    pub asked: usize,
}

/// What a call leaves in all memory lent, with the number returned.
#[derive(Clone, Debug, PartialEq)]
pub struct Left {
    pub number: u64,
    pub cells: Vec<u64>,
    pub sheet: Sheet,
    pub out: Buffers,
}

impl Answer {
    /// What the call leaves of these buffers: a refusal writes nothing, and what lies behind the written part stays.
    pub fn left(&self, call: &Call, lent: &Buffers) -> Left {
        let mut left = Left { number: 0, cells: Vec::new(), sheet: self.sheet, out: lent.clone() };
        let result = match &self.result {
            Ok(_) if lent.elements() < self.asked => refuse(18, 0),
            other => other.clone(),
        };
        match result {
            Ok(counts) => {
                left.cells = [vec![0], counts].concat();
                left.out.write(&self.written);
            }
            Err(r) => {
                left.number = r.number;
                left.cells = vec![r.place];
            }
        }
        left.cells.resize(call.cells(), 0);
        left
    }
}
