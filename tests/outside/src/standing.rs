//! The rows that a library shows, held against its own plain filtering and its own listing of the book.

use crate::asking::some_code;
use crate::book::Book;
use crate::calls::Call;
use crate::cases::Case;
use crate::compare::{hex, Rooms};
use crate::desk::{opened, Reading};
use crate::library::Library;
use crate::listing::{ListedTable, Listing};
use crate::memory::End;
use crate::random::Random;
use crate::row::told;
use crate::sheet::{Sheet, NO_ANSWER};

/// How many codes of a case are looked at.
const CODES: usize = 3;

/// What a library says of a book and a sheet beside the rows.
struct Said {
    tables: Vec<ListedTable>,
    /// For each field a number with bit c set where code c stands.
    numbers: Vec<u32>,
}

/// What it says of one code of a field.
struct OfCode {
    stands: bool,
    /// The answers leave the field this code.
    is_allowed: bool,
    /// For each table with the field, the row by its listing and by what stands.
    by_hand: Vec<Option<u64>>,
    /// The cells behind the place as the library tells them; none where it refuses.
    shown: Vec<Option<Vec<u64>>>,
}

/// A field, mostly one with a table, and a code of it, often the one held.
fn some_point(r: &mut Random, book: &Book, sheet: &Sheet) -> (usize, usize) {
    let tied = if book.tables.is_empty() { &[] } else { &book.tables[r.from(0, book.tables.len() - 1)].fields[..] };
    let any = r.from(0, book.counts.len() - 1);
    let field = if tied.is_empty() || r.one_in(8) { any } else { r.one_of(tied) as usize };
    match sheet.answers[field] {
        held if held != NO_ANSWER && r.one_in(2) => (field, held as usize),
        _ => (field, some_code(r, book, field)),
    }
}

impl Said {
    fn stands(&self, field: usize, code: usize) -> bool {
        self.numbers[field] >> code & 1 == 1
    }

    /// The first row of the table with the code of the field and standing codes of its other fields.
    fn by_hand(&self, table: usize, field: usize, code: usize) -> Option<u64> {
        let ListedTable { fields, codes, .. } = &self.tables[table];
        let is_kept = |row: &[u16]| {
            let mut columns = fields.iter().map(|&f| f as usize).zip(row.iter().map(|&c| c as usize));
            columns.all(|(f, c)| if f == field { c == code } else { self.stands(f, c) })
        };
        codes.chunks(fields.len()).position(is_kept).map(|row| row as u64)
    }

    fn tables_with(&self, field: usize) -> impl Iterator<Item = usize> + '_ {
        (0..self.tables.len()).filter(move |&table| self.tables[table].fields.contains(&(field as u16)))
    }
}

impl OfCode {
    /// What does not fit together.
    fn problem(&self) -> Option<&'static str> {
        let fits = self.by_hand.iter().zip(&self.shown).all(|(&row, shown)| shown.as_ref() == Some(&told(row)));
        let in_each = self.by_hand.iter().all(Option::is_some);
        match (fits, self.stands, in_each) {
            (false, ..) => Some("the row is not the first with only standing codes beside the code"),
            (_, true, false) => Some("the code stands, and a table with its field has no row"),
            (_, false, true) if self.is_allowed => Some("the code does not stand, and each table with its field has a row"),
            _ => None,
        }
    }
}

impl Rooms {
    fn said(&self, library: &dyn Library, case: &Case, book: &Book) -> Option<Said> {
        let numbers = self.numbers(library, case, book, NO_ANSWER as usize)?;
        let lent = vec![0u16; sighting::LISTING_NUMBERS].into();
        let left = self.left(library, case, &Call::Show, &lent, End::Back)?;
        let shown = left.out.listing.get(..left.cells[1] as usize).filter(|_| left.number == 0)?;
        Some(Said { tables: Listing::taken_apart(shown).ok()?.tables, numbers })
    }

    fn of_code(&self, library: &dyn Library, case: &Case, said: &Said, field: usize, code: usize) -> OfCode {
        let shown = |table: usize| {
            let left = self.left(library, case, &Call::Row { field, code, table }, &Vec::<u8>::new().into(), End::Back)?;
            (left.number == 0).then(|| left.cells[1..].to_vec())
        };
        OfCode {
            stands: said.stands(field, code),
            is_allowed: [NO_ANSWER, code as u8].contains(&case.sheet.answers[field]),
            by_hand: said.tables_with(field).map(|table| said.by_hand(table, field, code)).collect(),
            shown: said.tables_with(field).map(shown).collect(),
        }
    }

    /// Where the rows behind some codes are not what the library's plain filtering and its listing say. A book or a sheet that has to
    /// be refused has none.
    pub fn row_disagreement(&self, library: &dyn Library, case: &Case, reading: &Reading, r: &mut Random) -> Option<String> {
        let book = opened(reading, &case.sheet).ok()?;
        let Some(said) = self.said(library, case, book) else {
            return Some("an accepted book is not filtered, or not shown".to_string());
        };
        (0..CODES).find_map(|_| {
            let (field, code) = some_point(r, book, &case.sheet);
            let of_code = self.of_code(library, case, &said, field, code);
            of_code.problem().map(|problem| {
                let (book, sheet, OfCode { by_hand, shown, .. }) = (hex(&case.book), hex(&case.sheet.bytes()), &of_code);
                format!("book {book}\nsheet {sheet}\nfield {field} code {code}: {problem}\nby hand {by_hand:?}\nshown {shown:?}")
            })
        })
    }
}
