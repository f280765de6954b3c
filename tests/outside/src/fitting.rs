//! The nearest full reading that a library shows, held against its own plain filtering and against itself.

use crate::calls::{Call, Left};
use crate::cases::Case;
use crate::compare::{hex, Rooms};
use crate::desk::{opened, Reading};
use crate::library::Library;
use crate::memory::End;
use crate::sheet::{Sheet, NO_ANSWER};

/// What a library says of a reading that it has shown.
struct Said {
    reading: Vec<u8>,
    /// The numbers of plain filtering where the reading is entered; none where that is refused.
    numbers: Option<Vec<u32>>,
    /// What it shows where the reading is entered and all of it photographed.
    again: Option<Left>,
}

impl Said {
    /// What does not fit together.
    fn problem(&self) -> Option<&'static str> {
        let stand: Vec<u32> = self.reading.iter().map(|code| 1u32.checked_shl(*code as u32).unwrap_or(0)).collect();
        let itself = |left: &Left| left.number == 0 && left.cells[1..3] == [1, 0] && left.out.bytes == self.reading;
        match (self.numbers.as_ref() == Some(&stand), self.again.as_ref().is_some_and(itself)) {
            (false, _) => Some("a code of the reading does not stand where all of it is entered"),
            (_, false) => Some("the reading is not the nearest to itself"),
            _ => None,
        }
    }
}

impl Rooms {
    /// Where a reading that the library shows is not full by its plain filtering, or not the nearest to itself. By a book or a sheet that
    /// has to be refused, and where there is none, nothing is held against anything.
    pub fn reading_disagreement(&self, library: &dyn Library, case: &Case, reading: &Reading) -> Option<String> {
        let book = opened(reading, &case.sheet).ok()?;
        let lent = vec![NO_ANSWER; book.counts.len()].into();
        let left = self.left(library, case, &Call::Nearest, &lent, End::Back)?;
        let shown = Some(left.out.bytes).filter(|_| left.number == 0 && left.cells[1] == 1)?;
        let sheet = Sheet::of(&shown);
        let entered = Case::new(case.book.clone(), sheet, Vec::new());
        let photographed = Case::new(case.book.clone(), sheet.photographed_where(|field| field < shown.len()), Vec::new());
        let numbers = self.numbers(library, &entered, book, NO_ANSWER as usize);
        let again = self.left(library, &photographed, &Call::Nearest, &lent, End::Back);
        let said = Said { reading: shown, numbers, again };
        said.problem().map(|problem| {
            let (book, sheet, reading) = (hex(&case.book), hex(&case.sheet.bytes()), &said.reading);
            format!("book {book}\nsheet {sheet}\nreading {reading:?}: {problem}")
        })
    }
}
