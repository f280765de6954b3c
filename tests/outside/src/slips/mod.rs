//! Libraries that are wrong on purpose, each by one slip, to see that the cases tell it from the desk: a slip that no case catches
//! would pass unseen in the desk too.

mod calling;
mod counting;
mod doubting;
mod filtering;
mod joining;
mod lengthening;
mod lifting;
mod linking;
mod listing;
mod nearing;
mod pairing;
mod photographs;
mod places;
mod planning;
mod pointing;
mod profiling;
mod reading;
mod resending;
mod rows;
mod shortening;
mod straying;
mod versions;

use std::cell::RefCell;

use crate::book::Book;
use crate::calls::{Answer, Buffers, Call, Left};
use crate::desk::{Desk, Enter, Reading};
use crate::joining::Joining;
use crate::library::{Lent, Library};
use crate::nearest;
use crate::plan;
use crate::row::Search;
use crate::sheet::Sheet;
use crate::short;
pub use lifting::listed_although_empty;
pub use straying::Stray;

/// A slip in one call: in no other is it looked for.
pub struct Slip {
    pub name: String,
    pub call: &'static str,
    pub wrong: Wrong,
}

/// A slip as it is listed: what it does, the calls in which it is looked for, and what is wrong.
type Listed = (&'static str, &'static [&'static str], Wrong);

#[derive(Clone, Copy)]
pub enum Wrong {
    /// The desk has a wrong part.
    Part(fn(&mut Desk)),
    /// The desk counts different rows by this.
    Counted(fn(&Book) -> usize),
    /// The desk looks for the row behind a code by this.
    Sought(Search),
    /// The desk looks for the nearest full reading by this.
    Near(nearest::Search),
    /// The desk looks for the least number of questions by this.
    Least(plan::Search),
    /// The desk enters a code of a field by this.
    Entered(Enter),
    /// The desk loads short forms by this.
    Loaded(short::Load),
    /// The desk writes short forms by this.
    Stored(short::Store),
    /// The desk joins two books to this.
    Joined(fn(&Book, &Book) -> Book),
    /// The desk refuses two books by 25 where this is so.
    Differ(fn(&Book, &Book) -> bool),
    /// The desk refuses the result of joining by 26 where this is so.
    Breaks(fn(&Book) -> bool),
    /// The desk looks for a table of more than two fields by this.
    Wide(fn(&Book) -> Option<usize>),
    /// The desk looks for a table that closes a ring by this.
    Closing(fn(&Book) -> Option<usize>),
    /// The desk leaves something else than it answers.
    Left(fn(&Seen, &mut Left)),
    /// The desk touches memory that it may not touch.
    Memory(Stray),
}

/// What a desk knows when it leaves its answer.
pub struct Seen<'a> {
    pub call: &'a Call,
    pub book: &'a [u8],
    pub reading: &'a Reading,
    pub sheet: &'a Sheet,
    pub answer: &'a Answer,
    /// How many elements are lent to be written.
    pub lent: usize,
}

impl Slip {
    fn new(call: &'static str, what: &str, wrong: Wrong) -> Slip {
        Slip { name: format!("{call}: {what}"), call, wrong }
    }
}

/// All slips, each in each of its calls.
pub fn all() -> Vec<Slip> {
    let of_document_01 = [reading::SLIPS, filtering::SLIPS, calling::SLIPS].concat();
    let of_rows = [counting::SLIPS, pointing::SLIPS, nearing::SLIPS, planning::SLIPS].concat();
    let of_versions = [versions::SLIPS, places::SLIPS].concat();
    let of_photographs = [photographs::SLIPS, doubting::SLIPS, resending::SLIPS].concat();
    let of_forms = [listing::SLIPS, shortening::SLIPS, lengthening::SLIPS].concat();
    let of_joining = [joining::SLIPS, pairing::SLIPS].concat();
    let of_trees = [linking::SLIPS, profiling::SLIPS].concat();
    let of_books = [&of_joining[..], &of_trees].concat();
    let listed = [&of_document_01, &of_rows[..], &of_versions, &of_photographs, lifting::SLIPS, &of_forms, &of_books].concat();
    let in_each = |(what, calls, wrong): Listed| calls.iter().map(move |call| Slip::new(call, what, wrong));
    listed.into_iter().flat_map(in_each).chain(straying::slips()).collect()
}

/// A call with what the desk answers to it.
struct Answered {
    call: Call,
    book: Vec<u8>,
    sheet: Sheet,
    reading: Reading,
    answer: Answer,
}

/// The slow desk behind a library's interface.
#[derive(Default)]
pub struct SlowLibrary {
    desk: Desk,
    wrong: Option<Wrong>,
    /// The last call, which is made again and again with other lengths lent.
    last: RefCell<Option<Answered>>,
}

impl SlowLibrary {
    pub fn with(slip: &Slip) -> SlowLibrary {
        let mut desk = Desk::default();
        match slip.wrong {
            Wrong::Part(exchange) => exchange(&mut desk),
            Wrong::Counted(different_rows) => desk.different_rows = different_rows,
            Wrong::Sought(search) => desk.row = search,
            Wrong::Near(search) => desk.nearest = search,
            Wrong::Least(search) => desk.plan = search,
            Wrong::Entered(enter) => desk.enter = enter,
            Wrong::Loaded(load) => desk.load_short = load,
            Wrong::Stored(store) => desk.store_short = store,
            // what reading would refuse of a wrong result is written too
            Wrong::Joined(joined) => desk.joining = Joining { joined, breaks: pairing::is_over, ..desk.joining },
            Wrong::Differ(differ) => desk.joining.differ = differ,
            Wrong::Breaks(breaks) => desk.joining.breaks = breaks,
            Wrong::Wide(wide) => desk.trees.wide = wide,
            Wrong::Closing(closing) => desk.trees.closing = closing,
            _ => {}
        }
        SlowLibrary { desk, wrong: Some(slip.wrong), last: RefCell::default() }
    }

    /// The answer to the last call, if this one is the same, or the desk's.
    fn answered(&self, call: &Call, book: &[u8], sheet: Sheet) -> Answered {
        let last = self.last.take().filter(|last| last.call == *call && last.book == book && last.sheet == sheet);
        last.unwrap_or_else(|| {
            let reading = self.desk.reader.read(book);
            let answer = self.desk.answer(call, &reading, &sheet);
            Answered { call: call.clone(), book: book.to_vec(), sheet, reading, answer }
        })
    }
}

impl Library for SlowLibrary {
    unsafe fn call(&self, call: &Call, lent: &Lent) -> u64 {
        let (book, sheet) = (lent.book.elements(), lent.sheet());
        let answered = self.answered(call, book, sheet);
        let out = Buffers {
            bytes: lent.bytes.elements().to_vec(),
            listing: lent.shown.elements().to_vec(),
            numbers: lent.numbers.elements().to_vec(),
        };
        let mut left = answered.answer.left(call, &out);
        match &self.wrong {
            Some(Wrong::Left(change)) => {
                let (reading, answer) = (&answered.reading, &answered.answer);
                change(&Seen { call, book, reading, sheet: &sheet, answer, lent: out.elements() }, &mut left);
            }
            Some(Wrong::Memory(stray)) => stray.touch(lent),
            _ => {}
        }
        self.last.replace(Some(answered));
        if !call.only_reads_sheet() {
            lent.sheet.elements_mut().copy_from_slice(&left.sheet.bytes());
        }
        lent.cells.elements_mut().copy_from_slice(&left.cells);
        lent.bytes.elements_mut().copy_from_slice(&left.out.bytes);
        lent.shown.elements_mut().copy_from_slice(&left.out.listing);
        lent.numbers.elements_mut().copy_from_slice(&left.out.numbers);
        left.number
    }
}

#[cfg(test)]
mod tests {
    use super::{all, SlowLibrary};
    use crate::cases::{case, Case};
    use crate::compare::{trials, Rooms};
    use crate::desk::{Desk, Reading};
    use crate::examples::e4;
    use crate::random::Random;
    use crate::sheet::Sheet;

    #[test]
    fn a_desk_without_a_slip_is_not_caught() {
        let (desk, library, rooms) = (Desk::default(), SlowLibrary::default(), Rooms::default());
        for index in 0..200 {
            let case = case(1, index);
            let trials = trials(&case, &desk.reader.read(&case.book), 1, index);
            assert_eq!(trials.iter().find_map(|trial| rooms.difference(&library, &case, trial)), None);
        }
    }

    /// What is found first in the first cases, with the case's book as the right desk reads it.
    fn in_first_cases(found: impl Fn(&Rooms, &Case, &Reading) -> Option<String>) -> Option<String> {
        let (desk, rooms) = (Desk::default(), Rooms::default());
        (0..200).map(|index| case(1, index)).find_map(|case| found(&rooms, &case, &desk.reader.read(&case.book)))
    }

    fn named(name: &str) -> SlowLibrary {
        SlowLibrary::with(all().iter().find(|slip| slip.name == name).expect("it is listed"))
    }

    #[test]
    fn a_list_that_plain_filtering_does_not_give_is_seen() {
        let seen = |library| in_first_cases(|rooms, case, reading| rooms.disagreement(&library, case, reading)).is_some();
        assert!(!seen(SlowLibrary::default()));
        for name in [
            "alternatives: a field listed although another is empty",
            "alternatives: empty fields looked for with nothing lifted",
            "alternatives: photographed fields listed, their cases not counted",
            "alternatives: nothing listed beside a photograph",
            "filtered: a photographed field refused by 22",
        ] {
            assert!(seen(named(name)), "{name}");
        }
    }

    /// Nothing is found of the desk without a slip, and in some case of the one with each of these slips this problem.
    fn are_seen(slips: &[(&str, &str)], found: impl Fn(&SlowLibrary, &Rooms, &Case, &Reading) -> Option<String>) {
        let told = |library: SlowLibrary, problem: &str| {
            in_first_cases(|rooms, case, reading| found(&library, rooms, case, reading).filter(|told| told.contains(problem)))
        };
        assert_eq!(told(SlowLibrary::default(), ""), None);
        for (name, problem) in slips {
            assert!(told(named(name), problem).is_some(), "{name}: {problem}");
        }
    }

    #[test]
    fn rows_that_plain_filtering_and_the_listing_do_not_give_are_seen() {
        let slips = [
            ("row: the last row that keeps the code", "the row is not the first"),
            ("row: none in tables of one field", "the row is not the first"),
            ("row: tables without rows not filtered by", "the code stands, and a table with its field has no row"),
            ("row: an empty field empties all others", "the code does not stand, and each table with its field has a row"),
            ("show: no version", "an accepted book is not filtered, or not shown"),
        ];
        are_seen(&slips, |library, rooms, case, reading| rooms.row_disagreement(library, case, reading, &mut Random(1)));
    }

    #[test]
    fn readings_that_plain_filtering_does_not_give_are_seen() {
        let slips = [
            ("nearest: the last table not tested", "a code of the reading does not stand"),
            ("nearest: rows tested by their first column", "a code of the reading does not stand"),
            ("nearest: open fields written as 255", "a code of the reading does not stand"),
            ("nearest: all answered fields counted", "the reading is not the nearest to itself"),
        ];
        are_seen(&slips, |library, rooms, case, reading| rooms.reading_disagreement(library, case, reading));
    }

    #[test]
    fn plans_that_plain_filtering_does_not_give_are_seen() {
        let slips = [
            ("plan: a question where none is needed", "the target has at most one standing code"),
            ("plan: settled with two codes", "it is not one question more than behind the best question"),
            ("plan: one answer that settles suffices", "it is not one question more than behind the best question"),
            ("plan: a branch without a code to give not settled", "it is not one question more than behind the best question"),
            ("plan: only the first question that is open chosen", "it is not one question more than behind the best question"),
            ("plan: 27 for an empty list", "a list that may be asked is refused, here or one turn on"),
        ];
        are_seen(&slips, |library, rooms, case, reading| rooms.plan_disagreement(library, case, reading));
    }

    #[test]
    fn forms_that_the_way_back_does_not_give_are_seen() {
        let slips = [
            ("store_short: photographs lost", "a sheet stored and loaded is another"),
            ("store_short: fields from 32 on left out", "a new form loaded and stored is another"),
            ("shorten: 255 refused by 14", "a new form moved to the old and back is another"),
        ];
        are_seen(&slips, |library, rooms, case, reading| rooms.form_disagreement(library, case, reading));
    }

    #[test]
    fn joined_books_that_are_not_as_promised_are_seen() {
        let slips = [
            ("join: 26 for a table without rows", "two books that can be joined are not"),
            ("join: version 1", "the joined book is none of version 2"),
            ("join: the first book's rows, where it has the fields", "the other order gives another book"),
            ("join: falling rows", "a book in order joined with itself is another"),
            ("join: rows of any table on the same fields", "the full readings are not those of both"),
            ("join: tables on fields from 32 on left out", "a code that stands does not stand in each book"),
        ];
        are_seen(&slips, |library, rooms, case, reading| rooms.join_disagreement(library, case, reading));
    }

    #[test]
    fn tree_books_that_are_not_as_promised_are_seen() {
        let slips = [
            ("read_tree: 28 told as 27", "a book is refused by another number than 28 and 29"),
            ("read_tree: 29 at the last table that closes a ring", "28 or 29 is not at the first table that breaks the profile"),
            ("read_tree: 28 at the table behind", "28 or 29 is not at the first table that breaks the profile"),
            ("write_tree: 28 with reading's place", "what a book shows is not written as the book is read"),
            ("write_tree: 29 before 20", "a listing is refused that is one of a tree book, or has another refusal"),
            (
                "write_tree: tables of one field left out",
                "what is written is not read, not shown again, or not what writing writes",
            ),
        ];
        are_seen(&slips, |library, rooms, case, reading| rooms.tree_disagreement(library, case, reading));
    }

    #[test]
    fn codes_of_tree_books_that_full_readings_do_not_give_are_seen() {
        let slips = [
            ("alternatives: a field listed although another is empty", "listed"),
            ("alternatives: taking the alternatives from the codes standing now", "listed"),
            ("filtered: tables without rows not filtered by", "relaxed"),
            ("filtered: a photographed field not relaxed", "relaxed"),
        ];
        are_seen(&slips, |library, rooms, case, reading| rooms.meaning_disagreement(library, case, reading));
    }

    /// Where a ring is taken for a tree, its lines are seen to be of no full reading.
    #[test]
    fn lines_of_a_ring_are_seen() {
        let case = Case::new(e4().write(), Sheet::of(&[0]), Vec::new());
        let told = |library: SlowLibrary| Rooms::default().meaning_disagreement(&library, &case, &Ok(e4()));
        assert_eq!(told(SlowLibrary::default()), None);
        assert!(told(named("read_tree: no 29")).is_some_and(|told| told.contains("listed")));
    }

    #[test]
    fn names_are_different() {
        let mut names: Vec<String> = all().into_iter().map(|slip| slip.name).collect();
        let slips = names.len();
        names.sort();
        names.dedup();
        assert_eq!(names.len(), slips);
    }
}
