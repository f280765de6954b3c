//! Wrong calls: arguments taken otherwise, refusals in another order, and memory left otherwise.

use super::{
    Listed, Seen,
    Wrong::{Left, Part},
};
use crate::book::{refuse, Book, Refusal};
use crate::calls::{self, Call, CHANGING, OF_A_CODE, OF_A_FIELD, OF_A_FORM, OF_A_SHEET, ONE_FOR_EACH, TELLING};
use crate::compare::UNWRITTEN;
use crate::desk::{faults, Desk};
use crate::filter::largest;
use crate::reader::field_list;
use crate::sheet::{Sheet, FRESH, NO_ANSWER};

/// The calls that write numbers or bytes without a count.
const UNCOUNTED: &[&str] = &["filtered", "store"];
/// The calls that refuse a field without an answer.
const OF_AN_ANSWER: &[&str] = &["withdraw", "photograph", "filtered"];
/// The calls that write and have a count.
const COUNTING: &[&str] =
    &["alternatives", "nearest", "store_short", "shorten", "lengthen", "join", "replay", "report", "show", "write", "write_tree"];

pub const SLIPS: &[Listed] = &[
    ("a field taken as a byte", OF_A_FIELD, Part(|desk| desk.taken = |call| taken(call, byte, whole))),
    ("a field taken as 16 bits", OF_A_FIELD, Part(|desk| desk.taken = |call| taken(call, two_bytes, whole))),
    ("a field taken as 32 bits", OF_A_FIELD, Part(|desk| desk.taken = |call| taken(call, word, whole))),
    ("a code taken as a byte", OF_A_CODE, Part(|desk| desk.taken = |call| taken(call, whole, byte))),
    ("a code taken as 16 bits", OF_A_CODE, Part(|desk| desk.taken = |call| taken(call, whole, two_bytes))),
    ("a code taken as 32 bits", OF_A_CODE, Part(|desk| desk.taken = |call| taken(call, whole, word))),
    ("a code by its low five bits", OF_A_CODE, Part(|desk| desk.taken = |call| taken(call, whole, |code| code % 32))),
    ("a list of calls that stops after ten", &["replay"], Part(|desk| desk.taken = ten_calls)),
    ("an incomplete last call made", &["replay"], Part(|desk| desk.taken = completed)),
    ("14 tested before 19", OF_A_FORM, Part(|desk| desk.load = fault_first)),
    ("14 tested before 8 to 13", OF_A_SHEET, Left(fault_before_tables)),
    ("14 names the last place at fault", OF_A_SHEET, Left(last_fault_named)),
    ("15 tested before 14", OF_A_FIELD, Left(|seen, left| before(left, 14, 15, || seen.has_no_field()))),
    ("16 tested before 14", OF_A_CODE, Left(|seen, left| before(left, 14, 16, || seen.has_no_code()))),
    ("17 tested before 14", OF_AN_ANSWER, Left(|seen, left| before(left, 14, 17, || seen.has_no_answer()))),
    ("17 tested before 15", OF_AN_ANSWER, Left(|_, left| before(left, 15, 17, || true))),
    ("18 tested before 14", ONE_FOR_EACH, Left(|seen, left| before(left, 14, 18, || seen.lacks_room()))),
    ("18 tested before 15", &["filtered"], Left(|seen, left| before(left, 15, 18, || seen.lacks_room()))),
    ("18 tested before 17", &["filtered"], Left(|seen, left| before(left, 17, 18, || seen.lacks_room()))),
    ("a code that does not stand refused by 16", &["enter"], Left(standing_codes_only)),
    ("18 where just enough is lent", UNCOUNTED, Left(more_room_asked)),
    ("18 where just enough is lent", COUNTING, Left(more_room_asked)),
    ("18 only after what fits was written", UNCOUNTED, Left(written_as_it_fits)),
    ("18 only after what fits was written", COUNTING, Left(written_as_it_fits)),
    ("18 with its counts", COUNTING, Left(counted_and_refused)),
    ("zeros behind what is written", UNCOUNTED, Left(cleared_behind)),
    ("zeros behind what is written", COUNTING, Left(cleared_behind)),
    ("a refusal clears the sheet", CHANGING, Left(|_, left| if_refused(left, |left| left.sheet = FRESH))),
    ("a refusal clears the sheet", &["replay"], Left(|_, left| if_refused(left, |left| left.sheet = FRESH))),
    ("a refusal leaves the sheet", &["load", "load_short"], Left(|seen, left| if_refused(left, |left| left.sheet = *seen.sheet))),
    ("a refusal's place not written", TELLING, Left(|_, left| if_refused(left, |left| left.cells[0] = UNWRITTEN))),
    ("an accepted call's place not written", TELLING, Left(place_unwritten)),
];

pub fn whole(number: usize) -> usize {
    number
}

fn byte(number: usize) -> usize {
    number as u8 as usize
}

fn two_bytes(number: usize) -> usize {
    number as u16 as usize
}

fn word(number: usize) -> usize {
    number as u32 as usize
}

/// The call with its field and its code taken so.
pub fn taken(call: &Call, field_as: fn(usize) -> usize, code_as: fn(usize) -> usize) -> Call {
    match *call {
        Call::Enter { field, code } => Call::Enter { field: field_as(field), code: code_as(code) },
        Call::Withdraw { field } => Call::Withdraw { field: field_as(field) },
        Call::Photograph { field } => Call::Photograph { field: field_as(field) },
        Call::Filtered { relaxed } => Call::Filtered { relaxed: field_as(relaxed) },
        Call::Row { field, code, table } => Call::Row { field: field_as(field), code: code_as(code), table },
        Call::Plan { target, ref questions } => Call::Plan { target: field_as(target), questions: questions.clone() },
        _ => call.clone(),
    }
}

fn ten_calls(call: &Call) -> Call {
    let mut calls = call.list().to_vec();
    calls.truncate(30);
    Call::Replay { calls }
}

fn completed(call: &Call) -> Call {
    let mut calls = call.list().to_vec();
    calls.resize(calls.len().next_multiple_of(3), 0);
    Call::Replay { calls }
}

fn fault_first(book: &Book, form: &[u8]) -> Result<Sheet, Refusal> {
    let fields = form.len().min(book.counts.len());
    match faults(book, &Sheet::of(&form[..fields])).next() {
        Some(place) => refuse(14, place),
        None => (Desk::default().load)(book, form),
    }
}

impl Seen<'_> {
    pub fn accepted(&self) -> &Book {
        self.reading.as_ref().expect("14 to 19, 21 to 27, and 28 and 29 of reading come after the book was read")
    }

    pub fn field(&self) -> usize {
        self.call.field().unwrap_or(NO_ANSWER as usize)
    }

    fn has_no_field(&self) -> bool {
        let none_asked = self.field() == NO_ANSWER as usize && matches!(self.call, Call::Filtered { .. });
        self.field() >= self.accepted().counts.len() && !none_asked
    }

    fn has_no_code(&self) -> bool {
        let count = self.accepted().counts.get(self.field());
        self.call.code().is_some_and(|code| count.is_some_and(|&count| code >= count as usize))
    }

    pub fn has_no_answer(&self) -> bool {
        self.field() < self.accepted().counts.len() && !self.sheet.is_answered(self.field())
    }

    /// Fewer elements are lent than the book has fields.
    pub fn lacks_room(&self) -> bool {
        self.lent < self.accepted().counts.len()
    }
}

/// Looks at the sheet as soon as the field list is known.
fn fault_before_tables(seen: &Seen, left: &mut calls::Left) {
    let counts = field_list(seen.book).map(|(_, counts)| counts.to_vec()).filter(|_| (8..=13).contains(&left.number));
    let place = counts.and_then(|counts| faults(&Book::new(counts, Vec::new()), seen.sheet).next());
    if let Some(place) = place {
        left.number = 14;
        left.cells[0] = place as u64;
    }
}

fn last_fault_named(seen: &Seen, left: &mut calls::Left) {
    if left.number == 14 {
        left.cells[0] = faults(seen.accepted(), seen.sheet).last().expect("a place is at fault") as u64;
    }
}

fn standing_codes_only(seen: &Seen, left: &mut calls::Left) {
    if let (0, &Call::Enter { field, code }) = (left.number, seen.call) {
        if !largest(seen.accepted(), &seen.sheet.answers)[field][code] {
            left.number = 16;
            left.sheet = *seen.sheet;
        }
    }
}

/// Tells a refusal by another number, where that one holds too. Neither writes anything.
pub fn before(left: &mut calls::Left, number: u64, other: u64, holds: impl Fn() -> bool) {
    if left.number == number && holds() {
        left.number = other;
        left.cells.fill(0);
    }
}

/// Refuses an accepted call where it is so.
pub fn refuse_where(left: &mut calls::Left, number: u64, so: impl Fn() -> bool) {
    if left.number == 0 && so() {
        left.number = number;
        left.cells.fill(0);
    }
}

pub fn if_refused(left: &mut calls::Left, change: impl Fn(&mut calls::Left)) {
    if left.number != 0 {
        change(left);
    }
}

pub fn if_accepted(left: &mut calls::Left, change: impl Fn(&mut calls::Left)) {
    if left.number == 0 {
        change(left);
    }
}

/// Names another place with a refusal of this number.
pub fn with_place(left: &mut calls::Left, number: u64, other: impl Fn(u64) -> u64) {
    if left.number == number {
        left.cells[0] = other(left.cells[0]);
    }
}

/// Refuses by 18 what has more elements than this.
pub fn longer_refused(seen: &Seen, left: &mut calls::Left, most: usize) {
    if left.number == 0 && seen.answer.written.elements() > most {
        refused_by_18(left);
    }
}

pub fn refused_by_18(left: &mut calls::Left) {
    left.number = 18;
    left.cells.fill(0);
}

fn more_room_asked(seen: &Seen, left: &mut calls::Left) {
    if left.number == 0 && seen.answer.asked == seen.lent {
        refused_by_18(left);
    }
}

fn written_as_it_fits(seen: &Seen, left: &mut calls::Left) {
    if left.number == 18 {
        left.out.write(&seen.answer.written);
    }
}

fn counted_and_refused(seen: &Seen, left: &mut calls::Left) {
    if let (18, Ok(counts)) = (left.number, &seen.answer.result) {
        left.cells[1..].copy_from_slice(counts);
    }
}

fn cleared_behind(seen: &Seen, left: &mut calls::Left) {
    if left.number == 0 {
        let written = &seen.answer.written;
        left.out.bytes[written.bytes.len()..].fill(0);
        left.out.listing[written.listing.len()..].fill(0);
        left.out.numbers[written.numbers.len()..].fill(0);
    }
}

fn place_unwritten(_: &Seen, left: &mut calls::Left) {
    if left.number == 0 {
        left.cells[0] = UNWRITTEN;
    }
}
