//! Libraries to compare, behind one function: the library as it is exported, and its safe wrapper.

use sighting::{ffi, Alternatives, Counts, Refusal};

use crate::calls::{Call, CHANGING, MAKING};
use crate::memory::Part;
use crate::nearest;
use crate::plan;
use crate::row;
use crate::sheet::Sheet;

/// The memory lent to one call; what it has no use for is empty.
pub struct Lent {
    /// To be read only.
    pub book: Part<u8>,
    /// A stored sheet, a list of calls or of questions, or a second book, to be read only.
    pub list: Part<u8>,
    /// To be read only.
    pub listing: Part<u16>,
    /// To be read only by the calls that leave the sheet alone.
    pub sheet: Part<u8>,
    pub cells: Part<u64>,
    pub bytes: Part<u8>,
    pub shown: Part<u16>,
    pub numbers: Part<u32>,
}

impl Lent {
    /// The sheet as it is given.
    ///
    /// # Safety
    /// A sheet is lent.
    pub unsafe fn sheet(&self) -> Sheet {
        Sheet::from_bytes(self.sheet.elements().try_into().expect("a sheet has its bytes"))
    }
}

impl From<Sheet> for sighting::Sheet {
    fn from(sheet: Sheet) -> sighting::Sheet {
        sighting::Sheet::from(sheet.bytes())
    }
}

pub trait Library {
    /// Makes the call on the memory lent, and answers its number.
    ///
    /// # Safety
    /// The memory is what `include/sighting.h` asks for.
    unsafe fn call(&self, call: &Call, lent: &Lent) -> u64;
}

/// The library by its exported functions.
pub struct Exported;

impl Library for Exported {
    unsafe fn call(&self, call: &Call, lent: &Lent) -> u64 {
        let (b, n, s, o) = (lent.book.at, lent.book.len, lent.sheet.at, lent.cells.at);
        let (list, list_len, out, lent_len) = (lent.list.at, lent.list.len, lent.bytes.at, lent.bytes.len);
        match call {
            Call::Read => ffi::sighting_read(b, n, o),
            Call::Fresh => {
                ffi::sighting_fresh(s);
                0
            }
            Call::Clear => {
                ffi::sighting_clear(s);
                0
            }
            Call::Enter { field, code } => ffi::sighting_enter(s, b, n, *field, *code, o),
            Call::Withdraw { field } => ffi::sighting_withdraw(s, b, n, *field, o),
            Call::Photograph { field } => ffi::sighting_photograph(s, b, n, *field, o),
            Call::Filtered { relaxed } => ffi::sighting_filtered(s, b, n, *relaxed, lent.numbers.at, lent.numbers.len, o),
            Call::Alternatives => ffi::sighting_alternatives(s, b, n, out, lent_len, o),
            Call::Row { field, code, table } => ffi::sighting_row(s, b, n, *field, *code, *table, o),
            Call::Nearest => ffi::sighting_nearest(s, b, n, out, lent_len, o),
            Call::Plan { target, .. } => ffi::sighting_plan(s, b, n, *target, list, list_len, o),
            Call::Load { .. } => ffi::sighting_load(s, b, n, list, list_len, o),
            Call::Store => ffi::sighting_store(s, b, n, out, lent_len, o),
            Call::LoadShort { .. } => ffi::sighting_load_short(s, b, n, list, list_len, o),
            Call::StoreShort => ffi::sighting_store_short(s, b, n, out, lent_len, o),
            Call::Shorten { .. } => ffi::sighting_shorten(b, n, list, list_len, out, lent_len, o),
            Call::Lengthen { .. } => ffi::sighting_lengthen(b, n, list, list_len, out, lent_len, o),
            Call::Join { second: Some(_) } => ffi::sighting_join(b, n, list, list_len, out, lent_len, o),
            Call::Join { second: None } => ffi::sighting_join(b, n, b, n, out, lent_len, o),
            Call::Replay { .. } => ffi::sighting_replay(s, b, n, list, list_len, out, lent_len, o),
            Call::Report { .. } => ffi::sighting_report(b, n, list, list_len, out, lent_len, o),
            Call::Show => ffi::sighting_show(b, n, lent.shown.at, lent.shown.len, o),
            Call::Write { .. } => ffi::sighting_write(lent.listing.at, lent.listing.len, out, lent_len, o),
            Call::ReadTree => ffi::sighting_read_tree(b, n, o),
            Call::WriteTree { .. } => ffi::sighting_write_tree(lent.listing.at, lent.listing.len, out, lent_len, o),
        }
    }
}

/// The library by its safe wrapper. What that hides, a refused load's sheet and a refusal's counts, is taken as document 01 has it.
pub struct Wrapper;

impl Library for Wrapper {
    unsafe fn call(&self, call: &Call, lent: &Lent) -> u64 {
        let (book, list) = (lent.book.elements(), lent.list.elements());
        let (bytes, numbers) = (lent.bytes.elements_mut(), lent.numbers.elements_mut());
        let given = sighting::Sheet::from(lent.sheet());
        let mut sheet = given;
        let result = match call {
            Call::Read => counts_of(sighting::read(book)),
            Call::Fresh => handed_back(Ok(sighting::Sheet::fresh()), &mut sheet),
            Call::Clear => cleared(&mut sheet),
            Call::Enter { field, code } => nothing_counted(sheet.enter(book, *field, *code)),
            Call::Withdraw { field } => nothing_counted(sheet.withdraw(book, *field)),
            Call::Photograph { field } => nothing_counted(sheet.photograph(book, *field)),
            Call::Filtered { relaxed } => nothing_counted(sheet.filtered(book, field_of(*relaxed), numbers)),
            Call::Alternatives => counts(sheet.alternatives(book, bytes)),
            Call::Row { field, code, table } => sheet.row(book, *field, *code, *table).map(row::told),
            Call::Nearest => {
                sheet.nearest(book, bytes).map(|found| nearest::told(found.map(|found| [found.differing, found.written])))
            }
            Call::Plan { target, .. } => sheet.plan(book, *target, list).map(plan::told),
            Call::Load { .. } => handed_back(sighting::Sheet::load(book, list), &mut sheet),
            Call::Store => nothing_counted(sheet.store(book, bytes)),
            Call::LoadShort { .. } => handed_back(sighting::Sheet::load_short(book, list), &mut sheet),
            Call::StoreShort => one_count(sheet.store_short(book, bytes)),
            Call::Shorten { .. } => one_count(sighting::shorten(book, list, bytes)),
            Call::Lengthen { .. } => one_count(sighting::lengthen(book, list, bytes)),
            Call::Join { second } => one_count(sighting::join(book, second.as_ref().map_or(book, |_| list), bytes)),
            Call::Replay { .. } => replayed(sighting::Sheet::replay(book, list, bytes), &mut sheet),
            Call::Report { .. } => one_count(sighting::report(book, list, bytes)),
            Call::Show => one_count(sighting::show(book, lent.shown.elements_mut())),
            Call::Write { .. } => one_count(sighting::write(lent.listing.elements(), bytes)),
            Call::ReadTree => counts_of(sighting::read_tree(book)),
            Call::WriteTree { .. } => one_count(sighting::write_tree(lent.listing.elements(), bytes)),
        };
        // the wrapper's sheet has 1 for any byte of a photograph but 0, so one that stays as it was given is not written
        let is_changed = CHANGING.contains(&call.name()) && (result.is_ok() || sheet != given);
        if is_changed || MAKING.contains(&call.name()) {
            lent.sheet.elements_mut().copy_from_slice(sheet.bytes());
        }
        told(result, lent.cells.elements_mut())
    }
}

fn cleared(sheet: &mut sighting::Sheet) -> Result<Vec<u64>, Refusal> {
    sheet.clear();
    Ok(Vec::new())
}

fn counts_of(result: Result<Counts, Refusal>) -> Result<Vec<u64>, Refusal> {
    result.map(|c| vec![c.fields, c.tables, c.rows, c.different_rows])
}

fn counts(result: Result<Alternatives, Refusal>) -> Result<Vec<u64>, Refusal> {
    result.map(|found| vec![found.total, found.struck])
}

/// The field relaxed, or none for 255.
fn field_of(relaxed: usize) -> Option<usize> {
    Some(relaxed).filter(|&f| f != sighting::NO_ANSWER as usize)
}

/// Hands the sheet reached back.
fn replayed(answer: (sighting::Sheet, Result<Alternatives, Refusal>), sheet: &mut sighting::Sheet) -> Result<Vec<u64>, Refusal> {
    *sheet = answer.0;
    counts(answer.1)
}

fn one_count(result: Result<u64, Refusal>) -> Result<Vec<u64>, Refusal> {
    result.map(|count| vec![count])
}

/// Hands the sheet loaded back, and a fresh one where that is refused.
fn handed_back(loaded: Result<sighting::Sheet, Refusal>, sheet: &mut sighting::Sheet) -> Result<Vec<u64>, Refusal> {
    *sheet = loaded.unwrap_or_default();
    nothing_counted(loaded.map(drop))
}

fn nothing_counted(result: Result<(), Refusal>) -> Result<Vec<u64>, Refusal> {
    result.map(|()| Vec::new())
}

/// The wrapper's answer as number and cells.
fn told(result: Result<Vec<u64>, Refusal>, cells: &mut [u64]) -> u64 {
    let (number, place, counts) = match result {
        Ok(counts) => (0, 0, counts),
        Err(r) => (r.number, r.place, Vec::new()),
    };
    let told = [place].into_iter().chain(counts).chain(std::iter::repeat(0));
    cells.iter_mut().zip(told).for_each(|(cell, value)| *cell = value);
    number
}

/// The library by its safe wrapper, but the calls of a list are made one by one, and then the alternatives.
pub struct OneByOne;

impl Library for OneByOne {
    unsafe fn call(&self, call: &Call, lent: &Lent) -> u64 {
        let Call::Replay { calls } = call else {
            return Wrapper.call(call, lent);
        };
        let book = lent.book.elements();
        let (_, reached) = one_by_one(book, calls);
        lent.sheet.elements_mut().copy_from_slice(reached.bytes());
        let found = reached.alternatives(book, lent.bytes.elements_mut());
        told(counts(found), lent.cells.elements_mut())
    }
}

/// The calls of a list one by one, each on the sheet handed back before and the first on a fresh one: the number of each, and the last
/// sheet.
pub fn one_by_one(book: &[u8], calls: &[u8]) -> (Vec<u64>, sighting::Sheet) {
    let mut sheet = sighting::Sheet::fresh();
    let mut numbers = Vec::new();
    for call in calls.chunks_exact(3) {
        let (field, code) = (call[1] as usize, call[2] as usize);
        let result = match call[0] {
            0 => sheet.enter(book, field, code),
            1 => sheet.withdraw(book, field),
            2 => {
                sheet.clear();
                Ok(())
            }
            3 => sheet.photograph(book, field),
            _ => Ok(()),
        };
        numbers.push(result.map_or_else(|r| r.number, |()| 0));
    }
    (numbers, sheet)
}

/// The listing that the library shows for a book.
pub fn shown(book: &[u8]) -> Result<Vec<u16>, Refusal> {
    let mut out = vec![0; sighting::LISTING_NUMBERS];
    let written = sighting::show(book, &mut out)?;
    out.truncate(written as usize);
    Ok(out)
}

/// The bytes that the library writes for a listing.
pub fn written(listing: &[u16]) -> Result<Vec<u8>, Refusal> {
    let mut out = vec![0; sighting::BOOK_BYTES];
    let written = sighting::write(listing, &mut out)?;
    out.truncate(written as usize);
    Ok(out)
}

#[cfg(test)]
mod tests {
    use super::{Exported, Library, Wrapper};
    use crate::book::{Book, Table};
    use crate::calls::Call;
    use crate::cases::Case;
    use crate::compare::{trials, Rooms};
    use crate::random::Random;
    use crate::reader::Reader;
    use crate::sheet::{FRESH, NO_ANSWER};

    /// Different rows of four codes from 0 to 31, rising.
    fn rows(how_many: usize) -> Vec<Vec<u8>> {
        let code = |i: usize, shift: usize| ((i >> shift & 7) * 31 / 7) as u8;
        (0..how_many).map(|i| [9, 6, 3, 0].map(|shift| code(i, shift)).to_vec()).collect()
    }

    /// The rows and different rows of a book of one table, or the number and place of its refusal. Reading it and reporting it with no
    /// answers leave what the slow desk leaves, bare and by the wrapper.
    fn counted(rows: &[Vec<u8>]) -> Result<(u64, u64), (u64, u64)> {
        let table = Table { fields: vec![0, 1, 2, 3], rows: rows.to_vec() };
        let book = Book::new(vec![32; 4], vec![table]).write();
        let calls = vec![Call::Read, Call::Report { form: vec![NO_ANSWER; 4] }];
        let case = Case::new(book, FRESH, calls);
        let rooms = Rooms::default();
        for trial in trials(&case, &Reader::default().read(&case.book), 1, 0) {
            let libraries: [&dyn Library; 2] = [&Exported, &Wrapper];
            libraries.iter().for_each(|library| assert_eq!(rooms.difference(*library, &case, &trial), None));
        }
        sighting::read(&case.book).map(|counts| (counts.rows, counts.different_rows)).map_err(|r| (r.number, r.place))
    }

    #[test]
    fn different_rows_of_the_largest_table() {
        let mut most = rows(4_096);
        assert_eq!(counted(&most), Ok((4_096, 4_096)));
        most.reverse();
        assert_eq!(counted(&most), Ok((4_096, 4_096)));
        Random(1).shuffle(&mut most);
        assert_eq!(counted(&most), Ok((4_096, 4_096)));
        assert_eq!(counted(&vec![most[0].clone(); 4_096]), Ok((4_096, 1)));
        assert_eq!(counted(&[rows(2_048), rows(2_048)].concat()), Ok((4_096, 2_048)));
        assert_eq!(counted(&[rows(4_095), rows(1)].concat()), Ok((4_096, 4_095)));
        assert_eq!(counted(&[rows(4_096), rows(1)].concat()), Err((12, 0)));
        assert_eq!(counted(&vec![most[0].clone(); 4_097]), Err((12, 0)));
    }

    /// At each length of a table, with rows that rise, fall or stand in no order, the last row is new, or it is the first again, or the one before
    /// it again.
    #[test]
    fn one_repeat_at_each_edge() {
        for length in [1, 2, 15, 16, 17, 18, 63, 64, 65, 66, 95, 96, 97, 98, 255, 256, 257] {
            let falling: Vec<Vec<u8>> = rows(length).into_iter().rev().collect();
            let mut mixed = rows(length);
            Random(length as u64).shuffle(&mut mixed);
            for different in [rows(length), falling, mixed] {
                assert_eq!(counted(&different), Ok((length as u64, length as u64)));
                for repeated in [&different[..1], &different[length - 1..]] {
                    assert_eq!(counted(&[&different, repeated].concat()), Ok((length as u64 + 1, length as u64)));
                }
            }
        }
    }

    #[test]
    fn rows_that_part_in_one_column() {
        for column in 0..4 {
            let row = |code: u8| (0..4).map(|k| if k == column { code } else { 31 }).collect::<Vec<u8>>();
            for repeats in [1, 2, 3, 128] {
                let rows: Vec<Vec<u8>> = (0..32 * repeats).map(|i| row(i as u8 % 32)).collect();
                assert_eq!(counted(&rows), Ok((rows.len() as u64, 32)));
            }
        }
    }
}
