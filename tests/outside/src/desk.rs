//! The desk, slowly and from documents 01 and 02 alone: what every call answers. It is put together from parts, so that a desk with a
//! slip is the right one with another part.

use crate::book::{refuse, Book, Refusal};
use crate::calls::{Answer, Buffers, Call};
use crate::filter::{alternatives, largest, relaxed, Alternatives, Filter, Subdomain};
use crate::joining::Joining;
use crate::listing::{self, Listing};
use crate::nearest::{self, is_too_large};
use crate::plan::{self, Planned, Position};
use crate::reader::Reader;
use crate::row::{self, Pointed};
use crate::sheet::{Sheet, FRESH, NO_ANSWER, PLACES};
use crate::short;
use crate::text::report;
use crate::trees::Trees;

/// What reading a book answers.
pub type Reading = Result<Book, Refusal>;

/// The sheet after a code of a field was entered, and 22.
pub type Enter = fn(&Sheet, usize, u8) -> Result<Sheet, Refusal>;

/// The number of each call of a list, and the sheet after the last.
pub type Reached = (Vec<u64>, Sheet);

pub struct Desk {
    pub reader: Reader,
    pub different_rows: fn(&Book) -> usize,
    pub largest: Filter,
    pub alternatives: fn(&Book, &Sheet, Filter) -> Alternatives,
    pub row: row::Search,
    pub nearest: nearest::Search,
    pub plan: plan::Search,
    pub load: fn(&Book, &[u8]) -> Result<Sheet, Refusal>,
    pub load_short: short::Load,
    pub store_short: short::Store,
    pub joining: Joining,
    pub trees: Trees,
    pub enter: Enter,
    /// One call of a list: its number, and the sheet after it.
    pub step: fn(Enter, &Book, &mut Sheet, &[u8]) -> u64,
    /// What a list of calls reaches by an accepted book.
    pub list: fn(&Desk, &Book, &[u8]) -> Reached,
    /// The numbers of a book's listing.
    pub listing: fn(&Book) -> Vec<u16>,
    /// The call with its arguments as the desk takes them.
    pub taken: fn(&Call) -> Call,
    /// What the desk takes a sheet's bytes to hold: any byte but 0 is a photograph.
    pub held: fn(&Sheet) -> Sheet,
}

impl Default for Desk {
    fn default() -> Desk {
        Desk {
            reader: Reader::default(),
            different_rows: Book::different_rows,
            largest,
            alternatives,
            row: row::first_row,
            nearest: nearest::nearest,
            plan: plan::least,
            load,
            load_short: short::load,
            store_short: short::store,
            joining: Joining::default(),
            trees: Trees::default(),
            enter,
            step: step_by,
            list,
            listing: |book| Listing::of(book).numbers(),
            taken: Call::clone,
            held: Sheet::in_bits,
        }
    }
}

/// Loads a stored sheet, one byte a field: 19, then 14. "Loading an old stored sheet marks none."
fn load(book: &Book, form: &[u8]) -> Result<Sheet, Refusal> {
    if form.len() != book.counts.len() {
        return refuse(19, 0);
    }
    let sheet = Sheet::of(form);
    without_fault(book, &sheet)?;
    Ok(sheet)
}

/// The places at fault, from the lowest on: those that hold neither 255 nor a code of their field, lie behind the fields and are not 255,
/// or are photographed without an answer.
pub fn faults<'a>(book: &'a Book, sheet: &'a Sheet) -> impl Iterator<Item = usize> + 'a {
    (0..PLACES).filter(|&place| {
        if sheet.is_answered(place) {
            is_no_code(book, place, sheet.answers[place])
        } else {
            sheet.is_photographed(place)
        }
    })
}

/// The book has no such field, or the field no such code.
pub fn is_no_code(book: &Book, field: usize, code: u8) -> bool {
    book.counts.get(field).is_none_or(|&count| code >= count)
}

/// 14, some place is at fault.
fn without_fault(book: &Book, sheet: &Sheet) -> Result<(), Refusal> {
    match faults(book, sheet).next() {
        Some(place) => refuse(14, place),
        None => Ok(()),
    }
}

/// The book, where it is not refused: 1 to 13.
pub fn accepted(reading: &Reading) -> Result<&Book, Refusal> {
    reading.as_ref().map_err(|&r| r)
}

/// The book, where neither it nor the sheet is refused: 1 to 13, then 14.
pub fn opened<'a>(reading: &'a Reading, sheet: &Sheet) -> Result<&'a Book, Refusal> {
    let book = accepted(reading)?;
    without_fault(book, sheet)?;
    Ok(book)
}

/// A refusal with place 0, where it is so.
pub fn refuse_if(so: bool, number: u64) -> Result<(), Refusal> {
    if so {
        return refuse(number, 0);
    }
    Ok(())
}

/// "Entering the code already held changes nothing", and goes before 22: a photographed field refuses other codes.
pub fn enter(sheet: &Sheet, field: usize, code: u8) -> Result<Sheet, Refusal> {
    refuse_if(sheet.is_photographed(field) && sheet.answers[field] != code, 22)?;
    let mut entered = *sheet;
    entered.answers[field] = code;
    Ok(entered)
}

/// 15, no such field; 16, no such code of it.
fn has_code(book: &Book, field: usize, code: usize) -> Result<(), Refusal> {
    match book.counts.get(field) {
        None => refuse(15, 0),
        Some(&count) if code >= count as usize => refuse(16, 0),
        Some(_) => Ok(()),
    }
}

/// 21, no such table, or the field is not in it.
fn has_table(book: &Book, field: usize, table: usize) -> Result<(), Refusal> {
    match book.tables.get(table) {
        Some(table) if table.fields.iter().any(|&f| f as usize == field) => Ok(()),
        _ => refuse(21, 0),
    }
}

fn withdraw(reading: &Reading, sheet: &Sheet, field: usize) -> Result<Sheet, Refusal> {
    has_answer(opened(reading, sheet)?, sheet, field)?;
    refuse_if(sheet.is_photographed(field), 22)?;
    let mut withdrawn = *sheet;
    withdrawn.answers[field] = NO_ANSWER;
    Ok(withdrawn)
}

/// "Setting it again changes nothing."
fn photograph(reading: &Reading, sheet: &Sheet, field: usize) -> Result<Sheet, Refusal> {
    has_answer(opened(reading, sheet)?, sheet, field)?;
    Ok(sheet.with_photographs(&[field]))
}

fn store(reading: &Reading, sheet: &Sheet) -> Result<Vec<u8>, Refusal> {
    stored(opened(reading, sheet)?, sheet)
}

/// One byte a field; that form has no place for a photograph.
pub fn stored(book: &Book, sheet: &Sheet) -> Result<Vec<u8>, Refusal> {
    refuse_if(sheet.has_photograph(), 22)?;
    Ok(sheet.answers[..book.counts.len()].to_vec())
}

/// 15, no such field; 17, the field has no answer.
fn has_answer(book: &Book, sheet: &Sheet, field: usize) -> Result<(), Refusal> {
    refuse_if(field >= book.counts.len(), 15)?;
    refuse_if(!sheet.is_answered(field), 17)
}

/// One number a field, bit c set where code c is in the subdomain.
pub fn numbers(domain: &Subdomain) -> Vec<u32> {
    let number = |codes: &Vec<bool>| codes.iter().enumerate().map(|(c, &stands)| (stands as u32) << c).sum();
    domain.iter().map(number).collect()
}

/// Whether a call of a list is an enter, a withdraw or a photograph.
pub fn is_on_field(call: &[u8]) -> bool {
    matches!(call[0], 0 | 1 | 3)
}

/// A call of a list as the right desk makes it.
pub fn step(book: &Book, sheet: &mut Sheet, call: &[u8]) -> u64 {
    step_by(enter, book, sheet, call)
}

/// Any kind but 0 to 3 is no call.
fn step_by(enter: Enter, book: &Book, sheet: &mut Sheet, call: &[u8]) -> u64 {
    let (kind, field, code) = (call[0], call[1] as usize, call[2]);
    match kind {
        _ if is_on_field(call) && field >= book.counts.len() => return 15,
        0 if is_no_code(book, field, code) => return 16,
        1 | 3 if !sheet.is_answered(field) => return 17,
        1 if sheet.is_photographed(field) => return 22,
        0 => match enter(sheet, field, code) {
            Ok(entered) => *sheet = entered,
            Err(r) => return r.number,
        },
        1 => sheet.answers[field] = NO_ANSWER,
        2 => *sheet = FRESH,
        3 => sheet.photographs[field] = 1,
        _ => {}
    }
    0
}

/// Each call of a list is made on the sheet that the one before it hands back, and the first on a fresh one.
fn list(desk: &Desk, book: &Book, calls: &[u8]) -> Reached {
    let mut sheet = FRESH;
    let numbers = calls.chunks_exact(3).map(|call| (desk.step)(desk.enter, book, &mut sheet, call)).collect();
    (numbers, sheet)
}

/// An answer that writes nothing, from the sheet that it hands back.
fn handing_back(result: Result<Sheet, Refusal>, otherwise: &Sheet) -> Answer {
    let sheet = *result.as_ref().unwrap_or(otherwise);
    Answer { result: result.map(|_| Vec::new()), sheet, written: Buffers::default(), asked: 0 }
}

/// An answer that leaves the sheet and writes what comes with its counts.
fn writing<T: Into<Buffers>>(result: Result<(Vec<u64>, T), Refusal>, sheet: Sheet) -> Answer {
    let (result, written) = match result {
        Ok((counts, elements)) => (Ok(counts), elements.into()),
        Err(r) => (Err(r), Buffers::default()),
    };
    let asked = written.elements();
    Answer { result, sheet, written, asked }
}

/// An answer that leaves the sheet and writes nothing.
fn counting(result: Result<Vec<u64>, Refusal>, sheet: Sheet) -> Answer {
    Answer { result, sheet, written: Buffers::default(), asked: 0 }
}

/// The elements with their number before them.
fn counted<T>(elements: Vec<T>) -> (Vec<u64>, Vec<T>) {
    (vec![elements.len() as u64], elements)
}

impl Desk {
    /// 1 to 13, 14, 15, 16, 22.
    fn entered(&self, reading: &Reading, sheet: &Sheet, field: usize, code: usize) -> Result<Sheet, Refusal> {
        has_code(opened(reading, sheet)?, field, code)?;
        (self.enter)(sheet, field, code as u8)
    }

    pub fn read(&self, reading: &Reading) -> Result<Vec<u64>, Refusal> {
        let book = accepted(reading)?;
        let counts = [book.counts.len(), book.tables.len(), book.rows(), (self.different_rows)(book)];
        Ok(counts.iter().map(|&n| n as u64).collect())
    }

    /// One number a field with this field's answer left out, or with all answers for 255.
    fn filtered(&self, reading: &Reading, sheet: &Sheet, field: usize) -> Result<Vec<u32>, Refusal> {
        let book = opened(reading, sheet)?;
        if field == NO_ANSWER as usize {
            return Ok(numbers(&(self.largest)(book, &sheet.answers)));
        }
        has_answer(book, sheet, field)?;
        Ok(numbers(&(self.largest)(book, &relaxed(&sheet.answers, field))))
    }

    /// Counts and pairs.
    fn listed(&self, reading: &Reading, sheet: &Sheet) -> Result<(Vec<u64>, Vec<u8>), Refusal> {
        let found = (self.alternatives)(opened(reading, sheet)?, sheet, self.largest);
        let pairs = found.lines.iter().flat_map(|&(f, c)| [f, c]).collect();
        Ok((vec![found.lines.len() as u64, found.struck], pairs))
    }

    /// Whether a row is found, and its number.
    fn row(&self, reading: &Reading, sheet: &Sheet, pointed: Pointed) -> Result<Vec<u64>, Refusal> {
        let book = opened(reading, sheet)?;
        has_code(book, pointed.field, pointed.code)?;
        has_table(book, pointed.field, pointed.table)?;
        Ok(row::told((self.row)(book, &sheet.answers, self.largest, pointed).map(|row| row as u64)))
    }

    /// What is told of the nearest full reading and the reading: 1 to 13, 14, 23. As many bytes as fields have to be lent, also where there
    /// is none.
    fn nearest(&self, reading: &Reading, sheet: &Sheet, given: Sheet) -> Answer {
        let book = opened(reading, sheet).and_then(|book| refuse_if(is_too_large(book), 23).map(|()| book));
        let found = book.map(|book| match (self.nearest)(book, sheet) {
            Some(found) => (nearest::told(Some([found.differing as u64, found.reading.len() as u64])), found.reading),
            None => (nearest::told(None), Vec::new()),
        });
        Answer { asked: book.map_or(0, |book| book.counts.len()), ..writing(found, given) }
    }

    /// Whether there is a plan, and its number of questions: 1 to 13, 14, 15 for the target, 27.
    fn plan(&self, reading: &Reading, sheet: &Sheet, planned: Planned) -> Result<Vec<u64>, Refusal> {
        let book = opened(reading, sheet)?;
        refuse_if(planned.target >= book.counts.len(), 15)?;
        refuse_if(planned.is_refused(book, sheet), 27)?;
        let at = Position::of(book, &sheet.answers, self.largest);
        Ok(plan::told((self.plan)(&at, planned).map(|questions| questions as u64)))
    }

    /// The sheet that a stored one makes: 1 to 13, 19, 14.
    pub fn loaded(&self, reading: &Reading, form: &[u8]) -> Result<Sheet, Refusal> {
        (self.load)(accepted(reading)?, form)
    }

    /// The number of each call of a list and the sheet after it, from the book and the arguments alone: it holds the answers and
    /// photographs after the list, and 255 and no photograph elsewhere. By a refused book each call but clear is refused.
    pub fn after(&self, reading: &Reading, calls: &[u8]) -> Reached {
        match reading {
            Ok(book) => (self.list)(self, book, calls),
            Err(r) => (calls.chunks_exact(3).map(|call| if is_on_field(call) { r.number } else { 0 }).collect(), FRESH),
        }
    }

    /// The bytes of the book that a listing says: 20.
    pub fn written(&self, numbers: &[u16]) -> Result<Vec<u8>, Refusal> {
        listing::book_bytes(&self.reader, numbers).or_else(|_| refuse(20, 0))
    }

    /// What the call answers, on a book so read and on this sheet, where enough is lent. A refusal hands back the very bytes.
    pub fn answer(&self, call: &Call, reading: &Reading, sheet: &Sheet) -> Answer {
        let held = &(self.held)(sheet);
        match (self.taken)(call) {
            Call::Read => counting(self.read(reading), *sheet),
            Call::Fresh | Call::Clear => handing_back(Ok(FRESH), sheet),
            Call::Enter { field, code } => handing_back(self.entered(reading, held, field, code), sheet),
            Call::Withdraw { field } => handing_back(withdraw(reading, held, field), sheet),
            Call::Photograph { field } => handing_back(photograph(reading, held, field), sheet),
            Call::Load { form } => handing_back(self.loaded(reading, &form), &FRESH),
            Call::Alternatives => writing(self.listed(reading, held), *sheet),
            Call::Row { field, code, table } => counting(self.row(reading, held, Pointed { field, code, table }), *sheet),
            Call::Nearest => self.nearest(reading, held, *sheet),
            Call::Plan { target, questions } => {
                counting(self.plan(reading, held, Planned { target, questions: &questions }), *sheet)
            }
            Call::Filtered { relaxed } => {
                writing(self.filtered(reading, held, relaxed).map(|numbers| (Vec::new(), numbers)), *sheet)
            }
            Call::Store => writing(store(reading, held).map(|form| (Vec::new(), form)), *sheet),
            Call::LoadShort { form } => handing_back(self.loaded_short(reading, &form), &FRESH),
            Call::StoreShort => writing(self.stored_short(reading, held).map(counted), *sheet),
            Call::Shorten { form } => writing(self.shortened(reading, &form).map(counted), *sheet),
            Call::Lengthen { form } => writing(self.lengthened(reading, &form).map(counted), *sheet),
            Call::Join { second } => writing(self.join(reading, second.as_deref()).map(counted), *sheet),
            Call::Replay { calls } => {
                let (_, reached) = self.after(reading, &calls);
                writing(self.listed(reading, &reached), reached)
            }
            Call::Report { form } => writing(Ok(counted(report(self, reading, &form).into_bytes())), *sheet),
            Call::Show => writing(accepted(reading).map(|book| counted((self.listing)(book))), *sheet),
            Call::Write { listing } => writing(self.written(&listing).map(counted), *sheet),
            Call::ReadTree => counting(self.read_tree(reading), *sheet),
            Call::WriteTree { listing } => writing(self.written_tree(&listing).map(counted), *sheet),
        }
    }
}

#[cfg(test)]
mod tests {
    use super::{Desk, Reading};
    use crate::book::{refuse, Book};
    use crate::calls::{Buffers, Call};
    use crate::examples::{e1, E1_PHOTOGRAPHED};
    use crate::sheet::{Sheet, FRESH, PLACES};

    /// One field of two codes, and no table.
    fn book() -> Reading {
        Ok(Book::new(vec![2], Vec::new()))
    }

    #[test]
    fn a_list_of_calls() {
        let calls = [[0, 0, 1], [0, 0, 2], [0, 1, 0], [1, 0, 9], [1, 0, 9], [7, 7, 7], [0, 0, 0], [2, 9, 9], [0, 0, 1]];
        let desk = Desk::default();
        assert_eq!(desk.after(&book(), &calls.concat()), (vec![0, 16, 15, 0, 17, 0, 0, 0, 0], Sheet::of(&[1])));
        assert_eq!(desk.after(&book(), &[0, 0]), (Vec::new(), FRESH));
    }

    #[test]
    fn photographs_in_a_list_of_calls() {
        let desk = Desk::default();
        let refused =
            [[3, 1, 0], [3, 0, 0], [0, 0, 1], [3, 0, 9], [3, 0, 9], [0, 0, 1], [0, 0, 0], [0, 0, 2], [1, 0, 0], [4, 0, 0]];
        let (numbers, reached) = desk.after(&book(), &refused.concat());
        assert_eq!((numbers, reached), (vec![15, 17, 0, 0, 0, 0, 22, 16, 22, 0], Sheet::of(&[1]).with_photographs(&[0])));
        let cleared = [&refused[..], &[[2, 0, 0], [3, 0, 0], [0, 0, 0], [1, 0, 0], [0, 0, 0]]].concat().concat();
        let (numbers, reached) = desk.after(&book(), &cleared);
        assert_eq!((&numbers[10..], reached), (&[0, 17, 0, 0, 0][..], Sheet::of(&[0])));
        assert_eq!(desk.after(&refuse(9, 4), &[3, 0, 0, 2, 0, 0, 4, 0, 0]), (vec![9, 0, 0], FRESH));
    }

    /// "Tablets resend answers": at once, in a row, behind a photograph, behind refused calls; behind a clear it is a first answer.
    #[test]
    fn answers_resent_in_a_list_of_calls() {
        let (desk, photographed) = (Desk::default(), Sheet::of(&[1]).with_photographs(&[0]));
        let list =
            [[0, 0, 1], [0, 0, 1], [3, 0, 0], [0, 0, 1], [0, 0, 1], [0, 0, 0], [0, 0, 1], [1, 0, 0], [0, 0, 1], [0, 0, 255]];
        assert_eq!(desk.after(&book(), &list.concat()), (vec![0, 0, 0, 0, 0, 22, 0, 22, 0, 16], photographed));
        let cleared = [&list[..], &[[2, 0, 0], [0, 0, 0], [0, 0, 0], [0, 0, 1]]].concat().concat();
        let (numbers, reached) = desk.after(&book(), &cleared);
        assert_eq!((&numbers[10..], reached), (&[0, 0, 0, 0][..], Sheet::of(&[1])));
    }

    #[test]
    fn photographs_on_e1() {
        let (calls, expected): (Vec<[u8; 3]>, Vec<u64>) = E1_PHOTOGRAPHED.into_iter().unzip();
        let (numbers, reached) = Desk::default().after(&Ok(e1()), &calls.concat());
        assert_eq!((numbers, reached), (expected, Sheet::of(&[0, 1]).with_photographs(&[0])));
    }

    /// The call's number, its place and the sheet that it leaves.
    fn left(call: Call, sheet: Sheet) -> (u64, u64, Sheet) {
        let left = Desk::default().answer(&call, &book(), &sheet).left(&call, &vec![7u8; PLACES].into());
        (left.number, left.cells.first().copied().unwrap_or(0), left.sheet)
    }

    #[test]
    fn photographs() {
        let held = Sheet::of(&[1]);
        let photographed = held.with_photographs(&[0]);
        assert_eq!(left(Call::Photograph { field: 0 }, held), (0, 0, photographed));
        assert_eq!(left(Call::Photograph { field: 0 }, photographed), (0, 0, photographed));
        assert_eq!(left(Call::Photograph { field: 0 }, FRESH), (17, 0, FRESH));
        assert_eq!(left(Call::Photograph { field: 1 }, FRESH), (15, 0, FRESH));
        assert_eq!(left(Call::Enter { field: 0, code: 1 }, held), (0, 0, held));
        assert_eq!(left(Call::Enter { field: 0, code: 1 }, photographed), (0, 0, photographed));
        assert_eq!(left(Call::Enter { field: 0, code: 0 }, photographed), (22, 0, photographed));
        assert_eq!(left(Call::Enter { field: 0, code: 2 }, photographed), (16, 0, photographed));
        assert_eq!(left(Call::Enter { field: 0, code: 257 }, photographed), (16, 0, photographed));
        assert_eq!(left(Call::Enter { field: 0, code: 255 }, FRESH), (16, 0, FRESH));
        assert_eq!(left(Call::Enter { field: 1, code: 0 }, photographed), (15, 0, photographed));
        assert_eq!(left(Call::Withdraw { field: 0 }, photographed), (22, 0, photographed));
        assert_eq!(left(Call::Filtered { relaxed: 0 }, photographed), (0, 0, photographed));
        assert_eq!(left(Call::Store, photographed), (22, 0, photographed));
        assert_eq!(left(Call::Clear, photographed), (0, 0, FRESH));
        assert_eq!(left(Call::Load { form: vec![1] }, photographed), (0, 0, held));
        assert_eq!(left(Call::Load { form: vec![2] }, photographed), (14, 0, FRESH));
    }

    /// Any byte but 0 is a photograph: a refused call leaves it, an accepted one writes 1.
    #[test]
    fn bytes_of_a_photograph() {
        let two = Ok(Book::new(vec![2; 2], Vec::new()));
        for byte in [2, 7, 128, 255] {
            let mut sheet = Sheet::of(&[1, 1]);
            sheet.photographs[0] = byte;
            let answer = |call: Call| Desk::default().answer(&call, &two, &sheet);
            for call in [Call::Withdraw { field: 0 }, Call::Enter { field: 0, code: 0 }] {
                let refused = answer(call);
                assert_eq!((refused.result, refused.sheet), (refuse(22, 0), sheet));
            }
            for (call, held) in [(Call::Withdraw { field: 1 }, &[1][..]), (Call::Enter { field: 0, code: 1 }, &[1, 1])] {
                let accepted = answer(call);
                assert_eq!((accepted.result, accepted.sheet), (Ok(Vec::new()), Sheet::of(held).with_photographs(&[0])));
            }
        }
    }

    #[test]
    fn faults_in_one_scan() {
        let at = |answers: &[u8], photographed: &[usize]| left(Call::Store, Sheet::of(answers).with_photographs(photographed));
        for (answers, photographed, place) in [
            (&[][..], &[0][..], 0),
            (&[1], &[1], 1),
            (&[1], &[0, 59], 59),
            (&[2], &[1], 0),
            (&[255, 0], &[0], 0),
            (&[255, 255, 0], &[1, 3], 1),
            (&[2], &[0], 0),
        ] {
            let (number, found, _) = at(answers, photographed);
            assert_eq!((number, found), (14, place), "{answers:?} {photographed:?}");
        }
    }

    #[test]
    fn buffers_and_faults() {
        let (desk, mut sheet) = (Desk::default(), Sheet::of(&[1]));
        let found = desk.answer(&Call::Alternatives, &book(), &sheet);
        assert_eq!(found.written.bytes, [0, 0, 0, 1]);
        let short = found.left(&Call::Alternatives, &vec![7u8; 3].into());
        assert_eq!((short.number, short.cells, short.out.bytes), (18, vec![0; 3], vec![7; 3]));
        let long = found.left(&Call::Alternatives, &vec![7u8; 5].into());
        assert_eq!((long.number, long.cells, long.out.bytes), (0, vec![0, 2, 1], vec![0, 0, 0, 1, 7]));
        sheet.answers[PLACES - 1] = 0;
        let behind = desk.answer(&Call::Store, &book(), &sheet).left(&Call::Store, &vec![7u8].into());
        assert_eq!((behind.number, behind.cells, behind.sheet), (14, vec![59], sheet));
    }

    #[test]
    fn a_listing_and_its_book() {
        let (desk, write) = (Desk::default(), Call::Write { listing: vec![1, 2, 0, 1] });
        let shown = desk.answer(&Call::Show, &book(), &FRESH);
        let short = shown.left(&Call::Show, &vec![7u16; 3].into());
        assert_eq!((short.number, short.cells, short.out.listing), (18, vec![0; 2], vec![7; 3]));
        let long = shown.left(&Call::Show, &vec![7u16; 5].into());
        assert_eq!((long.number, long.cells, long.out.listing), (0, vec![0, 4], vec![1, 2, 0, 1, 7]));
        let refused = desk.answer(&Call::Show, &refuse(9, 4), &FRESH).left(&Call::Show, &vec![7u16].into());
        assert_eq!((refused.number, refused.cells, refused.out.listing), (9, vec![4, 0], vec![7]));
        let written = desk.answer(&write, &book(), &FRESH).left(&write, &vec![7u8; 8].into());
        assert_eq!((written.number, written.cells), (0, vec![0, 7]));
        assert_eq!(written.out.bytes, [2, 0, 0, 1, 0, 1, 0xE5, 7]);
        let no_book = Call::Write { listing: vec![1, 2, 0] };
        let refused = desk.answer(&no_book, &book(), &FRESH).left(&no_book, &Buffers::default());
        assert_eq!((refused.number, refused.cells), (20, vec![0; 2]));
    }

    #[test]
    fn numbers_that_no_byte_holds() {
        let (desk, book) = (Desk::default(), book());
        let number = |call: Call| desk.answer(&call, &book, &FRESH).result.map_err(|r| (r.number, r.place));
        assert_eq!(number(Call::Enter { field: 256, code: 0 }), Err((15, 0)));
        assert_eq!(number(Call::Enter { field: 0, code: 257 }), Err((16, 0)));
        assert_eq!(number(Call::Filtered { relaxed: 511 }), Err((15, 0)));
        assert_eq!(number(Call::Filtered { relaxed: 255 }), Ok(Vec::new()));
        assert_eq!(number(Call::Row { field: 256, code: 2, table: 0 }), Err((15, 0)));
        assert_eq!(number(Call::Row { field: 0, code: 256, table: 0 }), Err((16, 0)));
        assert_eq!(number(Call::Row { field: 0, code: 0, table: 256 }), Err((21, 0)));
    }
}
