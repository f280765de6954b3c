//! Comparing a library with the slow desk: the calls of a case, each with several lengths lent, and what each has to leave.

use crate::book::Book;
use crate::calls::{Buffers, Call, Left};
use crate::cases::{random, Case};
use crate::desk::{opened, Desk, Reading};
use crate::library::{Lent, Library};
use crate::memory::{End, Room};
use crate::random::Random;
use crate::sheet::Sheet;
use crate::slips::listed_although_empty;

/// What an outcome's cells hold before a call, to see that each is written.
pub const UNWRITTEN: u64 = 0xDEAD_BEEF_DEAD_BEEF;

/// A call with the contents of the buffers lent to it, and what it has to leave.
pub struct Trial<'a> {
    pub call: &'a Call,
    pub asked: Asked,
    pub lent: Buffers,
    pub left: Left,
}

/// How many elements a call asks for, which are those that it writes where it writes any, and how many it would ask for if it listed a
/// field although another is empty.
#[derive(Clone, Copy)]
pub struct Asked {
    pub written: usize,
    pub wider: usize,
}

impl Asked {
    fn by(call: &Call, reading: &Reading, case: &Case, written: usize) -> Asked {
        let desk = Desk { alternatives: listed_although_empty, ..Desk::default() };
        let wider = if call.lists() { desk.answer(call, reading, &case.sheet).written.elements() } else { written };
        Asked { written, wider }
    }
}

/// The lengths to lend: exactly what the call writes, more, what the header says suffices, one less, and fewer; where the wider list
/// asks for more, also what that one asks for, and one less.
fn lengths(r: &mut Random, call: &Call, Asked { written, wider }: Asked) -> Vec<usize> {
    let Some(sufficient) = call.sufficient() else {
        return vec![0];
    };
    assert!(written <= sufficient, "{call:?} writes {written}, and the header says that {sufficient} suffice");
    let mut lengths = vec![written, written + r.from(1, 40)];
    if r.one_in(16) {
        lengths.push(sufficient);
    }
    if written > 0 {
        lengths.extend([written - 1, r.from(0, written - 1)]);
    }
    if wider > written {
        lengths.extend([wider, wider - 1]);
    }
    lengths
}

/// So many elements of what the call writes, with random contents.
fn lent(r: &mut Random, call: &Call, length: usize) -> Buffers {
    match call {
        Call::Filtered { .. } => (0..length).map(|_| r.word() as u32).collect::<Vec<_>>().into(),
        Call::Show => (0..length).map(|_| r.word() as u16).collect::<Vec<_>>().into(),
        _ => (0..length).map(|_| r.word() as u8).collect::<Vec<_>>().into(),
    }
}

/// The trials of a case of a seed, on its book as the right desk reads it.
pub fn trials<'a>(case: &'a Case, reading: &Reading, seed: u64, index: u64) -> Vec<Trial<'a>> {
    let (desk, mut r) = (Desk::default(), random(seed ^ 0x5EED, index));
    let mut trials = Vec::new();
    for call in &case.calls {
        let answer = desk.answer(call, reading, &case.sheet);
        let asked = Asked::by(call, reading, case, answer.asked);
        for length in lengths(&mut r, call, asked) {
            let lent = lent(&mut r, call, length);
            let left = answer.left(call, &lent);
            trials.push(Trial { call, asked, lent, left });
        }
    }
    trials
}

/// The trials of each call.
pub fn of_each_call<'a, 't>(trials: &'t [Trial<'a>]) -> impl Iterator<Item = &'t [Trial<'a>]> {
    trials.chunk_by(|one, next| std::ptr::eq(one.call, next.call))
}

pub fn hex(bytes: &[u8]) -> String {
    bytes.iter().map(|b| format!("{b:02x}")).collect()
}

/// A room for each part of the memory lent.
#[derive(Default)]
pub struct Rooms {
    book: Room,
    list: Room,
    listing: Room,
    sheet: Room,
    cells: Room,
    bytes: Room,
    shown: Room,
    numbers: Room,
}

impl Rooms {
    /// What the library leaves in memory that lies at this end of its rooms; none where it wrote beside it.
    pub fn left(&self, library: &dyn Library, case: &Case, call: &Call, lent: &Buffers, end: End) -> Option<Left> {
        let (book, sheet) = (self.book.put(end, &case.book), self.sheet.put(end, &case.sheet.bytes()));
        let (list, listing) = (self.list.put(end, call.list()), self.listing.put(end, call.listing()));
        let cells = self.cells.put(end, &vec![UNWRITTEN; call.cells()]);
        let (bytes, shown) = (self.bytes.put(end, &lent.bytes), self.shown.put(end, &lent.listing));
        let numbers = self.numbers.put(end, &lent.numbers);
        let lent = Lent {
            book: book.readable(),
            list: list.readable(),
            listing: listing.readable(),
            sheet: if call.only_reads_sheet() { sheet.readable() } else { sheet.writable() },
            cells: cells.writable(),
            bytes: bytes.writable(),
            shown: shown.writable(),
            numbers: numbers.writable(),
        };
        // SAFETY: each part has the elements that the header asks for, and they lie apart from each other.
        let number = unsafe { library.call(call, &lent) };
        let sheet = Sheet::from_bytes(sheet.left()?.try_into().expect("a sheet has its bytes"));
        let out = Buffers { bytes: bytes.left()?, listing: shown.left()?, numbers: numbers.left()? };
        Some(Left { number, cells: cells.left()?, sheet, out })
    }

    /// What the library leaves where it should not, at either end of the rooms.
    pub fn difference(&self, library: &dyn Library, case: &Case, trial: &Trial) -> Option<String> {
        [End::Front, End::Back].iter().find_map(|&end| {
            let left = self.left(library, case, trial.call, &trial.lent, end);
            (left.as_ref() != Some(&trial.left)).then(|| {
                let got = left.map_or("written beside the memory lent".to_string(), |left| format!("{left:?}"));
                let (book, sheet) = (hex(&case.book), hex(&case.sheet.bytes()));
                format!("{:?}, {end:?}\nbook {book}\nsheet {sheet}\nexpected {:?}\ngot      {got}", trial.call, trial.left)
            })
        })
    }

    /// The numbers of plain filtering by the library with this field relaxed.
    pub fn numbers(&self, library: &dyn Library, case: &Case, book: &Book, relaxed: usize) -> Option<Vec<u32>> {
        let lent = vec![0u32; book.counts.len()].into();
        let left = self.left(library, case, &Call::Filtered { relaxed }, &lent, End::Back)?;
        (left.number == 0).then_some(left.out.numbers)
    }

    /// What the alternatives have to be by plain filtering, each answered field relaxed in turn: "the list agrees with them wherever
    /// they leave no field empty", and elsewhere a field has no line. "Plain filtering may still lift" a photographed field, and "its
    /// numbers for that case then have no list to agree with".
    fn by_filtering(&self, library: &dyn Library, case: &Case, book: &Book) -> Option<Vec<u8>> {
        let mut pairs = Vec::new();
        for f in (0..book.counts.len()).filter(|&f| case.sheet.is_answered(f)) {
            let numbers = self.numbers(library, case, book, f)?;
            if case.sheet.is_in_doubt(f) && !numbers.contains(&0) {
                pairs.extend((0..32).filter(|c| numbers[f] >> c & 1 == 1).flat_map(|c| [f as u8, c]));
            }
        }
        Some(pairs)
    }

    /// The pairs that the library lists; none where it refuses.
    pub fn pairs(&self, library: &dyn Library, case: &Case) -> Option<Vec<u8>> {
        let lent = vec![0u8; sighting::PAIRS_BYTES].into();
        let left = self.left(library, case, &Call::Alternatives, &lent, End::Back)?;
        let written = left.out.bytes.get(..2 * left.cells[1] as usize)?;
        (left.number == 0).then(|| written.to_vec())
    }

    /// Where the library's alternatives are not what its own plain filtering says. A book or a sheet that has to be refused has none.
    pub fn disagreement(&self, library: &dyn Library, case: &Case, reading: &Reading) -> Option<String> {
        let book = opened(reading, &case.sheet).ok()?;
        let expected = self.by_filtering(library, case, book);
        let listed = self.pairs(library, case);
        (listed.is_none() || listed != expected).then(|| {
            let (book, sheet) = (hex(&case.book), hex(&case.sheet.bytes()));
            format!("book {book}\nsheet {sheet}\nby plain filtering {expected:?}\nlisted             {listed:?}")
        })
    }
}
