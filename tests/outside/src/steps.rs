//! The calls of a list, each on the sheet that those before it reach.

use crate::book::Book;
use crate::desk::step;
use crate::sheet::{Sheet, FRESH, PLACES};

/// A call of a list with the sheet that it is made on, and its number.
pub struct Step<'a> {
    pub book: &'a Book,
    pub before: Sheet,
    pub call: &'a [u8],
    pub number: u64,
}

/// The calls of a list, from a fresh sheet.
pub fn steps<'a>(book: &'a Book, calls: &'a [u8]) -> Vec<Step<'a>> {
    let mut sheet = FRESH;
    calls.chunks_exact(3).map(|call| Step::on(book, &mut sheet, call)).collect()
}

/// The call that gave a field its code last, if it changed something.
pub fn given_last<'a>(steps: &'a [Step]) -> Option<&'a Step<'a>> {
    steps.iter().rfind(|step| step.is(0, 0) && !step.resends())
}

/// The fields whose codes the last calls entered once more, with refused calls between them or not.
pub fn resent_last(steps: &[Step]) -> [bool; PLACES] {
    let mut resent = [false; PLACES];
    let last = steps.iter().rev().take_while(|step| step.resends() || step.number != 0);
    last.filter(|step| step.resends()).for_each(|step| resent[step.field()] = true);
    resent
}

/// How many answers are in these places, if they are all of the sheet.
pub fn all_of(sheet: &Sheet, places: &[bool; PLACES]) -> Option<usize> {
    let all = (0..PLACES).all(|place| sheet.is_answered(place) == places[place]);
    all.then(|| places.iter().filter(|&&one| one).count())
}

impl<'a> Step<'a> {
    /// Makes the call on this sheet.
    pub fn on(book: &'a Book, sheet: &mut Sheet, call: &'a [u8]) -> Step<'a> {
        let before = *sheet;
        Step { book, before, call, number: step(book, sheet, call) }
    }

    pub fn is(&self, kind: u8, number: u64) -> bool {
        (self.call[0], self.number) == (kind, number)
    }

    pub fn field(&self) -> usize {
        self.call[1] as usize
    }

    pub fn code(&self) -> u8 {
        self.call[2]
    }

    pub fn of_answered(&self) -> bool {
        self.field() < PLACES && self.before.is_answered(self.field())
    }

    pub fn of_photographed(&self) -> bool {
        self.field() < PLACES && self.before.is_photographed(self.field())
    }

    /// An open field is given a code.
    pub fn answers(&self) -> bool {
        self.is(0, 0) && !self.of_answered()
    }

    /// The code that the field holds is entered.
    pub fn resends(&self) -> bool {
        self.is(0, 0) && self.of_answered() && self.before.answers[self.field()] == self.code()
    }

    pub fn resends_photographed(&self) -> bool {
        self.resends() && self.of_photographed()
    }

    /// Both are given the same field.
    pub fn shares_field(&self, other: &Step) -> bool {
        self.field() == other.field()
    }
}
