//! Calls as they were made, and the shapes that they have.

use std::ops::RangeInclusive;

use crate::calls::Call;
use crate::cases::Case;
use crate::compare::Trial;
use crate::desk::Reading;
use crate::sheet::{Sheet, NO_ANSWER, PLACES};
use crate::steps::{steps, Step};

/// A call as it was made on the case's book and sheet.
pub struct Made<'a> {
    pub case: &'a Case,
    pub reading: &'a Reading,
    pub trial: &'a Trial<'a>,
    /// The calls of its list, by an accepted book.
    pub steps: &'a [Step<'a>],
}

/// A shape: its name, how often each of its calls has to reach it in a run of 52,500 cases, these calls, and what has it.
pub type Shape = (&'static str, u64, &'static [&'static str], fn(&Made) -> bool);

/// The calls of its list; none where it has no list, or the book is refused.
pub fn of_list<'a>(reading: &'a Reading, call: &'a Call) -> Vec<Step<'a>> {
    match (reading, call) {
        (Ok(book), Call::Replay { calls }) => steps(book, calls),
        _ => Vec::new(),
    }
}

/// The names of the shapes that a call has, made with one length lent or another.
pub fn shapes<'a>(all: &'static [Shape], made: &'a [Made<'a>]) -> impl Iterator<Item = &'static str> + 'a {
    let of_call = move |calls: &[&str]| made.first().is_some_and(|made| calls.contains(&made.trial.call.name()));
    let had = all.iter().filter(move |(_, _, calls, has)| of_call(calls) && made.iter().any(has));
    had.map(|(name, ..)| *name)
}

/// What the shapes of a call are, and how often each has to be reached.
pub fn asked(all: &'static [Shape], call: &'static str) -> impl Iterator<Item = (&'static str, u64)> {
    all.iter().filter(move |(_, _, calls, _)| calls.contains(&call)).map(|(name, least, ..)| (*name, *least))
}

impl Made<'_> {
    pub fn has_step(&self, so: fn(&Step) -> bool) -> bool {
        self.steps.iter().any(so)
    }

    pub fn number(&self) -> u64 {
        self.trial.left.number
    }

    pub fn is_refused(&self, numbers: RangeInclusive<u64>) -> bool {
        numbers.contains(&self.number())
    }

    pub fn sheet(&self) -> &Sheet {
        &self.case.sheet
    }

    /// The field that the call is given; one of no book where it is given none.
    pub fn field(&self) -> usize {
        self.trial.call.field().unwrap_or(usize::MAX)
    }

    pub fn is_of_photographed(&self) -> bool {
        self.field() < PLACES && self.sheet().is_photographed(self.field())
    }

    /// Its field is answered by its code.
    pub fn is_of_code_held(&self) -> bool {
        let held = (self.field() < PLACES).then(|| self.sheet().answers[self.field()]);
        held.is_some_and(|held| held != NO_ANSWER && self.trial.call.code() == Some(held as usize))
    }

    pub fn has_byte_above_1(&self) -> bool {
        self.sheet().photographs.iter().any(|&photograph| photograph > 1)
    }

    pub fn is_part_photographed(&self) -> bool {
        self.sheet().has_photograph() && !self.sheet().is_all_photographed()
    }

    /// The fields of the book; none where it is refused.
    pub fn fields(&self) -> usize {
        self.reading.as_ref().map_or(0, |book| book.counts.len())
    }
}

#[cfg(test)]
pub use tests::names_of;

#[cfg(test)]
mod tests {
    use super::{of_list, shapes, Made, Shape};
    use crate::book::Book;
    use crate::calls::Call;
    use crate::cases::Case;
    use crate::compare::trials;
    use crate::reader::Reader;
    use crate::sheet::Sheet;

    /// The names of the shapes of a call on this book, which may be refused, and on this sheet.
    pub fn names_of(all: &'static [Shape], book: &Book, sheet: Sheet, call: Call) -> Vec<&'static str> {
        let case = Case::new(book.write(), sheet, vec![call]);
        let reading = Reader::default().read(&case.book);
        let (trials, steps) = (trials(&case, &reading, 1, 0), of_list(&reading, &case.calls[0]));
        let made = trials.iter().map(|trial| Made { case: &case, reading: &reading, trial, steps: &steps });
        let made: Vec<Made> = made.collect();
        shapes(all, &made).collect()
    }
}
