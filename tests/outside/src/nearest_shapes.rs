//! What calls show of document 02's M-106: which reading is the nearest and what it was chosen from, where there is none, how many
//! readings there are to search, and which refusal comes before which.

use std::ops::RangeInclusive;

use crate::book::Book;
use crate::calls::Call;
use crate::compare::Trial;
use crate::filter::{has_empty, largest};
use crate::nearest::{differing, full_readings, is_kept, is_too_large, measured, product, Nearest, MOST_READINGS};
use crate::sheet::Sheet;

/// A call for the nearest full reading as it was made on an accepted book, with one length lent or another.
pub struct Asked<'a> {
    pub call: &'a Call,
    book: &'a Book,
    sheet: &'a Sheet,
    trials: &'a [Trial<'a>],
    /// The full readings of a book that is searched, rising.
    full: Vec<Vec<u8>>,
    /// The nearest of those that keep the photographed answers, rising: the first is shown.
    tied: Vec<Vec<u8>>,
    /// What would be shown if nothing were photographed.
    without_photographs: Option<Nearest>,
}

/// A shape: its name, how often it has to be reached in a run of 52,500 cases, and what has it.
type Shape = (&'static str, u64, fn(&Asked) -> bool);

const READINGS: [Shape; 22] = [
    ("a reading", 4_900, |asked| asked.shown().is_some()),
    ("a reading that differs in no field", 3_800, |asked| asked.differs(0..=0)),
    ("a reading that differs in 1 field", 790, |asked| asked.differs(1..=1)),
    ("a reading that differs in 2 fields", 200, |asked| asked.differs(2..=2)),
    ("a reading that differs in 3 fields or more", 73, |asked| asked.differs(3..=60)),
    ("a reading without answers", 1_300, |asked| asked.shown().is_some() && asked.answers() == 0),
    ("a reading that differs in all fields", 54, |asked| asked.differs(asked.fields()..=asked.fields())),
    ("a reading by a book without tables", 640, |asked| asked.shown().is_some() && asked.book.tables.is_empty()),
    ("a reading of 1 field", 580, |asked| asked.shown().is_some_and(|shown| shown.len() == 1)),
    ("a reading of 33 to 59 fields", 59, |asked| asked.shown().is_some_and(|shown| (33..=59).contains(&shown.len()))),
    ("a reading of 60 fields", 190, |asked| asked.shown().is_some_and(|shown| shown.len() == 60)),
    ("a reading with code 31", 16, |asked| asked.shown().is_some_and(|shown| shown.contains(&31))),
    ("the last of all readings", 400, |asked| asked.shows_at(|code, count| code + 1 == count)),
    ("the first of all readings, which differs", 100, |asked| asked.differs(1..=60) && asked.shows_at(|code, _| code == 0)),
    ("an unanswered field with a code above 0", 1_500, |asked| asked.gives(|answer, code| answer.is_none() && code > 0)),
    ("a lower code than the answer", 690, |asked| asked.gives(|answer, code| answer.is_some_and(|answer| code < answer))),
    ("a higher code than the answer", 500, |asked| asked.gives(|answer, code| answer.is_some_and(|answer| code > answer))),
    ("a reading that differs in field 0", 350, |asked| asked.differs_in(0..=0)),
    ("a reading that differs in a field from 32 to 58", 42, |asked| asked.differs_in(32..=58)),
    ("a reading that differs in field 59", 10, |asked| asked.differs_in(59..=59)),
    ("a reading that is not the first full one", 2_100, |asked| asked.shown().is_some() && asked.full.first() != asked.shown()),
    ("a reading where the answers leave a field empty", 1_000, |asked| asked.shown().is_some() && asked.contradicts()),
];

const TIES: [Shape; 9] = [
    ("two readings as near", 560, |asked| asked.tied.len() == 2),
    ("three readings as near, or more", 1_700, |asked| asked.tied.len() > 2),
    ("readings as near that part in field 0", 610, |asked| asked.parts_in(|_, field| field == 0)),
    ("readings as near that part first in another field", 1_600, |asked| asked.parts_in(|_, field| field > 0)),
    ("readings as near that part first in a field from 32 on", 38, |asked| asked.parts_in(|_, field| field >= 32)),
    ("readings as near that part first in an answered field", 260, |asked| asked.parts_in(Sheet::is_answered)),
    ("readings as near that part first in an open field", 2_000, |asked| {
        asked.parts_in(|sheet, field| !sheet.is_answered(field))
    }),
    ("another as near is first from the last field on", 230, |asked| asked.turned() != asked.shown()),
    ("another as near keeps the first answer", 95, |asked| asked.keeps_first_answer()),
];

const PHOTOGRAPHS: [Shape; 8] = [
    ("a reading that differs beside a photograph", 280, |asked| asked.differs(1..=60) && asked.sheet.has_photograph()),
    ("a photograph that rules a nearer reading out", 32, |asked| asked.rules_out(|without, shown| without < shown)),
    ("a photograph that rules one as near out", 47, |asked| asked.rules_out(|without, shown| without == shown)),
    ("a photograph by a byte above 1 that rules one out", 7, |asked| {
        asked.rules_out(|_, _| true) && asked.sheet.photographed().all(|field| asked.sheet.photographs[field] > 1)
    }),
    ("a photograph from field 32 on that rules one out", 11, |asked| {
        asked.fields() > 32 && asked.shown() != asked.shown_with(|field| field < 32).as_ref().map(|shown| &shown.reading)
    }),
    ("all answers photographed, a reading", 380, |asked| asked.shown().is_some() && asked.sheet.is_all_photographed()),
    ("a photographed code above 0 in no table", 270, |asked| asked.shown().is_some() && asked.has_loose_photograph()),
    ("none for the photographs alone", 270, |asked| asked.none() && asked.without_photographs.is_some()),
];

const NONE: [Shape; 6] = [
    ("none", 2_600, |asked| asked.none()),
    ("none without answers", 650, |asked| asked.none() && asked.answers() == 0),
    ("none though no field is empty", 65, |asked| asked.none() && !asked.contradicts()),
    ("none by a table without rows", 1_100, |asked| asked.none() && asked.book.tables.iter().any(|table| table.rows.is_empty())),
    ("none of 60 fields", 31, |asked| asked.none() && asked.fields() == 60),
    ("none of 65,536 readings", 9, |asked| asked.none() && asked.product() == MOST_READINGS),
];

const LIMITS: [Shape; 13] = [
    ("a reading of 65,536", 43, |asked| asked.shown().is_some() && asked.product() == MOST_READINGS),
    ("a reading of 60 fields and 65,536", 7, |asked| {
        asked.shown().is_some() && asked.fields() == 60 && asked.product() == MOST_READINGS
    }),
    ("65,520 readings", 6, |asked| asked.number() == 0 && asked.product() == 65_520),
    ("23 for 65,550 readings", 14, |asked| asked.number() == 23 && asked.product() == 65_550),
    ("23 for 131,072 readings", 15, |asked| asked.number() == 23 && asked.product() == 131_072),
    ("23 for a multiple of 2^31 alone", 19, |asked| asked.is_multiple(31) && !asked.is_multiple(32)),
    ("23 for a multiple of 2^32 alone", 210, |asked| asked.is_multiple(32) && !asked.is_multiple(63)),
    ("23 for a multiple of 2^63 alone", 13, |asked| asked.is_multiple(63) && !asked.is_multiple(64)),
    ("23 for a multiple of 2^64", 590, |asked| asked.is_multiple(64)),
    ("23 for 60 fields of 32 codes", 210, |asked| asked.number() == 23 && asked.book.counts == [32; 60]),
    ("23 though the open fields have few readings", 1_200, |asked| asked.is_few_where(|field| !asked.sheet.is_answered(field))),
    ("23 though the fields without a photograph have few", 330, |asked| {
        asked.is_few_where(|field| !asked.sheet.is_photographed(field))
    }),
    ("23 though the fields of tables have few", 1_500, |asked| asked.is_few_where(|field| asked.is_tied(field))),
];

const LENGTHS: [Shape; 10] = [
    ("14 before 23", 860, |asked| asked.number() == 14 && is_too_large(asked.book)),
    ("14 before 18", 3_100, |asked| asked.number() == 14 && asked.lent(|lent, fields| lent < fields)),
    ("23 before 18", 2_600, |asked| asked.number() == 23 && asked.lent(|lent, fields| lent < fields)),
    ("23 where enough is lent", 1_100, |asked| asked.number() == 23 && asked.lent(|lent, fields| lent >= fields)),
    ("18 for one byte too few, a reading", 4_900, |asked| {
        asked.shown().is_some() && asked.lent(|lent, fields| lent + 1 == fields)
    }),
    ("18 for one byte too few, none", 2_600, |asked| asked.none() && asked.lent(|lent, fields| lent + 1 == fields)),
    ("18 for no byte, a reading", 1_700, |asked| asked.shown().is_some() && asked.lent(|lent, _| lent == 0)),
    ("18 for no byte, none", 810, |asked| asked.none() && asked.lent(|lent, _| lent == 0)),
    ("more bytes than fields, a reading", 4_900, |asked| asked.shown().is_some() && asked.lent(|lent, fields| lent > fields)),
    ("more bytes than fields, none", 2_600, |asked| asked.none() && asked.lent(|lent, fields| lent > fields)),
];

/// The names of all shapes, and how often each has to be reached.
pub fn all() -> impl Iterator<Item = (&'static str, u64)> {
    every().map(|(name, least, _)| (*name, *least))
}

fn every() -> impl Iterator<Item = &'static Shape> {
    READINGS.iter().chain(&TIES).chain(&PHOTOGRAPHS).chain(&NONE).chain(&LIMITS).chain(&LENGTHS)
}

/// The remainder of the product of all code counts by this power of two, up to 2^64.
pub fn remainder(book: &Book, power: u32) -> u64 {
    book.counts.iter().fold(1, |rest: u128, &count| rest * count as u128 % (1 << power)) as u64
}

impl<'a> Asked<'a> {
    /// None where the trials are of another call.
    pub fn by(book: &'a Book, sheet: &'a Sheet, trials: &'a [Trial]) -> Option<Asked<'a>> {
        let call = trials.first()?.call;
        if *call != Call::Nearest {
            return None;
        }
        let is_searched = trials[0].left.number == 0;
        let full: Vec<Vec<u8>> = if is_searched { full_readings(book).collect() } else { Vec::new() };
        let kept = full.iter().filter(|reading| is_kept(sheet, reading)).map(|reading| measured(sheet, reading.clone()));
        let kept: Vec<Nearest> = kept.collect();
        let least = kept.iter().map(|kept| kept.differing).min();
        let tied = kept.into_iter().filter(|kept| Some(kept.differing) == least).map(|kept| kept.reading).collect();
        let mut asked = Asked { call, book, sheet, trials, full, tied, without_photographs: None };
        asked.without_photographs = asked.shown_with(|_| false);
        Some(asked)
    }

    /// What would be shown if such places alone were photographed, as far as they are.
    fn shown_with(&self, so: fn(usize) -> bool) -> Option<Nearest> {
        let sheet = self.sheet.photographed_where(|place| so(place) && self.sheet.is_photographed(place));
        self.full.iter().filter(|reading| is_kept(&sheet, reading)).map(|reading| measured(&sheet, reading.clone())).min()
    }

    /// The names of the shapes that the call has.
    pub fn shapes(&self) -> impl Iterator<Item = &'static str> + '_ {
        every().filter(|(_, _, has)| has(self)).map(|(name, ..)| *name)
    }

    /// The number where as many elements are lent as are asked for.
    fn number(&self) -> u64 {
        self.trials[0].left.number
    }

    fn fields(&self) -> usize {
        self.book.counts.len()
    }

    fn answers(&self) -> usize {
        (0..self.fields()).filter(|&field| self.sheet.is_answered(field)).count()
    }

    fn shown(&self) -> Option<&Vec<u8>> {
        self.tied.first()
    }

    fn none(&self) -> bool {
        self.number() == 0 && self.tied.is_empty()
    }

    fn differs(&self, fields: RangeInclusive<usize>) -> bool {
        self.shown().is_some_and(|shown| fields.contains(&differing(self.sheet, shown).count()))
    }

    fn differs_in(&self, fields: RangeInclusive<usize>) -> bool {
        self.shown().is_some_and(|shown| differing(self.sheet, shown).any(|field| fields.contains(&field)))
    }

    /// Each code of the reading is so beside its field's count.
    fn shows_at(&self, so: fn(u8, u8) -> bool) -> bool {
        self.shown().is_some_and(|shown| shown.iter().zip(&self.book.counts).all(|(&code, &count)| so(code, count)))
    }

    /// Some field has such an answer, or none, and such a code.
    fn gives(&self, so: fn(Option<u8>, u8) -> bool) -> bool {
        let answer = |field: usize| self.sheet.is_answered(field).then(|| self.sheet.answers[field]);
        self.shown().is_some_and(|shown| shown.iter().enumerate().any(|(field, &code)| so(answer(field), code)))
    }

    /// Some field has no standing code.
    fn contradicts(&self) -> bool {
        has_empty(&largest(self.book, &self.sheet.answers))
    }

    /// The first field in which the first two readings that are as near part is so.
    fn parts_in(&self, so: fn(&Sheet, usize) -> bool) -> bool {
        let [one, other, ..] = &self.tied[..] else {
            return false;
        };
        (0..self.fields()).find(|&field| one[field] != other[field]).is_some_and(|field| so(self.sheet, field))
    }

    /// The reading that would be shown if the last field were looked at first.
    fn turned(&self) -> Option<&Vec<u8>> {
        self.tied.iter().min_by_key(|reading| reading.iter().rev().copied().collect::<Vec<u8>>())
    }

    /// Of those that are as near, another keeps the first answer that it and the one shown do not both keep or both change.
    fn keeps_first_answer(&self) -> bool {
        let changes = |reading: &Vec<u8>| differing(self.sheet, reading).collect::<Vec<usize>>();
        self.tied.iter().map(changes).max() != self.shown().map(changes)
    }

    /// Another reading would be shown without the photographs, and the numbers of fields in which they differ are so.
    fn rules_out(&self, so: fn(usize, usize) -> bool) -> bool {
        let (Some(without), Some(shown)) = (&self.without_photographs, self.shown()) else {
            return false;
        };
        without.reading != *shown && so(without.differing, differing(self.sheet, shown).count())
    }

    fn is_tied(&self, field: usize) -> bool {
        self.book.tables.iter().any(|table| table.fields.contains(&(field as u8)))
    }

    fn has_loose_photograph(&self) -> bool {
        self.sheet.photographed().any(|field| self.sheet.answers[field] > 0 && !self.is_tied(field))
    }

    fn product(&self) -> u64 {
        product(self.book.counts.iter().copied())
    }

    /// 23 for a product that is a multiple of this power of two.
    fn is_multiple(&self, power: u32) -> bool {
        self.number() == 23 && remainder(self.book, power) == 0
    }

    /// 23, and the fields that are so would have been searched.
    fn is_few_where(&self, so: impl Fn(usize) -> bool) -> bool {
        let counts = (0..self.fields()).filter(|&field| so(field)).map(|field| self.book.counts[field]);
        self.number() == 23 && product(counts) <= MOST_READINGS
    }

    /// So many elements are lent once, beside the number of fields.
    fn lent(&self, so: fn(usize, usize) -> bool) -> bool {
        self.trials.iter().any(|trial| so(trial.lent.elements(), self.fields()))
    }
}

#[cfg(test)]
mod tests {
    use super::{remainder, Asked};
    use crate::book::Book;
    use crate::calls::Call;
    use crate::cases::Case;
    use crate::compare::trials;
    use crate::examples::{e1, e4, two_pairs};
    use crate::sheet::{Sheet, FRESH};

    /// The shapes of a call for the nearest full reading on this book and sheet, but for those of the lengths lent.
    fn names(book: &Book, sheet: Sheet) -> Vec<&'static str> {
        let case = Case::new(book.write(), sheet, vec![Call::Nearest]);
        let trials = trials(&case, &Ok(book.clone()), 1, 0);
        let asked = Asked::by(book, &case.sheet, &trials).expect("it is a call for a reading");
        let is_of_length = |name: &&str| name.starts_with("18") || name.starts_with("more bytes");
        asked.shapes().filter(|name| !is_of_length(name)).collect()
    }

    /// Answers 1 and 0: 0 0 0, 1 1 2 and 1 2 2 differ in one field, and the first keeps the last answer.
    #[test]
    fn shapes_of_e1() {
        let sheet = Sheet::of(&[1, 0]);
        let first = ["a reading", "a reading that differs in 1 field", "the first of all readings, which differs"];
        let second = ["a lower code than the answer", "a reading that differs in field 0"];
        let empty = "a reading where the answers leave a field empty";
        let tied = ["three readings as near, or more", "readings as near that part in field 0"];
        let parting = ["readings as near that part first in an answered field", "another as near keeps the first answer"];
        assert_eq!(names(&e1(), sheet), [&first[..], &second, &[empty], &tied, &parting].concat());
        let photographed = names(&e1(), sheet.with_photographs(&[0]));
        let beside = ["a reading that differs beside a photograph", "a photograph that rules one as near out"];
        assert!(photographed.ends_with(&beside));
        assert_eq!(names(&e1(), sheet.with_photographs(&[0, 1])), ["none for the photographs alone", "none"]);
    }

    #[test]
    fn shapes_of_none() {
        assert_eq!(names(&e4(), FRESH), ["none", "none without answers", "none though no field is empty"]);
        assert_eq!(names(&e4(), Sheet::of(&[0])), ["none"]);
    }

    /// Both equal pairs are open, and field 3 is the first in which the nearest two part.
    #[test]
    fn shapes_of_ties() {
        let shapes = names(&two_pairs(), Sheet::of(&[1]));
        let tied = ["two readings as near", "readings as near that part first in another field"];
        assert!(shapes.ends_with(&[&tied[..], &["readings as near that part first in an open field"]].concat()));
    }

    #[test]
    fn shapes_of_limits() {
        let of = |counts: &[u8]| names(&Book::new(counts.to_vec(), Vec::new()), FRESH);
        assert!(of(&[2; 16]).ends_with(&["a reading of 65,536"]));
        assert!(of(&[2; 17]).starts_with(&["23 for 131,072 readings"]));
        assert!(of(&[6, 19, 23, 25]).starts_with(&["23 for 65,550 readings"]));
        assert!(of(&[2; 31]).starts_with(&["23 for a multiple of 2^31 alone"]));
        assert!(of(&[32; 60]).starts_with(&["23 for a multiple of 2^64", "23 for 60 fields of 32 codes"]));
        assert_eq!(
            (remainder(&Book::new(vec![3; 2], Vec::new()), 3), remainder(&Book::new(vec![8; 21], Vec::new()), 64)),
            (1, 1 << 63)
        );
    }
}
