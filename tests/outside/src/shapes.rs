//! What sheets show of document 02's M-101: which fields are listed, and which are not although codes of their own stand; and so for as
//! many fields as M-103 allows, and with M-105's photographs.

use std::collections::BTreeSet;
use std::ops::RangeInclusive;

use crate::book::Book;
use crate::filter::{has_empty, largest, lifting, pass_cases, PassCase};
use crate::sheet::{Sheet, NO_ANSWER, PLACES};

/// A sheet with all cases of its one pass.
pub struct Pass<'a> {
    book: &'a Book,
    sheet: &'a Sheet,
    cases: Vec<PassCase>,
    /// What would be the cases of the photographed fields.
    photographed: Vec<PassCase>,
}

/// A shape: its name, in how many cases of a run of 52,500 it has to be reached, and what has it.
type Shape = (&'static str, u64, fn(&Pass) -> bool);

/// A field is passed over where it has no line although codes of its own stand with it lifted.
pub const SHAPES: [Shape; 19] = [
    ("a field listed", 2_000, |pass| pass.some_listed()),
    ("a field listed though the answers contradict each other", 500, |pass| pass.contradicts() && pass.some_listed()),
    ("a field passed over", 1_000, |pass| pass.passed_over().next().is_some()),
    ("one listed, another passed over", 200, |pass| pass.some_listed() && pass.passed_over().next().is_some()),
    ("one mends, another does not", 300, |pass| pass.some_listed() && pass.cases[1..].iter().any(|case| has_empty(&case.domain))),
    ("two parts contradictory, nothing listed", 100, |pass| pass.only_passed_over() && pass.contradictory_parts() > 1),
    ("passed over for a table without rows on a lone field", 100, |pass| pass.lone_without_rows() && pass.only_passed_over()),
    ("passed over for unanswered fields alone", 50, |pass| pass.passed_over_for(|f, _| !pass.sheet.is_answered(f))),
    ("passed over for answered fields alone", 250, |pass| pass.passed_over_for(|f, _| pass.sheet.is_answered(f))),
    ("passed over for the first field alone", 25, |pass| pass.passed_over_for(|f, _| f == 0)),
    ("passed over for the last field alone", 25, |pass| pass.passed_over_for(|f, fields| f + 1 == fields)),
    ("passed over for fields from 32 on alone", 35, |pass| pass.passed_over_for(|f, _| f >= 32)),
    ("passed over for field 59 alone", 7, |pass| pass.passed_over_for(|f, _| f == 59)),
    ("case 32 listed", 35, |pass| pass.lists_case(32..=32)),
    ("case 32 passed over", 50, |pass| pass.passes_over_case(32..=32)),
    ("case 33 to 59 listed", 30, |pass| pass.lists_case(33..=59)),
    ("case 33 to 59 passed over", 45, |pass| pass.passes_over_case(33..=59)),
    ("case 60 listed", 6, |pass| pass.lists_case(60..=60)),
    ("case 60 passed over", 3, |pass| pass.passes_over_case(60..=60)),
];

/// Those of sheets with photographs.
pub const PHOTOGRAPHED: [Shape; 17] = [
    ("an answer in doubt beside a photographed one", 1_400, |pass| !pass.photographed.is_empty() && pass.cases.len() > 1),
    ("all answers photographed, codes struck", 990, |pass| pass.all_photographed() && pass.cases[0].struck() > 0),
    ("all answers photographed, contradictory", 570, |pass| pass.all_photographed() && pass.contradicts()),
    ("contradictory, some answers photographed", 1_400, |pass| pass.contradicts() && !pass.photographed.is_empty()),
    ("a photographed field that would be listed", 1_200, |pass| pass.photographed.iter().any(is_listed)),
    ("a photographed field that would be passed over", 600, |pass| pass.photographed.iter().any(is_passed_over)),
    ("only photographed fields would be listed", 690, |pass| pass.photographed.iter().any(is_listed) && !pass.some_listed()),
    ("only a photographed field would mend", 75, |pass| {
        pass.contradicts() && pass.photographed.iter().any(is_listed) && pass.cases.len() > 1 && !pass.some_listed()
    }),
    ("a field listed before a photographed one", 490, |pass| pass.lists_beside(|listed, other| listed < other)),
    ("a field listed behind a photographed one", 450, |pass| pass.lists_beside(|listed, other| listed > other)),
    ("a field listed next to a photographed one", 490, |pass| pass.lists_beside(|listed, other| listed.abs_diff(other) == 1)),
    ("a field passed over beside a photographed one", 430, |pass| {
        !pass.photographed.is_empty() && pass.passed_over().next().is_some()
    }),
    ("a photographed field whose case would strike otherwise", 1_400, |pass| {
        pass.photographed.iter().any(|case| case.struck() != pass.cases[0].struck())
    }),
    ("a photographed field from 32 to 58", 220, |pass| pass.photographs(32..=58)),
    ("field 59 photographed", 70, |pass| pass.photographs(59..=59)),
    ("a field from 32 on listed beside a photographed one", 110, |pass| pass.lists_beside(|listed, _| listed >= 32)),
    ("case 33 to 59 listed beside a photographed field", 19, |pass| !pass.photographed.is_empty() && pass.lists_case(33..=59)),
];

/// The names of the shapes that a sheet has.
pub fn shapes<'a>(book: &'a Book, sheet: &'a Sheet) -> impl Iterator<Item = &'static str> + 'a {
    let photographed = (0..book.counts.len()).filter(|&f| sheet.is_photographed(f));
    let photographed = photographed.map(|f| lifting(book, &sheet.answers, largest, f)).collect();
    let pass = Pass { book, sheet, cases: pass_cases(book, sheet, largest), photographed };
    SHAPES.iter().chain(&PHOTOGRAPHED).filter(move |(_, _, has)| has(&pass)).map(|(name, ..)| *name)
}

fn is_listed(case: &PassCase) -> bool {
    !has_empty(&case.domain)
}

fn is_passed_over(case: &PassCase) -> bool {
    has_empty(&case.domain) && !case.lines().is_empty()
}

fn empty_fields(case: &PassCase) -> impl Iterator<Item = usize> + '_ {
    (0..case.domain.len()).filter(|&f| !case.domain[f].contains(&true))
}

/// For each field the lowest one that a chain of tables ties it to.
fn lowest_tied(book: &Book) -> Vec<usize> {
    let mut lowest: Vec<usize> = (0..book.counts.len()).collect();
    for table in std::iter::repeat_n(&book.tables, book.counts.len()).flatten() {
        let least = table.fields.iter().map(|&f| lowest[f as usize]).min().unwrap_or(0);
        table.fields.iter().for_each(|&f| lowest[f as usize] = least);
    }
    lowest
}

impl Pass<'_> {
    fn contradicts(&self) -> bool {
        has_empty(&self.cases[0].domain)
    }

    fn some_listed(&self) -> bool {
        self.cases[1..].iter().any(is_listed)
    }

    fn all_photographed(&self) -> bool {
        !self.photographed.is_empty() && self.cases.len() == 1
    }

    fn photographs(&self, fields: RangeInclusive<usize>) -> bool {
        self.photographed.iter().any(|case| case.lifted.is_some_and(|f| fields.contains(&f)))
    }

    /// A field is listed, and lies so to some photographed one.
    fn lists_beside(&self, so: fn(usize, usize) -> bool) -> bool {
        let listed = self.cases[1..].iter().filter(|case| is_listed(case)).filter_map(|case| case.lifted);
        listed.flat_map(|f| self.photographed.iter().filter_map(move |other| Some((f, other.lifted?)))).any(|(f, g)| so(f, g))
    }

    fn passed_over(&self) -> impl Iterator<Item = &PassCase> {
        self.cases[1..].iter().filter(|case| is_passed_over(case))
    }

    fn lists_case(&self, mut numbers: RangeInclusive<usize>) -> bool {
        numbers.any(|k| self.cases.get(k).is_some_and(is_listed))
    }

    fn passes_over_case(&self, mut numbers: RangeInclusive<usize>) -> bool {
        numbers.any(|k| self.cases.get(k).is_some_and(is_passed_over))
    }

    fn only_passed_over(&self) -> bool {
        !self.some_listed() && self.passed_over().next().is_some()
    }

    /// Some field is passed over, and these fields alone are empty then.
    fn passed_over_for(&self, these: impl Fn(usize, usize) -> bool) -> bool {
        self.passed_over().any(|case| empty_fields(case).all(|f| these(f, case.domain.len())))
    }

    /// The parts that have an answer, are empty with nothing lifted, and would not be without their answers.
    fn contradictory_parts(&self) -> usize {
        let without_answers = largest(self.book, &[NO_ANSWER; PLACES]);
        let lowest = lowest_tied(self.book);
        let contradictory = empty_fields(&self.cases[0]).filter(|&f| without_answers[f].contains(&true));
        contradictory.map(|f| lowest[f]).collect::<BTreeSet<_>>().len()
    }

    fn lone_without_rows(&self) -> bool {
        let tables = &self.book.tables;
        let on = |f: u8| tables.iter().filter(move |table| table.fields.contains(&f));
        tables.iter().any(|table| table.fields.len() == 1 && table.rows.is_empty() && on(table.fields[0]).count() == 1)
    }
}

#[cfg(test)]
mod tests {
    use super::{lowest_tied, shapes};
    use crate::examples::{e1, e6, two_pairs};
    use crate::filter::largest;
    use crate::random::{book, form, Random};
    use crate::sheet::{Sheet, NO_ANSWER};

    #[test]
    fn chains_of_tables() {
        assert_eq!(lowest_tied(&e1()), [0, 0, 0]);
        assert_eq!(lowest_tied(&e6()), [0, 1]);
        assert_eq!(lowest_tied(&two_pairs()), [0, 0, 2, 2]);
    }

    /// So a field is passed over only for fields that no chain of tables ties to it.
    #[test]
    fn what_is_tied_to_an_empty_field_is_empty() {
        let mut r = Random(1);
        for _ in 0..500 {
            let book = book(&mut r);
            let domain = largest(&book, &form(&mut r, &book));
            let is_empty = |f: usize| !domain[f].contains(&true);
            assert!(lowest_tied(&book).iter().enumerate().all(|(f, &lowest)| is_empty(f) == is_empty(lowest)));
        }
    }

    #[test]
    fn shapes_of_photographed_sheets() {
        let names = |answers: &[u8], photographed: &[usize]| {
            shapes(&two_pairs(), &Sheet::of(answers).with_photographs(photographed)).collect::<Vec<_>>()
        };
        let beside = ["a field listed before a photographed one", "a field listed next to a photographed one"];
        let otherwise = "a photographed field whose case would strike otherwise";
        let some =
            ["a field listed", "an answer in doubt beside a photographed one", "a photographed field that would be listed"];
        assert_eq!(names(&[0, 0], &[1]), [&some[..], &beside].concat());
        let all = ["all answers photographed, codes struck", "a photographed field that would be listed"];
        assert_eq!(names(&[0, 0], &[0, 1]), [&all[..], &["only photographed fields would be listed"]].concat());
        let mends = names(&[0, 1, 0], &[0, 1]);
        assert!(["only a photographed field would mend", otherwise].iter().all(|name| mends.contains(name)), "{mends:?}");
        let over = names(&[0, 1, 0], &[2]);
        assert!(over.contains(&"a photographed field that would be passed over"), "{over:?}");
    }

    #[test]
    fn shapes_of_sheets() {
        let names = |answers: [u8; 4]| shapes(&two_pairs(), &Sheet::of(&answers)).collect::<Vec<_>>();
        assert_eq!(names([NO_ANSWER; 4]), Vec::<&str>::new());
        assert_eq!(names([0, 0, 1, NO_ANSWER]), ["a field listed"]);
        let two = ["a field passed over", "two parts contradictory, nothing listed", "passed over for answered fields alone"];
        assert_eq!(names([0, 1, 0, 1]), two);
        let both = ["a field listed", "a field listed though the answers contradict each other", "a field passed over"];
        let mixed = ["one listed, another passed over", "one mends, another does not", "passed over for answered fields alone"];
        assert_eq!(names([0, 1, 0, NO_ANSWER]), [both, mixed].concat());
        let lone = "passed over for a table without rows on a lone field";
        let last = ["passed over for unanswered fields alone", "passed over for the last field alone"];
        assert_eq!(shapes(&e6(), &Sheet::of(&[0])).collect::<Vec<_>>(), ["a field passed over", lone, last[0], last[1]]);
    }
}
