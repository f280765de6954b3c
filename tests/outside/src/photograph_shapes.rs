//! What calls show of document 02's M-105: sheets with photographs, at fault and not, which refusal comes before which, and what a list of
//! calls does with them. What alternatives make of them is with the other shapes of a list.

use std::ops::RangeInclusive;

use crate::calls::{CHANGING, MAKING, OF_A_SHEET};
use crate::desk::{faults, is_no_code};
use crate::made::{Made, Shape};
use crate::sheet::PLACES;
use crate::steps::Step;

const ENTER: &[&str] = &["enter"];
const PHOTOGRAPH: &[&str] = &["photograph"];
const FILTERED: &[&str] = &["filtered"];
const ROW: &[&str] = &["row"];
const STORE: &[&str] = &["store"];
const REPLAY: &[&str] = &["replay"];

/// The calls that refuse a photographed field by 22, enter where the code is another.
const OF_A_FREE_FIELD: &[&str] = &["enter", "withdraw"];

/// The calls that refuse a field without an answer by 17 and change it.
const OF_AN_ANSWER: &[&str] = &["withdraw", "photograph"];

pub const SHAPES: &[Shape] = &[
    ("some answers photographed", 1_400, OF_A_SHEET, |made| made.is_sound() && made.is_part_photographed()),
    ("all answers photographed", 1_000, OF_A_SHEET, |made| made.is_sound() && made.sheet().is_all_photographed()),
    ("a photograph's byte above 1", 940, OF_A_SHEET, |made| made.is_sound() && made.has_byte_above_1()),
    ("14 for a photograph without an answer", 720, OF_A_SHEET, |made| made.misses_answer(0..=59) && made.fault_is_of_field()),
    ("14 for a photograph behind the fields", 320, OF_A_SHEET, |made| made.misses_answer(0..=59) && !made.fault_is_of_field()),
    ("14 for a photograph at 32 to 58, a field", 30, OF_A_SHEET, |made| made.misses_answer(32..=58) && made.fault_is_of_field()),
    ("14 for a photograph at 59, a field", 4, OF_A_SHEET, |made| made.misses_answer(59..=59) && made.fault_is_of_field()),
    ("14 for a photograph at 59 behind the fields", 30, OF_A_SHEET, |made| {
        made.misses_answer(59..=59) && !made.fault_is_of_field()
    }),
    ("14 for a photograph by a byte above 1", 170, OF_A_SHEET, |made| {
        made.misses_answer(0..=59) && made.place_at_fault().is_some_and(|place| made.sheet().photographs[place] > 1)
    }),
    ("14 for a photograph before an answer at fault", 320, OF_A_SHEET, |made| {
        made.misses_answer(0..=59) && made.faults().any(|place| made.sheet().is_answered(place))
    }),
    ("14 for an answer before a photograph at fault", 310, OF_A_SHEET, |made| {
        made.number() == 14 && !made.misses_answer(0..=59) && made.faults().any(|place| !made.sheet().is_answered(place))
    }),
    ("14 for a photographed answer", 200, OF_A_SHEET, |made| {
        made.place_at_fault().is_some_and(|place| made.sheet().is_answered(place) && made.sheet().is_photographed(place))
    }),
    ("14 beside photographed answers", 730, OF_A_SHEET, |made| made.number() == 14 && made.has_sound_photograph()),
    ("accepted beside a photograph", 360, CHANGING, |made| made.number() == 0 && made.is_beside_photograph()),
    ("accepted next to a photograph", 130, CHANGING, |made| made.number() == 0 && made.is_next_to_photograph()),
    ("accepted with a photograph's byte above 1", 110, CHANGING, |made| made.number() == 0 && made.has_byte_above_1()),
    ("1 to 13 with a photograph's byte above 1", 770, CHANGING, |made| made.is_refused(1..=13) && made.has_byte_above_1()),
    ("14 with a photograph's byte above 1", 530, CHANGING, |made| made.is_refused(14..=14) && made.has_byte_above_1()),
    ("15 to 22 with a photograph's byte above 1", 470, CHANGING, |made| made.is_refused(15..=22) && made.has_byte_above_1()),
    ("14 before 15", 1_800, CHANGING, |made| made.number() == 14 && made.lacks_field()),
    ("15 for a field that the sheet has a place for", 520, CHANGING, |made| made.number() == 15 && made.field() < PLACES),
    ("14 before 16", 1_800, ENTER, |made| made.number() == 14 && made.lacks_code()),
    ("14 before 22", 250, OF_A_FREE_FIELD, |made| made.number() == 14 && made.would_change_photographed()),
    ("14 before 17", 190, OF_AN_ANSWER, |made| made.number() == 14 && made.lacks_answer()),
    ("17 beside a photograph", 60, OF_AN_ANSWER, |made| made.number() == 17 && made.sheet().has_photograph()),
    ("16 before 22", 760, ENTER, |made| made.number() == 16 && made.is_of_photographed()),
    ("22 for field 0", 120, OF_A_FREE_FIELD, |made| made.number() == 22 && made.field() == 0),
    ("22 for a field from 32 to 58", 51, OF_A_FREE_FIELD, |made| made.number() == 22 && (32..=58).contains(&made.field())),
    ("22 for field 59", 8, OF_A_FREE_FIELD, |made| made.number() == 22 && made.field() == 59),
    ("22 by a byte above 1", 100, OF_A_FREE_FIELD, |made| made.number() == 22 && made.sheet().photographs[made.field()] > 1),
    ("22 where one of several answers is photographed", 120, OF_A_FREE_FIELD, |made| {
        made.number() == 22 && made.sheet().photographed().count() == 1 && made.is_part_photographed()
    }),
    ("a photograph set", 2_500, PHOTOGRAPH, |made| made.number() == 0 && !made.is_of_photographed()),
    ("a photograph set again", 800, PHOTOGRAPH, |made| made.number() == 0 && made.is_of_photographed()),
    ("a photograph set again over a byte above 1", 130, PHOTOGRAPH, |made| {
        made.number() == 0 && made.sheet().photographs[made.field()] > 1
    }),
    ("code 0 photographed", 1_200, PHOTOGRAPH, |made| made.number() == 0 && made.sheet().answers[made.field()] == 0),
    ("the last answer photographed", 75, PHOTOGRAPH, |made| made.number() == 0 && made.is_last_in_doubt()),
    ("22 for field 0 alone", 310, STORE, |made| made.number() == 22 && made.sheet().photographed().eq([0])),
    ("22 for the last field alone", 410, STORE, |made| {
        made.number() == 22 && made.sheet().photographed().eq([made.fields() - 1])
    }),
    ("22 for field 59 alone", 5, STORE, |made| made.number() == 22 && made.sheet().photographed().eq([59])),
    ("22 for all answers", 1_000, STORE, |made| made.number() == 22 && made.sheet().is_all_photographed()),
    ("22 by a byte above 1 alone", 190, STORE, |made| {
        made.number() == 22 && made.sheet().photographed().all(|place| made.sheet().photographs[place] > 1)
    }),
    ("22 before 18", 2_000, STORE, |made| made.number() == 22 && made.trial.lent.elements() < made.fields()),
    ("22 where enough is lent", 1_800, STORE, |made| made.number() == 22 && made.trial.lent.elements() >= made.fields()),
    ("14 before 22", 720, STORE, |made| made.number() == 14 && made.has_sound_photograph()),
    ("a photographed field relaxed", 780, FILTERED, |made| made.number() == 0 && made.is_of_photographed()),
    ("a photographed field relaxed, which has other codes then", 350, FILTERED, |made| {
        made.number() == 0 && made.is_of_photographed() && made.frees_codes()
    }),
    ("18 with a photographed field relaxed", 780, FILTERED, |made| made.number() == 18 && made.is_of_photographed()),
    ("another field relaxed beside a photograph", 380, FILTERED, |made| made.number() == 0 && made.is_beside_photograph()),
    ("none relaxed beside a photograph", 700, FILTERED, |made| {
        made.number() == 0 && made.field() == 255 && made.sheet().has_photograph()
    }),
    ("a row beside a photograph", 700, ROW, |made| made.finds_row(1) && made.is_beside_photograph()),
    ("none beside a photograph", 880, ROW, |made| made.finds_row(0) && made.is_beside_photograph()),
    ("a row of a photographed field", 580, ROW, |made| made.finds_row(1) && made.is_of_photographed()),
    ("photographs before it", 6_500, MAKING, |made| made.sheet().has_photograph()),
    ("a photograph at 59 before it", 400, MAKING, |made| made.sheet().is_photographed(59)),
    ("a photograph behind the fields before it", 630, MAKING, |made| {
        made.reading.is_ok() && made.sheet().photographed().any(|place| place >= made.fields())
    }),
    ("a photograph without an answer before it", 2_000, MAKING, |made| {
        made.sheet().photographed().any(|place| !made.sheet().is_answered(place))
    }),
    ("refused, photographs before it", 3_500, &["load", "replay"], |made| made.number() != 0 && made.sheet().has_photograph()),
    ("a photograph reached", 3_000, REPLAY, |made| made.trial.left.sheet.has_photograph()),
    ("a photograph from 32 to 58 reached", 220, REPLAY, |made| made.reaches_photograph(32..=58)),
    ("a photograph at 59 reached", 90, REPLAY, |made| made.reaches_photograph(59..=59)),
    ("all answers reached are photographed", 1_200, REPLAY, |made| made.trial.left.sheet.is_all_photographed()),
    ("18 with a photograph reached", 800, REPLAY, |made| made.number() == 18 && made.trial.left.sheet.has_photograph()),
    ("a photograph set in a list", 4_000, REPLAY, |made| made.has_step(|step| step.is(3, 0) && !step.of_photographed())),
    ("a photograph set again in a list", 1_800, REPLAY, |made| made.has_step(|step| step.is(3, 0) && step.of_photographed())),
    ("a photograph with a third byte that is no code", 3_500, REPLAY, |made| {
        made.has_step(|step| step.is(3, 0) && is_no_code(step.book, step.field(), step.code()))
    }),
    ("15 of a photograph in a list", 1_700, REPLAY, |made| made.has_step(|step| step.is(3, 15))),
    ("17 of a photograph in a list", 2_000, REPLAY, |made| made.has_step(|step| step.is(3, 17))),
    ("22 of another code in a list", 1_500, REPLAY, |made| made.has_step(|step| step.is(0, 22))),
    ("22 of a withdraw in a list", 1_500, REPLAY, |made| made.has_step(|step| step.is(1, 22))),
    ("16 before 22 in a list", 1_200, REPLAY, |made| made.has_step(|step| step.is(0, 16) && step.of_photographed())),
    ("an enter beside a photograph in a list", 2_500, REPLAY, |made| {
        made.has_step(|step| step.is(0, 0) && !step.of_photographed() && step.before.has_photograph())
    }),
    ("a withdraw beside a photograph in a list", 1_700, REPLAY, |made| {
        made.has_step(|step| step.is(1, 0) && step.before.has_photograph())
    }),
    ("a clear of photographs in a list", 1_700, REPLAY, |made| {
        made.has_step(|step| step.is(2, 0) && step.before.has_photograph())
    }),
    ("an answer reached behind a clear of photographs", 810, REPLAY, |made| made.answers_behind_clear()),
    ("a kind above 3 on an answer in a list", 910, REPLAY, |made| made.has_step(|step| step.call[0] > 3 && step.of_answered())),
    ("kind 4 on an answer in a list", 16, REPLAY, |made| made.has_step(|step| step.call[0] == 4 && step.of_answered())),
    ("kind 255 on an answer in a list", 14, REPLAY, |made| made.has_step(|step| step.call[0] == 255 && step.of_answered())),
    ("a photograph in a list by a refused book", 2_500, REPLAY, |made| {
        made.reading.is_err() && made.trial.call.list().chunks_exact(3).any(|call| call[0] == 3)
    }),
    ("lists of ten calls and more, one in five or fewer refused", 2_800, REPLAY, |made| {
        let refused = made.steps.iter().filter(|step| step.number != 0).count();
        made.steps.len() >= 10 && (1..=made.steps.len() / 5).contains(&refused)
    }),
];

impl Made<'_> {
    fn faults(&self) -> impl Iterator<Item = usize> + '_ {
        self.reading.iter().flat_map(|book| faults(book, self.sheet()))
    }

    /// Neither book nor sheet is refused.
    fn is_sound(&self) -> bool {
        self.reading.is_ok() && self.number() != 14
    }

    /// The place that 14 names.
    fn place_at_fault(&self) -> Option<usize> {
        (self.number() == 14).then(|| self.trial.left.cells[0] as usize)
    }

    fn fault_is_of_field(&self) -> bool {
        self.place_at_fault().is_some_and(|place| place < self.fields())
    }

    /// 14 names such a place, which is photographed without an answer.
    fn misses_answer(&self, places: RangeInclusive<usize>) -> bool {
        self.place_at_fault().is_some_and(|place| places.contains(&place) && !self.sheet().is_answered(place))
    }

    /// Some photographed place is not at fault.
    fn has_sound_photograph(&self) -> bool {
        self.sheet().photographed().any(|place| !self.faults().any(|fault| fault == place))
    }

    /// The call's field is not photographed, and another is.
    fn is_beside_photograph(&self) -> bool {
        self.field() < PLACES && !self.is_of_photographed() && self.sheet().has_photograph()
    }

    /// The same of the field before it or the one behind it.
    fn is_next_to_photograph(&self) -> bool {
        let next = [self.field().wrapping_sub(1), self.field().wrapping_add(1)];
        self.is_beside_photograph() && next.iter().any(|&field| field < PLACES && self.sheet().is_photographed(field))
    }

    fn lacks_field(&self) -> bool {
        self.field() >= self.fields()
    }

    fn lacks_answer(&self) -> bool {
        !self.lacks_field() && !self.sheet().is_answered(self.field())
    }

    fn lacks_code(&self) -> bool {
        let count = self.reading.as_ref().ok().and_then(|book| book.counts.get(self.field()));
        count.is_some_and(|&count| self.trial.call.code() >= Some(count as usize))
    }

    /// Its field is photographed, and the call would take the answer away or give it another code.
    fn would_change_photographed(&self) -> bool {
        self.is_of_photographed() && !self.is_of_code_held() && !self.lacks_code()
    }

    /// The call's field is the only one that is answered and not photographed.
    fn is_last_in_doubt(&self) -> bool {
        (0..PLACES).filter(|&place| self.sheet().is_in_doubt(place)).eq([self.field()]) && self.sheet().has_photograph()
    }

    /// Codes of the relaxed field stand that its answer is not.
    fn frees_codes(&self) -> bool {
        self.trial.left.out.numbers[self.field()] & !(1 << self.sheet().answers[self.field()]) != 0
    }

    fn finds_row(&self, found: u64) -> bool {
        self.number() == 0 && self.trial.left.cells[1] == found
    }

    fn reaches_photograph(&self, mut places: RangeInclusive<usize>) -> bool {
        places.any(|place| self.trial.left.sheet.is_photographed(place))
    }

    /// A field that was photographed before a clear has an answer in the end.
    fn answers_behind_clear(&self) -> bool {
        let reached = &self.trial.left.sheet;
        let again = |step: &Step| step.before.photographed().any(|place| reached.is_answered(place));
        let last = self.steps.iter().rfind(|step| step.is(2, 0));
        last.is_some_and(again)
    }
}

#[cfg(test)]
mod tests {
    use std::collections::BTreeSet;

    use super::SHAPES;
    use crate::book::Book;
    use crate::calls::{Call, LISTING, MAKING, OF_A_SHEET, OF_SHORT_FORMS, OF_TREES};
    use crate::examples::e1;
    use crate::listings::{ways, REASONS};
    use crate::made::{asked, names_of};
    use crate::sheet::{Sheet, FRESH};
    use crate::{nearest_shapes, plan_shapes, resend_shapes, row_shapes, shapes, short_shapes, tree_shapes, versions};

    /// The shapes of a call on E1 with fields 0 and 1 answered by 0 and 1, and these places photographed.
    fn names(photographed: &[usize], call: Call) -> Vec<&'static str> {
        names_of(SHAPES, &e1(), Sheet::of(&[0, 1]).with_photographs(photographed), call)
    }

    #[test]
    fn shapes_of_22() {
        let some = "some answers photographed";
        let one = ["22 for field 0", "22 where one of several answers is photographed"];
        assert_eq!(names(&[0], Call::Enter { field: 0, code: 0 }), [some]);
        assert_eq!(names(&[0], Call::Enter { field: 0, code: 1 }), [some, one[0], one[1]]);
        assert_eq!(names(&[0], Call::Enter { field: 0, code: 2 }), [some, "16 before 22"]);
        assert_eq!(names(&[0], Call::Withdraw { field: 0 }), [some, one[0], one[1]]);
        assert!(names(&[0], Call::Store).starts_with(&[some, "22 for field 0 alone", "22 before 18"]));
        assert!(names(&[0, 1], Call::Store).starts_with(&["all answers photographed", "22 for all answers", "22 before 18"]));
    }

    #[test]
    fn shapes_of_accepted_calls() {
        let beside = ["accepted beside a photograph", "accepted next to a photograph"];
        assert_eq!(names(&[0], Call::Enter { field: 1, code: 0 })[1..], beside);
        let last = ["a photograph set", "the last answer photographed"];
        assert_eq!(names(&[0], Call::Photograph { field: 1 })[1..], [&beside[..], &last].concat());
        assert_eq!(names(&[], Call::Photograph { field: 0 }), ["a photograph set", "code 0 photographed"]);
        assert_eq!(names(&[0], Call::Photograph { field: 0 })[1..], ["a photograph set again", "code 0 photographed"]);
        let relaxed = ["a photographed field relaxed", "a photographed field relaxed, which has other codes then"];
        assert_eq!(names(&[0], Call::Filtered { relaxed: 0 })[1..3], relaxed);
    }

    #[test]
    fn shapes_of_faults() {
        assert_eq!(names(&[2], Call::Store), ["14 for a photograph without an answer"]);
        let behind = ["14 for a photograph behind the fields", "14 for a photograph at 59 behind the fields"];
        assert_eq!(names(&[59], Call::Store), behind);
        let both = ["14 for a photograph behind the fields", "14 beside photographed answers"];
        assert_eq!(names(&[0, 3], Call::Withdraw { field: 0 }), [&both[..], &["14 before 22"]].concat());
        assert_eq!(names(&[0, 3], Call::Enter { field: 0, code: 1 }), [&both[..], &["14 before 22"]].concat());
        assert_eq!(names(&[0, 3], Call::Enter { field: 0, code: 0 }), both);
        assert_eq!(names(&[3], Call::Photograph { field: 3 })[1..], ["14 before 15"]);
        assert_eq!(names(&[3], Call::Photograph { field: 2 })[1..], ["14 before 17"]);
        let mut mixed = Sheet::of(&[2]).with_photographs(&[1]);
        let first = |sheet| names_of(SHAPES, &e1(), sheet, Call::Alternatives);
        assert_eq!(first(mixed), ["14 for an answer before a photograph at fault"]);
        mixed.answers.swap(0, 2);
        assert_eq!(first(mixed), ["14 for a photograph without an answer"]);
        mixed.answers[2] = 3;
        mixed.photographs[1] = 7;
        let byte = ["14 for a photograph by a byte above 1", "14 for a photograph before an answer at fault"];
        assert_eq!(first(mixed), [&["14 for a photograph without an answer"], &byte[..]].concat());
    }

    #[test]
    fn shapes_of_lists() {
        let list = |calls: &[[u8; 3]]| names_of(SHAPES, &e1(), FRESH, Call::Replay { calls: calls.concat() });
        let reached = ["a photograph reached", "all answers reached are photographed", "a photograph set in a list"];
        assert_eq!(list(&[[0, 0, 0], [3, 0, 0]]), reached);
        assert_eq!(list(&[[0, 0, 0], [3, 0, 0], [0, 0, 0]]), reached);
        let refused = list(&[[0, 0, 0], [3, 0, 2], [3, 0, 1], [0, 0, 1], [0, 0, 2], [1, 0, 0], [3, 1, 0], [3, 3, 0]]);
        let numbers = ["15 of a photograph in a list", "17 of a photograph in a list"];
        let more = ["22 of another code in a list", "22 of a withdraw in a list", "16 before 22 in a list"];
        let set = ["a photograph set again in a list", "a photograph with a third byte that is no code"];
        assert_eq!(refused, [&reached[..], &set, &numbers, &more].concat());
        let cleared = list(&[[0, 0, 0], [3, 0, 0], [2, 0, 0], [0, 0, 1], [4, 0, 0], [255, 0, 0]]);
        let clear = ["a clear of photographs in a list", "an answer reached behind a clear of photographs"];
        let kinds = ["kind 4 on an answer in a list", "kind 255 on an answer in a list"];
        let kind = "a kind above 3 on an answer in a list";
        assert_eq!(cleared, [&[reached[2]], &clear[..], &[kind], &kinds].concat());
        let no_book = names_of(SHAPES, &Book::new(vec![0], Vec::new()), FRESH, Call::Replay { calls: vec![3, 0, 0] });
        assert_eq!(no_book, ["a photograph in a list by a refused book"]);
    }

    /// What a call had is counted by name.
    #[test]
    fn names_of_a_call_are_different() {
        for &call in OF_A_SHEET.iter().chain(MAKING).chain(OF_SHORT_FORMS).chain(OF_TREES) {
            let made = [SHAPES, versions::SHAPES, resend_shapes::SHAPES, short_shapes::SHAPES];
            let made = made.into_iter().flat_map(|all| asked(all, call));
            let mut names: Vec<&str> = made.map(|(name, _)| name).collect();
            if LISTING.contains(&call) {
                names.extend(shapes::SHAPES.iter().chain(&shapes::PHOTOGRAPHED).map(|(name, ..)| *name));
            }
            if call == "row" {
                names.extend(row_shapes::all().map(|(name, _)| name));
            }
            if call == "nearest" {
                names.extend(nearest_shapes::all().map(|(name, _)| name));
            }
            if call == "plan" {
                names.extend(plan_shapes::all().map(|(name, _)| name));
            }
            if OF_TREES.contains(&call) {
                names.extend(tree_shapes::all(call).map(|(name, _)| name));
            }
            if call == "write_tree" {
                names.extend(ways().map(|way| way.name).chain(REASONS));
            }
            assert_eq!(names.iter().collect::<BTreeSet<_>>().len(), names.len(), "{call}");
        }
    }
}
