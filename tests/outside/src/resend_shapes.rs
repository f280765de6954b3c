//! What calls show of document 02's M-107: codes entered that the field holds, with a photograph and without, and what comes before and
//! behind them in a list; and the codes that 22 still refuses.

use std::ops::RangeInclusive;

use crate::filter::largest;
use crate::made::{Made, Shape};
use crate::sheet::{Sheet, NO_ANSWER, PLACES};
use crate::steps::{all_of, given_last, resent_last, Step};

pub const CALLS: &[&str] = &["enter", "replay"];

const ENTER: &[&str] = &["enter"];
const REPLAY: &[&str] = &["replay"];

pub const SHAPES: &[Shape] = &[
    ("a photographed answer resent", 1_200, ENTER, |made| made.resends_photographed()),
    ("a photographed answer resent in field 0", 240, ENTER, |made| made.resends_in(0..=0)),
    ("a photographed answer resent in field 31", 22, ENTER, |made| made.resends_in(31..=31)),
    ("a photographed answer resent in field 32", 6, ENTER, |made| made.resends_in(32..=32)),
    ("a photographed answer resent in a field from 33 to 57", 68, ENTER, |made| made.resends_in(33..=57)),
    ("a photographed answer resent in field 58", 9, ENTER, |made| made.resends_in(58..=58)),
    ("a photographed answer resent in field 59", 21, ENTER, |made| made.resends_in(59..=59)),
    ("a photographed answer resent, 60 of them on the sheet", 19, ENTER, |made| {
        made.resends_photographed() && made.sheet().photographed().count() == PLACES
    }),
    ("a photographed answer resent, all answers photographed", 400, ENTER, |made| {
        made.resends_photographed() && made.sheet().is_all_photographed() && made.sheet().photographed().count() > 1
    }),
    ("a photographed answer resent, none beside it photographed", 350, ENTER, |made| {
        made.resends_photographed() && made.is_part_photographed() && made.sheet().photographed().count() == 1
    }),
    ("a photographed answer resent, its byte above 1", 190, ENTER, |made| {
        made.resends_photographed() && made.sheet().photographs[made.field()] > 1
    }),
    ("a photographed answer resent, its byte 1 and another above", 310, ENTER, |made| {
        made.resends_photographed() && made.sheet().photographs[made.field()] == 1 && made.has_byte_above_1()
    }),
    ("a photographed answer resent, code 0", 510, ENTER, |made| made.resends_photographed() && made.holds(|held, _| held == 0)),
    ("a photographed answer resent, the field's last code", 290, ENTER, |made| {
        made.resends_photographed() && made.holds(|held, codes| held > 0 && held + 1 == codes)
    }),
    ("a photographed answer resent that does not stand", 570, ENTER, |made| made.resends_photographed() && !made.answer_stands()),
    ("an answer in doubt resent", 1_200, ENTER, |made| made.resends() && !made.is_of_photographed()),
    ("an answer in doubt resent beside a photograph", 90, ENTER, |made| {
        made.resends() && !made.is_of_photographed() && made.sheet().has_photograph()
    }),
    ("1 to 13 for a photographed answer resent", 870, ENTER, |made| made.is_refused(1..=13) && made.is_of_photographed_code()),
    ("14 for a photographed answer resent", 390, ENTER, |made| made.number() == 14 && made.is_of_photographed_code()),
    ("16 for the code held in its low byte", 150, ENTER, |made| {
        made.number() == 16
            && made.is_of_photographed()
            && made.code() > 255
            && made.code() as u8 as usize == made.held_by(made.field())
    }),
    ("16 for 255 on an open field", 1_100, ENTER, |made| {
        made.number() == 16 && made.code() == NO_ANSWER as usize && !made.sheet().is_answered(made.field())
    }),
    ("22 for another code", 730, ENTER, |made| made.number() == 22),
    ("22 for code 0", 170, ENTER, |made| made.number() == 22 && made.code() == 0),
    ("22 for a code below the one held", 350, ENTER, |made| made.number() == 22 && made.code() < made.held_by(made.field())),
    ("22 for a code above the one held", 350, ENTER, |made| made.number() == 22 && made.code() > made.held_by(made.field())),
    ("22 for field 0's code", 84, ENTER, |made| made.number() == 22 && made.code() == made.held_by(0)),
    ("22 for the code of the field before", 87, ENTER, |made| {
        made.number() == 22 && made.field() > 0 && made.code() == made.held_by(made.field() - 1)
    }),
    ("22 for the code of the field behind", 63, ENTER, |made| {
        made.number() == 22 && made.field() + 1 < PLACES && made.code() == made.held_by(made.field() + 1)
    }),
    ("22 for a code that no field holds", 380, ENTER, |made| {
        made.number() == 22 && !(0..PLACES).any(|field| made.code() == made.held_by(field))
    }),
    ("a photographed answer resent in a list", 2_000, REPLAY, |made| made.has_step(|step| step.resends_photographed())),
    ("a photographed answer resent in field 0", 920, REPLAY, |made| made.has_resend(0..=0)),
    ("a photographed answer resent in a field from 31 to 58", 220, REPLAY, |made| made.has_resend(31..=58)),
    ("a photographed answer resent in field 59", 71, REPLAY, |made| made.has_resend(59..=59)),
    ("a photographed answer resent, code 0", 1_100, REPLAY, |made| {
        made.has_step(|step| step.resends_photographed() && step.code() == 0)
    }),
    ("a photographed answer resent, code above 0", 1_600, REPLAY, |made| {
        made.has_step(|step| step.resends_photographed() && step.code() > 0)
    }),
    ("an answer in doubt resent in a list", 3_800, REPLAY, |made| {
        made.has_step(|step| step.resends() && !step.of_photographed())
    }),
    ("an answer in doubt resent beside a photograph", 1_700, REPLAY, |made| {
        made.has_step(|step| step.resends() && !step.of_photographed() && step.before.has_photograph())
    }),
    ("a photographed answer resent right behind the photograph", 1_200, REPLAY, |made| {
        made.has_pair(|before, step| before.is(3, 0) && step.resends_photographed() && step.shares_field(before))
    }),
    ("a photographed answer resent right behind the first photograph", 920, REPLAY, |made| {
        made.has_pair(|before, step| {
            before.is(3, 0) && !before.of_photographed() && step.resends_photographed() && step.shares_field(before)
        })
    }),
    ("a photographed answer resent behind a call of another field", 1_600, REPLAY, |made| {
        made.has_pair(|before, step| step.resends_photographed() && !step.shares_field(before))
    }),
    ("a photographed answer resent twice in a row", 1_400, REPLAY, |made| {
        made.has_pair(|before, step| before.resends_photographed() && step.call == before.call)
    }),
    ("a photographed answer resent three times in a row", 1_000, REPLAY, |made| {
        made.steps
            .windows(3)
            .any(|steps| steps[0].resends_photographed() && steps[1..].iter().all(|step| step.call == steps[0].call))
    }),
    ("a photographed answer resent behind a refused call", 1_100, REPLAY, |made| {
        made.has_pair(|before, step| before.number != 0 && step.resends_photographed())
    }),
    ("a photographed answer resent behind 22 for another code of it", 530, REPLAY, |made| {
        made.has_pair(|before, step| before.is(0, 22) && step.resends_photographed() && step.shares_field(before))
    }),
    ("a photographed answer resent behind 22 for withdrawing it", 440, REPLAY, |made| {
        made.has_pair(|before, step| before.is(1, 22) && step.resends_photographed() && step.shares_field(before))
    }),
    ("another code behind a photographed answer resent", 590, REPLAY, |made| {
        made.has_pair(|before, step| before.resends_photographed() && step.is(0, 22) && step.shares_field(before))
    }),
    ("16 behind a photographed answer resent", 380, REPLAY, |made| {
        made.has_pair(|before, step| before.resends_photographed() && step.is(0, 16) && step.shares_field(before))
    }),
    ("a withdraw behind a photographed answer resent", 580, REPLAY, |made| {
        made.has_pair(|before, step| before.resends_photographed() && step.is(1, 22) && step.shares_field(before))
    }),
    ("a clear behind a photographed answer resent", 260, REPLAY, |made| {
        made.has_pair(|before, step| before.resends_photographed() && step.is(2, 0))
    }),
    ("a photograph behind its answer resent", 870, REPLAY, |made| {
        made.has_pair(|before, step| before.resends() && step.is(3, 0) && !step.of_photographed() && step.shares_field(before))
    }),
    ("a list that ends with a photographed answer resent", 400, REPLAY, |made| {
        made.steps.last().is_some_and(Step::resends_photographed)
    }),
    ("the answer entered last resent, photographed", 1_200, REPLAY, |made| made.resends_answer(true)),
    ("an answer from before that resent, photographed", 1_600, REPLAY, |made| made.resends_answer(false)),
    ("a photographed answer entered again behind a clear", 820, REPLAY, |made| {
        made.enters_again(|earlier, step| {
            earlier.before.is_photographed(step.field()) && earlier.before.answers[step.field()] == step.code()
        })
    }),
    ("an answer entered again behind its withdraw", 1_200, REPLAY, |made| {
        made.enters_again(|earlier, step| {
            earlier.is(1, 0) && earlier.shares_field(step) && earlier.before.answers[step.field()] == step.code()
        })
    }),
    ("22 for the code that the field held before", 720, REPLAY, |made| {
        made.has_earlier(|step| step.is(0, 22), |earlier, step| earlier.is(0, 0) && earlier.call == step.call)
    }),
    ("22 for field 0's code", 340, REPLAY, |made| made.has_step(|step| step.is(0, 22) && step.code() == step.before.answers[0])),
    ("22 for the code of the field before", 370, REPLAY, |made| {
        made.has_step(|step| step.is(0, 22) && step.field() > 0 && step.code() == step.before.answers[step.field() - 1])
    }),
    ("every answer of a sheet resent, some photographed", 980, REPLAY, |made| {
        made.resends_sheet(3..=PLACES, |sheet| sheet.has_photograph())
    }),
    ("every answer of a sheet resent, all photographed", 660, REPLAY, |made| {
        made.resends_sheet(2..=PLACES, |sheet| sheet.is_all_photographed())
    }),
    ("every answer of a sheet resent, none photographed", 390, REPLAY, |made| {
        made.resends_sheet(3..=PLACES, |sheet| !sheet.has_photograph())
    }),
    ("every answer of a sheet resent, more than 32 and some photographed", 28, REPLAY, |made| {
        made.resends_sheet(33..=PLACES, |sheet| sheet.has_photograph())
    }),
    ("every answer of a sheet resent, 60 and some photographed", 5, REPLAY, |made| {
        made.resends_sheet(PLACES..=PLACES, |sheet| sheet.has_photograph())
    }),
];

impl Made<'_> {
    /// The code that the call is given; one of no field where it is given none.
    fn code(&self) -> usize {
        self.trial.call.code().unwrap_or(usize::MAX)
    }

    /// The code held in this place; 255 where it is open.
    fn held_by(&self, place: usize) -> usize {
        self.sheet().answers[place] as usize
    }

    fn resends(&self) -> bool {
        self.number() == 0 && self.is_of_code_held()
    }

    /// Its field is photographed and holds its code.
    fn is_of_photographed_code(&self) -> bool {
        self.is_of_photographed() && self.is_of_code_held()
    }

    fn resends_photographed(&self) -> bool {
        self.number() == 0 && self.is_of_photographed_code()
    }

    fn resends_in(&self, fields: RangeInclusive<usize>) -> bool {
        self.resends_photographed() && fields.contains(&self.field())
    }

    /// The code held by the field and the number of its codes are so, by an accepted book.
    fn holds(&self, so: fn(usize, usize) -> bool) -> bool {
        self.reading.as_ref().is_ok_and(|book| so(self.held_by(self.field()), book.counts[self.field()] as usize))
    }

    fn answer_stands(&self) -> bool {
        self.reading.as_ref().is_ok_and(|book| largest(book, &self.sheet().answers)[self.field()][self.held_by(self.field())])
    }

    fn has_resend(&self, fields: RangeInclusive<usize>) -> bool {
        self.steps.iter().any(|step| step.resends_photographed() && fields.contains(&step.field()))
    }

    /// Two calls of the list next to each other are so.
    fn has_pair(&self, so: fn(&Step, &Step) -> bool) -> bool {
        self.steps.windows(2).any(|steps| so(&steps[0], &steps[1]))
    }

    /// A call of the list is so, and some call before it is, seen from there.
    fn has_earlier(&self, so: fn(&Step) -> bool, earlier_so: fn(&Step, &Step) -> bool) -> bool {
        let steps = self.steps;
        (0..steps.len()).any(|i| so(&steps[i]) && steps[..i].iter().any(|earlier| earlier_so(earlier, &steps[i])))
    }

    /// An open field is given a code, as seen from a call before.
    fn enters_again(&self, earlier_so: fn(&Step, &Step) -> bool) -> bool {
        self.has_earlier(|step| step.is(0, 0) && !step.of_answered(), earlier_so)
    }

    /// A photographed answer is sent again that is the one that was given last, or another.
    fn resends_answer(&self, last: bool) -> bool {
        let is_last = |i: usize| given_last(&self.steps[..i]).is_some_and(|given| given.shares_field(&self.steps[i]));
        (0..self.steps.len()).any(|i| self.steps[i].resends_photographed() && is_last(i) == last)
    }

    /// So many answers, all of a sheet that is so, are sent again one after the other.
    fn resends_sheet(&self, answers: RangeInclusive<usize>, so: fn(&Sheet) -> bool) -> bool {
        self.steps.iter().enumerate().filter(|(_, step)| step.resends()).any(|(i, step)| {
            let resent = all_of(&step.before, &resent_last(&self.steps[..=i]));
            resent.is_some_and(|resent| answers.contains(&resent)) && so(&step.before)
        })
    }
}

#[cfg(test)]
mod tests {
    use super::SHAPES;
    use crate::calls::Call;
    use crate::examples::e1;
    use crate::made::names_of;
    use crate::sheet::{Sheet, FRESH, NO_ANSWER};

    /// The shapes of an enter on E1 with fields 0 and 1 answered by 0 and 1, and these places photographed.
    fn names(photographed: &[usize], field: usize, code: usize) -> Vec<&'static str> {
        names_of(SHAPES, &e1(), Sheet::of(&[0, 1]).with_photographs(photographed), Call::Enter { field, code })
    }

    #[test]
    fn shapes_of_codes_held() {
        let held = "a photographed answer resent";
        let (field_0, alone) =
            ("a photographed answer resent in field 0", "a photographed answer resent, none beside it photographed");
        let (code_0, all) = ("a photographed answer resent, code 0", "a photographed answer resent, all answers photographed");
        assert_eq!(names(&[0], 0, 0), [held, field_0, alone, code_0]);
        assert_eq!(names(&[0, 1], 1, 1), [held, all]);
        let doubt = ["an answer in doubt resent", "an answer in doubt resent beside a photograph"];
        assert_eq!((names(&[], 1, 1), names(&[0], 1, 1)), (doubt[..1].to_vec(), doubt.to_vec()));
        assert_eq!(names(&[0, 2], 0, 0), ["14 for a photographed answer resent"]);
        assert_eq!(names(&[0], 0, 256), ["16 for the code held in its low byte"]);
        assert_eq!(names(&[0], 2, NO_ANSWER as usize), ["16 for 255 on an open field"]);
        let mut bytes = Sheet::of(&[0, 1]).with_photographs(&[0]);
        bytes.photographs[0] = 7;
        let above = names_of(SHAPES, &e1(), bytes, Call::Enter { field: 0, code: 0 });
        assert_eq!(above, [held, field_0, alone, "a photographed answer resent, its byte above 1", code_0]);
    }

    #[test]
    fn shapes_of_other_codes() {
        let (another, above) = ("22 for another code", "22 for a code above the one held");
        assert_eq!(names(&[0], 0, 1), [another, above, "22 for the code of the field behind"]);
        assert_eq!(names(&[1], 1, 2), [another, above, "22 for a code that no field holds"]);
        let of_field_0 = ["22 for a code below the one held", "22 for field 0's code", "22 for the code of the field before"];
        assert_eq!(names(&[1], 1, 0), [&[another, "22 for code 0"], &of_field_0[..]].concat());
    }

    /// A list on E1 has this shape among others, and without the call in this place it has not.
    fn list_has(name: &str, calls: &[[u8; 3]], place: usize) {
        let names = |calls: Vec<[u8; 3]>| names_of(SHAPES, &e1(), FRESH, Call::Replay { calls: calls.concat() });
        assert!(names(calls.to_vec()).contains(&name), "{name}");
        let others = [&calls[..place], &calls[place + 1..]].concat();
        assert!(!names(others).contains(&name), "{name} without call {place}");
    }

    #[test]
    fn shapes_of_lists() {
        let (enter, other, photograph) = ([0, 0, 0], [0, 0, 1], [3, 0, 0]);
        list_has("a photographed answer resent in a list", &[enter, photograph, enter], 1);
        list_has("a photographed answer resent right behind the first photograph", &[enter, photograph, enter], 2);
        list_has("an answer in doubt resent in a list", &[enter, enter], 0);
        list_has("a photographed answer resent twice in a row", &[enter, photograph, enter, enter], 2);
        list_has("a photographed answer resent three times in a row", &[enter, photograph, enter, enter, enter], 2);
        list_has("a photographed answer resent behind a refused call", &[enter, photograph, [0, 0, 2], enter], 2);
        list_has("a photographed answer resent behind 22 for another code of it", &[enter, photograph, other, enter], 2);
        list_has("a photographed answer resent behind 22 for withdrawing it", &[enter, photograph, [1, 0, 0], enter], 2);
        list_has("another code behind a photographed answer resent", &[enter, photograph, enter, other], 2);
        list_has("16 behind a photographed answer resent", &[enter, photograph, enter, [0, 0, 2]], 2);
        list_has("a withdraw behind a photographed answer resent", &[enter, photograph, enter, [1, 0, 9]], 2);
        list_has("a clear behind a photographed answer resent", &[enter, photograph, enter, [2, 0, 9]], 2);
        list_has("a photograph behind its answer resent", &[enter, enter, photograph], 1);
        list_has("a photographed answer entered again behind a clear", &[enter, photograph, [2, 0, 0], enter], 1);
        list_has("an answer entered again behind its withdraw", &[enter, [1, 0, 0], enter], 1);
        list_has("22 for the code that the field held before", &[other, enter, photograph, other], 0);
        list_has("the answer entered last resent, photographed", &[[0, 1, 1], enter, photograph, enter], 1);
        list_has("an answer from before that resent, photographed", &[enter, photograph, [0, 1, 1], enter], 2);
        let sheet = [enter, photograph, [0, 1, 1], [0, 2, 2], enter, [0, 1, 1], [1, 0, 0], [0, 2, 2]];
        (4..8)
            .filter(|&place| place != 6)
            .for_each(|place| list_has("every answer of a sheet resent, some photographed", &sheet, place));
    }
}
