//! Wrong answers to a code that the field holds, after document 02's M-107: refused, told by something else than the field's answer, or
//! accepted with another change; so in enter and in lists of calls, and lists that end at such a code or remember it.

use super::photographs::{accept, again, of, turn_down};
use super::places::replaying;
use super::{Listed, Seen, Wrong::Entered};
use crate::book::{refuse, Book, Refusal};
use crate::calls;
use crate::compare::UNWRITTEN;
use crate::desk::{enter, Desk, Enter, Reached};
use crate::sheet::{Sheet, FRESH, NO_ANSWER, PLACES};
use crate::steps::{all_of, given_last, resent_last, steps, Step};

const ENTER: &[&str] = &["enter"];

/// The calls that enter. A list tells no number of its calls: of a refused code and of one that changes nothing it shows the same.
const ENTERING: &[&str] = &["enter", "replay"];

/// What entering makes of a sheet.
type Given = Result<Sheet, Refusal>;

const fn of_enter(what: &'static str, change: fn(&Seen, &mut calls::Left)) -> Listed {
    of(ENTER, what, change)
}

/// In enter alone, since a list does not show it.
const fn refusing(what: &'static str, enter: Enter) -> Listed {
    (what, ENTER, Entered(enter))
}

const fn entering(what: &'static str, enter: Enter) -> Listed {
    (what, ENTERING, Entered(enter))
}

pub const SLIPS: &[Listed] = &[
    refusing("22 for the code held", |s, f, c| held_refused(s, f, c, true)),
    refusing("22 for the code held in field 0", |s, f, c| held_refused(s, f, c, f == 0)),
    refusing("22 for the code held in field 31", |s, f, c| held_refused(s, f, c, f == 31)),
    refusing("22 for the code held in field 32", |s, f, c| held_refused(s, f, c, f == 32)),
    refusing("22 for the code held from field 32 on", |s, f, c| held_refused(s, f, c, f >= 32)),
    refusing("22 for the code held in field 58", |s, f, c| held_refused(s, f, c, f == 58)),
    refusing("22 for the code held in field 59", |s, f, c| held_refused(s, f, c, f == 59)),
    refusing("22 for code 0 held", |s, f, c| held_refused(s, f, c, c == 0)),
    refusing("22 for a code held above 0", |s, f, c| held_refused(s, f, c, c > 0)),
    refusing("22 for the code held where all answers are photographed", |s, f, c| held_refused(s, f, c, s.is_all_photographed())),
    refusing("22 for the code held beside an answer in doubt", |s, f, c| held_refused(s, f, c, !s.is_all_photographed())),
    refusing("22 for the code held beside another photograph", |s, f, c| held_refused(s, f, c, s.photographed().count() > 1)),
    refusing("22 for the code held where no other is photographed", |s, f, c| {
        held_refused(s, f, c, s.photographed().count() == 1)
    }),
    refusing("22 for the code held where 60 are photographed", |s, f, c| {
        held_refused(s, f, c, s.photographed().count() == PLACES)
    }),
    of_enter("22 for every code held", |seen, left| turn_down(seen, left, 22, |seen| seen.is_code_held())),
    of_enter("22 for the code held without a photograph", |seen, left| {
        turn_down(seen, left, 22, |seen| seen.is_code_held() && !seen.is_photographed())
    }),
    of_enter("22 for the field's last code held", |seen, left| {
        turn_down(seen, left, 22, |seen| seen.is_photographed() && seen.held() + 1 == seen.codes())
    }),
    of_enter("22 for a code held that stands", |seen, left| {
        turn_down(seen, left, 22, |seen| seen.is_photographed() && seen.answer_stands())
    }),
    of_enter("22 for a code held that does not stand", |seen, left| {
        turn_down(seen, left, 22, |seen| seen.is_photographed() && !seen.answer_stands())
    }),
    of_enter("22 for the code held where its byte is above 1", |seen, left| {
        turn_down(seen, left, 22, |seen| seen.is_photographed() && seen.sheet.photographs[seen.field()] > 1)
    }),
    of_enter("16 for the code held with a photograph", |seen, left| turn_down(seen, left, 16, |seen| seen.is_photographed())),
    of_enter("16 for the code held without a photograph", |seen, left| {
        turn_down(seen, left, 16, |seen| seen.is_code_held() && !seen.is_photographed())
    }),
    of_enter("the code held accepted before 1 to 13", |seen, left| {
        (1..=13).for_each(|number| accept_held(seen, left, number, |seen| seen.is_photographed()))
    }),
    of_enter("the code held accepted before 14", |seen, left| accept_held(seen, left, 14, |seen| seen.is_photographed())),
    of_enter("every code held accepted before 14", |seen, left| accept_held(seen, left, 14, |_| true)),
    of_enter("255 taken as the code that an open field holds", |seen, left| accept_held(seen, left, 16, |_| true)),
    of_enter("the code held told by its low byte before 16", |seen, left| accept_low(seen, left, |code| code as u8 as usize)),
    of_enter("the code held told by its low 16 bits before 16", |seen, left| accept_low(seen, left, |code| code as u16 as usize)),
    of_enter("the code held told by its low 32 bits before 16", |seen, left| accept_low(seen, left, |code| code as u32 as usize)),
    of_enter("another code taken as held where the byte is above 1", |seen, left| {
        if seen.is_photographed() && seen.sheet.photographs[seen.field()] > 1 {
            accept(seen, left, 22, |seen, sheet| seen.give(sheet));
        }
    }),
    of_enter("another code taken as held where that does not stand", |seen, left| {
        if left.number == 22 && !seen.answer_stands() {
            accept(seen, left, 22, |seen, sheet| seen.give(sheet));
        }
    }),
    of_enter("the code held told by the photograph's byte", told_by_byte),
    of_enter("the code held leaves every byte", |seen, left| again(seen, left, |seen, sheet| *sheet = *seen.sheet)),
    of_enter("the code held leaves its photograph's byte", |seen, left| {
        again(seen, left, |seen, sheet| sheet.photographs[seen.field()] = seen.sheet.photographs[seen.field()])
    }),
    of_enter("the code held leaves the bytes of other photographs", |seen, left| {
        again(seen, left, |seen, sheet| *sheet = seen.sheet.with_photographs(&[seen.field()]))
    }),
    of_enter("a code held without a photograph leaves every byte", |seen, left| {
        if left.number == 0 && seen.is_code_held() && !seen.is_photographed() {
            left.sheet = *seen.sheet;
        }
    }),
    of_enter("the code held with its place not written", |seen, left| told_at(seen, left, |_| UNWRITTEN)),
    of_enter("the code held with the field for its place", |seen, left| told_at(seen, left, |seen| seen.field() as u64)),
    of_enter("the code held with the code for its place", |seen, left| told_at(seen, left, |seen| seen.held() as u64)),
    entering("the code held photographed by 2", |s, f, c| resent(s, f, c, |after| after.photographs[f] = 2)),
    entering("the code held photographed by 255", |s, f, c| resent(s, f, c, |after| after.photographs[f] = 255)),
    entering("the code held photographed by the code", |s, f, c| resent(s, f, c, |after| after.photographs[f] = c)),
    entering("the code held takes its photograph away", |s, f, c| resent(s, f, c, |after| after.photographs[f] = 0)),
    entering("the code held takes all photographs away", |s, f, c| resent(s, f, c, |after| after.photographs = [0; PLACES])),
    entering("the code held takes the other photographs away", |s, f, c| {
        resent(s, f, c, |after| *after = after.photographed_where(|place| place == f))
    }),
    entering("the code held takes photographs from 32 on away", |s, f, c| {
        resent(s, f, c, |after| after.photographs[32..].fill(0))
    }),
    entering("the code held takes the photograph at 59 away", |s, f, c| resent(s, f, c, |after| after.photographs[59] = 0)),
    entering("the code held takes the photograph of field 0 away", |s, f, c| resent(s, f, c, |after| after.photographs[0] = 0)),
    entering("the code held takes its answer away", |s, f, c| resent(s, f, c, |after| after.answers[f] = NO_ANSWER)),
    entering("the code held takes its answer and photograph away", |s, f, c| {
        resent(s, f, c, |after| (after.answers[f], after.photographs[f]) = (NO_ANSWER, 0))
    }),
    entering("the code held clears the sheet", |s, f, c| resent(s, f, c, |after| *after = FRESH)),
    entering("the code held photographs every answer", |s, f, c| {
        resent(s, f, c, |after| *after = after.photographed_where(|place| s.is_answered(place)))
    }),
    entering("the code held photographs the next field", |s, f, c| resent(s, f, c, |after| after.photographs[next(f)] = 1)),
    entering("the code held gives the field code 0", |s, f, c| resent(s, f, c, |after| after.answers[f] = 0)),
    entering("the code held gives the field the code behind it", |s, f, c| resent(s, f, c, |after| after.answers[f] = c + 1)),
    entering("the code held given to field 0", |s, f, c| resent(s, f, c, |after| after.answers[0] = c)),
    entering("the code held given to the next field", |s, f, c| resent(s, f, c, |after| after.answers[next(f)] = c)),
    entering("the code held given to the field before", |s, f, c| resent(s, f, c, |after| after.answers[previous(f)] = c)),
    entering("a code held without a photograph is photographed", |s, f, c| {
        resent_in_doubt(s, f, c, |after| after.photographs[f] = 1)
    }),
    entering("a code held without a photograph is withdrawn", |s, f, c| {
        resent_in_doubt(s, f, c, |after| after.answers[f] = NO_ANSWER)
    }),
    entering("a code held without a photograph clears the sheet", |s, f, c| resent_in_doubt(s, f, c, |after| *after = FRESH)),
    entering("a code held without a photograph takes all photographs away", |s, f, c| {
        resent_in_doubt(s, f, c, |after| after.photographs = [0; PLACES])
    }),
    entering("the code held told by field 0's answer", |s, f, c| given(s, f, c, s.answers[0] != c)),
    entering("the code held told by the answer of the field before", |s, f, c| given(s, f, c, s.answers[previous(f)] != c)),
    entering("the code held told by the answer of the next field", |s, f, c| given(s, f, c, s.answers[next(f)] != c)),
    entering("the code held told by the answer of the field counted from the last", |s, f, c| {
        given(s, f, c, s.answers[PLACES - 1 - f] != c)
    }),
    entering("the code held told by the answer of the field by its low five bits", |s, f, c| {
        given(s, f, c, s.answers[f % 32] != c)
    }),
    entering("the code held told by any answer", |s, f, c| given(s, f, c, !s.answers.contains(&c))),
    entering("the code held told by any photographed answer", |s, f, c| {
        given(s, f, c, !s.photographed().any(|place| s.answers[place] == c))
    }),
    entering("the code held told by its lowest bit", |s, f, c| given(s, f, c, (s.answers[f] ^ c) & 1 != 0)),
    entering("the code held told by its low two bits", |s, f, c| given(s, f, c, (s.answers[f] ^ c) & 3 != 0)),
    entering("the code held told by its low three bits", |s, f, c| given(s, f, c, (s.answers[f] ^ c) & 7 != 0)),
    entering("the code held told by its low four bits", |s, f, c| given(s, f, c, (s.answers[f] ^ c) & 15 != 0)),
    entering("the code held told but for its lowest bit", |s, f, c| given(s, f, c, (s.answers[f] ^ c) > 1)),
    entering("code 0 taken as held", |s, f, c| given(s, f, c, c > 0 && s.answers[f] != c)),
    entering("any code taken as held over code 0", |s, f, c| given(s, f, c, s.answers[f] > 0 && s.answers[f] != c)),
    entering("codes below the one held taken as held", |s, f, c| given(s, f, c, c > s.answers[f])),
    entering("codes above the one held taken as held", |s, f, c| given(s, f, c, c < s.answers[f])),
    entering("the codes next to the one held taken as held", |s, f, c| given(s, f, c, c.abs_diff(s.answers[f]) > 1)),
    entering("any code taken as held in field 0", |s, f, c| given(s, f, c, f > 0 && s.answers[f] != c)),
    entering("any code taken as held in field 31", |s, f, c| given(s, f, c, f != 31 && s.answers[f] != c)),
    entering("any code taken as held from field 32 on", |s, f, c| given(s, f, c, f < 32 && s.answers[f] != c)),
    entering("any code taken as held in field 59", |s, f, c| given(s, f, c, f < 59 && s.answers[f] != c)),
    entering("any code taken as held where all answers are photographed", |s, f, c| {
        given(s, f, c, !s.is_all_photographed() && s.answers[f] != c)
    }),
    entering("any code taken as held beside another photograph", |s, f, c| {
        given(s, f, c, s.photographed().count() == 1 && s.answers[f] != c)
    }),
    entering("any code taken as held where no other is photographed", |s, f, c| {
        given(s, f, c, s.photographed().count() > 1 && s.answers[f] != c)
    }),
    replaying("a list that ends at a refused call", |desk| desk.list = |_, b, l| ended(b, l, |step| step.number != 0)),
    replaying("a list that ends at 15", |desk| desk.list = |_, b, l| ended(b, l, |step| step.number == 15)),
    replaying("a list that ends at 16", |desk| desk.list = |_, b, l| ended(b, l, |step| step.number == 16)),
    replaying("a list that ends at 17", |desk| desk.list = |_, b, l| ended(b, l, |step| step.number == 17)),
    replaying("a list that ends at 22", |desk| desk.list = |_, b, l| ended(b, l, |step| step.number == 22)),
    replaying("a list that ends at a code held", |desk| desk.list = |_, b, l| ended(b, l, |step| step.resends())),
    replaying("a list that ends at a photographed code held", |desk| {
        desk.list = |_, b, l| ended(b, l, |step| step.resends_photographed())
    }),
    replaying("the code entered last taken as held", |desk| {
        desk.list =
            |_, b, l| overwriting(b, l, |earlier, step| given_last(earlier).is_some_and(|given| given.code() == step.code()))
    }),
    replaying("a code that was entered before taken as held", |desk| {
        desk.list =
            |_, b, l| overwriting(b, l, |earlier, step| earlier.iter().any(|other| other.is(0, 0) && other.call == step.call))
    }),
    replaying("another code entered over a photographed one that was sent again", |desk| {
        desk.list = |_, b, l| {
            overwriting(b, l, |earlier, step| {
                earlier.iter().any(|other| other.resends_photographed() && other.shares_field(step))
            })
        }
    }),
    replaying("a photographed answer withdrawn that was sent again", |desk| {
        desk.list = |_, b, l| {
            changing(b, l, |earlier, step, sheet| {
                if step.is(1, 22) && earlier.iter().any(|other| other.resends_photographed() && other.shares_field(step)) {
                    (sheet.answers[step.field()], sheet.photographs[step.field()]) = (NO_ANSWER, 0);
                }
            })
        }
    }),
    replaying("the code held right behind its photograph takes that away", |desk| {
        desk.list = |_, b, l| losing(b, l, |earlier, step| is_last(earlier, |last| last.is(3, 0) && last.shares_field(step)))
    }),
    replaying("the code held behind another field's call takes its photograph away", |desk| {
        desk.list = |_, b, l| losing(b, l, |earlier, step| is_last(earlier, |last| !last.shares_field(step)))
    }),
    replaying("the code held twice in a row takes its photograph away", |desk| {
        desk.list = |_, b, l| losing(b, l, |earlier, step| times_before(earlier, step) == 1)
    }),
    replaying("the code held three times in a row takes its photograph away", |desk| {
        desk.list = |_, b, l| losing(b, l, |earlier, step| times_before(earlier, step) == 2)
    }),
    replaying("the code held behind a refused call takes its photograph away", |desk| {
        desk.list = |_, b, l| losing(b, l, |earlier, _| is_last(earlier, |last| last.number != 0))
    }),
    replaying("the code held behind 22 for another takes its photograph away", |desk| {
        desk.list = |_, b, l| losing(b, l, |earlier, step| is_last(earlier, |last| last.is(0, 22) && last.shares_field(step)))
    }),
    replaying("the code held behind 22 for its withdraw takes its photograph away", |desk| {
        desk.list = |_, b, l| losing(b, l, |earlier, step| is_last(earlier, |last| last.is(1, 22) && last.shares_field(step)))
    }),
    replaying("the code given last takes its photograph away", |desk| {
        desk.list = |_, b, l| losing(b, l, |earlier, step| given_last(earlier).is_some_and(|given| given.shares_field(step)))
    }),
    replaying("a code given before the last takes its photograph away", |desk| {
        desk.list = |_, b, l| losing(b, l, |earlier, step| given_last(earlier).is_some_and(|given| !given.shares_field(step)))
    }),
    replaying("the last of all answers sent again takes its photograph away", |desk| {
        desk.list = |_, b, l| losing(b, l, completes_sheet)
    }),
    replaying("a code entered again behind a clear photographed as before", |desk| {
        desk.list = |_, b, l| {
            changing(b, l, |earlier, step, sheet| {
                if step.answers() && earlier.iter().any(|other| was_photographed(other, step)) {
                    sheet.photographs[step.field()] = 1;
                }
            })
        }
    }),
    replaying("a code photographed before a clear not entered again", |desk| {
        desk.list = |_, b, l| keeping_open(b, l, |earlier, step| earlier.iter().any(|other| was_photographed(other, step)))
    }),
    replaying("a code withdrawn before not entered again", |desk| {
        desk.list = |_, b, l| {
            keeping_open(b, l, |earlier, step| {
                earlier
                    .iter()
                    .any(|other| other.is(1, 0) && other.shares_field(step) && other.before.answers[step.field()] == step.code())
            })
        }
    }),
];

/// The code is given to the field, unless that is photographed and takes the code for another.
fn given(sheet: &Sheet, field: usize, code: u8, is_other: bool) -> Given {
    if sheet.is_photographed(field) && is_other {
        return refuse(22, 0);
    }
    let mut given = *sheet;
    given.answers[field] = code;
    Ok(given)
}

/// The code held is refused too where it is so.
fn held_refused(sheet: &Sheet, field: usize, code: u8, so: bool) -> Given {
    given(sheet, field, code, so || sheet.answers[field] != code)
}

/// Entering the code held changes the sheet where the field is photographed, or where it is not.
fn resent_where(photographed: bool, sheet: &Sheet, field: usize, code: u8, change: impl Fn(&mut Sheet)) -> Given {
    let mut after = enter(sheet, field, code)?;
    if sheet.answers[field] == code && sheet.is_photographed(field) == photographed {
        change(&mut after);
    }
    Ok(after)
}

fn resent(sheet: &Sheet, field: usize, code: u8, change: impl Fn(&mut Sheet)) -> Given {
    resent_where(true, sheet, field, code, change)
}

fn resent_in_doubt(sheet: &Sheet, field: usize, code: u8, change: impl Fn(&mut Sheet)) -> Given {
    resent_where(false, sheet, field, code, change)
}

fn next(field: usize) -> usize {
    (field + 1) % PLACES
}

fn previous(field: usize) -> usize {
    (field + PLACES - 1) % PLACES
}

impl Seen<'_> {
    /// What stands in the place of the call's field.
    fn held(&self) -> usize {
        self.sheet.answers[self.field()] as usize
    }

    fn codes(&self) -> usize {
        self.accepted().counts[self.field()] as usize
    }
}

/// Accepts a call that this number refuses where its code stands in the place of its field and the rest is so; the sheet stays equal.
fn accept_held(seen: &Seen, left: &mut calls::Left, number: u64, so: fn(&Seen) -> bool) {
    if left.number == number && seen.is_code_held() && so(seen) {
        left.cells.fill(0);
        accept(seen, left, number, |_, _| {});
    }
}

/// Accepts a code that the field lacks where it is the one held, taken so.
fn accept_low(seen: &Seen, left: &mut calls::Left, taken: fn(usize) -> usize) {
    if left.number == 16 && seen.is_photographed() && seen.call.code().map(taken) == Some(seen.held()) {
        accept(seen, left, 16, |_, _| {});
    }
}

/// A code of a photographed field is taken for the one held where it is the byte of the photograph.
fn told_by_byte(seen: &Seen, left: &mut calls::Left) {
    if seen.is_photographed() && seen.call.code() == Some(seen.sheet.photographs[seen.field()] as usize) {
        accept(seen, left, 22, |seen, sheet| seen.give(sheet));
    } else {
        turn_down(seen, left, 22, |seen| seen.is_photographed());
    }
}

/// Tells another place where a photographed field was given the code that it holds.
fn told_at(seen: &Seen, left: &mut calls::Left, place: fn(&Seen) -> u64) {
    if left.number == 0 && seen.is_photographed() {
        left.cells[0] = place(seen);
    }
}

/// A list of which nothing is made behind the first call that is so.
fn ended(book: &Book, calls: &[u8], so: fn(&Step) -> bool) -> Reached {
    let made = steps(book, calls).iter().position(so).map_or(calls.len(), |end| 3 * (end + 1));
    let desk = Desk::default();
    (desk.list)(&desk, book, &calls[..made])
}

/// A list of which each call changes the sheet once more, by the calls before it.
fn changing(book: &Book, calls: &[u8], change: impl Fn(&[Step], &Step, &mut Sheet)) -> Reached {
    let (mut sheet, mut earlier) = (FRESH, Vec::new());
    for call in calls.chunks_exact(3) {
        let made = Step::on(book, &mut sheet, call);
        change(&earlier, &made, &mut sheet);
        earlier.push(made);
    }
    (earlier.iter().map(|step| step.number).collect(), sheet)
}

/// A code that 22 refuses is entered where it is so.
fn overwriting(book: &Book, calls: &[u8], so: fn(&[Step], &Step) -> bool) -> Reached {
    changing(book, calls, |earlier, step, sheet| {
        if step.is(0, 22) && so(earlier, step) {
            sheet.answers[step.field()] = step.code();
        }
    })
}

/// A photographed answer loses its photograph where it is sent again and it is so.
fn losing(book: &Book, calls: &[u8], so: fn(&[Step], &Step) -> bool) -> Reached {
    changing(book, calls, |earlier, step, sheet| {
        if step.resends_photographed() && so(earlier, step) {
            sheet.photographs[step.field()] = 0;
        }
    })
}

/// An open field is not answered where it is so.
fn keeping_open(book: &Book, calls: &[u8], so: fn(&[Step], &Step) -> bool) -> Reached {
    changing(book, calls, |earlier, step, sheet| {
        if step.answers() && so(earlier, step) {
            *sheet = step.before;
        }
    })
}

fn is_last(earlier: &[Step], so: impl Fn(&Step) -> bool) -> bool {
    earlier.last().is_some_and(so)
}

/// How often the same photographed answer was sent again right before.
fn times_before(earlier: &[Step], step: &Step) -> usize {
    earlier.iter().rev().take_while(|other| other.resends_photographed() && other.call == step.call).count()
}

/// The call completes all answers of the sheet, of two or more, sent again one after the other.
fn completes_sheet(earlier: &[Step], step: &Step) -> bool {
    let mut resent = resent_last(earlier);
    resent[step.field()] = true;
    all_of(&step.before, &resent) > Some(1)
}

/// The other call is made on a sheet that holds the code of this one, photographed.
fn was_photographed(other: &Step, step: &Step) -> bool {
    other.before.is_photographed(step.field()) && other.before.answers[step.field()] == step.code()
}
