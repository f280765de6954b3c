//! Wrong photographs on a sheet, after document 02's M-105: bytes taken otherwise, faults not seen or named otherwise, 22 in another order
//! or not at all, and photographs set, kept or taken away where they should not be.

use super::calling::{before, if_accepted, if_refused, refuse_where, with_place};
use super::places::unseen;
use super::{
    Listed, Seen,
    Wrong::{Left, Part},
};
use crate::calls::{self, CHANGING, MAKING, OF_A_SHEET};
use crate::desk::{faults, numbers, Desk};
use crate::filter::largest;
use crate::sheet::{Sheet, NO_ANSWER, PLACES};

const ENTER: &[&str] = &["enter"];
const WITHDRAW: &[&str] = &["withdraw"];
const BOTH: &[&str] = &["enter", "withdraw"];
const PHOTOGRAPH: &[&str] = &["photograph"];
const FILTERED: &[&str] = &["filtered"];
const STORE: &[&str] = &["store"];

const fn holding(what: &'static str, exchange: fn(&mut Desk)) -> Listed {
    (what, OF_A_SHEET, Part(exchange))
}

pub const fn of(calls: &'static [&'static str], what: &'static str, change: fn(&Seen, &mut calls::Left)) -> Listed {
    (what, calls, Left(change))
}

pub const SLIPS: &[Listed] = &[
    holding("photographs not looked at", |desk| desk.held = |sheet| each(sheet, |_, _| false)),
    holding("a photograph told by 1 alone", |desk| desk.held = |sheet| each(sheet, |_, byte| byte == 1)),
    holding("a photograph told by the lowest bit", |desk| desk.held = |sheet| each(sheet, |_, byte| byte % 2 == 1)),
    holding("a photograph not told by bytes above 127", |desk| {
        desk.held = |sheet| each(sheet, |_, byte| (1..=127).contains(&byte))
    }),
    holding("a photograph not told by 255", |desk| desk.held = |sheet| each(sheet, |_, byte| (1..=254).contains(&byte))),
    holding("photographs told by 0", |desk| desk.held = |sheet| each(sheet, |_, byte| byte == 0)),
    holding("photographs from 32 on not looked at", |desk| desk.held = |sheet| each(sheet, |place, byte| place < 32 && byte > 0)),
    holding("the photograph at 59 not looked at", |desk| desk.held = |sheet| each(sheet, |place, byte| place < 59 && byte > 0)),
    holding("the photograph of field 0 not looked at", |desk| {
        desk.held = |sheet| each(sheet, |place, byte| place > 0 && byte > 0)
    }),
    holding("photographs before the answers", |desk| desk.held = |sheet| exchanged(sheet).in_bits()),
    holding("answers and photographs by turns", |desk| desk.held = by_turns),
    holding("photographs one byte further on", |desk| desk.held = |sheet| from_byte(sheet, PLACES + 1)),
    holding("photographs from byte 64 on", |desk| desk.held = |sheet| from_byte(sheet, 64)),
    of(OF_A_SHEET, "14 sees no photograph", |seen, left| unseen(seen, left, |place, sheet, _| !sheet.is_answered(place))),
    of(OF_A_SHEET, "14 sees no photograph of a field", |seen, left| {
        unseen(seen, left, |place, sheet, book| !sheet.is_answered(place) && place < book.counts.len())
    }),
    of(OF_A_SHEET, "14 sees no photograph behind the fields", |seen, left| {
        unseen(seen, left, |place, sheet, book| !sheet.is_answered(place) && place >= book.counts.len())
    }),
    of(OF_A_SHEET, "14 sees no answer that is photographed", |seen, left| {
        unseen(seen, left, |place, sheet, _| sheet.is_answered(place) && sheet.is_photographed(place))
    }),
    of(OF_A_SHEET, "14 by a scan of the answers, then one of the photographs", |seen, left| {
        scanned(seen, left, Sheet::is_answered)
    }),
    of(OF_A_SHEET, "14 by a scan of the photographs, then one of the answers", |seen, left| {
        scanned(seen, left, |sheet, place| !sheet.is_answered(place))
    }),
    of(OF_A_SHEET, "14 names a photograph by its byte", |seen, left| {
        with_place(left, 14, |place| place + if seen.sheet.is_answered(place as usize) { 0 } else { PLACES as u64 })
    }),
    of(OF_A_SHEET, "14 by a photograph with place 0", |seen, left| {
        with_place(left, 14, |place| if seen.sheet.is_answered(place as usize) { place } else { 0 })
    }),
    of(OF_A_SHEET, "22 for a photograph without an answer", |seen, left| {
        before(left, 14, 22, || faults(seen.accepted(), seen.sheet).next().is_some_and(|place| !seen.sheet.is_answered(place)))
    }),
    of(PHOTOGRAPH, "an unanswered field photographed", |seen, left| {
        accept(seen, left, 17, |seen, sheet| sheet.photographs[seen.field()] = 1)
    }),
    of(PHOTOGRAPH, "an unanswered field accepted and left as it is", |seen, left| accept(seen, left, 17, |_, _| {})),
    of(PHOTOGRAPH, "an unanswered field given code 0", |seen, left| {
        accept(seen, left, 17, |seen, sheet| sheet.answers[seen.field()] = 0)
    }),
    of(PHOTOGRAPH, "a second photograph takes the first away", |seen, left| {
        again(seen, left, |seen, sheet| sheet.photographs[seen.field()] = 0)
    }),
    of(PHOTOGRAPH, "a second photograph takes the answer away", |seen, left| {
        again(seen, left, |seen, sheet| (sheet.answers[seen.field()], sheet.photographs[seen.field()]) = (NO_ANSWER, 0))
    }),
    of(PHOTOGRAPH, "a second photograph told by 2", |seen, left| {
        again(seen, left, |seen, sheet| sheet.photographs[seen.field()] = 2)
    }),
    of(PHOTOGRAPH, "a second photograph refused by 22", |seen, left| turn_down(seen, left, 22, |seen| seen.is_photographed())),
    of(PHOTOGRAPH, "no field photographed", |seen, left| left_out(seen, left, |_| true)),
    of(PHOTOGRAPH, "the answer taken away", |seen, left| if_accepted(left, |left| left.sheet.answers[seen.field()] = NO_ANSWER)),
    of(PHOTOGRAPH, "the next field photographed", |seen, left| elsewhere(seen, left, |field| (field + 1) % PLACES)),
    of(PHOTOGRAPH, "the field before it photographed", |seen, left| elsewhere(seen, left, |field| (field + PLACES - 1) % PLACES)),
    of(PHOTOGRAPH, "a field counted from the last photographed", |seen, left| elsewhere(seen, left, |field| PLACES - 1 - field)),
    of(&["photograph", "load"], "every answer photographed", |_, left| if_accepted(left, every_answer_photographed)),
    of(PHOTOGRAPH, "other photographs taken away", |seen, left| {
        if_accepted(left, |left| left.sheet = left.sheet.photographed_where(|place| place == seen.field()))
    }),
    of(PHOTOGRAPH, "a photograph told by 255", |seen, left| if_accepted(left, |left| left.sheet.photographs[seen.field()] = 255)),
    of(PHOTOGRAPH, "a photograph told by the code", |seen, left| {
        if_accepted(left, |left| left.sheet.photographs[seen.field()] = left.sheet.answers[seen.field()])
    }),
    of(PHOTOGRAPH, "fields from 32 on not photographed", |seen, left| left_out(seen, left, |field| field >= 32)),
    of(PHOTOGRAPH, "field 59 not photographed", |seen, left| left_out(seen, left, |field| field == 59)),
    of(PHOTOGRAPH, "code 0 taken as no answer", |seen, left| {
        turn_down(seen, left, 17, |seen| seen.sheet.answers[seen.field()] == 0)
    }),
    of(PHOTOGRAPH, "an answer that does not stand refused by 17", |seen, left| {
        turn_down(seen, left, 17, |seen| !seen.answer_stands())
    }),
    of(PHOTOGRAPH, "17 told as 22", |_, left| before(left, 17, 22, || true)),
    of(PHOTOGRAPH, "17 told as 16", |_, left| before(left, 17, 16, || true)),
    of(PHOTOGRAPH, "15 with the field for its place", |seen, left| with_place(left, 15, |_| seen.field() as u64)),
    of(PHOTOGRAPH, "17 with the field for its place", |seen, left| with_place(left, 17, |_| seen.field() as u64)),
    of(CHANGING, "photographs' bytes left as they are", |seen, left| {
        if_accepted(left, |left| left.sheet.photographs = bytes_of(seen, left))
    }),
    of(CHANGING, "22 where another field is photographed", |seen, left| {
        turn_down(seen, left, 22, |seen| seen.sheet.has_photograph() && !seen.is_photographed())
    }),
    of(CHANGING, "photographs made 1 by a refusal", |seen, left| if_refused(left, |left| left.sheet = seen.sheet.in_bits())),
    of(CHANGING, "photographs taken away by a refusal", |_, left| if_refused(left, |left| left.sheet.photographs = [0; PLACES])),
    of(BOTH, "all photographs taken away", |_, left| if_accepted(left, |left| left.sheet.photographs = [0; PLACES])),
    of(BOTH, "photographs from 32 on taken away", |_, left| if_accepted(left, |left| left.sheet.photographs[32..].fill(0))),
    of(BOTH, "the photograph at 59 taken away", |_, left| if_accepted(left, |left| left.sheet.photographs[59] = 0)),
    of(BOTH, "the field photographed too", |seen, left| if_accepted(left, |left| left.sheet.photographs[seen.field()] = 1)),
    of(BOTH, "22 where the next field is photographed", |seen, left| {
        turn_down(seen, left, 22, |seen| seen.is_next_photographed(1))
    }),
    of(BOTH, "22 where the field before it is photographed", |seen, left| {
        turn_down(seen, left, 22, |seen| seen.is_next_photographed(-1))
    }),
    of(BOTH, "22 tested before 14", |seen, left| before(left, 14, 22, || seen.is_photographed())),
    of(BOTH, "22 with the field for its place", |seen, left| with_place(left, 22, |_| seen.field() as u64)),
    of(BOTH, "a photographed field accepted and left as it is", |seen, left| accept(seen, left, 22, |_, _| {})),
    of(ENTER, "a code entered over a photographed one", |seen, left| accept(seen, left, 22, |seen, sheet| seen.give(sheet))),
    of(ENTER, "a code entered in the place of a photograph", |seen, left| {
        accept(seen, left, 22, |seen, sheet| {
            seen.give(sheet);
            sheet.photographs[seen.field()] = 0;
        })
    }),
    of(ENTER, "22 for a field with another answer", |seen, left| {
        turn_down(seen, left, 22, |seen| seen.sheet.is_answered(seen.field()) && !seen.is_code_held())
    }),
    of(ENTER, "22 tested before 16", |seen, left| before(left, 16, 22, || seen.is_photographed())),
    of(ENTER, "22 told as 16", |_, left| before(left, 22, 16, || true)),
    of(WITHDRAW, "a photographed answer withdrawn", |seen, left| {
        accept(seen, left, 22, |seen, sheet| sheet.answers[seen.field()] = NO_ANSWER)
    }),
    of(WITHDRAW, "an answer withdrawn with its photograph", |seen, left| {
        accept(seen, left, 22, |seen, sheet| (sheet.answers[seen.field()], sheet.photographs[seen.field()]) = (NO_ANSWER, 0))
    }),
    of(WITHDRAW, "the photograph withdrawn in the place of its answer", |seen, left| {
        accept(seen, left, 22, |seen, sheet| sheet.photographs[seen.field()] = 0)
    }),
    of(WITHDRAW, "22 told as 17", |_, left| before(left, 22, 17, || true)),
    of(WITHDRAW, "17 told as 22", |_, left| before(left, 17, 22, || true)),
    of(STORE, "a photographed sheet stored", |seen, left| store_where(seen, left, |_| true, |sheet| sheet.answers)),
    of(STORE, "photographed answers stored as none", |seen, left| store_where(seen, left, |_| true, in_doubt_alone)),
    of(STORE, "a sheet stored with its last field photographed", |seen, left| {
        store_where(seen, left, |seen| seen.sheet.photographed().eq([seen.accepted().counts.len() - 1]), |sheet| sheet.answers)
    }),
    of(STORE, "a sheet stored with field 0 photographed", |seen, left| {
        store_where(seen, left, |seen| seen.sheet.photographed().eq([0]), |sheet| sheet.answers)
    }),
    of(STORE, "a sheet stored with field 59 photographed", |seen, left| {
        store_where(seen, left, |seen| seen.sheet.photographed().eq([59]), |sheet| sheet.answers)
    }),
    of(STORE, "a sheet stored unless all answers are photographed", |seen, left| {
        store_where(seen, left, |seen| (0..PLACES).any(|place| seen.sheet.is_in_doubt(place)), |sheet| sheet.answers)
    }),
    of(STORE, "18 tested before 22", |seen, left| before(left, 22, 18, || seen.lacks_room())),
    of(STORE, "22 tested before 14", |seen, left| before(left, 14, 22, || seen.sheet.has_photograph())),
    of(STORE, "22 told as 14", |_, left| before(left, 22, 14, || true)),
    of(STORE, "22 with the field for its place", |seen, left| {
        with_place(left, 22, |_| seen.sheet.photographed().next().unwrap_or(0) as u64)
    }),
    of(STORE, "22 only after what fits was written", |seen, left| written_before_22(seen, left)),
    of(MAKING, "photographs left as they were", |seen, left| left.sheet.photographs = seen.sheet.photographs),
    of(MAKING, "photographs from 32 on left as they were", |seen, left| {
        left.sheet.photographs[32..].copy_from_slice(&seen.sheet.photographs[32..])
    }),
    of(MAKING, "the photograph at 59 left as it was", |seen, left| left.sheet.photographs[59] = seen.sheet.photographs[59]),
    of(MAKING, "photographs told by 255 where there are none", |_, left| {
        left.sheet.photographs.iter_mut().filter(|photograph| **photograph == 0).for_each(|photograph| *photograph = 255)
    }),
    of(MAKING, "photographs before the answers", |_, left| left.sheet = exchanged(&left.sheet)),
    of(&["clear"], "photographed answers left", photographed_left),
    of(&["load", "load_short"], "photographs left by a refusal", |seen, left| {
        if_refused(left, |left| left.sheet.photographs = seen.sheet.photographs)
    }),
    of(FILTERED, "a photographed field refused by 22", |seen, left| turn_down(seen, left, 22, |seen| seen.is_photographed())),
    of(FILTERED, "a photographed field refused by 17", |seen, left| turn_down(seen, left, 17, |seen| seen.is_photographed())),
    of(FILTERED, "a photographed field not relaxed", not_relaxed),
    of(&["row"], "a photographed field refused by 22", |seen, left| turn_down(seen, left, 22, |seen| seen.is_photographed())),
];

/// The sheet with photographs where it is so, by place and byte.
fn each(sheet: &Sheet, so: fn(usize, u8) -> bool) -> Sheet {
    sheet.photographed_where(|place| so(place, sheet.photographs[place]))
}

fn exchanged(sheet: &Sheet) -> Sheet {
    Sheet { answers: sheet.photographs, photographs: sheet.answers }
}

/// Each answer with its photograph behind it.
fn by_turns(sheet: &Sheet) -> Sheet {
    let bytes = sheet.bytes();
    let half = |first: usize| std::array::from_fn(|place| bytes[2 * place + first]);
    Sheet { answers: half(0), photographs: half(1) }.in_bits()
}

/// The photographs from this byte on; those behind the last byte are none.
fn from_byte(sheet: &Sheet, first: usize) -> Sheet {
    let photographs = std::array::from_fn(|place| *sheet.bytes().get(first + place).unwrap_or(&0));
    Sheet { photographs, ..*sheet }.in_bits()
}

/// Names the first fault that is so, and only where none is the first of all.
fn scanned(seen: &Seen, left: &mut calls::Left, first: fn(&Sheet, usize) -> bool) {
    if left.number == 14 {
        let faults = || faults(seen.accepted(), seen.sheet);
        let place = faults().find(|&place| first(seen.sheet, place)).or_else(|| faults().next());
        left.cells[0] = place.expect("a place is at fault") as u64;
    }
}

impl Seen<'_> {
    /// The call's field is photographed.
    pub fn is_photographed(&self) -> bool {
        self.field() < PLACES && self.sheet.is_photographed(self.field())
    }

    /// The field so far from it is.
    fn is_next_photographed(&self, step: isize) -> bool {
        self.sheet.photographed().any(|place| Some(place) == self.field().checked_add_signed(step))
    }

    /// The call's code stands in the place of its field.
    pub fn is_code_held(&self) -> bool {
        self.field() < PLACES && self.call.code() == Some(self.sheet.answers[self.field()] as usize)
    }

    pub fn answer_stands(&self) -> bool {
        largest(self.accepted(), &self.sheet.answers)[self.field()][self.sheet.answers[self.field()] as usize]
    }

    /// Gives the field the code that the call is given.
    pub fn give(&self, sheet: &mut Sheet) {
        sheet.answers[self.field()] = self.call.code().map_or(NO_ANSWER, |code| code as u8);
    }
}

/// Accepts a call that is refused by this number, with this change.
pub fn accept(seen: &Seen, left: &mut calls::Left, number: u64, change: impl Fn(&Seen, &mut Sheet)) {
    if left.number == number {
        left.number = 0;
        left.sheet = seen.sheet.in_bits();
        change(seen, &mut left.sheet);
    }
}

/// Refuses an accepted call by this number where it is so; the sheet is as it was given.
pub fn turn_down(seen: &Seen, left: &mut calls::Left, number: u64, so: impl Fn(&Seen) -> bool) {
    refuse_where(left, number, || so(seen));
    if left.number == number {
        left.sheet = *seen.sheet;
    }
}

/// Changes the sheet of an accepted call where the field was photographed before.
pub fn again(seen: &Seen, left: &mut calls::Left, change: impl Fn(&Seen, &mut Sheet)) {
    if left.number == 0 && seen.is_photographed() {
        change(seen, &mut left.sheet);
    }
}

/// Sets the photograph of another field.
fn elsewhere(seen: &Seen, left: &mut calls::Left, other: fn(usize) -> usize) {
    if_accepted(left, |left| left.sheet = seen.sheet.in_bits().with_photographs(&[other(seen.field())]));
}

/// Sets no photograph of such a field.
fn left_out(seen: &Seen, left: &mut calls::Left, so: fn(usize) -> bool) {
    if left.number == 0 && so(seen.field()) {
        left.sheet = seen.sheet.in_bits();
    }
}

/// The photographs left, by the bytes that were there.
fn bytes_of(seen: &Seen, left: &calls::Left) -> [u8; PLACES] {
    std::array::from_fn(|place| left.sheet.photographs[place].max(seen.sheet.photographs[place]))
}

/// Stores a sheet that 22 refuses where it is so: these answers, if they fit.
fn store_where(seen: &Seen, left: &mut calls::Left, so: fn(&Seen) -> bool, answers: fn(&Sheet) -> [u8; PLACES]) {
    if left.number == 22 && so(seen) {
        left.number = if seen.lacks_room() { 18 } else { 0 };
        written_if_room(seen, left, answers(seen.sheet));
    }
}

fn written_if_room(seen: &Seen, left: &mut calls::Left, answers: [u8; PLACES]) {
    let fields = seen.accepted().counts.len();
    if !seen.lacks_room() {
        left.out.bytes[..fields].copy_from_slice(&answers[..fields]);
    }
}

fn written_before_22(seen: &Seen, left: &mut calls::Left) {
    if left.number == 22 {
        written_if_room(seen, left, seen.sheet.answers);
    }
}

fn in_doubt_alone(sheet: &Sheet) -> [u8; PLACES] {
    std::array::from_fn(|place| if sheet.is_photographed(place) { NO_ANSWER } else { sheet.answers[place] })
}

fn photographed_left(seen: &Seen, left: &mut calls::Left) {
    for place in seen.sheet.photographed() {
        (left.sheet.answers[place], left.sheet.photographs[place]) = (seen.sheet.answers[place], 1);
    }
}

fn every_answer_photographed(left: &mut calls::Left) {
    left.sheet = left.sheet.photographed_where(|place| left.sheet.is_answered(place));
}

/// As if nothing were relaxed.
fn not_relaxed(seen: &Seen, left: &mut calls::Left) {
    if left.number == 0 && seen.is_photographed() {
        left.out.write(&numbers(&largest(seen.accepted(), &seen.sheet.answers)).into());
    }
}
