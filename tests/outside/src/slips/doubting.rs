//! Wrong lists of sheets with photographs, after document 02's M-105: photographed fields listed, counted or left out otherwise, and lists
//! of calls that set, keep or mind photographs otherwise.

use super::calling::refused_by_18;
use super::lifting::{looking_at, struck_in};
use super::places::{each_call, lines_where, marks_where, replaying, unless};
use super::{
    Listed, Seen,
    Wrong::{Left, Part},
};
use crate::book::Book;
use crate::calls::{self, WITH_PAIRS};
use crate::desk::{step, Desk};
use crate::filter::{alternatives, has_empty, in_cases, pass_cases, Alternatives, Filter, PassCase};
use crate::sheet::{Sheet, FRESH, NO_ANSWER, PLACES};

const fn listing(what: &'static str, exchange: fn(&mut Desk)) -> Listed {
    (what, WITH_PAIRS, Part(exchange))
}

pub const SLIPS: &[Listed] = &[
    listing("photographed fields listed and their cases counted", |desk| desk.alternatives = photographs_ignored),
    listing("photographed fields listed, their cases not counted", |desk| {
        desk.alternatives = |b, s, l| Alternatives { struck: alternatives(b, s, l).struck, ..photographs_ignored(b, s, l) }
    }),
    listing("photographed fields not listed, their cases counted", |desk| {
        desk.alternatives = |b, s, l| Alternatives { struck: photographs_ignored(b, s, l).struck, ..alternatives(b, s, l) }
    }),
    listing("photographed fields lifted, the others not", |desk| {
        desk.alternatives = |b, s, l| alternatives(b, &s.photographed_where(|place| !s.is_photographed(place)), l)
    }),
    listing("fields from 32 on lifted although photographed", |desk| {
        desk.alternatives = |b, s, l| alternatives(b, &s.photographed_where(|place| place < 32 && s.is_photographed(place)), l)
    }),
    listing("field 59 lifted although photographed", |desk| {
        desk.alternatives = |b, s, l| alternatives(b, &s.photographed_where(|place| place < 59 && s.is_photographed(place)), l)
    }),
    listing("field 0 lifted although photographed", |desk| {
        desk.alternatives = |b, s, l| alternatives(b, &s.photographed_where(|place| place > 0 && s.is_photographed(place)), l)
    }),
    listing("the field behind a photographed one not listed", |desk| {
        desk.alternatives = |b, s, l| alternatives(b, &s.photographed_where(|place| place > 0 && s.is_photographed(place - 1)), l)
    }),
    listing("a field lifted only before the first photographed one", |desk| {
        desk.alternatives =
            |b, s, l| alternatives(b, &s.photographed_where(|place| place >= s.photographed().next().unwrap_or(PLACES)), l)
    }),
    listing("nothing listed beside a photograph", |desk| {
        desk.alternatives = |b, s, l| lines_where(b, s, l, |_| !s.has_photograph())
    }),
    listing("nothing listed where a photographed answer does not stand", |desk| desk.alternatives = standing_photographs),
    listing("a photographed field's held code listed", |desk| desk.alternatives = held_codes_listed),
    listing("photographed fields lifted in every case", |desk| {
        desk.alternatives = |b, s, l| alternatives(b, &without_photographed(s), l)
    }),
    listing("photographed fields lifted with each other field", |desk| desk.alternatives = lifted_along),
    listing("photographed fields not looked at for codes", |desk| {
        desk.alternatives = |b, s, l| looking_at(b, s, l, |f| !s.is_photographed(f))
    }),
    listing("as many answered fields lifted as have no photograph, from the first on", |desk| desk.alternatives = first_lifted),
    listing("a case by its number among all answered fields", |desk| desk.alternatives = cases_by_answers),
    listing("marks of photographed fields not counted", |desk| {
        desk.alternatives = |b, s, l| marks_where(b, s, l, |f| !s.is_photographed(f))
    }),
    listing("the case with nothing lifted counted again for each photograph", |desk| desk.alternatives = counted_again),
    listing("nothing counted where all answers are photographed", |desk| desk.alternatives = doubt_counted),
    ("18 by the list with photographed fields", WITH_PAIRS, Left(photographs_asked)),
    replaying("photographs left out", |desk| desk.taken = |call| each_call(call, |c| unless(c, c[0] == 3))),
    replaying("photographs from field 32 on left out", |desk| {
        desk.taken = |call| each_call(call, |c| unless(c, c[0] == 3 && c[1] >= 32))
    }),
    replaying("photographs of field 59 left out", |desk| {
        desk.taken = |call| each_call(call, |c| unless(c, c[0] == 3 && c[1] == 59))
    }),
    replaying("kind 3 taken as a withdraw", |desk| desk.taken = |call| each_call(call, |c| of_kind(c, |kind| but(kind, 3, 1)))),
    replaying("kind 3 taken as a clear", |desk| desk.taken = |call| each_call(call, |c| of_kind(c, |kind| but(kind, 3, 2)))),
    replaying("kind 3 taken as an enter", |desk| desk.taken = |call| each_call(call, |c| of_kind(c, |kind| but(kind, 3, 0)))),
    replaying("kind 4 taken as a photograph", |desk| desk.taken = |call| each_call(call, |c| of_kind(c, |kind| but(kind, 4, 3)))),
    replaying("kind 255 taken as a photograph", |desk| {
        desk.taken = |call| each_call(call, |c| of_kind(c, |kind| but(kind, 255, 3)))
    }),
    replaying("kinds above 3 taken as photographs", |desk| {
        desk.taken = |call| each_call(call, |c| of_kind(c, |kind| kind.min(3)))
    }),
    replaying("a kind by its low two bits", |desk| desk.taken = |call| each_call(call, |c| of_kind(c, |kind| kind % 4))),
    replaying("clear and photograph exchanged", |desk| {
        desk.taken = |call| each_call(call, |c| of_kind(c, |kind| if (2..=3).contains(&kind) { 5 - kind } else { kind }))
    }),
    replaying("a photograph's field in the third byte", |desk| {
        desk.taken = |call| each_call(call, |c| if c[0] == 3 { vec![3, c[2], c[1]] } else { c.to_vec() })
    }),
    replaying("a photograph only of the code in its third byte", |desk| {
        desk.step = |_, b, s, c| {
            changed(b, s, c, [3, 0], |after, before, field, code| {
                if before.answers[field] != code {
                    *after = *before;
                }
            })
        }
    }),
    replaying("a photograph that gives the code in its third byte", |desk| {
        desk.step = |_, b, s, c| changed(b, s, c, [3, 0], |after, _, field, code| after.answers[field] = code)
    }),
    replaying("a second photograph takes the first away", |desk| {
        desk.step = |_, b, s, c| {
            changed(b, s, c, [3, 0], |after, before, field, _| after.photographs[field] = !before.is_photographed(field) as u8)
        }
    }),
    replaying("a photograph takes the others away", |desk| {
        desk.step =
            |_, b, s, c| changed(b, s, c, [3, 0], |after, _, field, _| *after = after.photographed_where(|place| place == field))
    }),
    replaying("an enter takes all photographs away", |desk| {
        desk.step = |_, b, s, c| changed(b, s, c, [0, 0], |after, _, _, _| after.photographs = [0; PLACES])
    }),
    replaying("a withdraw takes all photographs away", |desk| {
        desk.step = |_, b, s, c| changed(b, s, c, [1, 0], |after, _, _, _| after.photographs = [0; PLACES])
    }),
    replaying("a clear leaves photographed answers", |desk| {
        desk.step = |_, b, s, c| changed(b, s, c, [2, 0], |after, before, _, _| *after = photographed_alone(before))
    }),
    replaying("a clear leaves photographs", |desk| {
        desk.step = |_, b, s, c| changed(b, s, c, [2, 0], |after, before, _, _| after.photographs = before.photographs)
    }),
    replaying("a code entered over a photographed one", |desk| {
        desk.step = |_, b, s, c| changed(b, s, c, [0, 22], |after, _, field, code| after.answers[field] = code)
    }),
    replaying("a code entered in the place of a photograph", |desk| {
        desk.step = |_, b, s, c| {
            changed(b, s, c, [0, 22], |after, _, field, code| (after.answers[field], after.photographs[field]) = (code, 0))
        }
    }),
    replaying("a photographed answer withdrawn", |desk| {
        desk.step = |_, b, s, c| changed(b, s, c, [1, 22], |after, _, field, _| after.answers[field] = NO_ANSWER)
    }),
    replaying("an answer withdrawn with its photograph", |desk| {
        desk.step = |_, b, s, c| {
            changed(b, s, c, [1, 22], |after, _, field, _| (after.answers[field], after.photographs[field]) = (NO_ANSWER, 0))
        }
    }),
    replaying("the photograph withdrawn in the place of its answer", |desk| {
        desk.step = |_, b, s, c| changed(b, s, c, [1, 22], |after, _, field, _| after.photographs[field] = 0)
    }),
    replaying("an unanswered field photographed", |desk| {
        desk.step = |_, b, s, c| changed(b, s, c, [3, 17], |after, _, field, _| after.photographs[field] = 1)
    }),
    replaying("a code refused by 22 clears the sheet", |desk| {
        desk.step = |_, b, s, c| changed(b, s, c, [0, 22], |after, _, _, _| *after = FRESH)
    }),
];

/// The rule before M-105.
fn photographs_ignored(book: &Book, sheet: &Sheet, largest: Filter) -> Alternatives {
    alternatives(book, &Sheet::of(&sheet.answers), largest)
}

/// The sheet without its photographed answers.
fn without_photographed(sheet: &Sheet) -> Sheet {
    let mut others = Sheet::of(&sheet.answers);
    sheet.photographed().for_each(|place| others.answers[place] = NO_ANSWER);
    others
}

/// The sheet with no other answers than those.
fn photographed_alone(sheet: &Sheet) -> Sheet {
    let mut kept = FRESH;
    sheet.photographed().for_each(|place| (kept.answers[place], kept.photographs[place]) = (sheet.answers[place], 1));
    kept
}

fn standing_photographs(book: &Book, sheet: &Sheet, largest: Filter) -> Alternatives {
    let standing = largest(book, &sheet.answers);
    let stands = |f: usize| standing[f][sheet.answers[f] as usize];
    lines_where(book, sheet, largest, |_| sheet.photographed().all(stands))
}

fn held_codes_listed(book: &Book, sheet: &Sheet, largest: Filter) -> Alternatives {
    let mut found = alternatives(book, sheet, largest);
    found.lines.extend(sheet.photographed().map(|f| (f as u8, sheet.answers[f])));
    found.lines.sort();
    found
}

fn lifted_along(book: &Book, sheet: &Sheet, largest: Filter) -> Alternatives {
    let mut cases = pass_cases(book, &without_photographed(sheet), largest);
    cases[0].domain = largest(book, &sheet.answers);
    in_cases(&cases)
}

fn first_lifted(book: &Book, sheet: &Sheet, largest: Filter) -> Alternatives {
    let n = pass_cases(book, sheet, largest).len();
    let mut cases = pass_cases(book, &Sheet::of(&sheet.answers), largest);
    cases.truncate(n);
    in_cases(&cases)
}

/// The codes of a field are taken from the case that it would have if no field were photographed; behind the last case it has none.
fn cases_by_answers(book: &Book, sheet: &Sheet, largest: Filter) -> Alternatives {
    let cases = pass_cases(book, sheet, largest);
    let number = |f: usize| 1 + (0..f).filter(|&other| sheet.is_answered(other)).count();
    let taken = |case: &PassCase| {
        let other = cases.get(number(case.lifted?))?;
        Some(PassCase { lifted: case.lifted, domain: other.domain.clone() }).filter(|case| !has_empty(&case.domain))
    };
    let lines = cases[1..].iter().filter_map(taken).flat_map(|case| case.lines()).collect();
    Alternatives { lines, struck: struck_in(&cases, |_| true) }
}

fn counted_again(book: &Book, sheet: &Sheet, largest: Filter) -> Alternatives {
    let cases = pass_cases(book, sheet, largest);
    let (found, again) = (in_cases(&cases), cases[0].struck() * sheet.photographed().count() as u64);
    Alternatives { struck: found.struck + again, ..found }
}

fn doubt_counted(book: &Book, sheet: &Sheet, largest: Filter) -> Alternatives {
    let found = alternatives(book, sheet, largest);
    Alternatives { struck: if sheet.is_all_photographed() { 0 } else { found.struck }, ..found }
}

fn photographs_asked(seen: &Seen, left: &mut calls::Left) {
    let desk = Desk { alternatives: photographs_ignored, ..Desk::default() };
    if left.number == 0 && seen.lent < desk.answer(seen.call, seen.reading, seen.sheet).written.elements() {
        refused_by_18(left);
    }
}

fn but(kind: u8, this: u8, other: u8) -> u8 {
    if kind == this {
        other
    } else {
        kind
    }
}

/// The call of a list with its kind taken so.
fn of_kind(call: &[u8], taken: fn(u8) -> u8) -> Vec<u8> {
    vec![taken(call[0]), call[1], call[2]]
}

/// A call of this kind and with this number changes the sheet once more, by the sheet before it, its field and its code.
fn changed(book: &Book, sheet: &mut Sheet, call: &[u8], which: [u64; 2], change: fn(&mut Sheet, &Sheet, usize, u8)) -> u64 {
    let before = *sheet;
    let number = step(book, sheet, call);
    if [call[0] as u64, number] == which {
        change(sheet, &before, call[1] as usize, call[2]);
    }
    number
}
