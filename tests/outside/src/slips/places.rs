//! Wrong sheets, filters and lists behind version 1's limit: places, fields and cases from 32 on, or the last of them, taken as if there
//! were none, or as others; and counts and lists that are cut where version 1's end.

use super::calling::{longer_refused, refused_by_18, taken, whole, with_place};
use super::filtering::wrong_filter;
use super::lifting::{leave_text, lines_of, listed_where, listing, looking_at, mended, struck_in};
use super::{
    Listed, Seen,
    Wrong::{Left, Part},
};
use crate::book::{field_limit, refuse, Book, Refusal};
use crate::calls::{self, Call, OF_A_FIELD, OF_A_FORM, OF_A_SHEET, ONE_FOR_EACH};
use crate::desk::{faults, is_on_field, step, Desk};
use crate::filter::{allowed, alternatives, largest, pass_cases, remove, unsupported, Alternatives, Filter, PassCase, Subdomain};
use crate::sheet::{Sheet, NO_ANSWER, PLACES};

/// The first place, field and case behind version 1's limit.
const BEHIND: usize = field_limit(1);

const LAST: usize = PLACES - 1;

/// The calls that make a sheet of what they are given.
const FORMING: &[&str] = &["load", "load_short", "replay"];

const fn of_a_sheet(what: &'static str, change: fn(&Seen, &mut calls::Left)) -> Listed {
    (what, OF_A_SHEET, Left(change))
}

const fn of_a_field(what: &'static str, exchange: fn(&mut Desk)) -> Listed {
    (what, OF_A_FIELD, Part(exchange))
}

const fn loading(what: &'static str, exchange: fn(&mut Desk)) -> Listed {
    (what, OF_A_FORM, Part(exchange))
}

pub const fn replaying(what: &'static str, exchange: fn(&mut Desk)) -> Listed {
    (what, &["replay"], Part(exchange))
}

const fn reporting(what: &'static str, change: fn(&Seen, &mut calls::Left)) -> Listed {
    (what, &["report"], Left(change))
}

pub const SLIPS: &[Listed] = &[
    of_a_sheet("places from 32 on not looked at by 14", |seen, left| unseen(seen, left, |place, _, _| place >= BEHIND)),
    of_a_sheet("place 32 not looked at by 14", |seen, left| unseen(seen, left, |place, _, _| place == BEHIND)),
    of_a_sheet("places from 48 on not looked at by 14", |seen, left| unseen(seen, left, |place, _, _| place >= 48)),
    of_a_sheet("places from 56 on not looked at by 14", |seen, left| unseen(seen, left, |place, _, _| place >= 56)),
    of_a_sheet("the last place not looked at by 14", |seen, left| unseen(seen, left, |place, _, _| place == LAST)),
    of_a_sheet("places behind the version's limit not looked at by 14", |seen, left| {
        unseen(seen, left, |place, _, book| place >= field_limit(book.version))
    }),
    of_a_sheet("places behind the fields not looked at by 14", |seen, left| {
        unseen(seen, left, |place, _, book| place >= book.counts.len())
    }),
    of_a_sheet("14 names place 31 at most", |_, left| with_place(left, 14, |place| place.min(31))),
    of_a_sheet("14 names a place by five bits", |_, left| with_place(left, 14, |place| place % 32)),
    of_a_sheet("14 names the first of eight places", |_, left| with_place(left, 14, |place| place / 8 * 8)),
    of_a_sheet("14 sees no byte above 127", |seen, left| unseen(seen, left, |place, sheet, _| sheet.answers[place] > 127)),
    ("only the first 32 places made 255", &["fresh", "clear"], Left(|seen, left| kept(seen, left, BEHIND))),
    ("the last place not made 255", &["fresh", "clear"], Left(|seen, left| kept(seen, left, LAST))),
    ("places from 32 on behind the fields left as they were", FORMING, Left(|seen, left| kept_behind(seen, left, BEHIND))),
    ("the last place left as it was behind the fields", FORMING, Left(|seen, left| kept_behind(seen, left, LAST))),
    of_a_field("fields from 32 on taken as none", |desk| desk.taken = |call| taken(call, |f| none_if(f, f >= BEHIND), whole)),
    of_a_field("field 59 taken as none", |desk| desk.taken = |call| taken(call, |f| none_if(f, f == LAST), whole)),
    of_a_field("a field by its low five bits", |desk| desk.taken = |call| taken(call, |f| remainder(f, 32), whole)),
    of_a_field("a field by its low six bits", |desk| desk.taken = |call| taken(call, |f| remainder(f, 64), whole)),
    ("15 only for fields that a sheet has no place for", OF_A_FIELD, Left(place_for_field)),
    ("numbers of fields from 32 on 0", &["filtered"], Left(|seen, left| numbers_cleared(seen, left, BEHIND))),
    ("the number of field 59 0", &["filtered"], Left(|seen, left| numbers_cleared(seen, left, LAST))),
    ("18 only where fewer than 32 elements are lent", ONE_FOR_EACH, Left(|seen, left| fewer_asked(seen, left, BEHIND))),
    ("18 where fewer elements are lent than a sheet has places", ONE_FOR_EACH, Left(places_asked)),
    ("one element for each place of the sheet", ONE_FOR_EACH, Left(for_each_place)),
    loading("stored sheets of more than 32 bytes refused by 19", |desk| {
        desk.load = |book, form| load_if(book, form, form.len() <= BEHIND)
    }),
    loading("stored sheets of 60 bytes refused by 19", |desk| desk.load = |book, form| load_if(book, form, form.len() < PLACES)),
    loading("a stored sheet with 255 behind the fields, up to 60 bytes, loaded", |desk| desk.load = one_byte_a_place),
    loading("the length of a stored sheet by five bits", |desk| desk.load = |book, form| by_remainder(book, form, 32)),
    loading("the length of a stored sheet by six bits", |desk| desk.load = |book, form| by_remainder(book, form, 64)),
    loading("the length of a stored sheet by a byte", |desk| desk.load = |book, form| by_remainder(book, form, 256)),
    loading("the first 32 bytes of a stored sheet loaded", |desk| desk.load = first_bytes),
    loading("the first 32 bytes of a stored sheet looked at by 14", |desk| desk.load = first_bytes_looked_at),
    loading("14 names place 31 of a stored sheet at most", |desk| {
        desk.load = |book, form| (Desk::default().load)(book, form).map_err(|r| Refusal { place: r.place.min(31), ..r })
    }),
    replaying("calls on fields from 32 on left out", |desk| {
        desk.taken = |call| each_call(call, |c| of_fields(c, |f| f < BEHIND))
    }),
    replaying("calls on field 59 left out", |desk| desk.taken = |call| each_call(call, |c| of_fields(c, |f| f != LAST))),
    replaying("withdrawals from field 32 on left out", |desk| {
        desk.taken = |call| each_call(call, |c| if c[0] == 1 { of_fields(c, |f| f < BEHIND) } else { c.to_vec() })
    }),
    replaying("fields of a list by their low five bits", |desk| {
        desk.taken = |call| each_call(call, |c| vec![c[0], c[1] % 32, c[2]])
    }),
    replaying("fields of a list by their low six bits", |desk| {
        desk.taken = |call| each_call(call, |c| vec![c[0], c[1] % 64, c[2]])
    }),
    replaying("a clear that takes the first 32 answers away", |desk| {
        desk.step = |_, book, sheet, call| cleared_up_to(book, sheet, call, BEHIND)
    }),
    replaying("a clear that leaves the last answer", |desk| {
        desk.step = |_, book, sheet, call| cleared_up_to(book, sheet, call, LAST)
    }),
    wrong_filter("tables on fields from 32 on not filtered by", |desk| {
        desk.largest = |book, answers| largest(&without_tables(book, |f| f >= BEHIND), answers)
    }),
    wrong_filter("tables on field 59 not filtered by", |desk| {
        desk.largest = |book, answers| largest(&without_tables(book, |f| f == LAST), answers)
    }),
    wrong_filter("answers from field 32 on not filtered by", |desk| {
        desk.largest = |book, answers| largest(book, &without_answers(book, answers, |f| f >= BEHIND))
    }),
    wrong_filter("the answer of field 59 not filtered by", |desk| {
        desk.largest = |book, answers| largest(book, &without_answers(book, answers, |f| f == LAST))
    }),
    wrong_filter("strikes from field 32 on not followed up", |desk| desk.largest = below_followed_up),
    wrong_filter("fields 32 apart struck together", |desk| desk.largest = struck_together),
    wrong_filter("filtering that stops after 1,024 strikes", |desk| desk.largest = first_strikes),
    listing("fields from 32 on not listed", |desk| desk.alternatives = |b, a, l| lines_where(b, a, l, |f| f < BEHIND)),
    listing("field 59 not listed", |desk| desk.alternatives = |b, a, l| lines_where(b, a, l, |f| f != LAST)),
    listing("fields from 32 on not looked at for codes", |desk| {
        desk.alternatives = |b, a, l| looking_at(b, a, l, |f| f < BEHIND)
    }),
    listing("field 59 not looked at for codes", |desk| desk.alternatives = |b, a, l| looking_at(b, a, l, |f| f != LAST)),
    listing("cases from 32 on not listed", |desk| {
        desk.alternatives = |b, a, l| listed_where(b, a, l, |k, cases| k < BEHIND && mended(&cases[k]))
    }),
    listing("cases from 33 on not listed", |desk| {
        desk.alternatives = |b, a, l| listed_where(b, a, l, |k, cases| k <= BEHIND && mended(&cases[k]))
    }),
    listing("case 60 not looked at", |desk| {
        desk.alternatives = |b, a, l| listed_where(b, a, l, |k, cases| k == PLACES || mended(&cases[k]))
    }),
    listing("case 60 taken as one with an empty field", |desk| {
        desk.alternatives = |b, a, l| listed_where(b, a, l, |k, cases| k != PLACES && mended(&cases[k]))
    }),
    listing("case 32 + k taken as case k", |desk| desk.alternatives = cases_again),
    listing("marks of fields from 32 on not counted", |desk| desk.alternatives = |b, a, l| marks_where(b, a, l, |f| f < BEHIND)),
    listing("marks of field 59 not counted", |desk| desk.alternatives = |b, a, l| marks_where(b, a, l, |f| f != LAST)),
    listing("marks of cases from 32 on not counted", |desk| desk.alternatives = |b, a, l| marks_of_first(b, a, l, BEHIND)),
    listing("marks of case 60 not counted", |desk| desk.alternatives = |b, a, l| marks_of_first(b, a, l, PLACES)),
    listing("what is struck counted in 16 bits", |desk| desk.alternatives = |b, a, l| counted(b, a, l, |struck| struck % 65_536)),
    listing("no more struck than version 1 has marks", |desk| {
        desk.alternatives = |b, a, l| counted(b, a, l, |struck| struck.min(33_792))
    }),
    listing("1,024 lines at most", |desk| desk.alternatives = |b, a, l| first_lines(b, a, l, 1_024)),
    listing("1,919 lines at most", |desk| desk.alternatives = |b, a, l| first_lines(b, a, l, 1_919)),
    (
        "18 only where fewer than 2,048 bytes are lent",
        &["alternatives", "replay"],
        Left(|seen, left| fewer_asked(seen, left, 2_048)),
    ),
    reporting("18 for a text longer than version 1 has", |seen, left| longer_refused(seen, left, 11_305)),
    reporting("a text cut where version 1's ends", |seen, left| cut(seen, left, 11_305)),
    reporting("open codes of fields from 32 on left out", |seen, left| open_where(seen, left, |f| f < BEHIND)),
    reporting("open codes of field 59 left out", |seen, left| open_where(seen, left, |f| f != LAST)),
    reporting("the total by its last three digits", |seen, left| in_header(seen, left, |numbers| numbers[1] %= 1_000)),
    reporting("what is struck by its last five digits", |seen, left| in_header(seen, left, |numbers| numbers[2] %= 100_000)),
];

/// What the call leaves where 14 does not see faults in such places of the sheet.
pub fn unseen(seen: &Seen, left: &mut calls::Left, is_unseen: fn(usize, &Sheet, &Book) -> bool) {
    if left.number == 14 {
        let (book, mut sheet) = (seen.accepted(), *seen.sheet);
        for place in faults(book, seen.sheet).filter(|&place| is_unseen(place, seen.sheet, book)) {
            (sheet.answers[place], sheet.photographs[place]) = (NO_ANSWER, 0);
        }
        *left = Desk::default().answer(seen.call, seen.reading, &sheet).left(seen.call, &left.out);
    }
}

/// The answers from this place on stay as they were.
fn kept(seen: &Seen, left: &mut calls::Left, from: usize) {
    left.sheet.answers[from..].copy_from_slice(&seen.sheet.answers[from..]);
}

/// The same, but only behind the fields of the book.
fn kept_behind(seen: &Seen, left: &mut calls::Left, from: usize) {
    let fields = seen.reading.as_ref().map_or(0, |book| book.counts.len());
    kept(seen, left, from.max(fields));
}

/// 255 is none to relax already.
fn none_if(field: usize, none: bool) -> usize {
    if none && field != NO_ANSWER as usize {
        usize::MAX
    } else {
        field
    }
}

fn remainder(field: usize, modulus: usize) -> usize {
    if field == NO_ANSWER as usize {
        field
    } else {
        field % modulus
    }
}

/// A field of no book is entered where the sheet has a place for it; to withdraw or to relax, it has no answer; for a row, no code; as a
/// target it has no standing code, and needs no question.
fn place_for_field(seen: &Seen, left: &mut calls::Left) {
    if left.number == 15 && seen.field() < PLACES {
        left.number = match *seen.call {
            Call::Enter { field, code } => {
                left.sheet.answers[field] = code as u8;
                0
            }
            Call::Row { .. } => 16,
            Call::Plan { .. } => {
                left.cells[1] = 1;
                0
            }
            _ => 17,
        };
    }
}

fn numbers_cleared(seen: &Seen, left: &mut calls::Left, from: usize) {
    let fields = seen.answer.written.elements();
    if left.number == 0 && from < fields {
        left.out.numbers[from..fields].fill(0);
    }
}

/// What fits is written.
fn fewer_asked(seen: &Seen, left: &mut calls::Left, asked: usize) {
    if let (18, Ok(counts)) = (left.number, &seen.answer.result) {
        if seen.lent >= asked {
            left.number = 0;
            left.cells[1..].copy_from_slice(counts);
            left.out.write(&seen.answer.written);
        }
    }
}

fn places_asked(seen: &Seen, left: &mut calls::Left) {
    if left.number == 0 && seen.lent < PLACES {
        refused_by_18(left);
    }
}

/// As far as so many elements are lent.
fn for_each_place(seen: &Seen, left: &mut calls::Left) {
    let fields = seen.answer.written.elements();
    if left.number == 0 {
        left.out.bytes.iter_mut().take(PLACES).skip(fields).for_each(|byte| *byte = NO_ANSWER);
        left.out.numbers.iter_mut().take(PLACES).skip(fields).for_each(|number| *number = 0);
    }
}

fn load_if(book: &Book, form: &[u8], taken: bool) -> Result<Sheet, Refusal> {
    if taken {
        (Desk::default().load)(book, form)
    } else {
        refuse(19, 0)
    }
}

/// Loads the bytes of the book's fields, where the others are so.
fn load_front(book: &Book, form: &[u8], rule: impl Fn(&[u8]) -> bool) -> Result<Sheet, Refusal> {
    match form.split_at_checked(book.counts.len()) {
        Some((front, behind)) if rule(behind) => (Desk::default().load)(book, front),
        _ => (Desk::default().load)(book, form),
    }
}

fn one_byte_a_place(book: &Book, form: &[u8]) -> Result<Sheet, Refusal> {
    load_front(book, form, |behind| form.len() == PLACES && behind.iter().all(|&byte| byte == NO_ANSWER))
}

fn by_remainder(book: &Book, form: &[u8], modulus: usize) -> Result<Sheet, Refusal> {
    load_front(book, form, |behind| behind.len().is_multiple_of(modulus))
}

fn first_bytes(book: &Book, form: &[u8]) -> Result<Sheet, Refusal> {
    let mut loaded = (Desk::default().load)(book, form)?;
    loaded.answers[BEHIND..].fill(NO_ANSWER);
    Ok(loaded)
}

fn first_bytes_looked_at(book: &Book, form: &[u8]) -> Result<Sheet, Refusal> {
    (Desk::default().load)(book, form).or_else(|r| {
        if r.number == 14 && r.place >= BEHIND as u64 {
            Ok(Sheet::of(form))
        } else {
            Err(r)
        }
    })
}

/// The call with each call of its list taken so.
pub fn each_call(call: &Call, taken: fn(&[u8]) -> Vec<u8>) -> Call {
    let whole = call.list().chunks_exact(3);
    let rest = whole.remainder().to_vec();
    Call::Replay { calls: whole.flat_map(taken).chain(rest).collect() }
}

/// The call of a list, if it is on such a field or on none.
fn of_fields(call: &[u8], these: fn(usize) -> bool) -> Vec<u8> {
    unless(call, is_on_field(call) && !these(call[1] as usize))
}

/// The call of a list, unless it is left out.
pub fn unless(call: &[u8], left_out: bool) -> Vec<u8> {
    if left_out {
        Vec::new()
    } else {
        call.to_vec()
    }
}

/// A clear leaves the answers from this place on, photographed or not.
fn cleared_up_to(book: &Book, sheet: &mut Sheet, call: &[u8], from: usize) -> u64 {
    let before = *sheet;
    let number = step(book, sheet, call);
    if call[0] == 2 {
        sheet.answers[from..].copy_from_slice(&before.answers[from..]);
        sheet.photographs[from..].copy_from_slice(&before.photographs[from..]);
    }
    number
}

fn without_tables(book: &Book, on: fn(usize) -> bool) -> Book {
    let mut others = book.clone();
    others.tables.retain(|table| !table.fields.iter().any(|&f| on(f as usize)));
    others
}

fn without_answers(book: &Book, answers: &[u8], of: fn(usize) -> bool) -> Vec<u8> {
    (0..book.counts.len()).map(|f| if of(f) { NO_ANSWER } else { answers[f] }).collect()
}

/// The codes that some table does not support.
fn struck_in_round(book: &Book, domain: &Subdomain) -> Vec<(usize, usize)> {
    book.tables.iter().flat_map(|table| unsupported(table, domain)).collect()
}

/// As a filter that keeps the fields to follow up in a word of 32 bits.
fn below_followed_up(book: &Book, answers: &[u8]) -> Subdomain {
    let mut domain = allowed(book, answers);
    loop {
        let struck = struck_in_round(book, &domain);
        remove(&mut domain, &struck);
        if struck.iter().all(|&(field, _)| field >= BEHIND) {
            return domain;
        }
    }
}

fn struck_together(book: &Book, answers: &[u8]) -> Subdomain {
    let mut domain = allowed(book, answers);
    loop {
        let mut struck = struck_in_round(book, &domain);
        if struck.is_empty() {
            return domain;
        }
        struck.extend(struck.clone().iter().map(|&(field, code)| ((field + BEHIND) % (2 * BEHIND), code)));
        struck.retain(|&(field, code)| domain.get(field).is_some_and(|codes| code < codes.len()));
        remove(&mut domain, &struck);
    }
}

/// As a filter whose list of strikes has as many places as version 1 has codes.
fn first_strikes(book: &Book, answers: &[u8]) -> Subdomain {
    let mut domain = allowed(book, answers);
    let mut left = BEHIND * 32;
    loop {
        let mut struck = struck_in_round(book, &domain);
        struck.sort();
        struck.dedup();
        struck.truncate(left);
        if struck.is_empty() {
            return domain;
        }
        left -= struck.len();
        remove(&mut domain, &struck);
    }
}

pub fn lines_where(book: &Book, sheet: &Sheet, largest: Filter, listed: impl Fn(usize) -> bool) -> Alternatives {
    let mut found = alternatives(book, sheet, largest);
    found.lines.retain(|&(f, _)| listed(f as usize));
    found
}

/// The codes of a case are taken from another.
fn cases_again(book: &Book, sheet: &Sheet, largest: Filter) -> Alternatives {
    let mut cases = pass_cases(book, sheet, largest);
    for k in BEHIND..cases.len() {
        cases[k].domain = cases[k - BEHIND].domain.clone();
    }
    let listed = cases.iter().filter(|case| mended(case));
    Alternatives { lines: listed.flat_map(PassCase::lines).collect(), ..alternatives(book, sheet, largest) }
}

pub fn marks_where(book: &Book, sheet: &Sheet, largest: Filter, counted: impl Fn(usize) -> bool) -> Alternatives {
    let mut cases = pass_cases(book, sheet, largest);
    for case in &mut cases {
        let fields = std::mem::take(&mut case.domain).into_iter().enumerate();
        case.domain = fields.filter(|(f, _)| counted(*f)).map(|(_, codes)| codes).collect();
    }
    Alternatives { struck: struck_in(&cases, |_| true), ..alternatives(book, sheet, largest) }
}

fn marks_of_first(book: &Book, sheet: &Sheet, largest: Filter, cases: usize) -> Alternatives {
    let all = pass_cases(book, sheet, largest);
    Alternatives { struck: struck_in(&all[..all.len().min(cases)], |_| true), ..alternatives(book, sheet, largest) }
}

fn counted(book: &Book, sheet: &Sheet, largest: Filter, told: fn(u64) -> u64) -> Alternatives {
    let found = alternatives(book, sheet, largest);
    Alternatives { struck: told(found.struck), ..found }
}

fn first_lines(book: &Book, sheet: &Sheet, largest: Filter, most: usize) -> Alternatives {
    let mut found = alternatives(book, sheet, largest);
    found.lines.truncate(most);
    found
}

fn cut(seen: &Seen, left: &mut calls::Left, most: usize) {
    if left.number == 0 {
        let text = &seen.answer.written.bytes;
        leave_text(seen, left, vec![&text[..text.len().min(most)]]);
    }
}

/// The numbers of a line of a report.
fn numbers_of(line: &[u8]) -> Vec<u64> {
    let line = String::from_utf8_lossy(line);
    line.split_whitespace().skip(1).filter_map(|word| word.parse().ok()).collect()
}

fn open_where(seen: &Seen, left: &mut calls::Left, listed: fn(usize) -> bool) {
    if left.number == 0 {
        let kept = |line: &&[u8]| !line.starts_with(b"open") || listed(numbers_of(line)[0] as usize);
        leave_text(seen, left, lines_of(seen.answer).filter(kept).collect());
    }
}

/// Changes the numbers in a report's line of the sheet.
fn in_header(seen: &Seen, left: &mut calls::Left, change: fn(&mut [u64])) {
    let lines: Vec<&[u8]> = lines_of(seen.answer).collect();
    if left.number == 0 && lines.len() > 1 {
        let mut numbers = numbers_of(lines[1]);
        change(&mut numbers);
        let sheet = format!("sheet {} {} {}\n", numbers[0], numbers[1], numbers[2]);
        leave_text(seen, left, [&lines[..1], &[sheet.as_bytes()], &lines[2..]].concat());
    }
}
