//! Wrong rules for when a lifted field is listed, after document 02's M-101, and what such a rule must leave alone.
//!
//! An empty field empties all fields that a chain of tables ties to it. So a rule that looks only at fields tied to the lifted one is
//! the first slip below: it lists a field wherever codes of its own stand.

use super::calling::refused_by_18;
use super::{
    Listed, Seen,
    Wrong::{Left, Part},
};
use crate::book::Book;
use crate::calls::{self, Answer, Call, LISTING};
use crate::desk::Desk;
use crate::filter::{alternatives, has_empty, largest, pass_cases, Alternatives, Filter, PassCase, Subdomain};
use crate::sheet::{Sheet, NO_ANSWER, PLACES};

pub const fn listing(what: &'static str, exchange: fn(&mut Desk)) -> Listed {
    (what, LISTING, Part(exchange))
}

const fn leaving(what: &'static str, change: fn(&Seen, &mut calls::Left)) -> Listed {
    (what, LISTING, Left(change))
}

pub const SLIPS: &[Listed] = &[
    listing("a field listed although another is empty", |desk| desk.alternatives = listed_although_empty),
    listing("only answered fields looked at", |desk| desk.alternatives = answered_looked_at),
    listing("only unanswered fields looked at", |desk| desk.alternatives = unanswered_looked_at),
    listing("the first field not looked at", |desk| desk.alternatives = |b, a, l| looking_at(b, a, l, |f| f > 0)),
    listing("the last field not looked at", |desk| desk.alternatives = |b, a, l| looking_at(b, a, l, |f| f + 1 < b.counts.len())),
    listing("the first code of a field not looked at", |desk| {
        desk.alternatives = |b, a, l| by_domain(b, a, l, |domain| each(domain, |codes| &codes[1..]))
    }),
    listing("the last code of a field not looked at", |desk| {
        desk.alternatives = |b, a, l| by_domain(b, a, l, |domain| each(domain, |codes| &codes[..codes.len() - 1]))
    }),
    listing("a field listed unless all are empty", |desk| {
        desk.alternatives = |b, a, l| by_domain(b, a, l, |domain| domain.concat().contains(&true))
    }),
    listing("a field of no table taken as empty", |desk| desk.alternatives = tables_asked),
    listing("places behind the fields taken as empty", |desk| {
        desk.alternatives = |b, a, l| by_domain(b, a, l, |domain| domain.len() == PLACES && !has_empty(domain))
    }),
    listing("empty fields looked for with nothing lifted", |desk| {
        desk.alternatives = |b, a, l| listed_where(b, a, l, |_, cases| mended(&cases[0]))
    }),
    listing("empty fields looked for with all answers lifted", |desk| desk.alternatives = all_lifted),
    listing("no field listed if one of them mends nothing", |desk| {
        desk.alternatives = |b, a, l| listed_where(b, a, l, |_, cases| cases[1..].iter().all(mended))
    }),
    listing("every field listed if one of them mends", |desk| {
        desk.alternatives = |b, a, l| listed_where(b, a, l, |_, cases| cases[1..].iter().any(mended))
    }),
    listing("only fields that are empty in every case looked at", |desk| {
        desk.alternatives = |b, a, l| listed_where(b, a, l, |_, cases| none_always_empty(cases))
    }),
    listing("the case before a field's own looked at", |desk| {
        desk.alternatives = |b, a, l| listed_where(b, a, l, |k, cases| mended(&cases[k - 1]))
    }),
    listing("the case behind a field's own looked at", |desk| {
        desk.alternatives = |b, a, l| listed_where(b, a, l, |k, cases| cases.get(k + 1).is_none_or(mended))
    }),
    listing("case f + 1 taken as that of field f", |desk| desk.alternatives = case_by_number),
    listing("the first answered field's case not looked at", |desk| {
        desk.alternatives = |b, a, l| listed_where(b, a, l, |k, cases| k == 1 || mended(&cases[k]))
    }),
    listing("the last answered field's case not looked at", |desk| {
        desk.alternatives = |b, a, l| listed_where(b, a, l, |k, cases| k + 1 == cases.len() || mended(&cases[k]))
    }),
    listing("case 32 not looked at", |desk| {
        desk.alternatives = |b, a, l| listed_where(b, a, l, |k, cases| k == 32 || mended(&cases[k]))
    }),
    listing("case 32 taken as one with an empty field", |desk| {
        desk.alternatives = |b, a, l| listed_where(b, a, l, |k, cases| k != 32 && mended(&cases[k]))
    }),
    listing("a field listed only if its held code is", |desk| desk.alternatives = held_code_asked),
    listing("a listed field's held code listed too", |desk| desk.alternatives = held_code_added),
    listing("marks of a case with an empty field not counted", |desk| desk.alternatives = mended_cases_counted),
    listing("marks of a lifted case with an empty field not counted", |desk| desk.alternatives = mended_liftings_counted),
    listing("a field's codes counted as struck where it is not listed", |desk| desk.alternatives = unlisted_counted),
    leaving("18 by the wider list", wider_asked),
    leaving("the narrower list behind the wider one's header", |seen, left| headed(seen, left, &wider(seen), seen.answer)),
    leaving("the wider list behind the narrower one's header", |seen, left| headed(seen, left, seen.answer, &wider(seen))),
    ("open codes only where no field is empty", &["report"], Left(no_open_codes)),
    ("the relaxed field's number 0 where another is empty", &["filtered"], Left(|seen, left| narrowed(seen, left, own_cleared))),
    ("all numbers 0 where a field is relaxed and one empty", &["filtered"], Left(|seen, left| narrowed(seen, left, all_cleared))),
];

/// The lines of the cases that are listed by this rule, from the number of a case and all cases.
pub fn listed_where(book: &Book, sheet: &Sheet, largest: Filter, rule: impl Fn(usize, &[PassCase]) -> bool) -> Alternatives {
    let cases = pass_cases(book, sheet, largest);
    let listed = (1..cases.len()).filter(|&k| rule(k, &cases));
    Alternatives { lines: listed.flat_map(|k| cases[k].lines()).collect(), struck: struck_in(&cases, |_| true) }
}

/// The rule before M-101.
pub fn listed_although_empty(book: &Book, sheet: &Sheet, largest: Filter) -> Alternatives {
    listed_where(book, sheet, largest, |_, _| true)
}

pub fn mended(case: &PassCase) -> bool {
    !has_empty(&case.domain)
}

/// A rule that sees only the subdomain of a field's own case.
fn by_domain(book: &Book, sheet: &Sheet, largest: Filter, rule: impl Fn(&Subdomain) -> bool) -> Alternatives {
    listed_where(book, sheet, largest, |k, cases| rule(&cases[k].domain))
}

/// Looks for empty fields only among some.
pub fn looking_at(book: &Book, sheet: &Sheet, largest: Filter, looked_at: impl Fn(usize) -> bool) -> Alternatives {
    let fields = || (0..book.counts.len()).filter(|&f| looked_at(f));
    by_domain(book, sheet, largest, |domain| fields().all(|f| domain[f].contains(&true)))
}

fn answered_looked_at(book: &Book, sheet: &Sheet, largest: Filter) -> Alternatives {
    looking_at(book, sheet, largest, |f| sheet.is_answered(f))
}

fn unanswered_looked_at(book: &Book, sheet: &Sheet, largest: Filter) -> Alternatives {
    looking_at(book, sheet, largest, |f| !sheet.is_answered(f))
}

/// Each field has a code that stands among some of its own.
fn each(domain: &Subdomain, some: fn(&[bool]) -> &[bool]) -> bool {
    domain.iter().all(|codes| some(codes).contains(&true))
}

fn tables_asked(book: &Book, sheet: &Sheet, largest: Filter) -> Alternatives {
    let has_table = |f: usize| book.tables.iter().any(|table| table.fields.contains(&(f as u8)));
    by_domain(book, sheet, largest, |domain| !has_empty(domain) && (0..domain.len()).all(has_table))
}

fn all_lifted(book: &Book, sheet: &Sheet, largest: Filter) -> Alternatives {
    let lifted = largest(book, &[NO_ANSWER; PLACES]);
    listed_where(book, sheet, largest, |_, _| !has_empty(&lifted))
}

fn none_always_empty(cases: &[PassCase]) -> bool {
    (0..cases[0].domain.len()).all(|f| cases.iter().any(|case| case.domain[f].contains(&true)))
}

/// As if all fields before it were answered; behind the last case nothing is empty.
fn case_by_number(book: &Book, sheet: &Sheet, largest: Filter) -> Alternatives {
    let number = |case: &PassCase| case.lifted.map_or(0, |f| f + 1);
    listed_where(book, sheet, largest, |k, cases| cases.get(number(&cases[k])).is_none_or(mended))
}

fn held_code_asked(book: &Book, sheet: &Sheet, largest: Filter) -> Alternatives {
    let holds = |case: &PassCase| case.lifted.is_some_and(|f| case.domain[f][sheet.answers[f] as usize]);
    listed_where(book, sheet, largest, |k, cases| mended(&cases[k]) && holds(&cases[k]))
}

fn held_code_added(book: &Book, sheet: &Sheet, largest: Filter) -> Alternatives {
    let mut found = alternatives(book, sheet, largest);
    let held: Vec<_> = found.lines.iter().map(|&(f, _)| (f, sheet.answers[f as usize])).collect();
    found.lines.extend(held);
    found.lines.sort();
    found.lines.dedup();
    found
}

/// The marks struck in some of the cases.
pub fn struck_in(cases: &[PassCase], counted: impl Fn(&&PassCase) -> bool) -> u64 {
    cases.iter().filter(counted).map(PassCase::struck).sum()
}

fn mended_cases_counted(book: &Book, sheet: &Sheet, largest: Filter) -> Alternatives {
    let struck = struck_in(&pass_cases(book, sheet, largest), |case| mended(case));
    Alternatives { struck, ..alternatives(book, sheet, largest) }
}

fn mended_liftings_counted(book: &Book, sheet: &Sheet, largest: Filter) -> Alternatives {
    let struck = struck_in(&pass_cases(book, sheet, largest), |case| case.lifted.is_none() || mended(case));
    Alternatives { struck, ..alternatives(book, sheet, largest) }
}

fn unlisted_counted(book: &Book, sheet: &Sheet, largest: Filter) -> Alternatives {
    let (found, wider) = (alternatives(book, sheet, largest), listed_although_empty(book, sheet, largest));
    Alternatives { struck: found.struck + (wider.lines.len() - found.lines.len()) as u64, ..found }
}

/// Changes the numbers of a filtering with this field relaxed, where one of them is 0.
fn narrowed(seen: &Seen, left: &mut calls::Left, change: fn(&mut [u32], usize)) {
    let numbers = seen.answer.written.elements();
    if let (0, &Call::Filtered { relaxed }) = (left.number, seen.call) {
        if relaxed < numbers && left.out.numbers[..numbers].contains(&0) {
            change(&mut left.out.numbers[..numbers], relaxed);
        }
    }
}

fn own_cleared(numbers: &mut [u32], relaxed: usize) {
    numbers[relaxed] = 0;
}

fn all_cleared(numbers: &mut [u32], _: usize) {
    numbers.fill(0);
}

/// Leaves another answer, with what was lent as it is now.
fn leave(seen: &Seen, left: &mut calls::Left, bytes: Vec<u8>, counts: Vec<u64>) {
    let asked = bytes.len();
    *left = Answer { result: Ok(counts), sheet: left.sheet, written: bytes.into(), asked }.left(seen.call, &left.out);
}

pub fn lines_of(answer: &Answer) -> impl Iterator<Item = &[u8]> {
    answer.written.bytes.split_inclusive(|&byte| byte == b'\n')
}

/// Leaves these lines as the text of a report.
pub fn leave_text(seen: &Seen, left: &mut calls::Left, lines: Vec<&[u8]>) {
    let text = lines.concat();
    let length = text.len() as u64;
    leave(seen, left, text, vec![length]);
}

fn no_open_codes(seen: &Seen, left: &mut calls::Left) {
    let loaded = Desk::default().loaded(seen.reading, seen.call.list());
    if let (0, Ok(book), Ok(sheet)) = (left.number, seen.reading, loaded) {
        if has_empty(&largest(book, &sheet.answers)) {
            leave_text(seen, left, lines_of(seen.answer).filter(|line| !line.starts_with(b"open")).collect());
        }
    }
}

/// What the desk answers that lists a field although another is empty.
fn wider(seen: &Seen) -> Answer {
    Desk { alternatives: listed_although_empty, ..Desk::default() }.answer(seen.call, seen.reading, seen.sheet)
}

fn wider_asked(seen: &Seen, left: &mut calls::Left) {
    if left.number == 0 && seen.lent < wider(seen).written.elements() {
        refused_by_18(left);
    }
}

/// Leaves the header of one answer and the list of another, where that one fits. In a report, the header is its first two lines.
fn headed(seen: &Seen, left: &mut calls::Left, header: &Answer, list: &Answer) {
    let fits = left.number == 0 && list.written.elements() <= seen.lent;
    match (&header.result, seen.call) {
        (Ok(_), Call::Report { .. }) if fits => {
            leave_text(seen, left, lines_of(header).take(2).chain(lines_of(list).skip(2)).collect())
        }
        (Ok(counts), _) if fits => leave(seen, left, list.written.bytes.clone(), counts.clone()),
        _ => {}
    }
}
