//! Seeded photographs: on sheets, some of them at fault, and in lists of calls.

use std::collections::VecDeque;

use crate::asking::some_code;
use crate::book::{field_limit, Book};
use crate::desk::step;
use crate::random::Random;
use crate::resends::{called, resent};
use crate::sheet::{Sheet, FRESH, NO_ANSWER, PLACES};

/// Of so many calls of a list one is refused.
const REFUSED: u64 = 10;

/// In the place of one call of so many, answers are sent again.
const RESENT: u64 = 4;

/// More answers than this are photographed more often.
const MANY: usize = field_limit(1);

/// Fields at the end of version 1's, the first behind them, and the last but one that a sheet has.
const EDGES: [u8; 3] = [field_limit(1) as u8 - 1, field_limit(1) as u8, PLACES as u8 - 2];

/// Mostly 1; else another byte that counts as 1.
pub fn byte(r: &mut Random) -> u8 {
    let any = r.from(2, 255) as u8;
    if r.one_in(6) {
        r.one_of(&[2, 7, 128, 254, 255, any])
    } else {
        1
    }
}

/// Photographs none of the answers, one of them, or from a few of them to all; of many, more often all.
pub fn take(r: &mut Random, sheet: &mut Sheet) {
    let mut answered: Vec<u8> = (0..PLACES as u8).filter(|&place| sheet.is_answered(place as usize)).collect();
    match r.from(0, if answered.len() > MANY { 15 } else { 11 }) {
        0..=6 => answered.clear(),
        7 => answered = one_of(r, &answered).into_iter().collect(),
        quarters => answered.retain(|_| r.from(8, 11) <= quarters),
    }
    answered.into_iter().for_each(|place| sheet.photographs[place as usize] = byte(r));
}

/// The fields of the book that have a place on a sheet and are so.
pub fn fields(book: &Book, so: impl Fn(usize) -> bool) -> Vec<u8> {
    (0..book.counts.len().min(PLACES)).filter(|&field| so(field)).map(|field| field as u8).collect()
}

/// One of them, mostly any, else the last or one at another edge.
pub fn one_of(r: &mut Random, fields: &[u8]) -> Option<u8> {
    let &last = fields.last()?;
    let edges = EDGES.into_iter().filter(|edge| fields.contains(edge));
    let edges: Vec<u8> = edges.chain([last]).collect();
    Some(match r.from(0, 7) {
        0..=1 => last,
        2 => r.one_of(&edges),
        _ => r.one_of(fields),
    })
}

pub fn some_photographed(r: &mut Random, book: &Book, sheet: &Sheet) -> Option<u8> {
    one_of(r, &fields(book, |field| sheet.is_photographed(field)))
}

/// The calls of a beginning, and others on the sheet that those before them reach, with photographs and answers sent again anywhere
/// among them; about one in ten of all is refused.
pub fn history(r: &mut Random, book: &Book, beginning: Vec<[u8; 3]>) -> Vec<u8> {
    let (mut calls, mut sheet, mut next) = (Vec::new(), FRESH, VecDeque::from(beginning));
    let most = r.one_of(&[0, 3, 13, 13, 40, 133]);
    let mut left = r.from(0, most);
    while left > 0 || !next.is_empty() {
        if next.is_empty() {
            left -= 1;
            next.extend(drawn(r, book, &sheet, &calls));
        }
        let call = if r.one_in(REFUSED) { Some(refused(r, book, &sheet, &calls)) } else { next.pop_front() };
        if let Some(call) = call {
            step(book, &mut sheet, &call);
            calls.push(call);
        }
    }
    calls.concat()
}

/// What comes next behind these calls, which reach this sheet. With no answers there is nothing to send again.
fn drawn(r: &mut Random, book: &Book, sheet: &Sheet, calls: &[[u8; 3]]) -> Vec<[u8; 3]> {
    if r.one_in(RESENT) {
        resent(r, book, sheet, calls)
    } else {
        vec![accepted(r, book, sheet)]
    }
}

/// A call that is accepted on this sheet; few are a clear or of no kind.
fn accepted(r: &mut Random, book: &Book, sheet: &Sheet) -> [u8; 3] {
    let free = one_of(r, &fields(book, |field| !sheet.is_photographed(field)));
    let in_doubt = one_of(r, &fields(book, |field| sheet.is_in_doubt(field)));
    let photographed = some_photographed(r, book, sheet);
    let any = r.word() as u8;
    match (r.from(0, 29), free, in_doubt, photographed) {
        (0, ..) => [2, any, any],
        (1, ..) => [r.one_of(&[4, 4, 5, 7, 131, 255, 255, any.max(4)]), any, any],
        (2..=5, _, Some(field), _) => [1, field, any],
        (6..=12, _, Some(field), _) | (13..=14, _, _, Some(field)) | (_, None, _, Some(field)) => [3, field, any],
        (_, Some(field), ..) => [0, field, some_code(r, book, field as usize) as u8],
        _ => [2, any, any],
    }
}

/// A code of the field that it does not hold, if it has a place and such a code.
pub fn another_code(r: &mut Random, book: &Book, sheet: &Sheet, field: u8) -> Option<u8> {
    let (&count, &held) = (book.counts.get(field as usize)?, sheet.answers.get(field as usize)?);
    let others: Vec<u8> = (0..count).filter(|&code| code != held).collect();
    (!others.is_empty()).then(|| r.one_of(&others))
}

/// A call that is refused on this sheet: by 15, 16 or 17, and wherever some field is photographed mostly by 22, or by 16 before it; then
/// often of the field called last.
fn refused(r: &mut Random, book: &Book, sheet: &Sheet, calls: &[[u8; 3]]) -> [u8; 3] {
    let last = called(calls, |field| (field as usize) < PLACES && sheet.is_photographed(field as usize));
    let photographed = last.filter(|_| r.one_in(2)).or_else(|| some_photographed(r, book, sheet));
    let open = one_of(r, &fields(book, |field| !sheet.is_answered(field)));
    let known = one_of(r, &fields(book, |_| true)).expect("a book has a field");
    let none = r.from(book.counts.len(), 255) as u8;
    let any = r.word() as u8;
    let lacking = |r: &mut Random, field: u8| r.from(book.counts[field as usize] as usize, 255) as u8;
    match (r.from(0, 11), photographed, open) {
        (0..=3, Some(field), _) => another_code(r, book, sheet, field).map_or([1, field, any], |code| [0, field, code]),
        (4..=6, Some(field), _) => [1, field, any],
        (7, Some(field), _) => [0, field, lacking(r, field)],
        (8, ..) => [r.one_of(&[0, 1, 3]), none, any],
        (9, _, Some(field)) => [1, field, any],
        (10, _, Some(field)) => [3, field, any],
        _ => [0, known, lacking(r, known)],
    }
}

/// A photograph without an answer at this place.
pub fn misplace(r: &mut Random, sheet: &mut Sheet, place: usize) {
    sheet.answers[place] = NO_ANSWER;
    sheet.photographs[place] = byte(r);
}

#[cfg(test)]
mod tests {
    use super::{history, take};
    use crate::desk::Desk;
    use crate::random::{book, form, Random};
    use crate::sheet::Sheet;

    #[test]
    fn about_one_call_in_ten_is_refused() {
        let (desk, mut r) = (Desk::default(), Random(1));
        let mut numbers = Vec::new();
        let mut photographs = 0;
        for _ in 0..500 {
            let book = book(&mut r);
            let calls = history(&mut r, &book, Vec::new());
            let (told, reached) = desk.after(&Ok(book), &calls);
            numbers.extend(told);
            photographs += reached.has_photograph() as usize;
        }
        let times = |so: fn(u64) -> bool| numbers.iter().filter(|&&number| so(number)).count();
        let share = times(|number| number != 0) as f64 / numbers.len() as f64;
        assert!((0.08..=0.12).contains(&share), "{share}");
        assert!([15, 16, 17, 22].iter().all(|number| numbers.contains(number)));
        assert!(times(|number| number == 22) > numbers.len() / 50);
        assert!(photographs > 200, "{photographs}");
    }

    #[test]
    fn answers_alone_are_photographed() {
        let mut r = Random(1);
        let mut shares = [0; 3];
        for _ in 0..500 {
            let book = book(&mut r);
            let mut sheet = Sheet::of(&form(&mut r, &book));
            take(&mut r, &mut sheet);
            assert!(sheet.photographed().all(|place| sheet.is_answered(place)));
            shares[sheet.has_photograph() as usize + sheet.is_all_photographed() as usize] += 1;
        }
        assert!(shares.iter().all(|&times| times > 30), "{shares:?}");
    }
}
