//! Seeded short forms: a book's own, or one with flaws; and old ones to shorten. What answers leave standing plays no part in them, so a
//! field's code is any.

use crate::asking::some_code;
use crate::book::{field_limit, Book};
use crate::photographs;
use crate::random::Random;
use crate::sheet::{Sheet, FRESH, NO_ANSWER, PLACES};
use crate::short;

/// A flaw that makes a good form of the book one that 24 refuses, in most cases.
type Flaw = fn(&mut Random, &Book, &mut Vec<u8>);

/// The bytes of an entry.
const ENTRY: usize = 3;

/// Of the length, of the trailer, and of the entries.
const FLAWS: [Flaw; 28] = [
    |_, _, form| form.clear(),
    |r, _, form| *form = vec![r.one_of(form)],
    |_, _, form| *form = form.split_off(form.len() - 1),
    |r, _, form| missing(r, form),
    |r, _, form| left_over(r, form, 1),
    |r, _, form| left_over(r, form, 2),
    |r, _, form| left_over(r, form, ENTRY),
    |r, _, form| {
        let many = r.one_of(&[256, 256 * ENTRY, 65_536]);
        left_over(r, form, many)
    },
    |r, _, form| entry_missing(r, form),
    |r, book, form| entry_more(r, book, form),
    |r, book, form| wrong_answers(r, book, form),
    |r, book, form| wrong_answers(r, book, form),
    |r, book, form| wrong_fields(r, book, form),
    |r, book, form| wrong_fields(r, book, form),
    |_, _, form| trailer(form).reverse(),
    |_, _, form| form.rotate_right(2),
    |_, _, form| form.truncate(form.len() - 2),
    |_, _, form| form.extend_from_within(form.len() - 2..),
    |r, book, form| lacking_field(r, book, form, some_entry),
    |r, book, form| lacking_field(r, book, form, |_, form| entries(form).len().checked_sub(1)),
    |_, _, form| entries(form).iter_mut().for_each(|entry| entry[0] += 1),
    |r, _, form| exchanged(r, form),
    |_, _, form| entries(form).reverse(),
    |r, _, form| not_rising(r, form),
    |r, _, form| repeated(r, form),
    |r, _, form| wrong_photograph(r, form),
    |r, _, form| wrong_photograph(r, form),
    |r, book, form| in_another_form(r, book, form),
];

/// Half of them are without a flaw; of the others, some have codes that their fields lack, some are no form, and some are both.
pub fn some_form(r: &mut Random, book: &Book) -> Vec<u8> {
    let mut form = short::store(book, &sheet(r, book));
    let flaw = r.from(0, 9);
    if flaw <= 2 {
        spoil_codes(r, book, &mut form);
    }
    if (2..=4).contains(&flaw) {
        r.one_of(&FLAWS)(r, book, &mut form);
    }
    form
}

/// One byte a field, in a few cases with codes that their fields lack.
pub fn some_old_form(r: &mut Random, book: &Book) -> Vec<u8> {
    let mut form = sheet(r, book).answers[..book.counts.len().min(PLACES)].to_vec();
    if r.one_in(12) {
        for _ in 0..r.from(1, 3) {
            let field = r.from(0, form.len() - 1);
            form[field] = r.from(book.counts[field] as usize, 254) as u8;
        }
    }
    form
}

/// From none to all fields answered, in some sheets with photographs, and in a few of the last answer alone.
fn sheet(r: &mut Random, book: &Book) -> Sheet {
    let (mut sheet, quarters) = (FRESH, r.from(0, 4));
    for field in photographs::fields(book, |_| true) {
        if r.from(0, 3) < quarters {
            sheet.answers[field as usize] = some_code(r, book, field as usize) as u8;
        }
    }
    photographs::take(r, &mut sheet);
    match (0..PLACES).rfind(|&place| sheet.is_answered(place)) {
        Some(last) if r.one_in(16) => sheet.photographed_where(|place| place == last),
        _ => sheet,
    }
}

/// The entries of a good form.
fn entries(form: &mut [u8]) -> &mut [[u8; ENTRY]] {
    let length = form.len() - 2;
    form[..length].as_chunks_mut().0
}

/// The number of answers and the number of fields of a good form.
fn trailer(form: &mut [u8]) -> &mut [u8] {
    let length = form.len() - 2;
    &mut form[length..]
}

/// The first entry, the last, or any; none where there is none.
fn some_entry(r: &mut Random, form: &mut [u8]) -> Option<usize> {
    let last = entries(form).len().checked_sub(1)?;
    let any = r.from(0, last);
    Some(r.one_of(&[0, last, any]))
}

/// An entry with one behind it, in the same way.
fn some_pair(r: &mut Random, form: &mut [u8]) -> Option<usize> {
    let last = entries(form).len().checked_sub(2)?;
    let any = r.from(0, last);
    Some(r.one_of(&[0, last, any]))
}

/// A code that its field lacks in one entry or several: the one behind its last, or one at the end of a byte.
fn spoil_codes(r: &mut Random, book: &Book, form: &mut [u8]) {
    for _ in 0..r.one_of(&[1, 1, 2, 3]) {
        if let Some(entry) = some_entry(r, form) {
            let entry = &mut entries(form)[entry];
            let count = book.counts[entry[0] as usize];
            let any = r.from(count as usize, 255) as u8;
            entry[1] = r.one_of(&[count, 254, NO_ANSWER, any]);
        }
    }
}

fn missing(r: &mut Random, form: &mut Vec<u8>) {
    let (last, any) = (form.len() - 1, r.from(0, form.len() - 1));
    form.remove(r.one_of(&[0, last, any]));
}

/// So many bytes in front, before the trailer, or behind it.
fn left_over(r: &mut Random, form: &mut Vec<u8>, bytes: usize) {
    let place = r.one_of(&[0, form.len() - 2, form.len() - 2, form.len()]);
    let byte = r.word() as u8;
    let contents = vec![r.one_of(&[0, byte, NO_ANSWER]); bytes];
    form.splice(place..place, contents);
}

fn entry_missing(r: &mut Random, form: &mut Vec<u8>) {
    if let Some(entry) = some_entry(r, form) {
        form.drain(ENTRY * entry..ENTRY * (entry + 1));
    }
}

/// An entry for the last field behind the others, which the trailer does not count.
fn entry_more(r: &mut Random, book: &Book, form: &mut Vec<u8>) {
    let (place, last) = (form.len() - 2, book.counts.len().min(PLACES) - 1);
    form.splice(place..place, [last as u8, some_code(r, book, last) as u8, 0]);
}

fn wrong_answers(r: &mut Random, book: &Book, form: &mut [u8]) {
    let (answers, fields, any) = (trailer(form)[0], book.counts.len() as u8, r.word() as u8);
    let others = [answers.wrapping_add(1), answers.wrapping_sub(1), 0, 255, answers.wrapping_mul(3), answers | 128, fields, any];
    trailer(form)[0] = r.one_of(&others);
}

fn wrong_fields(r: &mut Random, book: &Book, form: &mut [u8]) {
    let (answers, fields, any) = (trailer(form)[0], book.counts.len() as u8, r.word() as u8);
    let (limit, places) = (field_limit(1) as u8, PLACES as u8);
    let others = [fields.wrapping_add(1), fields.wrapping_sub(1), 0, 255, fields | 128, answers, limit, places, any];
    trailer(form)[1] = r.one_of(&others);
}

/// A field that the book lacks: the next one, the last that a sheet has a place for, one that is equal to it in its low bits, or any.
fn lacking_field(r: &mut Random, book: &Book, form: &mut [u8], which: fn(&mut Random, &mut [u8]) -> Option<usize>) {
    if let Some(entry) = which(r, form) {
        let (fields, last) = (book.counts.len(), PLACES - 1);
        let field = &mut entries(form)[entry][0];
        let (any, low) = (r.from(fields.min(255), 255), *field as usize);
        *field = r.one_of(&[fields, fields.max(last), 255, low | 64, low | 128, any]) as u8;
    }
}

fn exchanged(r: &mut Random, form: &mut [u8]) {
    if let Some(entry) = some_pair(r, form) {
        entries(form).swap(entry, entry + 1);
    }
}

/// The field of an entry is that of the one before it, or one below that.
fn not_rising(r: &mut Random, form: &mut [u8]) {
    if let Some(entry) = some_pair(r, form) {
        let before = entries(form)[entry][0];
        let below = r.from(0, before as usize) as u8;
        entries(form)[entry + 1][0] = r.one_of(&[before, before, below]);
    }
}

/// An entry stands twice, and the trailer counts both.
fn repeated(r: &mut Random, form: &mut Vec<u8>) {
    if let Some(entry) = some_entry(r, form) {
        let (place, again) = (ENTRY * entry, entries(form)[entry]);
        form.splice(place..place, again);
        trailer(form)[0] += 1;
    }
}

fn wrong_photograph(r: &mut Random, form: &mut [u8]) {
    if let Some(entry) = some_entry(r, form) {
        let any = r.from(2, 255) as u8;
        entries(form)[entry][2] = r.one_of(&[2, 2, 3, 128, 254, 255, any]);
    }
}

/// The same answers one byte a field, or each entry's bytes in another order; or any bytes.
fn in_another_form(r: &mut Random, book: &Book, form: &mut Vec<u8>) {
    match r.from(0, 3) {
        0 => {
            let mut old = vec![NO_ANSWER; book.counts.len()];
            entries(form).iter().for_each(|&[field, code, _]| old[field as usize] = code);
            *form = old;
        }
        1 => entries(form).iter_mut().for_each(|entry| entry.swap(0, 1)),
        2 => entries(form).iter_mut().for_each(|entry| entry.swap(1, 2)),
        _ => *form = (0..r.from(0, 200)).map(|_| r.word() as u8).collect(),
    }
}

#[cfg(test)]
mod tests {
    use super::some_form;
    use crate::desk::Desk;
    use crate::random::{book, Random};

    #[test]
    fn half_of_the_forms_and_more_are_loaded() {
        let (desk, mut r) = (Desk::default(), Random(1));
        let mut times = [0; 3];
        for _ in 0..1_000 {
            let book = book(&mut r);
            let form = some_form(&mut r, &book);
            match desk.loaded_short(&Ok(book), &form) {
                Ok(_) => times[0] += 1,
                Err(r) if r.number == 14 => times[1] += 1,
                Err(_) => times[2] += 1,
            }
        }
        assert!(times[0] > 500 && times[1] > 100 && times[2] > 200, "{times:?}");
    }
}
