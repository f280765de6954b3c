//! Wrong writings of a short form, after document 02's M-108: entries and trailers written otherwise, answers and photographs left out or
//! made up, old forms taken otherwise, refusals in another order or by other lengths, and what is written told otherwise.

use super::calling::{before, if_accepted, if_refused, refuse_where, refused_by_18};
use super::listing::nothing_lent_first;
use super::photographs::of;
use super::{
    Listed, Seen,
    Wrong::{Part, Stored},
};
use crate::book::{refuse, Book};
use crate::calls::{self, Answer, SHORTENING};
use crate::causes::Form;
use crate::compare::UNWRITTEN;
use crate::desk::Desk;
use crate::filter::largest;
use crate::sheet::{Sheet, NO_ANSWER, PLACES};
use crate::short::{load, store, Store};

const STORE: &[&str] = &["store_short"];
const SHORTEN: &[&str] = &["shorten"];
const LENGTHEN: &[&str] = &["lengthen"];

/// The calls that tell how many bytes they write.
const TELLING: &[&str] = &["store_short", "shorten", "lengthen", "join"];

const fn writing(what: &'static str, store: Store) -> Listed {
    (what, SHORTENING, Stored(store))
}

/// Of a sheet that may have photographs.
const fn storing(what: &'static str, store: Store) -> Listed {
    (what, STORE, Stored(store))
}

const fn shortening(what: &'static str, exchange: fn(&mut Desk)) -> Listed {
    (what, SHORTEN, Part(exchange))
}

pub const SLIPS: &[Listed] = &[
    writing("fields that fall", |b, s| written(b, s, |entries| entries.reverse())),
    writing("open fields written too, by 255", |b, s| form((0..b.counts.len()).map(|field| entry(s, field)).collect(), b)),
    writing("code 0 taken as no answer", |b, s| written(b, s, |entries| entries.retain(|entry| entry[1] > 0))),
    writing("fields from 1", |b, s| written(b, s, |entries| entries.iter_mut().for_each(|entry| entry[0] += 1))),
    writing("entries by their number", |b, s| written(b, s, |entries| (0..).zip(entries).for_each(|(i, entry)| entry[0] = i))),
    writing("entries of code, field, photographed", |b, s| each(b, s, |entry| entry.swap(0, 1))),
    writing("entries of field, photographed, code", |b, s| each(b, s, |entry| entry.swap(1, 2))),
    writing("entries of field and code", |b, s| {
        [entries(b, s).iter().flat_map(|entry| entry[..2].to_vec()).collect(), trailer(b, s).to_vec()].concat()
    }),
    writing("entries column by column", |b, s| {
        let entries = entries(b, s);
        let columns = (0..3).flat_map(|column| entries.iter().map(move |entry| entry[column]));
        columns.chain(trailer(b, s)).collect()
    }),
    writing("every answer photographed", |b, s| each(b, s, |entry| entry[2] = 1)),
    writing("no photograph told by 255", |b, s| each(b, s, |entry| entry[2] = if entry[2] == 0 { 255 } else { 1 })),
    writing("photographs written by 0", |b, s| each(b, s, |entry| entry[2] = 1 - entry[2])),
    writing("field 0 left out", |b, s| written(b, s, |entries| entries.retain(|entry| entry[0] > 0))),
    writing("the last answer left out", |b, s| written(b, s, |entries| entries.truncate(entries.len().saturating_sub(1)))),
    writing("fields from 32 on left out", |b, s| written(b, s, |entries| entries.retain(|entry| entry[0] < 32))),
    writing("field 59 left out", |b, s| written(b, s, |entries| entries.retain(|entry| entry[0] < 59))),
    writing("the last field left out", |b, s| {
        written(b, s, |entries| entries.retain(|entry| (entry[0] as usize) + 1 < b.counts.len()))
    }),
    writing("32 entries at most", |b, s| written(b, s, |entries| entries.truncate(32))),
    writing("codes that do not stand left out", |b, s| {
        let standing = largest(b, &s.answers);
        written(b, s, |entries| entries.retain(|&[field, code, _]| standing[field as usize][code as usize]))
    }),
    writing("the trailer turned round", |b, s| ended(b, s, |[answers, fields]| vec![fields, answers])),
    writing("the trailer left out", |b, s| ended(b, s, |_| Vec::new())),
    writing("the number of answers left out", |b, s| ended(b, s, |[_, fields]| vec![fields])),
    writing("the number of fields left out", |b, s| ended(b, s, |[answers, _]| vec![answers])),
    writing("numbers of two bytes in the trailer", |b, s| ended(b, s, |[answers, fields]| vec![answers, 0, fields, 0])),
    writing("the trailer in front", |b, s| [&trailer(b, s)[..], entries(b, s).as_flattened()].concat()),
    writing("the trailer in front too", |b, s| [&trailer(b, s)[..], &store(b, s)].concat()),
    writing("the bytes of the entries told for the answers", |b, s| {
        ended(b, s, |[answers, fields]| vec![answers.wrapping_mul(3), fields])
    }),
    writing("the open fields told for the answers", |b, s| ended(b, s, |[answers, fields]| vec![fields - answers, fields])),
    writing("the number of fields told for the answers", |b, s| ended(b, s, |[_, fields]| vec![fields, fields])),
    writing("the answers told from 1", |b, s| ended(b, s, |[answers, fields]| vec![answers + 1, fields])),
    writing("a sheet's places told for the fields", |b, s| ended(b, s, |[answers, _]| vec![answers, PLACES as u8])),
    writing("the highest field told for the fields", |b, s| ended(b, s, |[answers, fields]| vec![answers, fields - 1])),
    writing("the fields up to the last answer told", |b, s| {
        let last = entries(b, s).last().map_or(0, |entry| entry[0] + 1);
        [entries(b, s).as_flattened(), &[trailer(b, s)[0], last]].concat()
    }),
    writing("the version told for the fields", |b, s| [entries(b, s).as_flattened(), &[trailer(b, s)[0], b.version]].concat()),
    writing("the old form written", |b, s| s.answers[..b.counts.len()].to_vec()),
    storing("photographs lost", |b, s| each(b, s, |entry| entry[2] = 0)),
    storing("photographs from field 32 on lost", |b, s| each(b, s, |entry| entry[2] &= (entry[0] < 32) as u8)),
    storing("the photograph of field 59 lost", |b, s| each(b, s, |entry| entry[2] &= (entry[0] < 59) as u8)),
    storing("the photograph of field 0 lost", |b, s| each(b, s, |entry| entry[2] &= (entry[0] > 0) as u8)),
    storing("the first photograph alone kept", |b, s| {
        let first = s.photographed().next();
        store(b, &s.photographed_where(|field| Some(field) == first))
    }),
    storing("photographs told by 255", |b, s| each(b, s, |entry| entry[2] *= 255)),
    storing("photographs told by the code", |b, s| each(b, s, |entry| entry[2] *= entry[1])),
    storing("photographed answers left out", |b, s| written(b, s, |entries| entries.retain(|entry| entry[2] == 0))),
    storing("answers without a photograph left out", |b, s| written(b, s, |entries| entries.retain(|entry| entry[2] == 1))),
    storing("photographed answers first", |b, s| written(b, s, |entries| entries.sort_by_key(|entry| (1 - entry[2], entry[0])))),
    storing("the photographs told for the answers", |b, s| {
        [entries(b, s).as_flattened(), &[s.photographed().count() as u8, trailer(b, s)[1]]].concat()
    }),
    of(STORE, "photographs' bytes written as they are", |seen, left| if_accepted(left, |left| bytes_as_they_are(seen, left))),
    of(STORE, "22 for a sheet with a photograph", |seen, left| refuse_where(left, 22, || seen.sheet.has_photograph())),
    of(STORE, "17 for a sheet without answers", |seen, left| refuse_where(left, 17, || seen.answer.asked == 2)),
    of(STORE, "18 tested before 14", |seen, left| before(left, 14, 18, || seen.lent < 2)),
    shortening("255 refused by 14", |desk| {
        desk.load = |book, form| match form.iter().position(|&code| code == NO_ANSWER) {
            Some(field) if form.len() == book.counts.len() => refuse(14, field),
            _ => (Desk::default().load)(book, form),
        }
    }),
    shortening("a longer form cut", |desk| {
        desk.load = |book, form| (Desk::default().load)(book, &form[..form.len().min(book.counts.len())])
    }),
    shortening("a shorter form filled with 255", |desk| {
        desk.load = |book, form| {
            let missing = book.counts.len().saturating_sub(form.len());
            (Desk::default().load)(book, &[form, &vec![NO_ANSWER; missing]].concat())
        }
    }),
    shortening("codes at fault taken as no answers", |desk| {
        desk.load = |book, form| {
            let codes = form.iter().enumerate().map(|(field, &code)| if is_above(book, field, code) { NO_ANSWER } else { code });
            (Desk::default().load)(book, &codes.collect::<Vec<u8>>())
        }
    }),
    of(SHORTEN, "a short form written as it is", short_form_taken),
    of(SHORTEN, "19 told as 24", |_, left| before(left, 19, 24, || true)),
    of(SHORTEN, "14 told as 24", |_, left| before(left, 14, 24, || true)),
    of(SHORTEN, "18 tested before 19", |seen, left| before(left, 19, 18, || seen.lent < 2)),
    of(SHORTEN, "18 tested before 14", |seen, left| before(left, 14, 18, || seen.lent < 2)),
    of(SHORTENING, "18 by the number of fields", |seen, left| asking(seen, left, seen.fields())),
    of(SHORTENING, "18 by three bytes a field", |seen, left| asking(seen, left, 3 * seen.fields() + 2)),
    of(SHORTENING, "18 without the trailer's bytes", |seen, left| asking(seen, left, seen.answer.asked.saturating_sub(2))),
    of(SHORTENING, "18 by one byte of the trailer", |seen, left| asking(seen, left, seen.answer.asked.saturating_sub(1))),
    of(SHORTENING, "18 by the number of answers", |seen, left| asking(seen, left, seen.answer.asked / 3)),
    of(SHORTENING, "18 where fewer than 182 bytes are lent", |seen, left| asking(seen, left, sighting::SHORT_BYTES)),
    of(SHORTENING, "18 where fewer bytes are lent than a sheet has places", |seen, left| asking(seen, left, PLACES)),
    of(SHORTENING, "18 for more than 127 bytes", |seen, left| refuse_where(left, 18, || seen.answer.asked > 127)),
    of(LENGTHEN, "18 by the form's length", |seen, left| asking(seen, left, seen.call.list().len())),
    of(LENGTHEN, "18 by the number of answers", |seen, left| asking(seen, left, seen.call.list().len() / 3)),
    of(LENGTHEN, "18 by three bytes a field", |seen, left| asking(seen, left, 3 * seen.fields() + 2)),
    of(TELLING, "18 tested before 1 to 13", nothing_lent_first),
    of(TELLING, "one byte more told", |_, left| if_accepted(left, |left| left.cells[1] += 1)),
    of(TELLING, "one byte fewer told", |_, left| if_accepted(left, |left| left.cells[1] -= 1)),
    of(TELLING, "how many bytes not told", |_, left| if_accepted(left, |left| left.cells[1] = 0)),
    of(TELLING, "how many bytes not written", |_, left| if_accepted(left, |left| left.cells[1] = UNWRITTEN)),
    of(TELLING, "what is lent told", |seen, left| if_accepted(left, |left| left.cells[1] = seen.lent as u64)),
    of(TELLING, "the number of answers told", |_, left| if_accepted(left, |left| left.cells[1] /= 3)),
    of(TELLING, "a refusal tells one byte", |_, left| if_refused(left, |left| left.cells[1] = 1)),
    of(TELLING, "a refusal's count not written", |_, left| if_refused(left, |left| left.cells[1] = UNWRITTEN)),
    of(TELLING, "a refusal writes the first byte", |_, left| {
        if_refused(left, |left| left.out.bytes.iter_mut().take(1).for_each(|byte| *byte = !*byte))
    }),
    of(TELLING, "the byte behind written", |seen, left| {
        if_accepted(left, |left| left.out.bytes.iter_mut().skip(seen.answer.asked).take(1).for_each(|byte| *byte = !*byte))
    }),
    of(TELLING, "the last byte not written", |seen, left| {
        if_accepted(left, |left| left.out.bytes[seen.answer.asked - 1] = !left.out.bytes[seen.answer.asked - 1])
    }),
    of(SHORTENING, "the number of fields told", |seen, left| if_accepted(left, |left| left.cells[1] = seen.fields() as u64)),
    of(LENGTHEN, "the form's length told", |seen, left| if_accepted(left, |left| left.cells[1] = seen.call.list().len() as u64)),
];

/// The entries of the sheet's short form.
fn entries(book: &Book, sheet: &Sheet) -> Vec<[u8; 3]> {
    Form::of(book, &store(book, sheet)).entries().to_vec()
}

/// What the form has behind them.
fn trailer(book: &Book, sheet: &Sheet) -> [u8; 2] {
    [entries(book, sheet).len() as u8, book.counts.len() as u8]
}

/// A form of these entries, whatever they are.
fn form(entries: Vec<[u8; 3]>, book: &Book) -> Vec<u8> {
    [entries.as_flattened(), &[entries.len() as u8, book.counts.len() as u8]].concat()
}

/// The entry of a field, with an answer or without.
fn entry(sheet: &Sheet, field: usize) -> [u8; 3] {
    [field as u8, sheet.answers[field], sheet.is_photographed(field) as u8]
}

/// The form with this change in its entries.
fn written(book: &Book, sheet: &Sheet, change: impl Fn(&mut Vec<[u8; 3]>)) -> Vec<u8> {
    let mut entries = entries(book, sheet);
    change(&mut entries);
    form(entries, book)
}

/// The form with this change in each of them.
fn each(book: &Book, sheet: &Sheet, change: fn(&mut [u8; 3])) -> Vec<u8> {
    written(book, sheet, |entries| entries.iter_mut().for_each(change))
}

/// The form with another end in the place of its trailer.
fn ended(book: &Book, sheet: &Sheet, end: fn([u8; 2]) -> Vec<u8>) -> Vec<u8> {
    [entries(book, sheet).concat(), end(trailer(book, sheet))].concat()
}

fn is_above(book: &Book, field: usize, code: u8) -> bool {
    book.counts.get(field).is_some_and(|&count| code >= count)
}

fn bytes_as_they_are(seen: &Seen, left: &mut calls::Left) {
    let (entries, _) = left.out.bytes[..seen.answer.asked - 2].as_chunks_mut::<3>();
    entries.iter_mut().for_each(|entry| entry[2] = seen.sheet.photographs[entry[0] as usize]);
}

fn short_form_taken(seen: &Seen, left: &mut calls::Left) {
    let form = seen.call.list();
    if left.number == 19 && load(seen.accepted(), form).is_ok() {
        let (counts, asked) = (vec![form.len() as u64], form.len());
        let answer = Answer { result: Ok(counts), sheet: *seen.sheet, written: form.to_vec().into(), asked };
        *left = answer.left(seen.call, &left.out);
    }
}

impl Seen<'_> {
    /// The fields of the book; none where it is refused.
    fn fields(&self) -> usize {
        self.reading.as_ref().map_or(0, |book| book.counts.len())
    }
}

/// Asks for so many bytes in the place of those that are written; as far as they are lent, they are written.
pub fn asking(seen: &Seen, left: &mut calls::Left, asked: usize) {
    match (left.number, &seen.answer.result) {
        (0, _) if seen.lent < asked => refused_by_18(left),
        (18, Ok(counts)) if seen.lent >= asked => {
            left.number = 0;
            left.cells[1..].copy_from_slice(counts);
            left.out.write(&seen.answer.written);
        }
        _ => {}
    }
}
