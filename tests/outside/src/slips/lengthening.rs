//! Wrong readings of a short form, after document 02's M-108: bytes taken as a form that are none, entries and trailers taken otherwise,
//! codes at fault and photographs not seen, seen in another order or at other places, and sheets and old forms made otherwise.

use std::ops::RangeInclusive;

use super::calling::{before, if_accepted, with_place};
use super::listing::in_bytes;
use super::photographs::of;
use super::{Listed, Seen, Wrong::Loaded};
use crate::book::{refuse, Book, Refusal};
use crate::calls::{self, Answer, OF_A_SHORT_FORM};
use crate::causes::{Cause, Form};
use crate::desk::{is_no_code, Desk};
use crate::filter::largest;
use crate::sheet::{Sheet, FRESH, NO_ANSWER, PLACES};
use crate::short::{load, Load};

const LOAD: &[&str] = &["load_short"];
const LENGTHEN: &[&str] = &["lengthen"];

/// The causes that an entry has.
const OF_ENTRIES: [Cause; 3] = [Cause::Lacking, Cause::Order, Cause::Photographed];

const fn reading(what: &'static str, load: Load) -> Listed {
    (what, OF_A_SHORT_FORM, Loaded(load))
}

/// Where the way back does not show it.
const fn loading(what: &'static str, load: Load) -> Listed {
    (what, LOAD, Loaded(load))
}

/// In the way back, which photographs refuse.
const fn lengthening(what: &'static str, load: Load) -> Listed {
    (what, LENGTHEN, Loaded(load))
}

pub const SLIPS: &[Listed] = &[
    reading("bytes before the trailer passed over", |b, f| passing(b, f, Cause::Length, |_| true)),
    reading("one byte before the trailer passed over", |b, f| passing(b, f, Cause::Length, |form| form.bytes.len() % 3 == 0)),
    reading("two bytes before the trailer passed over", |b, f| passing(b, f, Cause::Length, |form| form.bytes.len() % 3 == 1)),
    reading("bytes behind a form passed over", |b, f| in_part(b, f, |length| &f[..length])),
    reading("bytes in front of a form passed over", |b, f| in_part(b, f, |length| &f[f.len() - length..])),
    reading("a length of 8 bits", |b, f| load(b, &f[..f.len() % 256])),
    reading("a length of 16 bits", |b, f| load(b, &f[..f.len() % 65_536])),
    reading("no bytes taken as no answers", |b, f| if f.is_empty() { Ok(FRESH) } else { load(b, f) }),
    reading("the number of fields alone taken as no answers", |b, f| {
        load(b, &if f.len() == 1 { [&[0], f].concat() } else { f.to_vec() })
    }),
    reading("the number of answers not compared", |b, f| passing(b, f, Cause::Answers, |_| true)),
    reading("one answer more told passed over", |b, f| miscounting(b, f, |told, answers, _| told == answers + 1)),
    reading("one answer fewer told passed over", |b, f| miscounting(b, f, |told, answers, _| told + 1 == answers)),
    reading("0 answers told passed over", |b, f| miscounting(b, f, |told, _, _| told == 0)),
    reading("255 answers told passed over", |b, f| miscounting(b, f, |told, _, _| told == 255)),
    reading("the number of answers compared by seven bits", |b, f| miscounting(b, f, |told, answers, _| told % 128 == answers)),
    reading("the number of fields told twice passed over", |b, f| miscounting(b, f, |told, _, fields| told == fields)),
    reading("the bytes of the entries told passed over", |b, f| miscounting(b, f, |told, answers, _| told == 3 * answers)),
    reading("as many entries as are told, others passed over", as_many_as_told),
    reading("the number of fields not compared", |b, f| passing(b, f, Cause::Fields, |_| true)),
    reading("one field more told passed over", |b, f| misnumbering(b, f, |told, fields| told == fields + 1)),
    reading("one field fewer told passed over", |b, f| misnumbering(b, f, |told, fields| told + 1 == fields)),
    reading("more fields told passed over", |b, f| misnumbering(b, f, |told, fields| told > fields)),
    reading("0 fields told passed over", |b, f| misnumbering(b, f, |told, _| told == 0)),
    reading("255 fields told passed over", |b, f| misnumbering(b, f, |told, _| told == 255)),
    reading("60 fields told passed over", |b, f| misnumbering(b, f, |told, _| told == PLACES)),
    reading("the number of fields compared by seven bits", |b, f| misnumbering(b, f, |told, fields| told % 128 == fields)),
    reading("the trailer turned round", |b, f| load(b, &turned(f))),
    reading("a trailer turned round taken too", |b, f| load(b, f).or_else(|r| load(b, &turned(f)).or(Err(r)))),
    reading("the trailer in front", |b, f| load(b, &[&f[2.min(f.len())..], &f[..2.min(f.len())]].concat())),
    reading("fields that the book lacks passed over", |b, f| passing(b, f, Cause::Lacking, |_| true)),
    reading("a field of the number of fields passed over", |b, f| lacking(b, f, |field, fields| field == fields)),
    reading("fields that a sheet has a place for passed over", |b, f| lacking(b, f, |field, _| field < PLACES)),
    reading("field 60 passed over", |b, f| lacking(b, f, |field, _| field == PLACES)),
    reading("field 255 passed over", |b, f| lacking(b, f, |field, _| field == 255)),
    reading("fields by their low six bits", |b, f| changing(b, f, |entry| entry[0] %= 64)),
    reading("fields by their low seven bits", |b, f| changing(b, f, |entry| entry[0] %= 128)),
    reading("fields in any order", |b, f| passing(b, f, Cause::Order, |_| true)),
    reading("fields that fall taken, none twice", |b, f| ordering(b, f, |_, _, one, next| one != next)),
    reading("a field twice taken by its last entry", |b, f| ordering(b, f, |_, _, one, next| one <= next)),
    reading("a field twice taken by its first entry", by_first_entries),
    reading("the first two fields not compared", |b, f| ordering(b, f, |pair, _, one, next| pair == 0 || one < next)),
    reading("the last two fields not compared", |b, f| ordering(b, f, |pair, pairs, one, next| pair + 1 == pairs || one < next)),
    reading("only the first two fields compared", |b, f| ordering(b, f, |pair, _, one, next| pair > 0 || one < next)),
    reading("fields compared with the first alone", |b, f| {
        passing(b, f, Cause::Order, |form| form.entries()[1..].iter().all(|entry| entry[0] > form.entries()[0][0]))
    }),
    reading("photographed bytes above 1 taken as photographs", |b, f| changing(b, f, |entry| entry[2] = entry[2].min(1))),
    reading("photographed bytes above 1 taken as none", |b, f| changing(b, f, |entry| entry[2] = (entry[2] == 1) as u8)),
    reading("photographed bytes by their lowest bit", |b, f| changing(b, f, |entry| entry[2] %= 2)),
    reading("a photographed byte of 2 taken", |b, f| changing(b, f, |entry| entry[2] -= (entry[2] == 2) as u8)),
    reading("a photographed byte of 255 taken", |b, f| changing(b, f, |entry| entry[2] %= 255)),
    reading("photographed bytes by seven bits", |b, f| changing(b, f, |entry| entry[2] %= 128)),
    reading("the first photographed byte not looked at", |b, f| photographing(b, f, |index, _| index == 0)),
    reading("the last photographed byte not looked at", |b, f| photographing(b, f, |index, entries| index + 1 == entries)),
    reading("only the first photographed byte looked at", |b, f| photographing(b, f, |index, _| index > 0)),
    reading("entries of code, field, photographed", |b, f| changing(b, f, |entry| entry.swap(0, 1))),
    reading("entries of field, photographed, code", |b, f| changing(b, f, |entry| entry.swap(1, 2))),
    reading("fields from 1", |b, f| changing(b, f, |entry| entry[0] = entry[0].wrapping_sub(1))),
    reading("no answers refused by 24", |b, f| refusing(b, f, |form| form.entries().is_empty())),
    reading("all fields answered refused by 24", |b, f| refusing(b, f, |form| form.entries().len() == form.fields)),
    reading("60 answers refused by 24", |b, f| refusing(b, f, |form| form.entries().len() == PLACES)),
    reading("more than 32 answers refused by 24", |b, f| refusing(b, f, |form| form.entries().len() > 32)),
    reading("more than 127 bytes refused by 24", |b, f| refusing(b, f, |form| form.bytes.len() > 127)),
    reading("field 0 refused by 24", |b, f| refusing(b, f, |form| form.entries().iter().any(|entry| entry[0] == 0))),
    reading("field 59 refused by 24", |b, f| refusing(b, f, |form| form.entries().iter().any(|entry| entry[0] == 59))),
    reading("14 tested before 24", |b, f| earlier_14(b, f, |_| true)),
    reading("14 tested before the length", |b, f| earlier_14(b, f, |form| form.has_only(&[Cause::Length]))),
    reading("14 tested before the trailer", |b, f| earlier_14(b, f, |form| form.has_only(&[Cause::Answers, Cause::Fields]))),
    reading("14 tested before fields", |b, f| earlier_14(b, f, |form| form.has_only(&[Cause::Lacking]))),
    reading("14 tested before the order", |b, f| earlier_14(b, f, |form| form.has_only(&[Cause::Order]))),
    reading("14 tested before photographed bytes", |b, f| earlier_14(b, f, |form| form.has_only(&[Cause::Photographed]))),
    reading("each entry tested for 24 and for 14 before the next", |b, f| {
        earlier_14(b, f, |form| form.has_only(&OF_ENTRIES) && faults(b, form).any(|fault| fault < wrong_entry(form)))
    }),
    reading("255 taken as no answer", |b, f| seeing(b, f, |_, _, code| code != NO_ANSWER)),
    reading("254 taken as no answer", |b, f| seeing(b, f, |_, _, code| code != 254)),
    reading("codes above 127 taken as no answers", |b, f| seeing(b, f, |_, _, code| code <= 127)),
    reading("all codes at fault taken as no answers", |b, f| seeing(b, f, |_, _, _| false)),
    reading("the first code not looked at", |b, f| seeing(b, f, |index, _, _| index > 0)),
    reading("the last code not looked at", |b, f| seeing(b, f, |index, entries, _| index + 1 < entries)),
    reading("only the first code looked at", |b, f| seeing(b, f, |index, _, _| index == 0)),
    reading("the number of codes taken as a code", |b, f| load(&one_code_more(b), f)),
    reading("14 names the last field at fault", |b, f| naming(b, f, |form, _| field_of(form, faults(b, form).last()))),
    reading("14 names the entry's number", |b, f| naming(b, f, |_, index| index)),
    reading("14 names the entry's first byte", |b, f| naming(b, f, |_, index| 3 * index)),
    reading("14 names the code's byte", |b, f| naming(b, f, |_, index| 3 * index + 1)),
    reading("14 names the code", |b, f| naming(b, f, |form, index| form.entries()[index][1] as usize)),
    reading("14 names place 0", |b, f| naming(b, f, |_, _| 0)),
    reading("14 names place 31 at most", |b, f| naming(b, f, |form, index| field_of(form, Some(index)).min(31))),
    reading("14 told as 24", |b, f| load(b, f).or_else(|_| refuse(24, 0))),
    reading("codes that do not stand refused by 14", standing_codes_alone),
    reading("photographs lost", |b, f| showing(b, f, |_, _| false)),
    reading("every answer photographed", |b, f| {
        load(b, f).map(|sheet| sheet.photographed_where(|field| sheet.is_answered(field)))
    }),
    reading("photographs told by 0", |b, f| load(b, f).map(|sheet| sheet.photographed_where(|field| sheet.is_in_doubt(field)))),
    reading("photographs from field 32 on lost", |b, f| showing(b, f, |_, field| field < 32)),
    reading("the photograph of field 59 lost", |b, f| showing(b, f, |_, field| field < 59)),
    reading("the photograph of field 0 lost", |b, f| showing(b, f, |_, field| field > 0)),
    loading("the first photograph alone kept", |b, f| showing(b, f, |sheet, field| sheet.photographed().next() == Some(field))),
    lengthening("22 where all entries are photographed", |b, f| showing(b, f, |sheet, _| sheet.is_all_photographed())),
    lengthening("22 for the first entry alone", |b, f| {
        showing(b, f, |sheet, field| (0..field).all(|before| !sheet.is_answered(before)))
    }),
    lengthening("22 for the last entry alone", |b, f| {
        showing(b, f, |sheet, field| (field + 1..PLACES).all(|behind| !sheet.is_answered(behind)))
    }),
    reading("the first entry left out", |b, f| dropping(b, f, |index, _| index == 0)),
    reading("the last entry left out", |b, f| dropping(b, f, |index, entries| index + 1 == entries)),
    reading("entries from 32 on left out", |b, f| dropping(b, f, |index, _| index >= 32)),
    reading("entry 59 left out", |b, f| dropping(b, f, |index, _| index == 59)),
    reading("answers in the order of the entries", |b, f| load(b, f).map(|sheet| side_by_side(&sheet))),
    of(OF_A_SHORT_FORM, "24 told as 19", |_, left| before(left, 24, 19, || true)),
    of(OF_A_SHORT_FORM, "24 told as 14", |_, left| before(left, 24, 14, || true)),
    of(OF_A_SHORT_FORM, "24 told as 20", |_, left| before(left, 24, 20, || true)),
    of(OF_A_SHORT_FORM, "19 for a length of another number of entries", |seen, left| {
        before(left, 24, 19, || seen.short().has(Cause::Length))
    }),
    of(OF_A_SHORT_FORM, "24 with the length for its place", |seen, left| with_place(left, 24, |_| seen.call.list().len() as u64)),
    of(OF_A_SHORT_FORM, "24 with the first byte of an entry for its place", |seen, left| {
        with_place(left, 24, |_| 3 * wrong_entry(seen.short()) as u64)
    }),
    of(OF_A_SHORT_FORM, "14 told as 16", |_, left| before(left, 14, 16, || true)),
    of(LOAD, "answers without an entry left as they were", |seen, left| {
        if_accepted(left, |left| left.sheet = over(seen, &left.sheet))
    }),
    of(LOAD, "a refusal by 24 leaves the sheet", |seen, left| leave_sheet(seen, left, 24..=24)),
    of(LOAD, "a refusal by 14 leaves the sheet", |seen, left| leave_sheet(seen, left, 14..=14)),
    of(LOAD, "a refusal of the book leaves the sheet", |seen, left| leave_sheet(seen, left, 1..=13)),
    of(LOAD, "14 leaves the entries before it", read_before_14),
    of(LOAD, "22 for a form with photographs", |_, left| {
        if left.number == 0 && left.sheet.has_photograph() {
            (left.number, left.sheet) = (22, FRESH);
        }
    }),
    of(LENGTHEN, "22 tested before 24", |seen, left| before(left, 24, 22, || seen.photographed_entry().is_some())),
    of(LENGTHEN, "22 tested before 14", |seen, left| before(left, 14, 22, || seen.photographed_entry().is_some())),
    of(LENGTHEN, "18 tested before 24", |seen, left| before(left, 24, 18, || seen.lacks_room())),
    of(LENGTHEN, "18 tested before 22", |seen, left| before(left, 22, 18, || seen.lacks_room())),
    of(LENGTHEN, "22 told as 24", |_, left| before(left, 22, 24, || true)),
    of(LENGTHEN, "22 told as 14", |_, left| before(left, 22, 14, || true)),
    of(LENGTHEN, "22 with the field for its place", |seen, left| {
        with_place(left, 22, |_| field_of(seen.short(), seen.photographed_entry()) as u64)
    }),
    of(LENGTHEN, "22 only after what fits was written", written_before_22),
    of(LENGTHEN, "open fields written as 0", |_, left| in_bytes(left, |bytes| exchange(bytes, NO_ANSWER, 0))),
    of(LENGTHEN, "code 0 written as 255", |_, left| in_bytes(left, |bytes| exchange(bytes, 0, NO_ANSWER))),
    of(LENGTHEN, "fields from the last on", |_, left| in_bytes(left, <[u8]>::reverse)),
    of(LENGTHEN, "fields from 32 on written as 255", |_, left| {
        in_bytes(left, |bytes| bytes.iter_mut().skip(32).for_each(|byte| *byte = NO_ANSWER))
    }),
    of(LENGTHEN, "an old form written as it is", old_form_taken),
];

/// The sheet of these entries, as far as the book has their fields: 14.
fn sheet_of(book: &Book, entries: &[[u8; 3]]) -> Result<Sheet, Refusal> {
    let mut sheet = FRESH;
    for &[field, code, photographed] in entries.iter().filter(|entry| (entry[0] as usize) < book.counts.len()) {
        let place = field as usize;
        if is_no_code(book, place, code) {
            return refuse(14, place);
        }
        (sheet.answers[place], sheet.photographs[place]) = (code, photographed.min(1));
    }
    Ok(sheet)
}

/// Takes a form by its entries that has this cause alone and is so.
fn passing(book: &Book, bytes: &[u8], cause: Cause, so: impl Fn(Form) -> bool) -> Result<Sheet, Refusal> {
    let form = Form::of(book, bytes);
    if form.has_just(&[cause]) && so(form) {
        sheet_of(book, form.entries())
    } else {
        load(book, bytes)
    }
}

/// The same where the number of answers told is so, beside that of the entries and the number of fields.
fn miscounting(book: &Book, bytes: &[u8], so: fn(usize, usize, usize) -> bool) -> Result<Sheet, Refusal> {
    let is_so = |form: Form| form.trailer().is_some_and(|[told, _]| so(told, form.entries().len(), form.fields));
    passing(book, bytes, Cause::Answers, is_so)
}

/// The same where the number of fields told is so, beside the book's.
fn misnumbering(book: &Book, bytes: &[u8], so: fn(usize, usize) -> bool) -> Result<Sheet, Refusal> {
    passing(book, bytes, Cause::Fields, |form| form.trailer().is_some_and(|[_, told]| so(told, form.fields)))
}

/// The same where all fields that the book lacks are so, beside their number.
fn lacking(book: &Book, bytes: &[u8], so: fn(usize, usize) -> bool) -> Result<Sheet, Refusal> {
    let is_passed = |form: Form, field: usize| field < form.fields || so(field, form.fields);
    passing(book, bytes, Cause::Lacking, |form| form.entries().iter().all(|entry| is_passed(form, entry[0] as usize)))
}

/// The same where each pair of fields is so: its number, how many pairs there are, and both fields.
fn ordering(book: &Book, bytes: &[u8], so: fn(usize, usize, u8, u8) -> bool) -> Result<Sheet, Refusal> {
    let all_so = |form: Form| form.pairs().enumerate().all(|(pair, (one, next))| so(pair, form.entries().len() - 1, one, next));
    passing(book, bytes, Cause::Order, all_so)
}

/// The same where all entries with a photographed byte above 1 are so: their number, and how many entries there are.
fn photographing(book: &Book, bytes: &[u8], so: fn(usize, usize) -> bool) -> Result<Sheet, Refusal> {
    let is_passed = |form: Form, index: usize| form.entries()[index][2] <= 1 || so(index, form.entries().len());
    passing(book, bytes, Cause::Photographed, |form| (0..form.entries().len()).all(|index| is_passed(form, index)))
}

fn by_first_entries(book: &Book, bytes: &[u8]) -> Result<Sheet, Refusal> {
    let form = Form::of(book, bytes);
    if form.has_just(&[Cause::Order]) && form.pairs().all(|(one, next)| one <= next) {
        let mut entries = form.entries().to_vec();
        entries.dedup_by_key(|entry| entry[0]);
        return sheet_of(book, &entries);
    }
    load(book, bytes)
}

/// Where the bytes are no form, takes the first of their parts that is one, by lengths that a form has.
fn in_part<'a>(book: &Book, bytes: &'a [u8], part: impl Fn(usize) -> &'a [u8]) -> Result<Sheet, Refusal> {
    let parts = (0..bytes.len().min(sighting::SHORT_BYTES + 1)).map(part);
    let mut loaded = [bytes].into_iter().chain(parts).map(|part| load(book, part));
    loaded.find(|loaded| !loaded.is_err_and(|r| r.number == 24)).unwrap_or(refuse(24, 0))
}

fn as_many_as_told(book: &Book, bytes: &[u8]) -> Result<Sheet, Refusal> {
    let form = Form::of(book, bytes);
    match form.trailer() {
        Some([told, _]) if told < form.entries().len() => load(book, &[&bytes[..3 * told], &bytes[bytes.len() - 2..]].concat()),
        _ => load(book, bytes),
    }
}

fn turned(bytes: &[u8]) -> Vec<u8> {
    let mut turned = bytes.to_vec();
    turned[bytes.len().saturating_sub(2)..].reverse();
    turned
}

/// Loads the form with this change in each entry.
fn changing(book: &Book, bytes: &[u8], change: fn(&mut [u8; 3])) -> Result<Sheet, Refusal> {
    let mut changed = bytes.to_vec();
    changed[..bytes.len().saturating_sub(2)].as_chunks_mut().0.iter_mut().for_each(change);
    load(book, &changed)
}

fn refusing(book: &Book, bytes: &[u8], so: fn(Form) -> bool) -> Result<Sheet, Refusal> {
    if so(Form::of(book, bytes)) {
        return refuse(24, 0);
    }
    load(book, bytes)
}

/// The entries of the book's fields whose codes are at fault.
fn faults<'a>(book: &'a Book, form: Form<'a>) -> impl Iterator<Item = usize> + 'a {
    let is_fault = |[field, code, _]: [u8; 3]| (field as usize) < book.counts.len() && is_no_code(book, field as usize, code);
    (0..form.entries().len()).filter(move |&index| is_fault(form.entries()[index]))
}

/// The number of the first entry that makes the bytes no form; that of all entries where none does.
fn wrong_entry(form: Form) -> usize {
    let up_to = |index: usize| Form { bytes: &form.bytes[..3 * index + 5], ..form };
    let is_wrong = |&index: &usize| OF_ENTRIES.iter().any(|&cause| up_to(index).has(cause));
    (0..form.entries().len()).find(is_wrong).unwrap_or(form.entries().len())
}

fn field_of(form: Form, index: Option<usize>) -> usize {
    index.map_or(0, |index| form.entries()[index][0] as usize)
}

/// Tells 14 before 24 where the form is so.
fn earlier_14(book: &Book, bytes: &[u8], so: impl Fn(Form) -> bool) -> Result<Sheet, Refusal> {
    let form = Form::of(book, bytes);
    match faults(book, form).next() {
        Some(index) if so(form) => refuse(14, field_of(form, Some(index))),
        _ => load(book, bytes),
    }
}

/// Takes codes at fault as no answers where they are not seen: by the entry's number, how many there are, and the code.
fn seeing(book: &Book, bytes: &[u8], sees: fn(usize, usize, u8) -> bool) -> Result<Sheet, Refusal> {
    let form = Form::of(book, bytes);
    load(book, bytes).or_else(|r| {
        let (entries, faults): (_, Vec<usize>) = (form.entries(), faults(book, form).collect());
        let seen = faults.iter().copied().find(|&index| sees(index, entries.len(), entries[index][1]));
        match (r.number, seen) {
            (14, Some(index)) => refuse(14, field_of(form, Some(index))),
            (14, None) => sheet_of(book, &but_for(entries, |index| faults.contains(&index))),
            _ => Err(r),
        }
    })
}

/// The entries that are not so, by their number.
fn but_for(entries: &[[u8; 3]], so: impl Fn(usize) -> bool) -> Vec<[u8; 3]> {
    (0..entries.len()).filter(|&index| !so(index)).map(|index| entries[index]).collect()
}

fn one_code_more(book: &Book) -> Book {
    Book { counts: book.counts.iter().map(|count| count + 1).collect(), ..book.clone() }
}

/// Names another place with 14, by the entry's number.
fn naming(book: &Book, bytes: &[u8], place: impl Fn(Form, usize) -> usize) -> Result<Sheet, Refusal> {
    let form = Form::of(book, bytes);
    load(book, bytes).or_else(|r| match (r.number, faults(book, form).next()) {
        (14, Some(index)) => refuse(14, place(form, index)),
        _ => Err(r),
    })
}

fn standing_codes_alone(book: &Book, bytes: &[u8]) -> Result<Sheet, Refusal> {
    let sheet = load(book, bytes)?;
    let standing = largest(book, &sheet.answers);
    let is_struck = |&field: &usize| sheet.is_answered(field) && !standing[field][sheet.answers[field] as usize];
    (0..book.counts.len()).find(is_struck).map_or(Ok(sheet), |field| refuse(14, field))
}

/// The sheet loaded with such photographs alone.
fn showing(book: &Book, bytes: &[u8], kept: fn(&Sheet, usize) -> bool) -> Result<Sheet, Refusal> {
    let only_kept = |sheet: Sheet| sheet.photographed_where(|field| sheet.is_photographed(field) && kept(&sheet, field));
    load(book, bytes).map(only_kept)
}

/// The sheet loaded without such entries, by their number and how many there are.
fn dropping(book: &Book, bytes: &[u8], so: fn(usize, usize) -> bool) -> Result<Sheet, Refusal> {
    load(book, bytes)?;
    let entries = Form::of(book, bytes).entries();
    sheet_of(book, &but_for(entries, |index| so(index, entries.len())))
}

/// The answers in the first places, one beside the other.
fn side_by_side(sheet: &Sheet) -> Sheet {
    let mut moved = FRESH;
    for (place, field) in (0..PLACES).filter(|&field| sheet.is_answered(field)).enumerate() {
        (moved.answers[place], moved.photographs[place]) = (sheet.answers[field], sheet.photographs[field]);
    }
    moved
}

/// The sheet over the one that was there.
fn over(seen: &Seen, sheet: &Sheet) -> Sheet {
    let mut over = seen.sheet.in_bits();
    for field in (0..PLACES).filter(|&field| sheet.is_answered(field)) {
        (over.answers[field], over.photographs[field]) = (sheet.answers[field], sheet.photographs[field]);
    }
    over
}

fn leave_sheet(seen: &Seen, left: &mut calls::Left, numbers: RangeInclusive<u64>) {
    if numbers.contains(&left.number) {
        left.sheet = *seen.sheet;
    }
}

impl Seen<'_> {
    /// The bytes that the call is given, as a short form.
    fn short(&self) -> Form<'_> {
        Form::of(self.accepted(), self.call.list())
    }

    /// The first entry that is photographed.
    fn photographed_entry(&self) -> Option<usize> {
        self.short().entries().iter().position(|entry| entry[2] == 1)
    }
}

fn read_before_14(seen: &Seen, left: &mut calls::Left) {
    if left.number == 14 {
        let before = faults(seen.accepted(), seen.short()).next().unwrap_or(0);
        left.sheet = sheet_of(seen.accepted(), &seen.short().entries()[..before]).unwrap_or(FRESH);
    }
}

fn written_before_22(seen: &Seen, left: &mut calls::Left) {
    if left.number == 22 {
        let sheet = sheet_of(seen.accepted(), seen.short().entries()).unwrap_or(FRESH);
        left.out.write(&sheet.answers[..seen.short().fields].to_vec().into());
    }
}

fn exchange(bytes: &mut [u8], one: u8, other: u8) {
    bytes.iter_mut().filter(|byte| **byte == one).for_each(|byte| *byte = other);
}

fn old_form_taken(seen: &Seen, left: &mut calls::Left) {
    let form = seen.call.list();
    if left.number == 24 && Desk::default().loaded(seen.reading, form).is_ok() {
        let (counts, asked) = (vec![form.len() as u64], form.len());
        let answer = Answer { result: Ok(counts), sheet: *seen.sheet, written: form.to_vec().into(), asked };
        *left = answer.left(seen.call, &left.out);
    }
}
