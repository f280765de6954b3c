//! The library at each edge of document 02's M-108: every field and number of fields, every length lent, every byte of a form, every short
//! run of few bytes, and refusals in their order.

use sighting::{lengthen, shorten, Refusal, NO_ANSWER, SHORT_BYTES, STORED_BYTES};

use crate::book::{self, Book};
use crate::desk::{Desk, Reading};
use crate::examples::{e1, E1_SHORT};
use crate::sheet::{Sheet, FRESH, PLACES};

/// What the bytes lent hold before a call.
const LENT: u8 = 0xA5;

/// The bytes written, or a refusal.
type Written = Result<Vec<u8>, Refusal>;

const fn refused<T>(number: u64, place: u64) -> Result<T, Refusal> {
    Err(Refusal { number, place })
}

/// What a call writes where so many bytes are lent. Those behind it stay, and all of them where it is refused.
fn lending(bytes: usize, call: impl Fn(&mut [u8]) -> Result<u64, Refusal>) -> Written {
    let mut out = vec![LENT; bytes];
    let written = call(&mut out);
    let (front, behind) = out.split_at(written.map_or(0, |written| written as usize));
    assert!(behind.iter().all(|&byte| byte == LENT));
    written.map(|_| front.to_vec())
}

fn store_lending(bytes: usize, book: &[u8], sheet: Sheet) -> Written {
    lending(bytes, |out| sighting::Sheet::from(sheet).store_short(book, out))
}

fn store(book: &[u8], sheet: Sheet) -> Written {
    store_lending(SHORT_BYTES, book, sheet)
}

fn load(book: &[u8], form: &[u8]) -> Result<Sheet, Refusal> {
    sighting::Sheet::load_short(book, form).map(|sheet| Sheet::from_bytes(*sheet.bytes()))
}

fn to_short(book: &[u8], form: &[u8]) -> Written {
    lending(SHORT_BYTES, |out| shorten(book, form, out))
}

fn to_old(book: &[u8], form: &[u8]) -> Written {
    lending(STORED_BYTES, |out| lengthen(book, form, out))
}

/// So many fields of so many codes, and no table.
fn bytes(fields: usize, codes: u8) -> Vec<u8> {
    Book::new(vec![codes; fields], Vec::new()).write()
}

/// The form of these entries, whatever they are.
fn form(entries: &[[u8; 3]], fields: usize) -> Vec<u8> {
    [entries.concat(), vec![entries.len() as u8, fields as u8]].concat()
}

/// What the slow desk makes of a form has to be what the library makes of it.
fn agree(book: &Book, bytes: &[u8], form: &[u8]) {
    let (desk, reading): (Desk, Reading) = (Desk::default(), Ok(book.clone()));
    let by_desk = |r: book::Refusal| Refusal { number: r.number, place: r.place };
    assert_eq!(load(bytes, form), desk.loaded_short(&reading, form).map_err(by_desk), "{form:?}");
    assert_eq!(to_old(bytes, form), desk.lengthened(&reading, form).map_err(by_desk), "{form:?}");
}

#[test]
fn examples() {
    let book = e1().write();
    for (answers, photographed, form) in E1_SHORT {
        let sheet = Sheet::of(answers).with_photographs(photographed);
        assert_eq!(store(&book, sheet), Ok(form.to_vec()));
        assert_eq!(load(&book, form), Ok(sheet));
        let old = &sheet.answers[..3];
        assert_eq!(to_old(&book, form), if photographed.is_empty() { Ok(old.to_vec()) } else { refused(22, 0) });
        assert_eq!(to_short(&book, old), store(&book, Sheet::of(answers)));
    }
    assert_eq!(to_short(&book, &[0, 1, 255]), Ok(vec![0, 0, 0, 1, 1, 0, 2, 3]));
}

/// The first fields answered, from none to all sixty: as many bytes as the form has suffice, and one less does not.
#[test]
fn each_number_of_answers() {
    let book = bytes(PLACES, 32);
    for answers in 0..=PLACES {
        let (sheet, length) = (Sheet::of(&vec![31; answers]), 3 * answers + 2);
        let entries: Vec<[u8; 3]> = (0..answers as u8).map(|field| [field, 31, 0]).collect();
        let (short, old) = (form(&entries, PLACES), &sheet.answers[..PLACES]);
        for lent in [length, length + 1, SHORT_BYTES] {
            assert_eq!(store_lending(lent, &book, sheet), Ok(short.clone()));
            assert_eq!(lending(lent, |out| shorten(&book, old, out)), Ok(short.clone()));
        }
        for lent in 0..length {
            assert_eq!(store_lending(lent, &book, sheet), refused(18, 0), "{answers} answers, {lent} lent");
            assert_eq!(lending(lent, |out| shorten(&book, old, out)), refused(18, 0), "{answers} answers, {lent} lent");
        }
        assert_eq!((load(&book, &short), to_old(&book, &short)), (Ok(sheet), Ok(old.to_vec())));
    }
    assert_eq!(store(&book, Sheet::of(&[31; PLACES])).map(|form| form.len()), Ok(182));
}

/// All fields photographed and answered, or none of either, in books of each number of fields; as many bytes as fields are asked for.
#[test]
fn each_number_of_fields() {
    for fields in 1..=PLACES {
        let book = bytes(fields, 2);
        let (all, old) = ((0..fields).collect::<Vec<_>>(), vec![1; fields]);
        let photographed = Sheet::of(&old).with_photographs(&all);
        let short = store(&book, photographed).expect("182 bytes suffice");
        assert_eq!((short.len(), load(&book, &short), to_old(&book, &short)), (3 * fields + 2, Ok(photographed), refused(22, 0)));
        let short = to_short(&book, &old).expect("182 bytes suffice");
        for lent in 0..fields {
            assert_eq!(lending(lent, |out| lengthen(&book, &short, out)), refused(18, 0));
        }
        assert_eq!(lending(fields, |out| lengthen(&book, &short, out)), Ok(old));
        assert_eq!((store(&book, FRESH), load(&book, &[0, fields as u8])), (Ok(vec![0, fields as u8]), Ok(FRESH)));
        assert_eq!(to_old(&book, &[0, fields as u8]), Ok(vec![NO_ANSWER; fields]));
    }
}

/// One field is answered, with a photograph and without.
#[test]
fn each_field() {
    for fields in [1, 2, 31, 32, 33, 59, 60] {
        let book = bytes(fields, 3);
        for field in 0..fields {
            let mut sheet = FRESH;
            sheet.answers[field] = 2;
            for photographed in [0, 1] {
                sheet.photographs[field] = photographed;
                let short = form(&[[field as u8, 2, photographed]], fields);
                assert_eq!((store(&book, sheet), load(&book, &short)), (Ok(short.clone()), Ok(sheet)));
                let old = if photographed == 0 { Ok(sheet.answers[..fields].to_vec()) } else { refused(22, 0) };
                assert_eq!(to_old(&book, &short), old, "field {field} of {fields}");
            }
        }
    }
}

/// Each byte of a form is changed to each other, in a small book and in the largest.
#[test]
fn each_byte_of_a_form() {
    let largest = Book::new(vec![32; PLACES], Vec::new());
    let all: Vec<[u8; 3]> = (0..PLACES as u8).map(|field| [field, field % 32, 0]).collect();
    let forms = [(e1(), vec![0, 0, 0, 1, 1, 0, 2, 3]), (e1(), vec![0, 1, 1, 2, 2, 0, 2, 3]), (largest, form(&all, PLACES))];
    for (book, good) in forms {
        let bytes = book.write();
        for (place, byte) in (0..good.len()).flat_map(|place| (0..=255).map(move |byte| (place, byte))) {
            let mut changed = good.clone();
            changed[place] = byte;
            agree(&book, &bytes, &changed);
        }
    }
}

/// All runs of up to eight bytes of 0, 1, 2 and 255, in a book of two fields with two codes and one: up to two entries and a trailer.
#[test]
fn each_short_run_of_few_bytes() {
    let book = Book::new(vec![2, 1], Vec::new());
    let bytes = book.write();
    for length in 0..=8 {
        for number in 0..1usize << (2 * length) {
            let form: Vec<u8> = (0..length).map(|place| [0, 1, 2, NO_ANSWER][number >> (2 * place) & 3]).collect();
            agree(&book, &bytes, &form);
        }
    }
}

/// Every number of codes, and every byte as a code: 255 is no answer of the short form.
#[test]
fn each_code() {
    for (codes, code) in (1..=32).flat_map(|codes| (0..=255).map(move |code| (codes, code))) {
        let (book, short) = (bytes(3, codes), form(&[[1, code, 1]], 3));
        let sheet = Sheet::of(&[NO_ANSWER, code]).with_photographs(&[1]);
        assert_eq!(load(&book, &short), if code < codes { Ok(sheet) } else { refused(14, 1) }, "{code} of {codes}");
    }
}

/// Every other field is answered. Of two codes at fault the first field's is named; beside a byte that is no photograph none is, wherever
/// it stands.
#[test]
fn each_pair_of_entries() {
    let (book, good) = (bytes(PLACES, 2), (0..30).map(|entry| [2 * entry + 1, 1, 0]).collect::<Vec<[u8; 3]>>());
    for (one, other) in (0..30).flat_map(|one| (0..30).map(move |other| (one, other))) {
        let mut faults = good.clone();
        (faults[one][1], faults[other][1]) = (2, NO_ANSWER);
        let place = 2 * one.min(other) as u64 + 1;
        assert_eq!(load(&book, &form(&faults, PLACES)), refused(14, place), "{one} and {other}");
        faults[one][2] = 1;
        assert_eq!(to_old(&book, &form(&faults, PLACES)), refused(14, place), "{one} and {other}");
        faults[one][2] = 2;
        assert_eq!(load(&book, &form(&faults, PLACES)), refused(24, 0), "{one} and {other}");
        let mut exchanged = good.clone();
        exchanged.swap(one, other);
        let expected = if one == other { Ok(()) } else { refused(24, 0) };
        assert_eq!(load(&book, &form(&exchanged, PLACES)).map(drop), expected, "{one} and {other}");
        exchanged = good.clone();
        exchanged[one][0] = good[other][0];
        assert_eq!(load(&book, &form(&exchanged, PLACES)).map(drop), expected, "{one} as {other}");
    }
}

/// Everything is wrong, and is put right one after the other.
#[test]
fn refusals_in_their_order() {
    let book = e1().write();
    let broken = [&book[..34], &[0]].concat();
    for (book, form, lent, expected) in [
        (&broken, &[0, 2, 1, 1, 1, 0, 1, 3], 0, refused(2, 34)),
        (&book, &[0, 2, 1, 1, 1, 0, 1, 3], 0, refused(24, 0)),
        (&book, &[0, 2, 1, 1, 1, 0, 2, 3], 0, refused(14, 0)),
        (&book, &[0, 0, 1, 1, 3, 0, 2, 3], 0, refused(14, 1)),
        (&book, &[0, 0, 1, 1, 1, 0, 2, 3], 0, refused(22, 0)),
        (&book, &[0, 0, 1, 1, 1, 0, 2, 3], 3, refused(22, 0)),
        (&book, &[0, 0, 0, 1, 1, 0, 2, 3], 2, refused(18, 0)),
        (&book, &[0, 0, 0, 1, 1, 0, 2, 3], 3, Ok(vec![0, 1, NO_ANSWER])),
    ] {
        assert_eq!(lending(lent, |out| lengthen(book, form, out)), expected, "{form:?}, {lent} lent");
    }
    for (book, form, lent, expected) in [
        (&broken, &[2, 1][..], 0, refused(2, 34)),
        (&book, &[2, 1], 0, refused(19, 0)),
        (&book, &[0, 1, 3], 0, refused(14, 2)),
        (&book, &[0, 1, 2], 10, refused(18, 0)),
        (&book, &[0, 1, 2], 11, Ok(vec![0, 0, 0, 1, 1, 0, 2, 2, 0, 3, 3])),
    ] {
        assert_eq!(lending(lent, |out| shorten(book, form, out)), expected, "{form:?}, {lent} lent");
    }
    assert_eq!(store_lending(0, &broken, Sheet::of(&[2])), refused(2, 34));
    assert_eq!(store_lending(0, &book, Sheet::of(&[0, 3])), refused(14, 1));
    assert_eq!(store_lending(0, &book, FRESH.with_photographs(&[59])), refused(14, 59));
    assert_eq!(store_lending(1, &book, FRESH), refused(18, 0));
}
