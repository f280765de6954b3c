//! The library at each edge of document 02's M-103: every version, number of fields, place, field, and length of a stored sheet.

use sighting::{read, report, write, Alternatives, Refusal, Sheet};
use sighting::{NO_ANSWER, NUMBERS, PAIRS_BYTES, REPORT_BYTES, STORED_BYTES};

use crate::book::{Book, Table};
use crate::sheet::{self, FRESH, PLACES};

/// Books of these versions and numbers of fields: the fewest, and those beside each limit.
const BOOKS: [(u8, usize); 9] = [(1, 1), (1, 31), (1, 32), (2, 1), (2, 31), (2, 32), (2, 33), (2, 59), (2, 60)];

const TOO_FEW: Refusal = Refusal { number: 18, place: 0 };

/// The bytes of a book of that version with as many fields of one code, and no table.
fn bytes(version: u8, fields: usize) -> Vec<u8> {
    Book { version, ..Book::new(vec![1; fields], Vec::new()) }.write()
}

fn is_book(version: u16, fields: usize) -> bool {
    matches!((version, fields), (1, 1..=32) | (2, 1..=60))
}

/// A sheet with this byte alone.
fn holding(place: usize, byte: u8) -> Sheet {
    let mut sheet = FRESH;
    sheet.answers[place] = byte;
    sheet.into()
}

/// Sixty fields of 32 codes, in fours in tables of no rows, or without tables.
fn full(with_tables: bool) -> Vec<u8> {
    let table = |fields: &[u8]| Table { fields: fields.to_vec(), rows: Vec::new() };
    let fields: Vec<u8> = (0..60).collect();
    let tables = fields.chunks(4).map(table).filter(|_| with_tables).collect();
    Book::new(vec![32; 60], tables).write()
}

#[test]
fn each_version_with_each_number_of_fields() {
    for (version, fields) in (0..=255).flat_map(|version| (0..=255).map(move |fields| (version, fields))) {
        let length = fields as u64 + 6;
        let expected = match version {
            _ if is_book(version as u16, fields) => Ok(fields as u64),
            1..=2 => Err(Refusal { number: 4, place: length - 4 }),
            _ => Err(Refusal { number: 3, place: length - 2 }),
        };
        assert_eq!(read(&bytes(version, fields)).map(|counts| counts.fields), expected, "{fields} fields of version {version}");
    }
}

#[test]
fn each_version_of_a_listing() {
    let mut out = [0; 100];
    for fields in [1, 32, 33, 60, 61] {
        let mut listing = [vec![fields as u16], vec![1; fields], vec![0]].concat();
        assert_eq!(write(&listing, &mut out), Err(Refusal { number: 20, place: 0 }), "{fields} fields without a version");
        for version in 0..=u16::MAX {
            listing.push(version);
            let expected = if is_book(version, fields) { Ok(fields as u64 + 6) } else { Err(Refusal { number: 20, place: 0 }) };
            assert_eq!(write(&listing, &mut out), expected, "{fields} fields of version {version}");
            listing.pop();
        }
    }
}

#[test]
fn a_fault_at_each_place() {
    for (version, fields) in BOOKS {
        let book = bytes(version, fields);
        for place in 0..PLACES {
            let (mut sheet, fault) = (holding(place, 1), Refusal { number: 14, place: place as u64 });
            assert_eq!(sheet.enter(&book, 0, 0), Err(fault));
            assert_eq!(sheet.withdraw(&book, 0), Err(fault));
            assert_eq!(sheet.photograph(&book, 0), Err(fault));
            assert_eq!(sheet.filtered(&book, None, &mut [0; NUMBERS]), Err(fault));
            assert_eq!(sheet.alternatives(&book, &mut [0; PAIRS_BYTES]), Err(fault));
            assert_eq!(sheet.row(&book, 0, 0, 0), Err(fault));
            assert_eq!(sheet.store(&book, &mut [0; STORED_BYTES]), Err(fault));
            assert_eq!(sheet, holding(place, 1));
            sheet.clear();
            assert_eq!(sheet, Sheet::fresh());
        }
    }
}

/// Field f has f + 1 codes, up to 32.
#[test]
fn each_byte_at_each_place() {
    for (version, fields) in BOOKS {
        let counts: Vec<u8> = (1..=fields).map(|codes| codes.min(32) as u8).collect();
        let book = Book { version, ..Book::new(counts.clone(), Vec::new()) }.write();
        for (place, byte) in (0..PLACES).flat_map(|place| (0..=255).map(move |byte| (place, byte))) {
            let may_hold = byte == NO_ANSWER || counts.get(place).is_some_and(|&count| byte < count);
            let expected = if may_hold { Ok(()) } else { Err(Refusal { number: 14, place: place as u64 }) };
            assert_eq!(holding(place, byte).store(&book, &mut [0; STORED_BYTES]), expected, "{byte} at {place}");
        }
    }
}

#[test]
fn the_first_of_two_faults() {
    for (version, fields) in BOOKS {
        let book = bytes(version, fields);
        for (first, second) in (1..PLACES).flat_map(|second| (0..second).map(move |first| (first, second))) {
            let mut places = FRESH;
            (places.answers[first], places.answers[second]) = (254, 1);
            let expected = Err(Refusal { number: 14, place: first as u64 });
            assert_eq!(Sheet::from(places).store(&book, &mut [0; STORED_BYTES]), expected, "{first} and {second}");
        }
    }
}

#[test]
fn each_field() {
    let refused = |number| Err(Refusal { number, place: 0 });
    for (version, fields) in BOOKS {
        let book = bytes(version, fields);
        for field in 0..fields {
            let (mut sheet, mut pairs) = (Sheet::fresh(), [7; 3]);
            assert_eq!((sheet.enter(&book, field, 1), sheet.enter(&book, field, 0)), (refused(16), Ok(())));
            assert_eq!(sheet, holding(field, 0));
            assert_eq!(sheet.filtered(&book, Some(field), &mut [0; NUMBERS]), Ok(()));
            assert_eq!(sheet.alternatives(&book, &mut pairs), Ok(Alternatives { total: 1, struck: 0 }));
            assert_eq!(pairs, [field as u8, 0, 7]);
            let no_row = |code| sheet.row(&book, field, code, 0).map(drop);
            assert_eq!((no_row(1), no_row(0)), (refused(16), refused(21)));
            assert_eq!((sheet.withdraw(&book, field), sheet.withdraw(&book, field)), (Ok(()), refused(17)));
            assert_eq!(sheet, Sheet::fresh());
        }
        for none in fields..300 {
            let mut sheet = Sheet::fresh();
            assert_eq!((sheet.enter(&book, none, 0), sheet.withdraw(&book, none)), (refused(15), refused(15)));
            assert_eq!(sheet.photograph(&book, none), refused(15));
            assert_eq!(sheet.filtered(&book, Some(none), &mut [0; NUMBERS]), refused(15));
            assert_eq!(sheet.row(&book, none, 0, 0).map(drop), refused(15));
        }
    }
}

#[test]
fn each_length_of_a_stored_sheet() {
    for (version, fields) in BOOKS {
        let book = bytes(version, fields);
        for length in 0..=600 {
            let loaded = Sheet::load(&book, &vec![NO_ANSWER; length]);
            let expected = if length == fields { Ok(Sheet::fresh()) } else { Err(Refusal { number: 19, place: 0 }) };
            assert_eq!(loaded, expected, "{length} bytes for {fields} fields of version {version}");
        }
        let (held, mut stored) = (vec![0; fields], [7; PLACES + 1]);
        let sheet = Sheet::load(&book, &held).expect("a code of each field");
        assert_eq!(sheet, sheet::Sheet::of(&held).into());
        assert_eq!(sheet.store(&book, &mut stored[..fields - 1]), Err(TOO_FEW));
        assert_eq!(sheet.store(&book, &mut stored), Ok(()));
        assert_eq!((&stored[..fields], &stored[fields..]), (&held[..], &vec![7; PLACES + 1 - fields][..]));
        for field in 0..fields {
            let mut form = held.clone();
            form[field] = 1;
            assert_eq!(Sheet::load(&book, &form), Err(Refusal { number: 14, place: field as u64 }));
        }
    }
}

/// With one field lifted the other 59 have one code of 32 each; in tables of no rows nothing stands in any of the 61 cases.
#[test]
fn the_most_lines_and_marks() {
    let (sheet, mut pairs) = (Sheet::from([31; PLACES]), [7; PAIRS_BYTES]);
    assert_eq!(sheet.alternatives(&full(false), &mut pairs[..PAIRS_BYTES - 1]), Err(TOO_FEW));
    assert_eq!(pairs, [7; PAIRS_BYTES]);
    let most = Alternatives { total: 1_920, struck: 60 * 31 + 60 * (59 * 31) };
    assert_eq!(sheet.alternatives(&full(false), &mut pairs), Ok(most));
    assert!(pairs.chunks(2).eq((0..1_920u32).map(|i| [(i / 32) as u8, (i % 32) as u8])));
    assert_eq!(sheet.alternatives(&full(true), &mut []), Ok(Alternatives { total: 0, struck: 117_120 }));
}

#[test]
fn the_longest_text() {
    let (mut out, open) = (vec![7; REPORT_BYTES], (0..60).flat_map(|f| (0..32).map(move |c| format!("open {f} {c}\n"))));
    let text = ["book 60 0 0 0\nsheet 0 0 0\n".to_string()].into_iter().chain(open).collect::<String>();
    let unanswered = [NO_ANSWER; PLACES];
    assert_eq!(report(&full(false), &unanswered, &mut out[..text.len() - 1]), Err(TOO_FEW));
    assert_eq!(report(&full(false), &unanswered, &mut out), Ok(text.len() as u64));
    assert_eq!(&out[..text.len()], text.as_bytes());
    assert!(out[text.len()..].iter().all(|&byte| byte == 7));
    let all_struck = b"book 60 15 0 0\nsheet 60 0 117120\n";
    assert_eq!(report(&full(true), &[0; PLACES], &mut out), Ok(all_struck.len() as u64));
    assert_eq!(&out[..all_struck.len()], all_struck);
}

#[test]
fn a_list_of_calls_on_all_fields() {
    let (book, mut pairs) = (full(false), [7; PAIRS_BYTES]);
    let enter: Vec<u8> = (0..62).flat_map(|field| [0, field, 31]).collect();
    let withdraw: Vec<u8> = (32..62).flat_map(|field| [1, field, 0]).collect();
    let (reached, found) = Sheet::replay(&book, &enter, &mut pairs);
    assert_eq!((reached, found.map(|found| found.total)), (Sheet::from([31; PLACES]), Ok(1_920)));
    let (reached, found) = Sheet::replay(&book, &[&enter[..], &withdraw].concat(), &mut pairs);
    assert_eq!((reached, found.map(|found| found.total)), (sheet::Sheet::of(&[31; 32]).into(), Ok(1_024)));
    let (reached, found) = Sheet::replay(&book, &[&enter[..], &[2, 0, 0, 0, 59, 0]].concat(), &mut pairs);
    assert_eq!((reached, found), (holding(59, 0), Ok(Alternatives { total: 32, struck: 31 })));
}
