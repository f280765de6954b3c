//! The library at each edge of document 02's M-105 and M-107: every place photographed with an answer and without, every field alone and
//! all but one, every answer sent again, and every kind of call in a list.

use sighting::{Alternatives, Refusal, Sheet};
use sighting::{NO_ANSWER, NUMBERS, PAIRS_BYTES, PLACES, STORED_BYTES};

use crate::book::Book;
use crate::examples::{e1, E1_PHOTOGRAPHED};
use crate::sheet;

const PHOTOGRAPHED: Refusal = refused(22, 0);

const fn refused(number: u64, place: u64) -> Refusal {
    Refusal { number, place }
}

/// A book without tables of as many fields of two codes.
fn bytes(fields: usize) -> Vec<u8> {
    Book::new(vec![2; fields], Vec::new()).write()
}

/// The first fields answered by 0, and these places photographed.
fn sheet(answered: usize, photographed: &[usize]) -> Sheet {
    sheet::Sheet::of(&vec![0; answered]).with_photographs(photographed).into()
}

#[test]
fn a_list_on_e1() {
    let (book, mut sheet) = (e1().write(), Sheet::fresh());
    for (call, number) in E1_PHOTOGRAPHED {
        let (field, code) = (call[1] as usize, call[2] as usize);
        let result = match call[0] {
            0 => sheet.enter(&book, field, code),
            1 => sheet.withdraw(&book, field),
            _ => sheet.photograph(&book, field),
        };
        assert_eq!(result.map_or_else(|r| (r.number, r.place), |()| (0, 0)), (number, 0), "{call:?}");
    }
    let (mut pairs, mut numbers) = ([7; 5], [7; 4]);
    let found = Ok(Alternatives { total: 2, struck: 8 });
    assert_eq!((sheet.alternatives(&book, &mut pairs), pairs), (found, [1, 0, 1, 1, 7]));
    assert_eq!((sheet.filtered(&book, Some(0), &mut numbers), numbers), (Ok(()), [3, 2, 6, 7]));
    assert_eq!(sheet.store(&book, &mut [7; 3]), Err(PHOTOGRAPHED));
    let calls = E1_PHOTOGRAPHED.map(|(call, _)| call).concat();
    assert_eq!(Sheet::replay(&book, &calls, &mut pairs), (sheet, found));
}

/// A place may be photographed exactly where it is answered.
#[test]
fn a_photograph_at_each_place() {
    for (fields, answered, place) in [1, 32, 33, 59, 60]
        .into_iter()
        .flat_map(|fields| [0, fields / 2, fields].map(|answered| (fields, answered)))
        .flat_map(|(fields, answered)| (0..PLACES).map(move |place| (fields, answered, place)))
    {
        let (book, mut sheet) = (bytes(fields), sheet(answered, &[place]));
        let fault = if place < answered { Ok(()) } else { Err(refused(14, place as u64)) };
        let or_14 = |otherwise: Result<(), Refusal>| fault.and(otherwise);
        assert_eq!(sheet.photograph(&book, place), fault, "{fields} fields, {answered} answered, {place} photographed");
        assert_eq!(sheet.enter(&book, place, 0), fault);
        assert_eq!(sheet.enter(&book, place, 1), or_14(Err(PHOTOGRAPHED)));
        assert_eq!(sheet.enter(&book, place, 2), or_14(Err(refused(16, 0))));
        assert_eq!(sheet.withdraw(&book, place), or_14(Err(PHOTOGRAPHED)));
        assert_eq!(sheet.store(&book, &mut [7; STORED_BYTES]), or_14(Err(PHOTOGRAPHED)));
        assert_eq!(sheet.store(&book, &mut []), or_14(Err(PHOTOGRAPHED)));
        assert_eq!(sheet.filtered(&book, Some(place), &mut [7; NUMBERS]), fault);
        assert_eq!(sheet.alternatives(&book, &mut [7; PAIRS_BYTES]).map(drop), fault);
        assert_eq!(sheet.row(&book, 0, 0, 0).map(drop), or_14(Err(refused(21, 0))));
        assert_eq!(sheet, self::sheet(answered, &[place]));
        sheet.clear();
        assert_eq!(sheet, Sheet::fresh());
    }
}

/// Answers at fault and photographs without answers, in either order: the first place is named, whichever it is.
#[test]
fn the_first_of_two_faults() {
    let book = bytes(40);
    for (answer, photograph) in (0..PLACES).flat_map(|answer| (0..PLACES).map(move |photograph| (answer, photograph))) {
        let mut places = sheet::FRESH.with_photographs(&[photograph]);
        places.answers[answer] = 2;
        let (sheet, first) = (Sheet::from(places), answer.min(photograph) as u64);
        assert_eq!(sheet.store(&book, &mut [7; STORED_BYTES]), Err(refused(14, first)), "{answer} and {photograph}");
    }
}

/// Each field photographed by itself, with all answered: all but it have lines, and each case but its own counts.
#[test]
fn each_field_alone_photographed() {
    for field in 0..PLACES {
        let (book, mut sheet, mut pairs) = (bytes(PLACES), sheet(PLACES, &[]), [7; PAIRS_BYTES]);
        assert_eq!((sheet.photograph(&book, field), sheet), (Ok(()), self::sheet(PLACES, &[field])));
        // one code of each field is struck, but not of the one lifted
        let found = Alternatives { total: 2 * 59, struck: 60 + 59 * 59 };
        assert_eq!(sheet.alternatives(&book, &mut pairs), Ok(found));
        let lines = (0..PLACES as u8).filter(|&f| f as usize != field).flat_map(|f| [[f, 0], [f, 1]]);
        assert_eq!(pairs[..4 * 59], lines.collect::<Vec<_>>().concat());
        assert_eq!(sheet.alternatives(&book, &mut pairs[..4 * 59 - 1]), Err(refused(18, 0)));
    }
}

/// The other way round: one field alone is in doubt, or none is.
#[test]
fn all_fields_but_one_photographed() {
    let (book, all) = (bytes(PLACES), (0..PLACES).collect::<Vec<_>>());
    for field in 0..PLACES {
        let others: Vec<usize> = all.iter().copied().filter(|&other| other != field).collect();
        let (mut sheet, mut pairs, mut numbers) = (sheet(PLACES, &others), [7; 5], [7; NUMBERS]);
        assert_eq!(sheet.alternatives(&book, &mut pairs), Ok(Alternatives { total: 2, struck: 60 + 59 }));
        assert_eq!(pairs, [field as u8, 0, field as u8, 1, 7]);
        assert_eq!((sheet.enter(&book, field, 1), sheet.withdraw(&book, field)), (Ok(()), Ok(())));
        assert_eq!((sheet.photograph(&book, field), sheet.enter(&book, field, 0)), (Err(refused(17, 0)), Ok(())));
        assert_eq!((sheet.photograph(&book, field), sheet), (Ok(()), self::sheet(PLACES, &all)));
        assert_eq!(sheet.alternatives(&book, &mut []), Ok(Alternatives { total: 0, struck: 60 }));
        assert_eq!(sheet.filtered(&book, Some(field), &mut numbers), Ok(()));
        assert!((0..PLACES).all(|f| numbers[f] == if f == field { 0b11 } else { 0b01 }));
    }
}

/// Each field holds a code of its own: with all photographed that one alone is accepted, the first time and the second.
#[test]
fn every_code_of_every_photographed_field() {
    let (book, all) = (Book::new(vec![32; PLACES], Vec::new()).write(), (0..PLACES).collect::<Vec<_>>());
    let held: Vec<u8> = (0..PLACES as u8).map(|field| field % 32).collect();
    let given = Sheet::from(sheet::Sheet::of(&held).with_photographs(&all));
    let mut sheet = given;
    for (field, code) in all.iter().flat_map(|&field| (0..33).map(move |code| (field, code))) {
        let expected = match code {
            32 => Err(refused(16, 0)),
            _ if code == field % 32 => Ok(()),
            _ => Err(PHOTOGRAPHED),
        };
        assert_eq!((sheet.enter(&book, field, code), sheet.enter(&book, field, code)), (expected, expected));
        assert_eq!(sheet, given, "field {field}, code {code}");
    }
}

/// The whole sheet sent again, twice, where no answer is photographed, the first, the last, all but one, or all; in a list too.
#[test]
fn a_sheet_resent() {
    for fields in [1, 31, 32, 33, 59, 60] {
        let (book, last) = (bytes(fields), fields - 1);
        let enters: Vec<u8> = (0..fields as u8).flat_map(|field| [0, field, 0]).collect();
        for photographed in [vec![], vec![0], vec![last], (0..last).collect(), (0..fields).collect()] {
            let (given, mut sheet) = (sheet(fields, &photographed), sheet(fields, &photographed));
            assert!((0..2 * fields).all(|i| sheet.enter(&book, i % fields, 0).is_ok()));
            assert_eq!(sheet, given, "{photographed:?} of {fields}");
            let photographs: Vec<u8> = photographed.iter().flat_map(|&field| [3, field as u8, 0]).collect();
            let others: Vec<u8> = photographed.iter().flat_map(|&field| [0, field as u8, 1]).collect();
            let list = [&enters[..], &photographs, &enters, &others, &enters].concat();
            let (reached, found) = Sheet::replay(&book, &list, &mut [7; PAIRS_BYTES]);
            assert_eq!((reached, found.map(|found| found.total)), (given, Ok(2 * (fields - photographed.len()) as u64)));
        }
    }
}

/// A call of each kind on an answer, photographed or not, and the photograph's third byte.
#[test]
fn each_kind_of_call_in_a_list() {
    let (book, held) = (bytes(2), [[0, 0, 0], [0, 1, 0]].concat());
    let reached = |calls: &[u8]| Sheet::replay(&book, &[&held[..], calls].concat(), &mut [7; PAIRS_BYTES]).0;
    for (kind, code) in (0..=255).flat_map(|kind| [0, 1, 2, 255].map(|code| (kind, code))) {
        let expected = match (kind, code) {
            (0, 1) => sheet::Sheet::of(&[0, 1]).into(),
            (1, _) => sheet(1, &[]),
            (2, _) => Sheet::fresh(),
            (3, _) => sheet(2, &[1]),
            _ => sheet(2, &[]),
        };
        assert_eq!(reached(&[kind, 1, code]), expected, "kind {kind}, code {code}");
        let photographed = if kind == 2 { Sheet::fresh() } else { sheet(2, &[1]) };
        assert_eq!(reached(&[3, 1, 0, kind, 1, code]), photographed, "kind {kind}, code {code} behind a photograph");
    }
}

/// A stored sheet is loaded without photographs, whatever its bytes are.
#[test]
fn a_stored_sheet_has_no_photographs() {
    let book = bytes(PLACES);
    for form in [[0; PLACES], [1; PLACES], [NO_ANSWER; PLACES]] {
        let loaded = Sheet::load(&book, &form).expect("a code of each field, or none");
        assert!((0..PLACES).all(|place| !loaded.is_photographed(place)));
    }
}
