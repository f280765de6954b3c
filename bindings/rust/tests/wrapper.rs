//! What the wrapper adds to the library: its types, and what it does with numbers and buffers.

use sighting::{join, lengthen, read, read_tree, report, shorten, show, write, write_tree};
use sighting::{Alternatives, Call, Counts, Nearest, Refusal, Sheet};
use sighting::{BOOK_BYTES, LISTING_NUMBERS, NO_ANSWER, NUMBERS, PAIRS_BYTES};
use sighting::{PLACES, REPORT_BYTES, SHEET_BYTES, SHORT_BYTES, STORED_BYTES};

/// Example E1: three fields of 2, 3 and 3 codes, and two tables.
const BOOK: [u8; 35] =
    [2, 0, 2, 4, 0, 0, 0, 0, 1, 1, 2, 0, 1, 2, 1, 2, 4, 0, 0, 0, 1, 1, 1, 2, 2, 2, 2, 3, 3, 0x1A, 0, 3, 2, 1, 0xE5];

/// E1's listing.
const LISTING: [u16; 30] = [3, 2, 3, 3, 2, 2, 0, 2, 4, 0, 0, 0, 1, 1, 2, 0, 1, 2, 1, 2, 4, 0, 0, 1, 1, 1, 2, 2, 2, 1];

/// A book of E1's fields: fields 1 and 2 with three rows, then field 0 with two.
const OTHER: [u8; 26] = [2, 1, 2, 3, 0, 2, 2, 1, 1, 2, 1, 1, 0, 2, 0, 1, 0, 2, 3, 3, 17, 0, 3, 2, 2, 0xE5];

const NO_FIELD: Refusal = Refusal { number: 15, place: 0 };
const NO_CODE: Refusal = Refusal { number: 16, place: 0 };
const TOO_FEW: Refusal = Refusal { number: 18, place: 0 };
const NO_BOOK: Refusal = Refusal { number: 20, place: 0 };
const NO_TABLE: Refusal = Refusal { number: 21, place: 0 };
const NO_ANSWER_YET: Refusal = Refusal { number: 17, place: 0 };
const PHOTOGRAPHED: Refusal = Refusal { number: 22, place: 0 };
const TOO_MANY_READINGS: Refusal = Refusal { number: 23, place: 0 };
const NO_STORED_SHEET: Refusal = Refusal { number: 19, place: 0 };
const NO_SHORT_SHEET: Refusal = Refusal { number: 24, place: 0 };
const OTHER_CODES: Refusal = Refusal { number: 25, place: 0 };
const TOO_MUCH: Refusal = Refusal { number: 26, place: 0 };
const NO_LIST: Refusal = Refusal { number: 27, place: 0 };
const WIDE: Refusal = Refusal { number: 28, place: 0 };
const RING: Refusal = Refusal { number: 29, place: 0 };

/// E1's sheet: field 0 answered by 0 and field 1 by 1.
fn answered() -> Sheet {
    Sheet::load(&BOOK, &[0, 1, NO_ANSWER]).expect("E1's sheet")
}

/// The same with field 0 photographed.
fn photographed() -> Sheet {
    let mut sheet = answered();
    sheet.photograph(&BOOK, 0).expect("field 0 has an answer");
    sheet
}

/// A sheet with a fault in its first place.
fn faulty() -> Sheet {
    let mut places = *answered().bytes();
    places[0] = 2;
    Sheet::from(places)
}

#[test]
fn numbers_that_no_byte_holds_are_refused() {
    for above in [256, 258, 1 << 32, (1 << 32) + 1, usize::MAX - 254, usize::MAX] {
        let mut sheet = answered();
        assert_eq!(sheet.enter(&BOOK, above, 0), Err(NO_FIELD), "field {above}");
        assert_eq!(sheet.enter(&BOOK, 0, above), Err(NO_CODE), "code {above}");
        assert_eq!(sheet.withdraw(&BOOK, above), Err(NO_FIELD), "field {above}");
        assert_eq!(sheet.photograph(&BOOK, above), Err(NO_FIELD), "field {above}");
        assert_eq!(sheet.filtered(&BOOK, Some(above), &mut [0; NUMBERS]), Err(NO_FIELD), "field {above}");
        assert_eq!(sheet.row(&BOOK, above, 0, 0), Err(NO_FIELD), "field {above}");
        assert_eq!(sheet.row(&BOOK, 0, above, 0), Err(NO_CODE), "code {above}");
        assert_eq!(sheet.row(&BOOK, 0, 0, above), Err(NO_TABLE), "table {above}");
        assert_eq!(sheet.plan(&BOOK, above, &[2]), Err(NO_FIELD), "target {above}");
        assert_eq!(sheet, answered());
    }
}

#[test]
fn several_readers_share_a_sheet() {
    let (sheet, read) = (answered(), |sheet: &Sheet| {
        let (mut pairs, mut numbers, mut form) = ([0; PAIRS_BYTES], [0; NUMBERS], [0; SHORT_BYTES]);
        assert_eq!(sheet.alternatives(&BOOK, &mut pairs), Ok(Alternatives { total: 4, struck: 11 }));
        assert_eq!(sheet.filtered(&BOOK, Some(0), &mut numbers), Ok(()));
        assert_eq!(sheet.row(&BOOK, 2, 1, 0), Ok(Some(1)));
        assert_eq!(sheet.nearest(&BOOK, &mut form), Ok(Some(Nearest { differing: 0, written: 3 })));
        assert_eq!(sheet.plan(&BOOK, 0, &[2]), Ok(Some(0)));
        assert_eq!(sheet.store(&BOOK, &mut form), Ok(()));
        assert_eq!((numbers[0], &form[..3]), (0b11, &[0, 1, NO_ANSWER][..]));
        assert_eq!((sheet.store_short(&BOOK, &mut form), &form[..8]), (Ok(8), &[0, 0, 0, 1, 1, 0, 2, 3][..]));
    });
    std::thread::scope(|scope| {
        scope.spawn(|| read(&sheet));
        scope.spawn(|| read(&sheet));
    });
    assert_eq!(sheet, answered());
}

/// Two pairs of fields of two codes, each pair equal. Fields 0 and 1 contradict each other: lifting one of them mends that, lifting
/// field 2 does not, though both of its codes stand then.
#[test]
fn a_lifted_answer_that_mends_nothing_has_no_lines() {
    let book = [&[2, 0, 1, 2, 0, 0, 0, 1, 1, 2, 2, 3, 2, 0, 0, 0, 1, 1][..], &[2; 4], &[18, 0, 4, 2, 1, 0xE5]].concat();
    let sheet = Sheet::load(&book, &[0, 1, 0, NO_ANSWER]).expect("accepted");
    let (mut pairs, mut numbers) = ([7; 5], [7; NUMBERS]);
    assert_eq!(sheet.alternatives(&book, &mut pairs[..3]), Err(TOO_FEW));
    assert_eq!(sheet.alternatives(&book, &mut pairs[..4]), Ok(Alternatives { total: 2, struck: 18 }));
    assert_eq!(pairs, [0, 1, 1, 0, 7]);
    assert_eq!(sheet.filtered(&book, Some(2), &mut numbers), Ok(()));
    assert_eq!(numbers[..5], [0, 0, 0b11, 0b11, 7]);
}

/// What the sheet shows of its fields, and of places that it does not have.
#[test]
fn a_sheet_shows_answers_and_photographs() {
    let shown = |sheet: Sheet| [0, 1, 2, PLACES - 1, PLACES, usize::MAX].map(|f| (sheet.answer(f), sheet.is_photographed(f)));
    let none = (None, false);
    assert_eq!(shown(Sheet::fresh()), [none; 6]);
    assert_eq!(shown(answered()), [(Some(0), false), (Some(1), false), none, none, none, none]);
    assert_eq!(shown(photographed()), [(Some(0), true), (Some(1), false), none, none, none, none]);
    assert_eq!(format!("{:?}", photographed()), "{0: (Some(0), true), 1: (Some(1), false)}");
    let mut bytes = [NO_ANSWER; SHEET_BYTES];
    bytes[PLACES..].fill(0);
    assert_eq!(Sheet::fresh().bytes(), &bytes);
    (bytes[0], bytes[1], bytes[PLACES]) = (0, 1, 1);
    assert_eq!(photographed().bytes(), &bytes);
    assert_eq!(Sheet::from(bytes), photographed());
    assert_eq!(Sheet::from([NO_ANSWER; PLACES]), Sheet::fresh());
}

/// In the bytes of a sheet any number but 0 is a photograph: one sheet, however it is told.
#[test]
fn bytes_of_a_photograph() {
    for byte in 1..=255 {
        let mut bytes = *answered().bytes();
        bytes[PLACES] = byte;
        let mut sheet = Sheet::from(bytes);
        assert_eq!(sheet, photographed());
        assert_eq!((sheet.withdraw(&BOOK, 0), sheet.enter(&BOOK, 0, 1)), (Err(PHOTOGRAPHED), Err(PHOTOGRAPHED)));
        assert_eq!(sheet.bytes(), photographed().bytes());
        assert_eq!(sheet.enter(&BOOK, 0, 0), Ok(()));
        assert_eq!(sheet.bytes(), photographed().bytes());
    }
}

/// The code held is accepted with and without a photograph, before and behind refused calls, and the sheet stays equal.
#[test]
fn an_answer_may_be_sent_again() {
    for given in [answered(), photographed()] {
        let mut sheet = given;
        assert_eq!((sheet.enter(&BOOK, 0, 0), sheet.enter(&BOOK, 1, 1), sheet.enter(&BOOK, 0, 0)), (Ok(()), Ok(()), Ok(())));
        assert_eq!(sheet, given);
    }
    let mut sheet = photographed();
    assert_eq!((sheet.enter(&BOOK, 0, 1), sheet.enter(&BOOK, 0, 0)), (Err(PHOTOGRAPHED), Ok(())));
    assert_eq!((sheet.withdraw(&BOOK, 0), sheet.enter(&BOOK, 0, 0)), (Err(PHOTOGRAPHED), Ok(())));
    assert_eq!((sheet.enter(&BOOK, 0, 256), sheet.enter(&BOOK, 2, 255)), (Err(NO_CODE), Err(NO_CODE)));
    assert_eq!(sheet.enter(&BOOK[..34], 0, 0), Err(Refusal { number: 2, place: 33 }));
    assert_eq!(sheet, photographed());
    let mut places = *photographed().bytes();
    places[1] = 3;
    assert_eq!(Sheet::from(places).enter(&BOOK, 0, 0), Err(Refusal { number: 14, place: 1 }));
}

/// E1 with field 0 photographed: field 1 alone has alternatives, and what is struck are those of two cases.
#[test]
fn a_photographed_answer_is_not_in_doubt() {
    let (mut sheet, mut pairs, mut numbers) = (photographed(), [7; 5], [7; NUMBERS]);
    assert_eq!(sheet.alternatives(&BOOK, &mut pairs[..3]), Err(TOO_FEW));
    assert_eq!(sheet.alternatives(&BOOK, &mut pairs), Ok(Alternatives { total: 2, struck: 8 }));
    assert_eq!(pairs, [1, 0, 1, 1, 7]);
    assert_eq!(sheet.filtered(&BOOK, Some(0), &mut numbers), Ok(()));
    assert_eq!(numbers[..4], [3, 2, 6, 7]);
    assert_eq!(sheet.store(&BOOK, &mut [7; STORED_BYTES]), Err(PHOTOGRAPHED));
    assert_eq!(sheet.store(&BOOK, &mut []), Err(PHOTOGRAPHED));
    assert_eq!((sheet.enter(&BOOK, 0, 1), sheet.withdraw(&BOOK, 0)), (Err(PHOTOGRAPHED), Err(PHOTOGRAPHED)));
    assert_eq!((sheet.enter(&BOOK, 0, 0), sheet.enter(&BOOK, 0, 2)), (Ok(()), Err(NO_CODE)));
    assert_eq!((sheet.photograph(&BOOK, 2), sheet.photograph(&BOOK, 3)), (Err(NO_ANSWER_YET), Err(NO_FIELD)));
    assert_eq!((sheet.photograph(&BOOK, 0), sheet), (Ok(()), photographed()));
    assert_eq!((sheet.enter(&BOOK, 1, 2), sheet.withdraw(&BOOK, 1)), (Ok(()), Ok(())));
    assert_eq!((sheet.answer(1), sheet.is_photographed(0)), (None, true));
    sheet.clear();
    assert_eq!((sheet, sheet.enter(&BOOK, 0, 1)), (Sheet::fresh(), Ok(())));
}

/// A photograph needs an answer; the first place at fault is named, by its answer or by its photograph.
#[test]
fn a_photograph_without_an_answer() {
    let fault = |places: &[usize]| {
        let mut bytes = *answered().bytes();
        places.iter().for_each(|&place| bytes[PLACES + place] = 1);
        Sheet::from(bytes).photograph(&BOOK, 0)
    };
    assert_eq!(fault(&[0, 1]), Ok(()));
    assert_eq!(fault(&[1, 2]), Err(Refusal { number: 14, place: 2 }));
    assert_eq!(fault(&[3, 59]), Err(Refusal { number: 14, place: 3 }));
    assert_eq!(fault(&[59]), Err(Refusal { number: 14, place: 59 }));
    assert_eq!(faulty().photograph(&BOOK, 0), Err(Refusal { number: 14, place: 0 }));
    assert_eq!(faulty().photograph(&BOOK[..34], 0), Err(Refusal { number: 2, place: 33 }));
}

/// Row 0 is found and is not none; row 1 comes again behind it; none is no refusal.
#[test]
fn a_row_or_none() {
    let fresh = Sheet::fresh();
    assert_eq!((fresh.row(&BOOK, 0, 0, 0), fresh.row(&BOOK, 2, 1, 0)), (Ok(Some(0)), Ok(Some(1))));
    assert_eq!((answered().row(&BOOK, 0, 0, 0), answered().row(&BOOK, 0, 1, 0)), (Ok(Some(1)), Ok(None)));
    assert_eq!((answered().row(&BOOK, 1, 0, 0), answered().row(&BOOK, 0, 0, 2)), (Err(NO_TABLE), Err(NO_TABLE)));
    assert_eq!(faulty().row(&BOOK, 0, 0, 0), Err(Refusal { number: 14, place: 0 }));
    assert_eq!(faulty().row(&BOOK[..34], 0, 0, 0), Err(Refusal { number: 2, place: 33 }));
}

/// Answers 1 and 0 contradict each other. Field 0 is changed, or field 1 where field 0 is photographed; with both there is no reading.
#[test]
fn a_reading_or_none() {
    let (mut sheet, mut out) = (Sheet::fresh(), [7; 4]);
    assert_eq!((sheet.enter(&BOOK, 0, 1), sheet.enter(&BOOK, 1, 0)), (Ok(()), Ok(())));
    let changed = Ok(Some(Nearest { differing: 1, written: 3 }));
    assert_eq!((sheet.nearest(&BOOK, &mut out[..2]), out), (Err(TOO_FEW), [7; 4]));
    assert_eq!((sheet.nearest(&BOOK, &mut out[..3]), out), (changed, [0, 0, 0, 7]));
    assert_eq!((sheet.photograph(&BOOK, 0), sheet.nearest(&BOOK, &mut out), out), (Ok(()), changed, [1, 1, 2, 7]));
    assert_eq!((sheet.photograph(&BOOK, 1), sheet.nearest(&BOOK, &mut out), out), (Ok(()), Ok(None), [1, 1, 2, 7]));
    assert_eq!(sheet.nearest(&BOOK, &mut out[..2]), Err(TOO_FEW));
    assert_eq!(faulty().nearest(&BOOK, &mut []), Err(Refusal { number: 14, place: 0 }));
    assert_eq!(faulty().nearest(&BOOK[..34], &mut []), Err(Refusal { number: 2, place: 33 }));
}

/// 32 * 32 * 32 * 2 readings are searched; where the last field has three codes there are too many, whatever is lent.
#[test]
fn too_many_readings() {
    let book = |last: u8| [32, 32, 32, last, 0, 0, 4, 0, 1, 0xE5];
    let (sheet, mut out) = (Sheet::load(&book(2), &[31, 30, NO_ANSWER, 1]).expect("accepted"), [7; 5]);
    assert_eq!(sheet.nearest(&book(2), &mut out), Ok(Some(Nearest { differing: 0, written: 4 })));
    assert_eq!(out, [31, 30, 0, 1, 7]);
    assert_eq!(sheet.nearest(&book(3), &mut out), Err(TOO_MANY_READINGS));
    assert_eq!((sheet.nearest(&book(3), &mut []), out), (Err(TOO_MANY_READINGS), [31, 30, 0, 1, 7]));
}

/// Zero questions are a number and not none; none is no refusal.
#[test]
fn a_number_of_questions_or_none() {
    let fresh = Sheet::fresh();
    assert_eq!((fresh.plan(&BOOK, 0, &[2]), fresh.plan(&BOOK, 0, &[1])), (Ok(Some(1)), Ok(None)));
    assert_eq!((fresh.plan(&BOOK, 2, &[0, 1]), fresh.plan(&BOOK, 2, &[1, 0])), (Ok(Some(2)), Ok(Some(2))));
    assert_eq!((fresh.plan(&BOOK, 0, &[]), answered().plan(&BOOK, 0, &[])), (Ok(None), Ok(Some(0))));
    assert_eq!((answered().plan(&BOOK, 2, &[]), photographed().plan(&BOOK, 1, &[2])), (Ok(Some(0)), Ok(Some(0))));
}

/// Each pair of three fields of two codes differs, so that each code stands and leaves a field empty: no answer can be given.
#[test]
fn a_question_without_an_answer_settles() {
    let pair = |f, g| [2, f, g, 2, 0, 0, 1, 1, 0];
    let book = [&pair(0, 1)[..], &pair(0, 2), &pair(1, 2), &[2, 2, 2, 27, 0, 3, 3, 1, 0xE5]].concat();
    let plan = |questions: &[u8]| Sheet::fresh().plan(&book, 1, questions);
    assert_eq!((plan(&[0]), plan(&[2]), plan(&[2, 0]), plan(&[])), (Ok(Some(1)), Ok(Some(1)), Ok(Some(1)), Ok(None)));
}

/// The refusals of a list, and each before the next one in the call's order.
#[test]
fn lists_that_may_not_be_asked() {
    let fresh = Sheet::fresh();
    for questions in [&[1, 2, 1][..], &[2, 2], &[3], &[2, 255], &[0], &[2, 0], &[1, 2, 1, 2, 1, 2, 1], &[7; 300]] {
        assert_eq!(fresh.plan(&BOOK, 0, questions), Err(NO_LIST), "{questions:?}");
        assert_eq!(fresh.plan(&BOOK, 3, questions), Err(NO_FIELD), "{questions:?}");
        assert_eq!(faulty().plan(&BOOK, 3, questions), Err(Refusal { number: 14, place: 0 }), "{questions:?}");
        assert_eq!(faulty().plan(&BOOK[..34], 3, questions), Err(Refusal { number: 2, place: 33 }), "{questions:?}");
    }
    assert_eq!((answered().plan(&BOOK, 2, &[1]), answered().plan(&BOOK, 0, &[1])), (Err(NO_LIST), Err(NO_LIST)));
}

/// Six questions of seven fields of two codes, of which the last three tell the target's eight. The order plays no part.
#[test]
fn the_longest_list_of_questions() {
    let rows: Vec<u8> = (0..8).flat_map(|row| [row / 4, row / 2 % 2, row % 2, row]).collect();
    let book = [&[4, 4, 5, 6, 7, 8, 0][..], &rows, &[2, 2, 2, 2, 2, 2, 2, 8, 39, 0, 8, 1, 1, 0xE5]].concat();
    let plan = |questions: &[u8]| Sheet::fresh().plan(&book, 7, questions);
    assert_eq!((plan(&[1, 2, 3, 4, 5, 6]), plan(&[6, 3, 4, 2, 5, 1])), (Ok(Some(3)), Ok(Some(3))));
    assert_eq!((plan(&[1, 2, 3, 4, 5]), plan(&[0, 1, 2, 3, 4, 5, 6])), (Ok(None), Err(NO_LIST)));
}

#[test]
fn relaxing_255_is_not_relaxing_none() {
    let (sheet, mut numbers) = (answered(), [7; NUMBERS]);
    assert_eq!(sheet.filtered(&BOOK, Some(255), &mut numbers), Err(NO_FIELD));
    assert_eq!(numbers, [7; NUMBERS]);
    assert_eq!(sheet.filtered(&BOOK, None, &mut numbers), Ok(()));
    assert_eq!(numbers[..4], [0b001, 0b010, 0b010, 7]);
}

#[test]
fn relaxing_255_is_refused_behind_book_and_sheet() {
    let filtered = |sheet: Sheet, book: &[u8]| sheet.filtered(book, Some(255), &mut [0; NUMBERS]);
    assert_eq!(filtered(faulty(), &BOOK[..34]), Err(Refusal { number: 2, place: 33 }));
    assert_eq!(filtered(faulty(), &BOOK), Err(Refusal { number: 14, place: 0 }));
}

#[test]
fn a_report_that_does_not_fit_is_an_ordinary_refusal() {
    let text = b"book 3 2 8 7\nsheet 2 4 11\nalt 0 0\nalt 0 1\nalt 1 0\nalt 1 1\nopen 2 1\n";
    let mut out = [7; REPORT_BYTES];
    assert_eq!(report(&BOOK, &[0, 1, NO_ANSWER], &mut out[..text.len() - 1]), Err(TOO_FEW));
    assert_eq!(out, [7; REPORT_BYTES]);
    assert_eq!(report(&BOOK, &[0, 1, NO_ANSWER], &mut out), Ok(text.len() as u64));
    assert_eq!(out[..text.len()], text[..]);
    assert_eq!(out[text.len()..], [7; REPORT_BYTES][text.len()..]);
}

#[test]
fn a_refused_replay_hands_back_the_sheet_that_its_list_reached() {
    let list = [Call::Enter { field: 0, code: 0 }, Call::Enter { field: 1, code: 1 }, Call::Withdraw { field: 2 }];
    let list = list.map(Call::bytes).concat();
    let mut pairs = [7; PAIRS_BYTES];
    assert_eq!(Sheet::replay(&BOOK, &list, &mut pairs[..7]), (answered(), Err(TOO_FEW)));
    assert_eq!(Sheet::replay(&BOOK, &list, &mut pairs), (answered(), Ok(Alternatives { total: 4, struck: 11 })));
    let refused = Err(Refusal { number: 2, place: 33 });
    assert_eq!(Sheet::replay(&BOOK[..34], &list, &mut pairs), (Sheet::fresh(), refused));
}

#[test]
fn a_replay_takes_photographs() {
    let enter = |field, code| Call::Enter { field, code };
    let list = [enter(0, 0), enter(1, 1), Call::Photograph { field: 2 }, Call::Photograph { field: 0 }, enter(0, 1)];
    let list = [&list[..], &[Call::Withdraw { field: 0 }, Call::Photograph { field: 0 }]].concat();
    let found = Ok(Alternatives { total: 2, struck: 8 });
    let replay = |list: &[Call]| {
        let bytes: Vec<u8> = list.iter().flat_map(|call| call.bytes()).collect();
        Sheet::replay(&BOOK, &bytes, &mut [0; PAIRS_BYTES])
    };
    assert_eq!(replay(&list), (photographed(), found));
    let resent = [&list[..], &[enter(0, 0), enter(1, 1), enter(0, 0), enter(0, 1), enter(0, 0)]].concat();
    assert_eq!(replay(&resent), (photographed(), found));
    let cleared = [&list[..], &[Call::Clear, enter(0, 0), enter(1, 1)]].concat();
    assert_eq!(replay(&cleared), (answered(), Ok(Alternatives { total: 4, struck: 11 })));
}

/// The bytes that a call writes to a buffer that is long enough.
fn all_written(call: impl Fn(&mut [u8]) -> Result<u64, Refusal>) -> Result<Vec<u8>, Refusal> {
    let mut out = vec![7; BOOK_BYTES];
    let bytes = call(&mut out)?;
    out.truncate(bytes as usize);
    Ok(out)
}

fn stored_short(sheet: &Sheet) -> Result<Vec<u8>, Refusal> {
    all_written(|out| sheet.store_short(&BOOK, out))
}

fn shortened(form: &[u8]) -> Result<Vec<u8>, Refusal> {
    all_written(|out| shorten(&BOOK, form, out))
}

fn lengthened(form: &[u8]) -> Result<Vec<u8>, Refusal> {
    all_written(|out| lengthen(&BOOK, form, out))
}

/// E1's sheet with and without a photograph, and one without answers.
#[test]
fn the_short_form_of_a_sheet() {
    let (short, backed) = (vec![0, 0, 0, 1, 1, 0, 2, 3], vec![0, 0, 1, 1, 1, 0, 2, 3]);
    assert_eq!((stored_short(&answered()), stored_short(&photographed())), (Ok(short.clone()), Ok(backed.clone())));
    assert_eq!(Sheet::load_short(&BOOK, &short), Ok(answered()));
    assert_eq!(Sheet::load_short(&BOOK, &backed), Ok(photographed()));
    assert_eq!((shortened(&[0, 1, NO_ANSWER]), lengthened(&short)), (Ok(short.clone()), Ok(vec![0, 1, NO_ANSWER])));
    assert_eq!(lengthened(&backed), Err(PHOTOGRAPHED));
    assert_eq!((stored_short(&Sheet::fresh()), Sheet::load_short(&BOOK, &[0, 3])), (Ok(vec![0, 3]), Ok(Sheet::fresh())));
    assert_eq!((shortened(&[NO_ANSWER; 3]), lengthened(&[0, 3])), (Ok(vec![0, 3]), Ok(vec![NO_ANSWER; 3])));
}

/// All that a field of so many codes can hold: no answer, or a code without and with a photograph.
fn held(codes: u8) -> Vec<(u8, u8)> {
    let answered = (0..codes).flat_map(|code| [(code, 0), (code, 1)]);
    [(NO_ANSWER, 0)].into_iter().chain(answered).collect()
}

/// The sheet of E1's book with these three fields is loaded from what it is stored as. Without photographs the two forms are moved to each
/// other.
fn goes_through_both_forms(fields: [(u8, u8); 3]) {
    let mut bytes = *Sheet::fresh().bytes();
    (0..3).for_each(|f| (bytes[f], bytes[PLACES + f]) = fields[f]);
    let answered = (0..3).zip(fields).filter(|(_, (code, _))| *code != NO_ANSWER);
    let answers: Vec<_> = answered.map(|(f, (code, photograph))| [f, code, photograph]).collect();
    let short = [answers.as_flattened(), &[answers.len() as u8, 3]].concat();
    assert_eq!(stored_short(&Sheet::from(bytes)), Ok(short.clone()));
    assert_eq!(Sheet::load_short(&BOOK, &short), Ok(Sheet::from(bytes)));
    if bytes[PLACES..] == [0; PLACES] {
        assert_eq!((lengthened(&short), shortened(&bytes[..3])), (Ok(bytes[..3].to_vec()), Ok(short)));
    } else {
        assert_eq!(lengthened(&short), Err(PHOTOGRAPHED));
    }
}

#[test]
fn every_sheet_keeps_its_answers_and_photographs() {
    for first in held(2) {
        for second in held(3) {
            held(3).into_iter().for_each(|third| goes_through_both_forms([first, second, third]));
        }
    }
}

/// Length, trailer, field, order and photograph; also where a code is at fault before it.
#[test]
fn bytes_that_are_no_short_sheet() {
    let many = |entries: usize, told: u8| [[0, 0, 0].repeat(entries), vec![told, 3]].concat();
    for form in [
        vec![],
        vec![3],
        vec![0, 0, 3],
        vec![0, 0, 0, 3],
        vec![0, 0, 0, 1, 3, 3],
        vec![1, 3],
        vec![0, 2],
        vec![0, 4],
        vec![3, 0],
        vec![0, 0, 0, 0, 3],
        vec![0, 0, 0, 2, 3],
        vec![0, 0, 0, 1, 2],
        vec![3, 0, 0, 1, 3],
        vec![255, 0, 0, 1, 3],
        vec![0, 0, 2, 1, 3],
        vec![0, 0, 255, 1, 3],
        vec![1, 0, 0, 0, 0, 0, 2, 3],
        vec![1, 0, 0, 1, 0, 0, 2, 3],
        vec![0, 2, 0, 0, 0, 0, 2, 3],
        vec![0, 255, 2, 1, 3],
        vec![0, 2, 0, 1, 4],
        many(256, 0),
        many(257, 1),
    ] {
        assert_eq!(Sheet::load_short(&BOOK, &form), Err(NO_SHORT_SHEET), "{form:?}");
        assert_eq!((lengthened(&form), lengthen(&BOOK, &form, &mut [])), (Err(NO_SHORT_SHEET), Err(NO_SHORT_SHEET)), "{form:?}");
        assert_eq!(Sheet::load_short(&BOOK[..34], &form), Err(Refusal { number: 2, place: 33 }));
        assert_eq!(lengthen(&BOOK[..34], &form, &mut []), Err(Refusal { number: 2, place: 33 }));
    }
}

/// The place is the field's number, wherever its bytes stand; 255 is no answer there, and at fault.
#[test]
fn codes_at_fault_in_a_short_sheet() {
    for (form, place) in [
        (&[0, 2, 0, 1, 3][..], 0),
        (&[2, 3, 0, 1, 3], 2),
        (&[2, 255, 0, 1, 3], 2),
        (&[0, 1, 0, 1, 255, 1, 2, 3, 0, 3, 3], 1),
        (&[0, 0, 1, 1, 2, 1, 2, 3, 1, 3, 3], 2),
    ] {
        let fault = Refusal { number: 14, place };
        assert_eq!(Sheet::load_short(&BOOK, form), Err(fault), "{form:?}");
        assert_eq!((lengthened(form), lengthen(&BOOK, form, &mut [])), (Err(fault), Err(fault)), "{form:?}");
    }
}

/// Each refusal comes before the next one in its call's order, and leaves what is lent.
#[test]
fn refusals_of_the_two_forms_in_their_order() {
    let (no_book, fault) = (Err(Refusal { number: 2, place: 33 }), Err(Refusal { number: 14, place: 0 }));
    let mut out = [7; 9];
    assert_eq!(faulty().store_short(&BOOK[..34], &mut []), no_book);
    assert_eq!(faulty().store_short(&BOOK, &mut []), fault);
    assert_eq!((photographed().store_short(&BOOK, &mut out[..7]), out), (Err(TOO_FEW), [7; 9]));
    assert_eq!((photographed().store_short(&BOOK, &mut out), out), (Ok(8), [0, 0, 1, 1, 1, 0, 2, 3, 7]));
    let mut out = [7; 9];
    assert_eq!(shorten(&BOOK[..34], &[2, 1], &mut []), no_book);
    assert_eq!(
        (shorten(&BOOK, &[2, 1], &mut []), shorten(&BOOK, &[2; 4], &mut [])),
        (Err(NO_STORED_SHEET), Err(NO_STORED_SHEET))
    );
    assert_eq!(shorten(&BOOK, &[2, 1, NO_ANSWER], &mut []), fault);
    assert_eq!((shorten(&BOOK, &[0, 1, NO_ANSWER], &mut out[..7]), out), (Err(TOO_FEW), [7; 9]));
    assert_eq!((shorten(&BOOK, &[0, 1, NO_ANSWER], &mut out[..8]), out), (Ok(8), [0, 0, 0, 1, 1, 0, 2, 3, 7]));
    let mut out = [7; 4];
    assert_eq!((lengthen(&BOOK, &[1, 1, 1, 1, 3], &mut out[..2]), out), (Err(PHOTOGRAPHED), [7; 4]));
    assert_eq!((lengthen(&BOOK, &[1, 1, 0, 1, 3], &mut out[..2]), out), (Err(TOO_FEW), [7; 4]));
    assert_eq!((lengthen(&BOOK, &[1, 1, 0, 1, 3], &mut out[..3]), out), (Ok(3), [NO_ANSWER, 1, NO_ANSWER, 7]));
}

/// The bytes that the wrapper writes for a listing.
fn written(listing: &[u16]) -> Result<Vec<u8>, Refusal> {
    all_written(|out| write(listing, out))
}

/// The listing that the wrapper shows for a book.
fn shown(book: &[u8]) -> Result<Vec<u16>, Refusal> {
    let mut out = vec![0; LISTING_NUMBERS];
    let numbers = show(book, &mut out)?;
    out.truncate(numbers as usize);
    Ok(out)
}

#[test]
fn every_example_is_shown_and_written() {
    let e4_table = |f, g| [2, f, g, 2, 0, 1, 1, 0];
    let e4 = [&[3, 2, 2, 2, 3][..], &e4_table(0, 1), &e4_table(0, 2), &e4_table(1, 2), &[1]].concat();
    let e4_bytes = |f, g| [2, f, g, 2, 0, 0, 1, 1, 0];
    let e4_book = [&e4_bytes(0, 1)[..], &e4_bytes(0, 2), &e4_bytes(1, 2), &[2, 2, 2, 27, 0, 3, 3, 1, 0xE5]].concat();
    let e6_book = vec![1, 1, 0, 0, 2, 2, 4, 0, 2, 1, 1, 0xE5];
    let e7_book = vec![1, 0, 0, 1, 0, 1, 0xE5];
    let (e6, e7) = (vec![2, 2, 2, 1, 1, 1, 0, 1], vec![1, 1, 0, 1]);
    for (mut listing, mut book) in [(LISTING.to_vec(), BOOK.to_vec()), (e4, e4_book), (e6, e6_book), (e7, e7_book.clone())] {
        assert_eq!(shown(&book), Ok(listing.clone()));
        assert_eq!(written(&listing), Ok(book.clone()));
        // the same as a book of version 2
        let (last, version) = (listing.len() - 1, book.len() - 2);
        (listing[last], book[version]) = (2, 2);
        assert_eq!(shown(&book), Ok(listing.clone()));
        assert_eq!(written(&listing), Ok(book));
    }
    assert_eq!(shown(&e7_book[..6]), Err(Refusal { number: 2, place: 5 }));
}

#[test]
fn listings_of_no_book_are_refused() {
    let mut out = [7; BOOK_BYTES];
    let changed = |place: usize, number: u16| {
        let mut listing = LISTING;
        listing[place] = number;
        listing.to_vec()
    };
    for listing in [
        Vec::new(),
        LISTING[..28].to_vec(),
        LISTING[..29].to_vec(),
        [&LISTING[..], &[0]].concat(),
        [&LISTING[..], &[1]].concat(),
        changed(29, 0),
        changed(29, 3),
        changed(29, 257),
        changed(1, 33),
        changed(1, 258),
        changed(7, 0),
        changed(8, 5),
        changed(9, 2),
        vec![0; 200_000],
        vec![65_535; 200_000],
    ] {
        assert_eq!(write(&listing, &mut out), Err(NO_BOOK), "{} numbers", listing.len());
        assert_eq!(write(&listing, &mut []), Err(NO_BOOK), "{} numbers", listing.len());
    }
    assert_eq!(out, [7; BOOK_BYTES]);
}

#[test]
fn a_listing_or_a_book_that_does_not_fit_is_an_ordinary_refusal() {
    let (mut numbers, mut bytes) = ([7; 31], [7; 36]);
    assert_eq!(show(&BOOK, &mut numbers[..29]), Err(TOO_FEW));
    assert_eq!(write(&LISTING, &mut bytes[..34]), Err(TOO_FEW));
    assert_eq!((numbers, bytes), ([7; 31], [7; 36]));
    assert_eq!(show(&BOOK, &mut numbers), Ok(30));
    assert_eq!(write(&LISTING, &mut bytes), Ok(35));
    assert_eq!((&numbers[..30], numbers[30]), (&LISTING[..], 7));
    assert_eq!((&bytes[..35], bytes[35]), (&BOOK[..], 7));
}

/// The bytes of the book that two are joined to.
fn joined(first: &[u8], second: &[u8]) -> Result<Vec<u8>, Refusal> {
    all_written(|out| join(first, second, out))
}

/// E1 with another block in either order, E1 with itself, and the joined book with all of them.
#[test]
fn two_books_are_one() {
    let listing = [3, 2, 3, 3, 3, 1, 0, 2, 0, 1, 2, 0, 2, 3, 0, 0, 0, 1, 1, 2, 2, 1, 2, 2, 1, 1, 2, 2, 2];
    let alone = [3, 2, 3, 3, 2, 2, 0, 2, 3, 0, 0, 0, 1, 1, 2, 2, 1, 2, 4, 0, 0, 1, 1, 1, 2, 2, 2, 2];
    let book = joined(&BOOK, &OTHER).expect("accepted");
    assert_eq!((shown(&book), joined(&OTHER, &BOOK)), (Ok(listing.to_vec()), Ok(book.clone())));
    assert_eq!(joined(&BOOK, &BOOK).and_then(|book| shown(&book)), Ok(alone.to_vec()));
    for other in [&BOOK[..], &OTHER, &book] {
        assert_eq!((joined(&book, other), joined(other, &book)), (Ok(book.clone()), Ok(book.clone())));
    }
    let (no_table, of_version_2) = ([32, 0, 0, 1, 0, 1, 0xE5], vec![32, 0, 0, 1, 0, 2, 0xE5]);
    assert_eq!(joined(&no_table, &no_table), Ok(of_version_2));
}

/// A row of one book alone is in neither; the table stays, with no rows, whichever book it stands in.
#[test]
fn no_row_in_common() {
    let row = |code| [1, 0, 1, 0, code, 2, 5, 0, 1, 1, 1, 0xE5];
    let both = [1, 0, 1, 0, 1, 1, 0, 1, 0, 0, 2, 10, 0, 1, 2, 1, 0xE5];
    let none = vec![1, 0, 0, 0, 2, 4, 0, 1, 1, 2, 0xE5];
    for (first, second) in [(&row(0)[..], &row(1)[..]), (&both, &both), (&row(1), &both), (&none, &row(1)), (&none, &none)] {
        assert_eq!((joined(first, second), joined(second, first)), (Ok(none.clone()), Ok(none.clone())));
    }
}

/// Whether a reading is full: photographed as a whole it is its own nearest one, or there is none.
fn is_full(book: &[u8], codes: [u8; 3]) -> bool {
    let mut sheet = Sheet::load(book, &codes).expect("three codes");
    (0..3).for_each(|f| assert_eq!(sheet.photograph(book, f), Ok(())));
    sheet.nearest(book, &mut [0; STORED_BYTES]).expect("few readings").is_some()
}

/// The numbers of the codes that stand with all answers kept.
fn standing(book: &[u8], form: [u8; 3]) -> [u32; 3] {
    let mut numbers = [0; 3];
    assert_eq!(Sheet::load(book, &form).expect("accepted").filtered(book, None, &mut numbers), Ok(()));
    numbers
}

/// Every reading and every sheet of three fields: a reading fits the joined book exactly when it fits both, and what stands by it stands
/// by both.
#[test]
fn readings_and_codes_of_a_joined_book() {
    let book = joined(&BOOK, &OTHER).expect("accepted");
    let codes = |count: u8| (0..count).chain([NO_ANSWER]);
    for form in codes(2).flat_map(|c| codes(3).flat_map(move |d| codes(3).map(move |e| [c, d, e]))) {
        let (of_both, first, second) = (standing(&book, form), standing(&BOOK, form), standing(&OTHER, form));
        assert!((0..3).all(|f| of_both[f] & first[f] & second[f] == of_both[f]), "{form:?}");
        if !form.contains(&NO_ANSWER) {
            assert_eq!(is_full(&book, form), is_full(&BOOK, form) && is_full(&OTHER, form), "{form:?}");
        }
    }
}

/// The first book's refusal, then the second's, then 25, and 18 last; each leaves what is lent.
#[test]
fn refusals_of_joining_in_their_order() {
    let (mut code_more, mut no_code, mut out) = (OTHER, OTHER, [7; 36]);
    (code_more[19], no_code[5]) = (4, 3);
    let fewer = [2, 3, 0, 0, 2, 0, 1, 0xE5];
    let (of_first, of_second) = (Err(Refusal { number: 2, place: 33 }), Err(Refusal { number: 11, place: 5 }));
    assert_eq!((join(&BOOK[..34], &OTHER, &mut out), join(&BOOK, &no_code, &mut out)), (of_first, of_second));
    assert_eq!((join(&BOOK[..34], &no_code, &mut []), join(&no_code, &BOOK[..34], &mut [])), (of_first, of_second));
    assert_eq!(join(&fewer, &no_code, &mut []), of_second);
    for other in [&code_more[..], &fewer] {
        assert_eq!((join(&BOOK, other, &mut out), join(other, &BOOK, &mut [])), (Err(OTHER_CODES), Err(OTHER_CODES)));
    }
    assert_eq!((join(&BOOK, &OTHER, &mut out[..34]), join(&BOOK, &OTHER, &mut [])), (Err(TOO_FEW), Err(TOO_FEW)));
    assert_eq!(out, [7; 36]);
    assert_eq!((join(&BOOK, &OTHER, &mut out[..35]), out[34], out[35]), (Ok(35), 0xE5, 7));
}

/// A book of version 2 with all fields and codes, and a table on each of these sets of four fields, with so many rising rows.
fn on_sets(sets: std::ops::Range<u16>, rows: u16) -> Vec<u8> {
    let codes: Vec<_> = (0..rows).flat_map(|row| [0, row / 1024, row / 32 % 32, row % 32]).collect();
    let table = |set| [&[4, 0, 1 + set / 32, 20 + set % 32, 59, rows][..], &codes].concat();
    let tables: Vec<_> = sets.clone().map(table).collect();
    written(&[&[60][..], &[32; 60], &[sets.len() as u16], &tables.concat(), &[2]].concat()).expect("a book")
}

/// 64 sets and 65; 4,096 rows and 4,097, each row counted once. Whatever is lent, 26 comes before 18.
#[test]
fn a_joined_book_keeps_the_limits() {
    for (first, second, tables, rows) in [
        (on_sets(32..64, 2), on_sets(0..32, 2), 64, 128),
        (on_sets(1..64, 0), on_sets(0..1, 0), 64, 0),
        (on_sets(0..1, 4_095), on_sets(1..2, 1), 2, 4_096),
        (on_sets(0..1, 4_096), on_sets(0..2, 2_048), 2, 4_096),
    ] {
        let book = joined(&first, &second).expect("within the limits");
        assert_eq!(read(&book).map(|counts| (counts.tables, counts.rows)), Ok((tables, rows)));
        assert_eq!(joined(&second, &first), Ok(book));
    }
    for (first, second) in [
        (on_sets(32..65, 2), on_sets(0..32, 2)),
        (on_sets(1..65, 0), on_sets(0..1, 0)),
        (on_sets(0..1, 4_096), on_sets(1..2, 1)),
        (on_sets(0..1, 2_049), on_sets(1..2, 2_048)),
    ] {
        assert_eq!((joined(&first, &second), joined(&second, &first)), (Err(TOO_MUCH), Err(TOO_MUCH)));
        assert_eq!(join(&first, &second, &mut []), Err(TOO_MUCH));
    }
}

/// The bytes of the tree book that the wrapper writes for a listing.
fn tree_written(listing: &[u16]) -> Result<Vec<u8>, Refusal> {
    all_written(|out| write_tree(listing, out))
}

/// E1 and a book without tables, of either version, are read and written as any book.
#[test]
fn tree_books_are_books() {
    for (listing, counts) in
        [(&LISTING[..], [3, 2, 8, 7]), (&[1, 1, 0, 1], [1, 0, 0, 0]), (&[1, 1, 2, 1, 0, 0, 1, 0, 0, 2], [1, 2, 0, 0])]
    {
        let [fields, tables, rows, different_rows] = counts;
        for version in [1, 2] {
            let listing = [&listing[..listing.len() - 1], &[version]].concat();
            let book = tree_written(&listing).expect("a tree book");
            assert_eq!((written(&listing), shown(&book)), (Ok(book.clone()), Ok(listing)));
            assert_eq!(read_tree(&book), Ok(Counts { fields, tables, rows, different_rows }));
        }
    }
    assert_eq!(tree_written(&LISTING), Ok(BOOK.to_vec()));
}

/// The listing of a book of so many fields of two codes with tables without rows on these fields.
fn without_rows(fields: u16, tables: &[&[u16]]) -> Vec<u16> {
    let table = |fields: &&[u16]| [&[fields.len() as u16][..], fields, &[0]].concat();
    let tables_of: Vec<u16> = tables.iter().flat_map(table).collect();
    [&[fields][..], &vec![2; fields as usize], &[tables.len() as u16], &tables_of, &[2]].concat()
}

/// A ring of two tables, of three, and one behind other tables; a table of three fields, of four, before a ring and behind one. Reading
/// tells the table's first byte, and writing none.
#[test]
fn books_that_are_no_tree_books() {
    for (tables, number, place) in [
        (&[&[0, 1][..], &[0, 1]][..], 29, 5),
        (&[&[0, 1], &[2], &[0, 1], &[0, 1]], 29, 9),
        (&[&[0, 1], &[0, 2], &[1, 2]], 29, 10),
        (&[&[0, 3], &[1, 2], &[0, 1], &[2, 3], &[0, 1, 2]], 28, 20),
        (&[&[0, 3], &[1, 2], &[0, 1], &[2, 3], &[0]], 29, 15),
        (&[&[0, 1, 2]], 28, 0),
        (&[&[3], &[0, 1, 2, 3], &[0, 1], &[0, 1, 2]], 28, 4),
        (&[&[0, 1], &[0, 1], &[0, 1, 2]], 28, 10),
    ] {
        let listing = without_rows(4, tables);
        let book = written(&listing).expect("a book");
        assert_eq!(read_tree(&book), Err(Refusal { number, place }), "{tables:?}");
        let refused = if number == 28 { WIDE } else { RING };
        assert_eq!((tree_written(&listing), write_tree(&listing, &mut [])), (Err(refused), Err(refused)), "{tables:?}");
    }
}

/// 1 to 13 come first in reading, and 20 in writing; 18 comes last. A refusal leaves what is lent.
#[test]
fn refusals_of_tree_books_in_their_order() {
    let mut ring = without_rows(2, &[&[0, 1], &[0, 1], &[1]]);
    let mut book = written(&ring).expect("a book");
    let (last, mut out) = (book.len() - 1, [7; 36]);
    book[last] = 0;
    assert_eq!(read_tree(&book), Err(Refusal { number: 2, place: last as u64 }));
    book[last] = 0xE5;
    book[11] = 2;
    assert_eq!(read_tree(&book), Err(Refusal { number: 10, place: 11 }));
    book[11] = 1;
    assert_eq!(read_tree(&book), Err(Refusal { number: 29, place: 5 }));
    assert_eq!((write_tree(&ring[1..], &mut []), write_tree(&ring, &mut [])), (Err(NO_BOOK), Err(RING)));
    assert_eq!((write_tree(&ring, &mut out), write_tree(&LISTING, &mut out[..34]), out), (Err(RING), Err(TOO_FEW), [7; 36]));
    assert_eq!((write_tree(&LISTING, &mut out), &out[..35], out[35]), (Ok(35), &BOOK[..], 7));
    ring.push(2);
    assert_eq!(write_tree(&ring, &mut []), Err(NO_BOOK));
}

/// A path through 60 fields and five tables of one field are a tree book; a link on the ends of the path, as the last table, is a ring.
#[test]
fn the_longest_path_and_ring() {
    let path: Vec<[u16; 2]> = (0..59).map(|field| [field, field + 1]).collect();
    let with = |last: &'static [u16]| {
        let mut tables: Vec<&[u16]> = path.iter().map(|link| &link[..]).collect();
        tables.extend([&[7][..], &[0], &[59], &[7], last]);
        without_rows(60, &tables)
    };
    let book = tree_written(&with(&[30])).expect("a tree book");
    assert_eq!(read_tree(&book), Ok(Counts { fields: 60, tables: 64, rows: 0, different_rows: 0 }));
    let ring = with(&[0, 59]);
    assert_eq!(read_tree(&written(&ring).expect("a book")), Err(Refusal { number: 29, place: 59 * 5 + 4 * 4 }));
    assert_eq!(tree_written(&ring), Err(RING));
}

/// The most alternatives: 60 fields of 32 codes, no table, all fields answered.
#[test]
fn the_lengths_named_suffice() {
    let book = [&[32; 60][..], &[0, 0, 60, 0, 2, 0xE5]].concat();
    let sheet = Sheet::from([31; PLACES]);
    assert_eq!(sheet.alternatives(&book, &mut [0; PAIRS_BYTES]).map(|found| found.total), Ok(1920));
    assert_eq!(sheet.alternatives(&book, &mut [0; PAIRS_BYTES - 1]), Err(TOO_FEW));
    assert_eq!(sheet.filtered(&book, None, &mut [0; NUMBERS]), Ok(()));
    assert_eq!(sheet.filtered(&book, None, &mut [0; NUMBERS - 1]), Err(TOO_FEW));
    assert_eq!(sheet.store(&book, &mut [0; STORED_BYTES]), Ok(()));
    assert_eq!(sheet.store(&book, &mut [0; STORED_BYTES - 1]), Err(TOO_FEW));
    assert_eq!(sheet.store_short(&book, &mut [0; SHORT_BYTES]), Ok(182));
    assert_eq!(sheet.store_short(&book, &mut [0; SHORT_BYTES - 1]), Err(TOO_FEW));
    assert_eq!(sheet.nearest(&book, &mut [0; STORED_BYTES]), Err(TOO_MANY_READINGS));
    assert!(report(&book, &[NO_ANSWER; 60], &mut [0; REPORT_BYTES]).is_ok());
    assert_eq!(read(&book).map(|counts| counts.fields), Ok(60));
}

/// The longest stored sheets: 60 fields, all answered.
#[test]
fn the_longest_forms_suffice() {
    let book = [&[32; 60][..], &[0, 0, 60, 0, 2, 0xE5]].concat();
    let (mut short, mut form) = ([7; SHORT_BYTES], [7; STORED_BYTES]);
    assert_eq!(shorten(&book, &[31; 60], &mut short[..SHORT_BYTES - 1]), Err(TOO_FEW));
    assert_eq!(shorten(&book, &[31; 60], &mut short), Ok(182));
    assert_eq!((&short[..3], &short[177..]), (&[0, 31, 0][..], &[59, 31, 0, 60, 60][..]));
    assert_eq!(Sheet::load_short(&book, &short), Ok(Sheet::from([31; PLACES])));
    assert_eq!(lengthen(&book, &short, &mut form[..STORED_BYTES - 1]), Err(TOO_FEW));
    assert_eq!((lengthen(&book, &short, &mut form), form), (Ok(60), [31; STORED_BYTES]));
    short[178] = NO_ANSWER;
    assert_eq!(Sheet::load_short(&book, &short), Err(Refusal { number: 14, place: 59 }));
}

/// The longest reading: 60 fields of one code.
#[test]
fn the_longest_reading_suffices() {
    let book = [&[1; 60][..], &[0, 0, 60, 0, 2, 0xE5]].concat();
    let mut out = [7; STORED_BYTES];
    assert_eq!(Sheet::fresh().nearest(&book, &mut out[..STORED_BYTES - 1]), Err(TOO_FEW));
    assert_eq!(Sheet::fresh().nearest(&book, &mut out), Ok(Some(Nearest { differing: 0, written: 60 })));
    assert_eq!(out, [0; STORED_BYTES]);
}

/// The longest book and listing: 60 fields, and 64 tables of 64 rows on four fields.
#[test]
fn the_longest_listing_suffices() {
    let table = [&[4, 56, 57, 58, 59, 64][..], &[31; 4 * 64]].concat();
    let listing = [&[60][..], &[32; 60], &[64], &table.repeat(64), &[2]].concat();
    assert_eq!(listing.len(), LISTING_NUMBERS);
    let book = written(&listing).expect("it fits");
    assert_eq!(book.len(), BOOK_BYTES);
    assert_eq!(write(&listing, &mut [0; BOOK_BYTES - 1]), Err(TOO_FEW));
    assert_eq!(shown(&book), Ok(listing));
    assert_eq!(show(&book, &mut [0; LISTING_NUMBERS - 1]), Err(TOO_FEW));
}

/// The longest joined book: 60 fields, 64 sets of four, and 64 rows on each.
#[test]
fn the_longest_joined_book_suffices() {
    let (book, mut out) = (on_sets(0..64, 64), [7; BOOK_BYTES]);
    assert_eq!(book.len(), BOOK_BYTES);
    assert_eq!((join(&book, &book, &mut out[..BOOK_BYTES - 1]), out), (Err(TOO_FEW), [7; BOOK_BYTES]));
    assert_eq!((join(&book, &book, &mut out), &out[..]), (Ok(BOOK_BYTES as u64), &book[..]));
    assert_eq!(joined(&on_sets(32..64, 64), &on_sets(0..32, 64)), Ok(book));
}

/// Every constant of the header stands in the wrapper with the same value.
#[test]
fn constants_are_those_of_the_header() {
    let header = include_str!("../../../include/sighting.h");
    let value = |name: &str| {
        let mut words = header.lines().map(|line| line.split_whitespace().collect::<Vec<_>>());
        let line = words.find(|words| words.len() > 2 && words[..2] == ["#define", name]);
        line.and_then(|words| words[2].parse::<usize>().ok())
    };
    assert_eq!(value("SIGHTING_PLACES"), Some(PLACES));
    assert_eq!(value("SIGHTING_SHEET_BYTES"), Some(SHEET_BYTES));
    assert_eq!(value("SIGHTING_NO_ANSWER"), Some(NO_ANSWER as usize));
    assert_eq!(value("SIGHTING_PAIRS_BYTES"), Some(PAIRS_BYTES));
    assert_eq!(value("SIGHTING_NUMBERS"), Some(NUMBERS));
    assert_eq!(value("SIGHTING_STORED_BYTES"), Some(STORED_BYTES));
    assert_eq!(value("SIGHTING_SHORT_BYTES"), Some(SHORT_BYTES));
    assert_eq!(value("SIGHTING_REPORT_BYTES"), Some(REPORT_BYTES));
    assert_eq!(value("SIGHTING_LISTING_NUMBERS"), Some(LISTING_NUMBERS));
    assert_eq!(value("SIGHTING_BOOK_BYTES"), Some(BOOK_BYTES));
    for (name, call) in [
        ("SIGHTING_CALL_ENTER", Call::Enter { field: 0, code: 0 }),
        ("SIGHTING_CALL_WITHDRAW", Call::Withdraw { field: 0 }),
        ("SIGHTING_CALL_CLEAR", Call::Clear),
        ("SIGHTING_CALL_PHOTOGRAPH", Call::Photograph { field: 0 }),
    ] {
        assert_eq!(value(name), Some(call.bytes()[0] as usize));
    }
}
