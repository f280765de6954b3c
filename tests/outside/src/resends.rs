//! Seeded answers sent again in a list of calls, as tablets do.

use crate::book::Book;
use crate::desk::is_no_code;
use crate::photographs::{fields, one_of, some_photographed};
use crate::random::Random;
use crate::sheet::Sheet;

/// So many times in a row at most an answer is sent again by itself.
const TIMES: usize = 3;

/// So many of the codes entered before are sent again at most.
const LATEST: usize = 8;

/// Enters behind these calls, which reach this sheet: the code held by the field called last, by a photographed one or by any, some times
/// in a row; all answers of the sheet, in order or not, or twice; or the codes that were entered latest, whether they are held still or
/// not.
pub fn resent(r: &mut Random, book: &Book, sheet: &Sheet, calls: &[[u8; 3]]) -> Vec<[u8; 3]> {
    let mut answered = fields(book, |field| sheet.is_answered(field));
    let times = r.from(1, TIMES);
    let in_a_row = |field: Option<u8>| field.map_or(Vec::new(), |field| vec![field; times]);
    let again = match r.from(0, 9) {
        0..=2 => in_a_row(called(calls, |field| answered.contains(&field))),
        3 => in_a_row(one_of(r, &answered)),
        4..=5 => in_a_row(some_photographed(r, book, sheet)),
        6 => answered,
        7 => {
            r.shuffle(&mut answered);
            answered
        }
        8 => answered.repeat(2),
        _ => return latest(r, book, calls),
    };
    again.into_iter().map(|field| [0, field, sheet.answers[field as usize]]).collect()
}

/// The field of the last call, if it is so.
pub fn called(calls: &[[u8; 3]], so: impl Fn(u8) -> bool) -> Option<u8> {
    calls.last().map(|call| call[1]).filter(|&field| so(field))
}

/// In their order. Behind a clear or a withdraw they are first answers; of a photographed field a code from before the one held is refused.
fn latest(r: &mut Random, book: &Book, calls: &[[u8; 3]]) -> Vec<[u8; 3]> {
    let is_enter = |&[kind, field, code]: &[u8; 3]| kind == 0 && !is_no_code(book, field as usize, code);
    let entered: Vec<[u8; 3]> = calls.iter().copied().filter(is_enter).collect();
    let first = entered.len().saturating_sub(r.from(1, LATEST));
    entered[first..].to_vec()
}

#[cfg(test)]
mod tests {
    use super::resent;
    use crate::book::Book;
    use crate::random::Random;
    use crate::sheet::{Sheet, FRESH};

    /// Field 0 was answered otherwise before; all other codes sent again are held.
    #[test]
    fn codes_held_and_codes_from_before() {
        let (book, sheet, mut r) = (Book::new(vec![3; 4], Vec::new()), Sheet::of(&[0, 1, 2]).with_photographs(&[1]), Random(1));
        let calls = [[0, 0, 1], [0, 0, 0], [0, 1, 1], [3, 1, 0], [0, 2, 2], [0, 3, 3]];
        let sent: Vec<Vec<[u8; 3]>> = (0..500).map(|_| resent(&mut r, &book, &sheet, &calls)).collect();
        let held = [[0, 0, 0], [0, 1, 1], [0, 2, 2]];
        assert!(sent.iter().flatten().all(|call| held.contains(call) || *call == calls[0]));
        let (turned, twice) = ([held[2], held[1], held[0]], held.repeat(2));
        let latest = [calls[0], held[0], held[1], held[2]];
        for expected in [&held[..], &turned, &twice, &[held[1]; 3], &[held[0]], &latest] {
            assert!(sent.iter().any(|sent| sent.ends_with(expected)), "{expected:?}");
        }
        assert!((0..50).all(|_| resent(&mut r, &book, &FRESH, &[]).is_empty()));
    }
}
