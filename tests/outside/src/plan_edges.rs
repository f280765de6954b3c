//! The library at each edge of document 02's M-110: every field as target and as question, every code, every place of a list and every
//! order, the most questions, and numbers that are none.

use sighting::{Refusal, Sheet, NO_ANSWER};

use crate::book::{Book, Table};
use crate::examples::{e1, E1_PLANS};
use crate::sheet::{self, FRESH, PLACES};

const NO_LIST: Result<Option<u64>, Refusal> = refused(27, 0);

const fn refused(number: u64, place: u64) -> Result<Option<u64>, Refusal> {
    Err(Refusal { number, place })
}

fn sheet(answers: &[u8]) -> Sheet {
    sheet::Sheet::of(answers).into()
}

/// A table of two fields in which these codes go together.
fn pairs(fields: [usize; 2], rows: impl Iterator<Item = [u8; 2]>) -> Table {
    let turned = fields[0] > fields[1];
    let row = |[c, d]: [u8; 2]| if turned { vec![d, c] } else { vec![c, d] };
    let mut fields = fields.map(|field| field as u8).to_vec();
    fields.sort();
    Table { fields, rows: rows.map(row).collect() }
}

/// Three fields of two codes and the field of eight behind them, which they tell.
fn of_three() -> Table {
    Table { fields: vec![56, 57, 58, 59], rows: (0..8).map(|row| vec![row >> 2, row >> 1 & 1, row & 1, row]).collect() }
}

/// Sixty fields of two codes, but for the last, and that table.
fn sixty() -> Vec<u8> {
    let mut counts = vec![2; PLACES];
    counts[PLACES - 1] = 8;
    Book::new(counts, vec![of_three()]).write()
}

/// All orders of these questions.
fn orders(questions: &[u8]) -> Vec<Vec<u8>> {
    let Some((&first, rest)) = questions.split_first() else {
        return vec![Vec::new()];
    };
    let put = |order: Vec<u8>| (0..=order.len()).map(move |place| [&order[..place], &[first], &order[place..]].concat());
    orders(rest).into_iter().flat_map(put).collect()
}

#[test]
fn examples_of_e1() {
    let book = e1().write();
    for (answers, target, questions, expected) in E1_PLANS {
        let expected =
            expected.map(|[found, least]| (found == 1).then_some(least)).map_err(|number| Refusal { number, place: 0 });
        assert_eq!(sheet(answers).plan(&book, target, questions), expected, "{answers:?}: {target} {questions:?}");
    }
}

/// Two fields are equal: either tells the other, and no third tells any of them.
#[test]
fn each_field_as_target_and_as_question() {
    for (one, other) in (0..PLACES).flat_map(|other| (0..other).map(move |one| (one, other))) {
        let book = Book::new(vec![2; PLACES], vec![pairs([one, other], (0..2).map(|c| [c, c]))]).write();
        let third = (0..PLACES).find(|&field| field != one && field != other).expect("there are sixty") as u8;
        for [target, question] in [[one, other], [other, one]] {
            let plan = |questions: &[u8]| Sheet::fresh().plan(&book, target, questions);
            let question = question as u8;
            assert_eq!([plan(&[question]), plan(&[third, question]), plan(&[third])], [Ok(Some(1)), Ok(Some(1)), Ok(None)]);
            assert_eq!([plan(&[]), plan(&[target as u8]), plan(&[third, target as u8])], [Ok(None), NO_LIST, NO_LIST]);
            let mut places = FRESH;
            places.answers[question as usize] = 1;
            let answered = Sheet::from(places);
            assert_eq!(answered.plan(&book, target, &[third]), Ok(Some(0)));
            assert_eq!(answered.plan(&book, target, &[third, question]), NO_LIST);
        }
    }
}

/// Each code of a field goes with one of the target, but for one code that goes with two, if there is one.
#[test]
fn each_code() {
    for two in (0..32).map(Some).chain([None]) {
        let also = two.map(|code| [code, (code + 1) % 32]);
        let book = Book::new(vec![32; 2], vec![pairs([0, 1], (0..32).map(|c| [c, c]).chain(also))]).write();
        assert_eq!(Sheet::fresh().plan(&book, 1, &[0]), Ok(two.is_none().then_some(1)));
        for code in 0..32 {
            let of_two = two == Some(code) && code != (code + 1) % 32;
            assert_eq!(sheet(&[code]).plan(&book, 1, &[]), Ok((!of_two).then_some(0)), "{two:?} {code}");
        }
    }
}

/// Some codes of the question go with two of the target. They stand, but leave a field empty: each ties two fields to codes that do not go
/// together. With all codes such, none stands.
#[test]
fn each_set_of_codes_that_may_be_given() {
    for dead in 0..16u8 {
        let is_dead = |code: u8| dead >> code & 1 == 1;
        let told = (0..4).flat_map(|c| [[c, c], [c, (c + is_dead(c) as u8) % 4]]);
        let tie = |field| pairs([1, field], (0..4).map(|c| [c, !is_dead(c) as u8]));
        let together = pairs([2, 3], [[0, 1], [1, 0], [1, 1]].into_iter());
        let book = Book::new(vec![4, 4, 2, 2], vec![pairs([1, 0], told), tie(2), tie(3), together]).write();
        let mut numbers = [0; 4];
        assert_eq!(Sheet::fresh().filtered(&book, None, &mut numbers), Ok(()));
        assert_eq!(numbers[1], if dead == 15 { 0 } else { 15 }, "{dead}");
        assert_eq!(Sheet::fresh().plan(&book, 0, &[1]), Ok(Some((dead < 15) as u64)), "{dead}");
    }
}

/// Of lists of up to six questions one tells the target, in each place of the list; then none, and one question more than may be asked.
#[test]
fn each_place_of_a_list() {
    let book = Book::new(vec![2; PLACES], vec![pairs([59, 30], (0..2).map(|c| [c, c]))]).write();
    for length in 1..=7 {
        for place in 0..length {
            let mut questions: Vec<u8> = (0..length as u8).collect();
            let plan = |questions: &[u8]| Sheet::fresh().plan(&book, 30, questions);
            assert_eq!(plan(&questions), if length == 7 { NO_LIST } else { Ok(None) });
            questions[place] = 59;
            assert_eq!(plan(&questions), if length == 7 { NO_LIST } else { Ok(Some(1)) });
            for bad in [30, 60, 61, 127, 128, 254, 255] {
                questions[place] = bad;
                assert_eq!(plan(&questions), NO_LIST, "{questions:?}");
            }
            for again in (0..length).filter(|&again| again != place) {
                questions[place] = questions[again];
                assert_eq!(plan(&questions), NO_LIST, "{questions:?}");
            }
        }
    }
    for length in [12, 63, 64, 255, 256, 257, 262, 65_536, 65_542] {
        assert_eq!(Sheet::fresh().plan(&book, 30, &vec![59; length]), NO_LIST);
    }
}

/// Each of sixty fields is answered by each of its codes, photographed and not, and may then not be asked.
#[test]
fn each_answered_question() {
    let book = Book::new(vec![2; PLACES], Vec::new()).write();
    for field in 0..PLACES {
        let others = [(field + 1) % PLACES, (field + 2) % PLACES].map(|other| other as u8);
        for (code, photographed) in [(0, &[][..]), (1, &[]), (0, &[field]), (1, &[field])] {
            let mut places = FRESH;
            places.answers[field] = code;
            let answered = Sheet::from(places.with_photographs(photographed));
            let plan = |questions: &[u8]| answered.plan(&book, (field + 3) % PLACES, questions);
            assert_eq!(
                [plan(&[field as u8]), plan(&[others[0], field as u8, others[1]]), plan(&others)],
                [NO_LIST, NO_LIST, Ok(None)]
            );
            assert_eq!(answered.plan(&book, field, &others), Ok(Some(0)));
            assert_eq!(answered.plan(&book, field, &[field as u8]), NO_LIST);
        }
    }
}

/// Three questions of six, in all orders; and any of them missing, which leaves none, or answered, which leaves two.
#[test]
fn each_order_of_six_questions() {
    let book = sixty();
    for order in orders(&[0, 31, 32, 56, 57, 58]) {
        assert_eq!(Sheet::fresh().plan(&book, 59, &order), Ok(Some(3)), "{order:?}");
    }
    for missing in 56..59 {
        let rest: Vec<u8> = [0, 31, 32, 56, 57, 58].into_iter().filter(|&q| q != missing).collect();
        let mut places = FRESH;
        assert_eq!(Sheet::from(places).plan(&book, 59, &rest), Ok(None));
        places.answers[missing as usize] = 1;
        assert_eq!(Sheet::from(places).plan(&book, 59, &rest), Ok(Some(2)));
        assert_eq!(Sheet::from(places).plan(&book, 58, &rest[..3]), Ok((missing == 58).then_some(0)));
    }
}

/// Each set of at most three of the three fields that tell the target: as many questions as are left, if all others are answered.
#[test]
fn each_number_of_questions() {
    for (answered, listed) in (0..8u8).flat_map(|answered| (0..8u8).map(move |listed| (answered, listed))) {
        let of = |set: u8| (0..3u8).filter(move |k| set >> k & 1 == 1).map(|k| 56 + k);
        let (mut places, questions) = (FRESH, of(listed).collect::<Vec<u8>>());
        of(answered).for_each(|field| places.answers[field as usize] = 0);
        let expected = match (answered & listed, answered | listed) {
            (0, 7) => Ok(Some(listed.count_ones() as u64)),
            (0, _) => Ok(None),
            _ => NO_LIST,
        };
        assert_eq!(Sheet::from(places).plan(&sixty(), 59, &questions), expected, "{answered:#b} {listed:#b}");
    }
}

/// Whatever is answered leaves a field without a code, or one is empty already: each question settles, and with none there is no plan.
#[test]
fn no_code_may_be_given() {
    let differ = |f, g| pairs([f, g], [[0, 1], [1, 0]].into_iter());
    let ring = vec![differ(0, 1), differ(0, 2), differ(1, 2)];
    let empty = vec![Table { fields: vec![1], rows: Vec::new() }];
    let contradicting = vec![pairs([0, 1], (0..2).map(|c| [c, c]))];
    for (tables, answers, questions) in [(ring, &[][..], 0..3), (empty, &[], 0..5), (contradicting, &[0, 1], 2..5)] {
        let book = Book::new(vec![2; PLACES], tables).write();
        for q in questions {
            assert_eq!(sheet(answers).plan(&book, 59, &[q]), Ok(Some(1)), "{q}");
        }
        assert_eq!(sheet(answers).plan(&book, 59, &[]), Ok(None));
    }
}

/// Six fields of 32 codes and a target that they do not tell: none. With a table on each of them they rule out one of its codes each.
#[test]
fn many_codes() {
    let none = Book::new(vec![32; 7], Vec::new()).write();
    assert_eq!(Sheet::fresh().plan(&none, 6, &[0, 1, 2, 3, 4, 5]), Ok(None));
    for codes in 2..=7u8 {
        let all = (0..32u8).flat_map(|c| (0..codes).map(move |d| [c, d]));
        let table = |q: u8| pairs([q as usize, 6], all.clone().filter(move |&[c, d]| (c == 31) == (d == q)));
        let book = Book::new(vec![32, 32, 32, 32, 32, 32, codes], (0..6).map(table).collect()).write();
        let needed = codes as u64 - 1;
        assert_eq!(Sheet::fresh().plan(&book, 6, &[0, 1, 2, 3, 4, 5]), Ok((needed <= 3).then_some(needed)), "{codes}");
    }
}

/// Everything is wrong, and is put right one after the other; a target that the book lacks goes before the list.
#[test]
fn refusals_in_their_order() {
    let book = e1().write();
    let plan = |answers: &[u8], book: &[u8], target, questions: &[u8]| sheet(answers).plan(book, target, questions);
    let bad = [3, 3, 0, 1, 1, 2, 9];
    assert_eq!(plan(&[9, 9, 9, 9], &book[..34], 3, &bad), refused(2, 33));
    assert_eq!(plan(&[0, 9, 9, 9], &book, 3, &bad), refused(14, 1));
    assert_eq!(plan(&[0, NO_ANSWER, NO_ANSWER, 9], &book, 3, &bad), refused(14, 3));
    assert_eq!(plan(&[0], &book, 3, &bad), refused(15, 0));
    for none in (3..600).chain([1 << 16, 1 << 32, (1 << 63) + 2, usize::MAX]) {
        assert_eq!(plan(&[0], &book, none, &bad), refused(15, 0), "{none}");
        assert_eq!(plan(&[0], &book, none, &[1]), refused(15, 0), "{none}");
    }
    assert_eq!(plan(&[0], &book, 2, &bad), NO_LIST);
    for list in [&[3][..], &[0], &[1, 1], &[1, 2]] {
        assert_eq!(plan(&[0], &book, 2, list), NO_LIST);
    }
    assert_eq!(plan(&[0], &book, 2, &[1]), Ok(Some(1)));
}
