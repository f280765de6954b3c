//! The debrief plan: on small books, at random, and on books made so that its search takes as many passes as could be found.

use sighting::{Sheet, NO_ANSWER, PLACES};

use crate::families::{bytes, small, unphotographed, Family, Random, Table};
use crate::plain::plan::{plan, plan_anew};
use crate::plain::CODES;
use crate::stack;
use crate::timing::{medians_of, Contender};

/// The questions; the target is field 0.
const QUESTIONS: [u8; 6] = [1, 2, 3, 4, 5, 6];

const CODE_COUNT: u8 = CODES as u8;
const LAST_CODE: u8 = CODE_COUNT - 1;

/// A book without answers, and the questions that may be asked for its field 0.
pub struct Asked {
    pub what: &'static str,
    book: Vec<u8>,
    questions: &'static [u8],
    turns: usize,
}

/// The pairs of numbers below these two that are allowed, as rows.
fn pairs(counts: [u8; 2], mut allowed: impl FnMut(u8, u8) -> bool) -> Vec<Vec<u8>> {
    let all = (0..counts[0]).flat_map(|c| (0..counts[1]).map(move |d| (c, d)));
    all.filter(|&(c, d)| allowed(c, d)).map(|(c, d)| vec![c, d]).collect()
}

/// Seven fields of 32 codes, and for each question a table with the target in which so many pairs of a hundred stand.
fn random(of_a_hundred: usize) -> Vec<u8> {
    let mut r = Random(0);
    let mut rows = || pairs([CODE_COUNT; 2], |_, _| r.below(100) < of_a_hundred);
    bytes(1, &[CODE_COUNT; 7], &QUESTIONS.map(|q| (vec![0, q], rows())))
}

/// The product in the field of four elements.
fn product(a: u8, b: u8) -> u8 {
    [[0, 0, 0, 0], [0, 1, 2, 3], [0, 2, 3, 1], [0, 3, 1, 2]][a as usize][b as usize]
}

/// In the plane of 16 points over the field of four elements, the number of the line through a point in one of the five directions. Lines
/// of two directions have one point in common.
fn line(direction: u8, point: u8) -> u8 {
    let (x, y) = (point / 4, point % 4);
    if direction == 0 {
        x
    } else {
        y ^ product(direction - 1, x)
    }
}

/// A word that tells no line.
const NO_LINE: u8 = 4;

/// The word that the answerer gives by a code: the last question's tells a plane, and another's a line, but its last code none.
fn word(question: u8, code: u8) -> u8 {
    match (question, code) {
        (6, _) => code % 2,
        (_, LAST_CODE) => NO_LINE,
        _ => code % 4,
    }
}

/// Whether a word is true of the target, a point of one of two planes. That of no line is true in both planes for question 1, and in one
/// of them for 2 to 5; in the other it is that of line 0.
fn is_true(question: u8, word: u8, target: u8) -> bool {
    let (plane, point) = (target / 16, target % 16);
    let silent = match question {
        1 => true,
        2 | 3 => plane == 0,
        _ => plane == 1,
    };
    match (question, word) {
        (6, _) => word == plane,
        (_, NO_LINE) if silent => true,
        _ => word % 4 == line(question - 1, point),
    }
}

/// Two lines and the plane settle the target, and nothing less does. Which two questions tell a line whatever the code depends on the plane,
/// so a plan has to begin with question 6, the last of the list. But each other first question fails at its last code alone, and behind each
/// code before so does each second question but 6; and two lines need 6 as the third, again the last of the list. With so many fields, of
/// which those behind the questions are in no table.
fn two_planes(version: u8, fields: usize) -> Vec<u8> {
    let rows = |q| pairs([CODE_COUNT; 2], |target, code| is_true(q, word(q, code), target));
    bytes(version, &vec![CODE_COUNT; fields], &QUESTIONS.map(|q| (vec![0, q], rows(q))))
}

/// How many words a question has.
fn words(question: u8) -> u8 {
    if question == 6 {
        2
    } else {
        NO_LINE + 1
    }
}

/// The rows of targets and words of these questions that are true of them.
fn true_words(questions: &[u8]) -> Vec<Vec<u8>> {
    let mut rows: Vec<Vec<u8>> = (0..CODE_COUNT).map(|target| vec![target]).collect();
    for &q in questions {
        let longer = |row: Vec<u8>| {
            (0..words(q)).filter(|&w| is_true(q, w, row[0])).map(|w| [&row[..], &[w]].concat()).collect::<Vec<_>>()
        };
        rows = rows.into_iter().flat_map(longer).collect();
    }
    rows
}

/// The same with a field of its own for each word, and a table with the target for each of these sets of words.
fn two_planes_by_words(sets: impl Iterator<Item = Vec<u8>>) -> Vec<u8> {
    let told = QUESTIONS.map(|q| (vec![q, q + 6], pairs([CODE_COUNT, words(q)], |code, told| told == word(q, code))));
    let meant = sets.map(|set| ([0].into_iter().chain(set.iter().map(|q| q + 6)).collect(), true_words(&set)));
    let counts = [&[CODE_COUNT; 7][..], &QUESTIONS.map(words)].concat();
    bytes(1, &counts, &told.into_iter().chain(meant).collect::<Vec<Table>>())
}

/// All sets of so many questions.
fn sets(of: u32) -> impl Iterator<Item = Vec<u8>> {
    let sets = (0..1 << QUESTIONS.len()).filter(move |set: &u8| set.count_ones() == of);
    sets.map(|set| QUESTIONS.into_iter().filter(|q| set >> (q - 1) & 1 == 1).collect())
}

fn all(b: &Family) -> Vec<Asked> {
    let [smallest, _] = small();
    let asked = |what, book, turns| Asked { what, book, questions: &QUESTIONS, turns };
    vec![
        Asked { what: "E1, one question", book: smallest.book, questions: &[2], turns: 31 },
        asked("7 fields, a pair in ten stands", random(10), 31),
        asked("7 fields, three pairs in ten stand", random(30), 31),
        asked("family B", b.book.clone(), 31),
        asked("two planes", two_planes(1, 7), 5),
        asked("two planes, by words", two_planes_by_words(sets(1)), 5),
        asked("two planes, by three words", two_planes_by_words(sets(3)), 3),
    ]
}

/// The answer, the numbers of passes of the library's form and of the one where each pass begins anew, and the medians of the library and of
/// plain Rust in both forms.
pub struct Planned {
    pub questions: Option<u64>,
    pub passes: u64,
    pub passes_anew: u64,
    pub library: f64,
    pub plain: f64,
    pub anew: f64,
}

fn planned(asked: &Asked) -> Planned {
    let (book, questions) = (&asked.book[..], asked.questions);
    let sheet = Sheet::from([NO_ANSWER; PLACES]);
    let bytes = unphotographed([NO_ANSWER; PLACES]);
    let [found, anew] = [plan, plan_anew].map(|plan| plan(&bytes, book, 0, questions).expect("accepted"));
    assert_eq!((sheet.plan(book, 0, questions), anew.questions), (Ok(found.questions), found.questions));
    let number = |questions: Option<u64>| questions.map_or(0, |n| n + 1);
    let mut contenders: [Contender; 3] = [
        Box::new(|| number(sheet.plan(book, 0, questions).expect("accepted"))),
        Box::new(|| number(plan(&bytes, book, 0, questions).expect("accepted").questions)),
        Box::new(|| number(plan_anew(&bytes, book, 0, questions).expect("accepted").questions)),
    ];
    let times = medians_of(asked.turns, &mut contenders);
    let (passes, passes_anew) = (found.passes, anew.passes);
    Planned { questions: found.questions, passes, passes_anew, library: times[0], plain: times[1], anew: times[2] }
}

pub fn plans(b: &Family) -> Vec<(Asked, Planned)> {
    let measured = |asked| {
        let planned = planned(&asked);
        (asked, planned)
    };
    all(b).into_iter().map(measured).collect()
}

/// The stack bytes of a plan of one question on this book, and of one with three on a book of as many fields as may be.
pub fn stacks(family: &Family) -> Vec<(&'static str, usize)> {
    let (sheet, sixty) = (Sheet::from([NO_ANSWER; PLACES]), two_planes(2, PLACES));
    let plan = |book: &[u8], questions: &[u8]| stack::bytes(&mut || assert!(sheet.plan(book, 0, questions).is_ok()));
    vec![("plan, one question", plan(&family.book, &[1])), ("plan, three questions, 60 fields", plan(&sixty, &QUESTIONS))]
}
