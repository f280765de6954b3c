//! The debrief plan, straight from document 02's M-110 and with no care for speed.

use std::collections::HashSet;

use crate::book::Book;
use crate::filter::{has_empty, Filter, Subdomain};
use crate::sheet::{Sheet, NO_ANSWER};

/// "At most six": a list with more questions is refused.
pub const LONGEST: usize = 6;

/// "The least number of questions, at most three."
pub const MOST: usize = 3;

/// The target field, and the list that questions are chosen from.
#[derive(Clone, Copy, Debug)]
pub struct Planned<'a> {
    pub target: usize,
    pub questions: &'a [u8],
}

/// Answers by a book, and what stands by them.
#[derive(Clone)]
pub struct Position<'a> {
    pub book: &'a Book,
    pub largest: Filter,
    pub answers: Vec<u8>,
    pub standing: Subdomain,
}

/// A search: the least number of questions, or none.
pub type Search = fn(&Position, Planned) -> Option<usize>;

impl Planned<'_> {
    /// "A list longer than six, a repeat, an answered or missing field, or the target in it."
    pub fn is_refused(&self, book: &Book, sheet: &Sheet) -> bool {
        let is_bad = |q: usize| q >= book.counts.len() || sheet.is_answered(q) || q == self.target;
        self.questions.len() > LONGEST || self.has_repeat() || self.questions.iter().any(|&q| is_bad(q as usize))
    }

    pub fn has_repeat(&self) -> bool {
        self.questions.iter().collect::<HashSet<_>>().len() < self.questions.len()
    }
}

impl<'a> Position<'a> {
    pub fn of(book: &'a Book, answers: &[u8], largest: Filter) -> Position<'a> {
        Position { book, largest, answers: answers.to_vec(), standing: largest(book, answers) }
    }

    /// How many codes of the field stand.
    pub fn standing(&self, field: usize) -> usize {
        self.standing[field].iter().filter(|&&stands| stands).count()
    }

    /// "The target field surely has at most one standing code."
    pub fn is_settled(&self, target: usize) -> bool {
        self.standing(target) <= 1
    }

    pub fn is_open(&self, field: usize) -> bool {
        self.answers[field] == NO_ANSWER
    }

    /// The position behind an answer.
    pub fn behind(&self, field: usize, code: usize) -> Position<'a> {
        let mut answers = self.answers.clone();
        answers[field] = code as u8;
        Position::of(self.book, &answers, self.largest)
    }

    /// The positions behind each code of the field that stands, by rising code.
    pub fn behind_each(&self, field: usize) -> impl Iterator<Item = Position<'a>> + '_ {
        (0..self.standing[field].len()).filter(move |&code| self.standing[field][code]).map(move |code| self.behind(field, code))
    }

    /// The positions behind each answer that the observer may give: "any standing code that leaves no field empty".
    pub fn behind_answers(&self, field: usize) -> impl Iterator<Item = Position<'a>> + '_ {
        self.behind_each(field).filter(|behind| !has_empty(&behind.standing))
    }
}

/// "My turn and the observer's follow each other until the questions run out." I choose from the fields of the list that are unanswered;
/// "if no such code exists, that branch counts as settled".
pub fn settles(at: &Position, planned: Planned, questions: usize) -> bool {
    let settles_by = |q: usize| at.behind_answers(q).all(|behind| settles(&behind, planned, questions - 1));
    let mut chosen = planned.questions.iter().map(|&q| q as usize).filter(|&q| at.is_open(q));
    at.is_settled(planned.target) || questions > 0 && chosen.any(settles_by)
}

/// "A number is given exactly when a plan with that many exists and none with fewer."
pub fn least(at: &Position, planned: Planned) -> Option<usize> {
    (0..=MOST).find(|&questions| settles(at, planned, questions))
}

/// A number or none as the cells behind the place: found, and the number of questions.
pub fn told(least: Option<u64>) -> Vec<u64> {
    vec![least.is_some() as u64, least.unwrap_or(0)]
}

#[cfg(test)]
mod tests {
    use super::{least, Planned, Position};
    use crate::book::{Book, Table};
    use crate::calls::Call;
    use crate::desk::Desk;
    use crate::examples::{e1, e4, two_pairs, E1_PLANS};
    use crate::filter::largest;
    use crate::sheet::{Sheet, FRESH, NO_ANSWER, PLACES};

    fn plan(book: &Book, answers: &[u8], target: usize, questions: &[u8]) -> Option<usize> {
        least(&Position::of(book, &Sheet::of(answers).answers, largest), Planned { target, questions })
    }

    #[test]
    fn examples_of_e1() {
        let (desk, book) = (Desk::default(), Ok(e1()));
        for (answers, target, questions, expected) in E1_PLANS {
            let sheet = Sheet::of(answers);
            let call = Call::Plan { target, questions: questions.to_vec() };
            let (number, [found, least]) = expected.map_or_else(|number| (number, [0, 0]), |cells| (0, cells));
            let left = desk.answer(&call, &book, &sheet).left(&call, &Vec::<u8>::new().into());
            assert_eq!((left.number, left.cells, left.sheet), (number, vec![0, found, least], sheet), "{answers:?} {call:?}");
        }
    }

    /// Of three fields of two codes each two differ: all codes stand, and each answer leaves a field empty.
    #[test]
    fn no_code_may_be_given() {
        for (target, question) in [(0, 1), (1, 2), (2, 0)] {
            assert_eq!(plan(&e4(), &[], target, &[question]), Some(1));
        }
        assert_eq!(plan(&e4(), &[], 1, &[]), None);
        // as soon as one is answered no code stands
        assert_eq!(plan(&e4(), &[0], 1, &[]), Some(0));
    }

    /// Fields 0 and 1 contradict each other, so that whatever is answered a field is empty.
    #[test]
    fn a_contradiction_and_a_part_beside_it() {
        assert_eq!(plan(&two_pairs(), &[0, 1], 2, &[3]), Some(1));
        assert_eq!(plan(&two_pairs(), &[0, 1], 2, &[]), None);
        assert_eq!(plan(&two_pairs(), &[0, 1], 0, &[3]), Some(0));
        assert_eq!(plan(&two_pairs(), &[], 2, &[0, 1]), None);
        assert_eq!(plan(&two_pairs(), &[], 2, &[0, 1, 3]), Some(1));
    }

    /// Field 3 is as field 1 where field 0 is 0, and as field 2 where it is 1: which is asked second hangs on the first answer.
    #[test]
    fn the_second_question_by_the_first_answer() {
        let rows = (0..8u8).map(|i| vec![i >> 2, i >> 1 & 1, i & 1, if i < 4 { i >> 1 & 1 } else { i & 1 }]).collect();
        let book = Book::new(vec![2; 4], vec![Table { fields: vec![0, 1, 2, 3], rows }]);
        assert_eq!(plan(&book, &[], 3, &[1, 2, 0]), Some(2));
        for two in [[0, 1], [0, 2], [1, 2]] {
            assert_eq!(plan(&book, &[], 3, &two), None);
        }
    }

    /// The even number of codes 1 in fields 0 to 3, and in 3 to 5: three questions and no less; four are too many.
    #[test]
    fn three_questions() {
        let even = |fields: &[u8]| {
            let all = (0..1u8 << fields.len()).filter(|i| i.count_ones() % 2 == 0);
            let row = |i: u8| (0..fields.len()).map(|k| i >> k & 1).collect();
            Table { fields: fields.to_vec(), rows: all.map(row).collect() }
        };
        let book = Book::new(vec![2; 6], vec![even(&[0, 1, 2, 3]), even(&[3, 4, 5])]);
        assert_eq!(plan(&book, &[], 3, &[0, 1, 2]), Some(3));
        assert_eq!(plan(&book, &[], 5, &[4, 0, 1, 2]), None);
        assert_eq!(plan(&book, &[NO_ANSWER, 1], 5, &[4, 0, 2]), Some(3));
        assert_eq!(plan(&book, &[], 5, &[4, 0, 1, 2, 3]), Some(2));
    }

    #[test]
    fn lists_in_their_limits() {
        let refused = |answers: &[u8], target: usize, questions: &[u8]| {
            Planned { target, questions }.is_refused(&Book::new(vec![2; 60], Vec::new()), &Sheet::of(answers))
        };
        assert!(!refused(&[], 0, &[]) && !refused(&[0], 0, &[59]) && !refused(&[], 0, &[1, 2, 3, 4, 5, 6]));
        assert!(refused(&[], 0, &[1, 2, 3, 4, 5, 6, 7]));
        assert!(refused(&[], 0, &[1, 2, 1]) && refused(&[], 9, &[1, 9]) && refused(&[0], 9, &[1, 0]));
        assert!(refused(&[], 0, &[60]) && refused(&[], 0, &[255]) && refused(FRESH.answers.as_slice(), PLACES - 1, &[59]));
    }
}
