//! The number of questions that a library shows, held against its own plain filtering and against itself one turn on.

use crate::book::Book;
use crate::calls::Call;
use crate::cases::Case;
use crate::compare::{hex, Rooms};
use crate::desk::{opened, Reading};
use crate::library::Library;
use crate::memory::End;
use crate::plan::{Planned, MOST};
use crate::sheet::NO_ANSWER;

/// What a library says of a target and a list.
struct Said {
    shown: Option<u64>,
    /// By its plain filtering at most one code of the target stands.
    is_settled: bool,
    /// For each question, the most that it shows behind an answer to it; none where there is no plan behind some answer.
    behind: Vec<Option<u64>>,
}

impl Said {
    /// What does not fit together.
    fn problem(&self) -> Option<&'static str> {
        let with_first =
            self.behind.iter().flatten().map(|behind| behind + 1).min().filter(|&questions| questions <= MOST as u64);
        match (self.is_settled, self.shown) {
            (true, Some(0)) => None,
            (true, _) => Some("the target has at most one standing code, and a question is needed or none helps"),
            (_, shown) if shown != with_first => Some("it is not one question more than behind the best question"),
            _ => None,
        }
    }
}

impl Rooms {
    /// The least number of questions by the library; an outer none where it refuses.
    fn least(&self, library: &dyn Library, case: &Case, planned: Planned) -> Option<Option<u64>> {
        let call = Call::Plan { target: planned.target, questions: planned.questions.to_vec() };
        let left = self.left(library, case, &call, &Vec::<u8>::new().into(), End::Back)?;
        (left.number == 0).then(|| (left.cells[1] == 1).then_some(left.cells[2]))
    }

    /// The most questions behind an answer to this one that leaves no field empty, where the others may still be asked.
    fn behind(&self, library: &dyn Library, case: &Case, book: &Book, planned: Planned, q: u8) -> Option<Option<u64>> {
        let others: Vec<u8> = planned.questions.iter().copied().filter(|&other| other != q).collect();
        let standing = self.numbers(library, case, book, NO_ANSWER as usize)?[q as usize];
        let mut most = Some(0);
        for code in (0..32).filter(|code| standing >> code & 1 == 1) {
            let mut answered = Case::new(case.book.clone(), case.sheet, Vec::new());
            answered.sheet.answers[q as usize] = code;
            if !self.numbers(library, &answered, book, NO_ANSWER as usize)?.contains(&0) {
                let least = self.least(library, &answered, Planned { questions: &others, ..planned })?;
                most = most.zip(least).map(|(most, least)| most.max(least));
            }
        }
        Some(most)
    }

    fn said_of_plan(&self, library: &dyn Library, case: &Case, book: &Book, planned: Planned) -> Option<Said> {
        let shown = self.least(library, case, planned)?;
        let numbers = self.numbers(library, case, book, NO_ANSWER as usize)?;
        let behind = planned.questions.iter().map(|&q| self.behind(library, case, book, planned, q));
        let behind = behind.collect::<Option<Vec<_>>>()?;
        Some(Said { shown, is_settled: numbers[planned.target].count_ones() <= 1, behind })
    }

    /// Where the number that the library shows for a list that may be asked is not what its plain filtering and it itself say behind the
    /// answers to each question. A book or a sheet that has to be refused has none.
    pub fn plan_disagreement(&self, library: &dyn Library, case: &Case, reading: &Reading) -> Option<String> {
        let book = opened(reading, &case.sheet).ok()?;
        case.calls.iter().find_map(|call| {
            let Call::Plan { target, questions } = call else {
                return None;
            };
            let planned = Planned { target: *target, questions };
            if *target >= book.counts.len() || planned.is_refused(book, &case.sheet) {
                return None;
            }
            let said = self.said_of_plan(library, case, book, planned);
            let problem =
                said.as_ref().map_or(Some("a list that may be asked is refused, here or one turn on"), Said::problem)?;
            let (book, sheet) = (hex(&case.book), hex(&case.sheet.bytes()));
            let shown = said.map(|said| (said.shown, said.behind));
            Some(format!("book {book}\nsheet {sheet}\n{call:?}: {problem}\nshown, and behind each question {shown:?}"))
        })
    }
}
