//! The lines and the standing codes of tree books, held against the full readings that they have.

use crate::book::Book;
use crate::calls::Call;
use crate::cases::Case;
use crate::compare::{hex, Rooms};
use crate::desk::{opened, Reading};
use crate::filter::relaxed;
use crate::library::Library;
use crate::meaning::{is_looked_at, Readings};
use crate::memory::End;
use crate::sheet::NO_ANSWER;

impl Rooms {
    /// Whether the library accepts the book as a tree book.
    fn is_tree(&self, library: &dyn Library, case: &Case) -> bool {
        let left = self.left(library, case, &Call::ReadTree, &Vec::<u8>::new().into(), End::Back);
        left.is_some_and(|left| left.number == 0)
    }

    /// What does not fit together of an accepted tree book and a sheet that is not at fault.
    fn meaning_problem(&self, library: &dyn Library, case: &Case, book: &Book) -> Option<String> {
        let readings = Readings::of(book);
        let (listed, meant) = (self.pairs(library, case), readings.pairs(&case.sheet));
        if listed.as_ref() != Some(&meant) {
            return Some(format!("by full readings {meant:?}\nlisted           {listed:?}"));
        }
        let answered = (0..book.counts.len()).filter(|&field| case.sheet.is_answered(field));
        let lifted = answered.map(|field| (field, relaxed(&case.sheet.answers, field)));
        lifted.chain([(NO_ANSWER as usize, case.sheet.answers.to_vec())]).find_map(|(field, answers)| {
            let (standing, meant) = (self.numbers(library, case, book, field), readings.codes(&answers));
            // "with no field empty" the standing codes are those of readings; with some, there is no reading
            let fits =
                standing.as_ref().is_some_and(|codes| if codes.contains(&0) { meant.contains(&0) } else { *codes == meant });
            (!fits).then(|| format!("field {field} relaxed\nby full readings {meant:?}\nstanding         {standing:?}"))
        })
    }

    /// Where the lines or the numbers of a tree book are not what its full readings say. A book or a sheet that has to be refused has none,
    /// and a book with too many readings is not looked at.
    pub fn meaning_disagreement(&self, library: &dyn Library, case: &Case, reading: &Reading) -> Option<String> {
        let book = opened(reading, &case.sheet).ok()?;
        if !is_looked_at(book) || !self.is_tree(library, case) {
            return None;
        }
        let problem = self.meaning_problem(library, case, book)?;
        Some(format!("book {}\nsheet {}\n{problem}", hex(&case.book), hex(&case.sheet.bytes())))
    }
}

#[cfg(test)]
mod tests {
    use crate::book::Book;
    use crate::cases::Case;
    use crate::compare::Rooms;
    use crate::examples::{e1, e4, e6};
    use crate::library::{Exported, Wrapper};
    use crate::sheet::{Sheet, FRESH};

    fn has_problem(book: &Book, sheet: Sheet) -> bool {
        let case = Case::new(book.write(), sheet, Vec::new());
        let problems =
            [Rooms::default().meaning_problem(&Exported, &case, book), Rooms::default().meaning_problem(&Wrapper, &case, book)];
        assert_eq!(problems[0].is_some(), problems[1].is_some());
        problems[0].is_some()
    }

    #[test]
    fn codes_of_tree_books_are_those_of_readings() {
        for answers in [&[][..], &[0, 1], &[1, 0], &[1, 2, 2]] {
            assert!(!has_problem(&e1(), Sheet::of(answers)), "{answers:?}");
            assert!(!has_problem(&e6(), Sheet::of(&answers[..answers.len().min(1)])), "{answers:?}");
        }
        assert!(!has_problem(&e1(), Sheet::of(&[0, 1]).with_photographs(&[0])));
    }

    /// The comparison finds a ring's standing codes without a reading, and with an answer its lines.
    #[test]
    fn those_of_a_ring_are_not() {
        assert!(has_problem(&e4(), FRESH));
        assert!(has_problem(&e4(), Sheet::of(&[0])));
        assert!(!has_problem(&e4(), Sheet::of(&[0, 0])));
    }
}
