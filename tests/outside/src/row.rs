//! The row behind a code, straight from document 02's M-104 and with no care for speed.

use crate::book::{Book, Table};
use crate::filter::Filter;

/// A code of a field, and a table that the field is in.
#[derive(Clone, Copy, Debug, PartialEq)]
pub struct Pointed {
    pub field: usize,
    pub code: usize,
    pub table: usize,
}

/// A search: the number of a row, or none, for a book, answers, the filter that says what stands, and what is pointed at.
pub type Search = fn(&Book, &[u8], Filter, Pointed) -> Option<usize>;

impl Pointed {
    pub fn table<'a>(&self, book: &'a Book) -> &'a Table {
        &book.tables[self.table]
    }

    /// The row has the code in the field's column, and in each other column a field and code that are so.
    pub fn is_kept(&self, table: &Table, row: &[u8], so: impl Fn(usize, usize) -> bool) -> bool {
        table.fields.iter().zip(row).all(|(&field, &code)| {
            let (field, code) = (field as usize, code as usize);
            if field == self.field {
                code == self.code
            } else {
                so(field, code)
            }
        })
    }
}

/// "None is shown exactly when no row of that table has the code with only standing codes beside it. Whether the chosen code itself
/// stands plays no part." Otherwise the first such row, with nothing lifted.
pub fn first_row(book: &Book, answers: &[u8], largest: Filter, pointed: Pointed) -> Option<usize> {
    let (standing, table) = (largest(book, answers), pointed.table(book));
    table.rows.iter().position(|row| pointed.is_kept(table, row, |field, code| standing[field][code]))
}

/// A row or none as the cells behind the place: found, and the row's number.
pub fn told(row: Option<u64>) -> Vec<u64> {
    vec![row.is_some() as u64, row.unwrap_or(0)]
}

#[cfg(test)]
mod tests {
    use super::{first_row, Pointed};
    use crate::book::{Book, Table};
    use crate::calls::Call;
    use crate::desk::Desk;
    use crate::examples::{e1, e6, two_pairs, E1_ROWS};
    use crate::filter::largest;
    use crate::sheet::{Sheet, NO_ANSWER};

    fn row(book: &Book, answers: &[u8], [field, code, table]: [usize; 3]) -> Option<usize> {
        first_row(book, answers, largest, Pointed { field, code, table })
    }

    #[test]
    fn examples_of_e1() {
        let (desk, book) = (Desk::default(), Ok(e1()));
        for (answers, [field, code, table], expected) in E1_ROWS {
            let sheet = Sheet::of(&answers);
            let call = Call::Row { field, code, table };
            let answer = desk.answer(&call, &book, &sheet);
            let (number, [found, row]) = expected.map_or_else(|number| (number, [0, 0]), |cells| (0, cells));
            let left = answer.left(&call, &Vec::<u8>::new().into());
            assert_eq!((left.number, left.cells, left.sheet), (number, vec![0, found, row], sheet), "{answers:?} {call:?}");
        }
    }

    #[test]
    fn tables_of_one_field() {
        let table = |codes: &[u8]| Table { fields: vec![0], rows: codes.iter().map(|&code| vec![code]).collect() };
        let book = Book::new(vec![4], vec![table(&[2, 2, 0]), table(&[0, 3]), table(&[])]);
        // nothing stands, by the last table
        for answers in [[NO_ANSWER], [0], [1]] {
            let rows = |code| [0, 1, 2].map(|table| row(&book, &answers, [0, code, table]));
            assert_eq!(
                [0, 1, 2, 3].map(rows),
                [[Some(2), Some(0), None], [None; 3], [Some(0), None, None], [None, Some(1), None]]
            );
        }
        assert_eq!(row(&e6(), &[0, NO_ANSWER], [1, 0, 0]), None);
    }

    /// The fields of the first pair contradict each other, those of the second do not.
    #[test]
    fn a_contradiction_and_a_part_beside_it() {
        let answers = [0, 1, 1, NO_ANSWER];
        let rows = |field, table| [0, 1].map(|code| row(&two_pairs(), &answers, [field, code, table]));
        assert_eq!([rows(0, 0), rows(1, 0)], [[None; 2]; 2]);
        assert_eq!([rows(2, 1), rows(3, 1)], [[None, Some(1)]; 2]);
    }

    /// Fields 1 and 2 are answered, so that the rows with other codes of theirs keep nothing.
    #[test]
    fn each_column_of_three() {
        let rows = vec![vec![0, 1, 1], vec![0, 1, 0], vec![0, 0, 0], vec![1, 0, 0], vec![1, 0, 0]];
        let book = Book::new(vec![2; 3], vec![Table { fields: vec![0, 1, 2], rows }]);
        let rows = |field| [0, 1].map(|code| row(&book, &[NO_ANSWER, 0, 0], [field, code, 0]));
        assert_eq!([rows(0), rows(1), rows(2)], [[Some(2), Some(3)], [Some(2), Some(1)], [Some(2), None]]);
    }
}
