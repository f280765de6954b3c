//! Two books joined, straight from document 02's M-109. Whether the result breaks a limit is not counted: its bytes are read.

use std::collections::BTreeSet;

use crate::book::{Book, Refusal, Table};
use crate::desk::{accepted, refuse_if, Desk, Reading};
use crate::reader::Reader;

/// How two accepted books are joined, by its parts.
#[derive(Clone, Copy)]
pub struct Joining {
    /// "25: code counts differ."
    pub differ: fn(&Book, &Book) -> bool,
    /// The result, whatever limits it breaks.
    pub joined: fn(&Book, &Book) -> Book,
    /// "26: the result breaks a limit of version 2."
    pub breaks: fn(&Book) -> bool,
}

impl Default for Joining {
    fn default() -> Joining {
        Joining { differ: |first, second| first.counts != second.counts, joined, breaks }
    }
}

/// "Its rows are those in every table on these fields in either book, each one time, rising by the first code where they part."
fn in_every(tables: &[&Table]) -> Vec<Vec<u8>> {
    let sets: Vec<BTreeSet<&Vec<u8>>> = tables.iter().map(|table| table.rows.iter().collect()).collect();
    sets[0].iter().filter(|row| sets.iter().all(|set| set.contains(*row))).map(|row| row.to_vec()).collect()
}

/// "Make one book, version 2. Each set of fields that occurs in either has one table, and no other set has any. Tables rise by their
/// field lists, a shorter list before one that continues it."
pub fn joined(first: &Book, second: &Book) -> Book {
    let all: Vec<&Table> = first.tables.iter().chain(&second.tables).collect();
    let sets: BTreeSet<&Vec<u8>> = all.iter().map(|table| &table.fields).collect();
    let on = |fields: &Vec<u8>| all.iter().copied().filter(|table| table.fields == *fields).collect::<Vec<_>>();
    let tables = sets.into_iter().map(|fields| Table { fields: fields.clone(), rows: in_every(&on(fields)) }).collect();
    Book { version: 2, counts: first.counts.clone(), tables }
}

/// Reading refuses what is laid out.
pub fn breaks(book: &Book) -> bool {
    Reader::default().read(&book.write()).is_err()
}

impl Desk {
    /// The bytes of the first book joined with the second, or with itself: 1 to 13 of the first, 1 to 13 of the second, 25, 26.
    pub fn join(&self, reading: &Reading, second: Option<&[u8]>) -> Result<Vec<u8>, Refusal> {
        let first = accepted(reading)?;
        let other = second.map(|bytes| self.reader.read(bytes));
        let second = accepted(other.as_ref().unwrap_or(reading))?;
        refuse_if((self.joining.differ)(first, second), 25)?;
        let joined = (self.joining.joined)(first, second);
        refuse_if((self.joining.breaks)(&joined), 26)?;
        Ok(joined.write())
    }
}

#[cfg(test)]
mod tests {
    use super::{breaks, joined};
    use crate::book::{refuse, Book, Table};
    use crate::calls::Call;
    use crate::desk::{Desk, Reading};
    use crate::examples::{e1, e4, e6, with_e1, JOINED};
    use crate::nearest::full_readings;
    use crate::sheet::FRESH;

    fn table(fields: &[u8], rows: &[&[u8]]) -> Table {
        Table { fields: fields.to_vec(), rows: rows.iter().map(|row| row.to_vec()).collect() }
    }

    /// The fields of each table of the result and its rows.
    fn tables(first: Vec<Table>, second: Vec<Table>) -> Vec<Table> {
        let of = |tables: Vec<Table>| Book::new(vec![3; 4], tables);
        joined(&of(first), &of(second)).tables
    }

    #[test]
    fn rows_in_every_table() {
        let (wide, narrow) = (table(&[0, 1], &[&[2, 0], &[0, 1], &[0, 0], &[2, 0]]), table(&[0, 1], &[&[0, 1], &[2, 0]]));
        for (first, second) in
            [(vec![&wide], vec![&narrow]), (vec![&narrow, &wide], Vec::new()), (Vec::new(), vec![&wide, &narrow])]
        {
            let of = |tables: Vec<&Table>| tables.into_iter().cloned().collect();
            assert_eq!(tables(of(first), of(second)), [table(&[0, 1], &[&[0, 1], &[2, 0]])]);
        }
        assert_eq!(tables(vec![wide.clone()], Vec::new()), [table(&[0, 1], &[&[0, 0], &[0, 1], &[2, 0]])]);
        assert_eq!(tables(vec![wide], vec![narrow, table(&[0, 1], &[])]), [table(&[0, 1], &[])]);
        assert_eq!(tables(Vec::new(), Vec::new()), []);
    }

    #[test]
    fn tables_by_their_fields() {
        let sets: [&[u8]; 7] = [&[0], &[0, 1], &[0, 1, 2, 3], &[0, 1, 3], &[0, 2], &[1], &[1, 2, 3]];
        let empty = |which: &[usize]| which.iter().map(|&k| table(sets[k], &[])).collect::<Vec<_>>();
        assert_eq!(tables(empty(&[5, 2, 1]), empty(&[6, 4, 3, 0])), empty(&[0, 1, 2, 3, 4, 5, 6]));
        assert_eq!(tables(empty(&[6, 6, 0]), empty(&[6, 0])), empty(&[0, 6]));
    }

    #[test]
    fn examples_of_e1() {
        let second = with_e1();
        assert_eq!(joined(&e1(), &second).write(), JOINED);
        assert_eq!(joined(&second, &e1()).write(), JOINED);
        let full: Vec<Vec<u8>> = full_readings(&joined(&e1(), &second)).collect();
        assert_eq!(full, [[0, 1, 1]]);
    }

    /// A book is joined with itself: what is sorted and has no repeats stays, in version 2.
    #[test]
    fn books_with_themselves() {
        assert_eq!(joined(&e4(), &e4()), Book { version: 2, ..e4() });
        let sorted = joined(&e1(), &e1());
        assert_eq!((sorted.version, sorted.tables[0].rows.len(), joined(&sorted, &sorted)), (2, 3, sorted.clone()));
        assert_eq!(joined(&e6(), &e6()), Book { version: 2, ..e6() });
    }

    /// The call's number, its cells, and the bytes that it leaves of as many.
    fn left(first: &Reading, second: Option<Vec<u8>>, lent: usize) -> (u64, Vec<u64>, Vec<u8>) {
        let call = Call::Join { second };
        let left = Desk::default().answer(&call, first, &FRESH).left(&call, &vec![7u8; lent].into());
        (left.number, left.cells, left.out.bytes)
    }

    #[test]
    fn refusals_in_their_order() {
        let (first, other) = (Ok(e1()), Book::new(vec![2, 3, 3, 1], Vec::new()));
        let broken = |place: usize| e1().write()[..place].to_vec();
        assert_eq!(left(&refuse(9, 4), Some(broken(34)), 0), (9, vec![4, 0], Vec::new()));
        assert_eq!(left(&refuse(9, 4), None, 1), (9, vec![4, 0], vec![7]));
        assert_eq!(left(&first, Some(broken(34)), 1), (2, vec![33, 0], vec![7]));
        assert_eq!(left(&first, Some(broken(5)), 1), (1, vec![0, 0], vec![7]));
        assert_eq!(left(&first, Some(other.write()), 0), (25, vec![0, 0], Vec::new()));
        assert_eq!(left(&Ok(other), Some(e1().write()), 0), (25, vec![0, 0], Vec::new()));
        let itself = joined(&e1(), &e1()).write();
        assert_eq!(left(&first, None, 32), (18, vec![0, 0], vec![7; 32]));
        assert_eq!(left(&first, None, 34), (0, vec![0, 33], [&itself[..], &[7]].concat()));
        assert_eq!(left(&first, Some(e1().write()), 33), (0, vec![0, 33], itself));
    }

    /// So many tables on different sets of fields, of one row each but for the last, which has more.
    fn sized(sets: usize, rows: usize) -> Book {
        let fields = |i: u8| if i < 60 { vec![i] } else { vec![0, i - 59] };
        let row = |i: usize, columns: usize| [i / 32 % 32, i % 32][2 - columns..].iter().map(|&code| code as u8).collect();
        let of = |i: usize| {
            let (fields, more) = (fields(i as u8), if i + 1 == sets { rows - sets + 1 } else { 1 });
            Table { rows: (0..more).map(|k| row(k, fields.len())).collect(), fields }
        };
        Book { version: 2, ..Book::new(vec![32; 60], (0..sets).map(of).collect()) }
    }

    /// 26 where there are more than 64 tables or more than 4,096 rows, and nowhere else.
    #[test]
    fn limits() {
        for (sets, rows, expected) in [(64, 64, false), (65, 65, true), (128, 128, true), (64, 1_087, false)] {
            assert_eq!(breaks(&sized(sets, rows)), expected, "{sets} tables, {rows} rows");
        }
        let all: Vec<Vec<u8>> = (0..4_097u32).map(|i| vec![(i >> 10) as u8, (i >> 5 & 31) as u8, (i & 31) as u8]).collect();
        let of = |rows: &[Vec<u8>]| Book::new(vec![32; 3], vec![Table { fields: vec![0, 1, 2], rows: rows.to_vec() }]);
        assert!(!breaks(&of(&all[1..])) && breaks(&of(&all)));
    }
}
