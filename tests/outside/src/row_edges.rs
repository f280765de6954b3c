//! The library at each edge of document 02's M-104: every row, table, field, column and code, and numbers that are none of them.

use sighting::{Refusal, Sheet, NO_ANSWER};

use crate::book::{Book, Table};
use crate::examples::{e1, E1_ROWS};
use crate::sheet::{self, FRESH, PLACES};

const NO_SUCH_TABLE: Result<Option<u64>, Refusal> = refused(21, 0);

const fn refused(number: u64, place: u64) -> Result<Option<u64>, Refusal> {
    Err(Refusal { number, place })
}

fn sheet(answers: &[u8]) -> Sheet {
    sheet::Sheet::of(answers).into()
}

/// A table on one field with these codes.
fn one_field(field: u8, codes: &[u8]) -> Table {
    Table { fields: vec![field], rows: codes.iter().map(|&code| vec![code]).collect() }
}

#[test]
fn examples_of_e1() {
    let book = e1().write();
    for (answers, [field, code, table], expected) in E1_ROWS {
        let expected = expected.map(|[found, row]| (found == 1).then_some(row)).map_err(|number| Refusal { number, place: 0 });
        assert_eq!(sheet(&answers).row(&book, field, code, table), expected, "{answers:?}: {field} {code} {table}");
    }
}

/// Four fields of eight codes, and all rows of them; or the first half twice, where the first of two equal rows is shown. Three fields
/// are answered, so that one row has the fourth's code.
#[test]
fn each_row_of_the_largest_table() {
    let row = |i: usize| [9, 6, 3, 0].map(|shift| (i >> shift & 7) as u8).to_vec();
    for different in [4_096, 2_048] {
        let rows: Vec<Vec<u8>> = (0..4_096).map(|i| row(i % different)).collect();
        let book = Book::new(vec![8; 4], vec![Table { fields: vec![0, 1, 2, 3], rows }]).write();
        for i in 0..different {
            let (mut answers, column) = (row(i), i % 4);
            let code = std::mem::replace(&mut answers[column], NO_ANSWER) as usize;
            assert_eq!(sheet(&answers).row(&book, column, code, 0), Ok(Some(i as u64)));
        }
    }
}

/// The row stands behind 4,095 others, of which each has another code, or a code beside it that does not stand.
#[test]
fn the_last_of_the_most_rows() {
    let mut rows = vec![vec![0, 1]; 4_095];
    rows[300] = vec![1, 0];
    rows.push(vec![1, 1]);
    let book = Book::new(vec![3; 2], vec![Table { fields: vec![0, 1], rows }]).write();
    assert_eq!(sheet(&[NO_ANSWER, 1]).row(&book, 0, 1, 0), Ok(Some(4_095)));
    assert_eq!(sheet(&[]).row(&book, 0, 1, 0), Ok(Some(300)));
    assert_eq!(sheet(&[1, 0]).row(&book, 0, 1, 0), Ok(Some(300)));
    assert_eq!(sheet(&[NO_ANSWER, 1]).row(&book, 1, 0, 0), Ok(Some(300)));
    assert_eq!(sheet(&[NO_ANSWER, 2]).row(&book, 0, 1, 0), Ok(None));
}

/// Table t has code 1 in row t, behind as many rows with code 0.
#[test]
fn each_table() {
    let codes = |t: usize| [vec![0; t], vec![1]].concat();
    let book = Book::new(vec![2; 2], (0..64).map(|t| one_field(0, &codes(t))).collect()).write();
    for t in 0..64 {
        assert_eq!(sheet(&[]).row(&book, 0, 1, t), Ok(Some(t as u64)));
        assert_eq!(sheet(&[]).row(&book, 0, 0, t), Ok((t > 0).then_some(0)));
        assert_eq!(sheet(&[]).row(&book, 1, 0, t), NO_SUCH_TABLE);
    }
    for none in (64..600).chain([1 << 16, 1 << 32, (1 << 63) + 63, usize::MAX]) {
        assert_eq!(sheet(&[]).row(&book, 0, 1, none), NO_SUCH_TABLE, "{none}");
    }
}

/// Sixty fields in tables of one to four, where row k has code 1 in column k and 0 in the others: code 1 has that row unless another
/// field of the table is answered by 1, and then code 0 has the other's.
#[test]
fn each_field_in_each_column() {
    for arity in 1..=4 {
        let fields: Vec<u8> = (0..PLACES as u8).collect();
        let row = |k: usize| (0..arity).map(|column| (column == k) as u8).collect();
        let tables = fields.chunks(arity).map(|fields| Table { fields: fields.to_vec(), rows: (0..arity).map(row).collect() });
        let book = Book::new(vec![2; PLACES], tables.collect()).write();
        for field in 0..PLACES {
            let (table, column) = (field / arity, field % arity);
            let rows = |sheet: &Sheet| [0, 1].map(|code| sheet.row(&book, field, code, table));
            let other = (arity > 1).then_some((column == 0) as u64);
            assert_eq!(rows(&Sheet::fresh()), [Ok(other), Ok(Some(column as u64))]);
            for beside in (0..arity).filter(|&beside| beside != column) {
                let mut places = FRESH;
                places.answers[table * arity + beside] = 1;
                assert_eq!(rows(&Sheet::from(places)), [Ok(Some(beside as u64)), Ok(None)]);
            }
            let elsewhere = (table + 1) % (PLACES / arity);
            assert_eq!(Sheet::fresh().row(&book, field, 0, elsewhere), NO_SUCH_TABLE);
        }
    }
}

/// Code c has row 31 - c, whatever the field's answer is.
#[test]
fn each_code() {
    let codes: Vec<u8> = (0..32).rev().collect();
    let beside = Table { fields: vec![0, 1], rows: codes.iter().map(|&code| vec![code, 0]).collect() };
    let book = Book::new(vec![32, 1], vec![one_field(0, &codes), beside]).write();
    for (code, answer) in (0..32).flat_map(|code| (0..32).chain([NO_ANSWER]).map(move |answer| (code, answer))) {
        let rows = [0, 1].map(|table| sheet(&[answer]).row(&book, 0, code, table));
        assert_eq!(rows, [Ok(Some(31 - code as u64)); 2]);
    }
    for none in (32..600).chain([1 << 16, 1 << 32, (1 << 63) + 31, usize::MAX]) {
        assert_eq!(sheet(&[]).row(&book, 0, none, 0), refused(16, 0), "{none}");
        assert_eq!(sheet(&[]).row(&book, none, 0, 0), refused(15, 0), "{none}");
    }
}

/// Nothing stands: a table of two fields has no row, one of one field has one as before.
#[test]
fn answers_that_contradict_each_other() {
    let equal = Table { fields: vec![0, 1], rows: vec![vec![0, 0], vec![1, 1]] };
    let book = Book::new(vec![2; 2], vec![equal, one_field(0, &[1, 0]), one_field(1, &[])]).write();
    for answers in [[0, 1], [1, 0], [NO_ANSWER, NO_ANSWER]] {
        let rows = |field, table| [0, 1].map(|code| sheet(&answers).row(&book, field, code, table));
        assert_eq!([rows(0, 0), rows(1, 0), rows(1, 2)], [[Ok(None); 2]; 3]);
        assert_eq!(rows(0, 1), [Ok(Some(1)), Ok(Some(0))]);
    }
}

/// Everything is wrong, and is put right one after the other.
#[test]
fn refusals_in_their_order() {
    let book = e1().write();
    let row = |answers: &[u8], book: &[u8], field, code, table| sheet(answers).row(book, field, code, table);
    assert_eq!(row(&[9, 9, 9, 9], &book[..34], 3, 3, 2), refused(2, 33));
    assert_eq!(row(&[0, 9, 9, 9], &book, 3, 3, 2), refused(14, 1));
    assert_eq!(row(&[0, 1, 2, 9], &book, 3, 3, 2), refused(14, 3));
    assert_eq!(row(&[0, 1, 2], &book, 3, 3, 2), refused(15, 0));
    assert_eq!(row(&[0, 1, 2], &book, 1, 3, 2), refused(16, 0));
    assert_eq!(row(&[0, 1, 2], &book, 1, 3, 0), refused(16, 0));
    assert_eq!(row(&[0, 1, 2], &book, 1, 2, 2), NO_SUCH_TABLE);
    assert_eq!(row(&[0, 1, 2], &book, 1, 2, 0), NO_SUCH_TABLE);
    assert_eq!(row(&[0, 1, 2], &book, 1, 2, 1), Ok(None));
}
