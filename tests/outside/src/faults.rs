//! Books with faults: one by itself, or two at once, to see which of them is named.

use crate::book::{field_limit, Book};
use crate::draft::{Draft, TableDraft};
use crate::random::Random;

/// A fault: its name, and how it is made in a draft; in the table of that number, if it is a table's and the book has tables.
type Fault = (&'static str, fn(&mut Draft, &mut Random, usize));

/// In the order in which document 01 tests for them.
pub const FAULTS: [Fault; 15] = [
    ("1", |draft, r, _| draft.length = Some(if r.one_in(2) { r.from(0, 5) } else { 32_769 + r.from(0, 3) })),
    ("2", |draft, r, _| draft.closing = r.from(0, 0xE4) as u8),
    ("3", |draft, r, _| draft.version = r.one_of(&[0, 3, 4, 129, 130, 255])),
    ("4", |draft, r, _| draft.spoil_fields(r)),
    ("5", |draft, r, _| draft.table_count = r.from(65, 255) as u8),
    ("6", |draft, r, _| draft.off = [1, 2, 256, u16::MAX, r.from(1, 65_535) as u16][r.from(0, 4)]),
    ("7", |draft, r, _| draft.spoil_count(r)),
    ("8 of no byte", |draft, _, _| draft.table_count = (draft.tables.len() + 1).min(64) as u8),
    ("9", |draft, r, table| draft.in_table(table, |draft| draft.arity = [0, 5, 6, 255][r.from(0, 3)])),
    ("the head's 8", |draft, r, table| draft.cut_head(r, table)),
    ("10", |draft, r, table| draft.spoil_field(r, table)),
    ("the rows' 8", |draft, r, table| draft.in_table(table, |draft| draft.rows = more_rows(r, draft.rows))),
    ("12", |draft, r, table| draft.exceed_rows(r, table)),
    ("11", |draft, r, table| draft.spoil_code(r, table)),
    ("13", |draft, r, _| draft.left_over.extend((0..r.from(1, 3)).map(|_| r.word() as u8))),
];

/// The places in the order of one fault, of the same twice, of two that are tested for one after the other, or of any two.
pub fn some_faults(r: &mut Random) -> Vec<usize> {
    let last = FAULTS.len() - 1;
    let (first, second) = (r.from(0, last), r.from(0, last));
    match r.from(0, 3) {
        0 => vec![first],
        1 => vec![first; 2],
        2 => vec![first.min(last - 1), first.min(last - 1) + 1],
        _ => vec![first.min(second), first.max(second)],
    }
}

impl Draft {
    /// No field, or more than the version allows. A number that is no version has version 1's limit here, so that numbers of fields
    /// that version 2 allows stand beside it too.
    fn spoil_fields(&mut self, r: &mut Random) {
        let above = field_limit(self.version).max(field_limit(1)) + 1;
        let some = r.from(above, 255);
        self.fields = r.one_of(&[0, above, some, 255]) as u8;
    }

    fn spoil_count(&mut self, r: &mut Random) {
        let field = r.from(0, self.counts.len() - 1);
        self.counts[field] = [0, 33, 64, 255][r.from(0, 3)];
    }

    /// Changes the table, if the book has tables.
    fn in_table(&mut self, table: usize, change: impl FnOnce(&mut TableDraft)) {
        self.tables.get_mut(table).map(change);
    }

    /// The field list moves into the table's head. Where only the last byte is missing, the number of rows is 0 as far as it stands.
    fn cut_head(&mut self, r: &mut Random, table: usize) {
        let Some(draft) = self.tables.get_mut(table) else {
            return;
        };
        let whole = draft.fields.len() + 3;
        let kept = if r.one_in(2) { whole - 1 } else { r.from(1, whole - 1) };
        if kept == whole - 1 {
            draft.rows &= 0xFF00;
        }
        self.cut = Some((table, kept));
        self.table_count = (table + 1) as u8;
    }

    /// A field number that is too large, or does not rise.
    fn spoil_field(&mut self, r: &mut Random, table: usize) {
        let fields = self.counts.len();
        self.in_table(table, |draft| {
            let j = r.from(0, draft.fields.len() - 1);
            draft.fields[j] = match r.from(0, 3) {
                0 if j > 0 => draft.fields[j - 1],
                1 if j > 0 => r.from(0, draft.fields[j - 1] as usize) as u8,
                2 => fields as u8,
                _ => r.from(fields, 255) as u8,
            };
        });
    }

    /// More rows of zeros, so that all tables together have too many.
    fn exceed_rows(&mut self, r: &mut Random, table: usize) {
        let others: usize = self.tables.iter().enumerate().filter(|(i, _)| *i != table).map(|(_, t)| t.rows as usize).sum();
        let rows = 4_097usize.saturating_sub(others) + r.from(0, 3);
        self.in_table(table, |draft| {
            draft.rows = rows as u16;
            draft.codes.resize(rows * draft.fields.len(), 0);
        });
    }

    /// A code that its field lacks, if the table has rows.
    fn spoil_code(&mut self, r: &mut Random, table: usize) {
        let Some(draft) = self.tables.get_mut(table).filter(|draft| !draft.codes.is_empty()) else {
            return;
        };
        let k = r.from(0, draft.codes.len() - 1);
        let field = draft.fields[k % draft.fields.len()] as usize;
        let count = self.counts.get(field).copied().unwrap_or(0);
        draft.codes[k] = if r.one_in(2) { count } else { r.from(count as usize, 255) as u8 };
    }
}

/// One row more, or a number with one bit more.
fn more_rows(r: &mut Random, rows: u16) -> u16 {
    if r.one_in(4) {
        rows + 1
    } else {
        rows | 1 << r.from(0, 15)
    }
}

/// The book's bytes with these faults; two are mostly in the same table.
pub fn faulty(r: &mut Random, book: &Book, faults: &[usize]) -> Vec<u8> {
    let mut draft = Draft::of(book);
    let last = book.tables.len().saturating_sub(1);
    let mut table = r.from(0, last);
    for &fault in faults {
        FAULTS[fault].1(&mut draft, r, table);
        if r.one_in(4) {
            table = r.from(0, last);
        }
    }
    draft.write()
}

/// The book's bytes with the other version.
pub fn turned(book: &Book) -> Vec<u8> {
    Draft { version: 3 - book.version, ..Draft::of(book) }.write()
}

/// The book's bytes with one of them changed.
pub fn changed(r: &mut Random, book: &Book) -> Vec<u8> {
    let mut bytes = book.write();
    let place = r.from(0, bytes.len() - 1);
    bytes[place] = r.word() as u8;
    bytes
}

#[cfg(test)]
mod tests {
    use super::{faulty, FAULTS};
    use crate::book::{Book, Table};
    use crate::random::Random;
    use crate::reader::Reader;

    /// A fault is made at random, and in few books it is none: in a hundred tries each is refused by its own number.
    #[test]
    fn each_fault_is_refused_by_its_number() {
        let table = |fields: [u8; 2]| Table { fields: fields.to_vec(), rows: vec![vec![0, 0], vec![1, 1]] };
        let book = Book::new(vec![2; 3], vec![table([0, 1]), table([1, 2])]);
        let (reader, mut r) = (Reader::default(), Random(1));
        assert_eq!(reader.read(&book.write()), Ok(book.clone()));
        for (fault, number) in [1, 2, 3, 4, 5, 6, 7, 8, 9, 8, 10, 8, 12, 11, 13].into_iter().enumerate() {
            let refused =
                |r: &mut Random| reader.read(&faulty(r, &book, &[fault])).is_err_and(|refusal| refusal.number == number);
            assert!((0..100).any(|_| refused(&mut r)), "{}", FAULTS[fault].0);
        }
    }
}
