//! What calls show of document 02's M-104: which row is found and what was passed over before it, where there is none, and why a call is
//! refused.

use std::ops::RangeInclusive;

use crate::book::{Book, Table};
use crate::calls::{Call, Left};
use crate::compare::Trial;
use crate::desk::faults;
use crate::filter::{has_empty, largest, Subdomain};
use crate::row::Pointed;
use crate::sheet::{Sheet, NO_ANSWER};

/// A call for a row as it was made on an accepted book.
pub struct Asked<'a> {
    pub call: &'a Call,
    book: &'a Book,
    sheet: &'a Sheet,
    /// What stands; of no field where the sheet is at fault.
    standing: &'a Subdomain,
    pointed: Pointed,
    left: &'a Left,
}

/// A shape: its name, how often it has to be reached in a run of 52,500 cases, and what has it.
type Shape = (&'static str, u64, fn(&Asked) -> bool);

const ANSWERS: [Shape; 26] = [
    ("a row", 6_500, |asked| asked.found().is_some()),
    ("row 0", 3_000, |asked| asked.finds(0..=0)),
    ("row 1 to 254", 3_000, |asked| asked.finds(1..=254)),
    ("row 255", 10, |asked| asked.finds(255..=255)),
    ("row 256", 15, |asked| asked.finds(256..=256)),
    ("row 257", 7, |asked| asked.finds(257..=257)),
    ("row 300", 6, |asked| asked.finds(300..=300)),
    ("row 512 to 4,094", 45, |asked| asked.finds(512..=4_094)),
    ("row 4,095", 6, |asked| asked.finds(4_095..=4_095)),
    ("none", 6_000, |asked| asked.none()),
    ("none in a table without rows", 550, |asked| asked.none() && asked.table().rows.is_empty()),
    ("none in a table without the code", 1_000, |asked| asked.none() && asked.passed_over().count() == 0),
    ("none in a table with the code", 4_500, |asked| asked.none() && asked.passed_over().count() > 0),
    ("none in 4,096 rows", 25, |asked| asked.none() && asked.table().rows.len() == 4_096),
    ("field 32 to 58, a row", 300, |asked| asked.finds_by(|pointed| (32..=58).contains(&pointed.field))),
    ("field 59, a row", 85, |asked| asked.finds_by(|pointed| pointed.field == 59)),
    ("field 59, none", 45, |asked| asked.none() && asked.pointed.field == 59),
    ("code 31, a row", 45, |asked| asked.finds_by(|pointed| pointed.code == 31)),
    ("code 31, none", 70, |asked| asked.none() && asked.pointed.code == 31),
    ("table 0, a row", 2_500, |asked| asked.finds_by(|pointed| pointed.table == 0)),
    ("table 1 to 31, a row", 3_500, |asked| asked.finds_by(|pointed| (1..=31).contains(&pointed.table))),
    ("table 32 to 62, a row", 100, |asked| asked.finds_by(|pointed| (32..=62).contains(&pointed.table))),
    ("table 63, a row", 65, |asked| asked.finds_by(|pointed| pointed.table == 63)),
    ("table 63, none", 90, |asked| asked.none() && asked.pointed.table == 63),
    ("the table before it has another row", 1_000, |asked| asked.beside_has_another(-1)),
    ("the table behind it has another row", 700, |asked| asked.beside_has_another(1)),
];

const COLUMNS: [Shape; 19] = [
    ("column 0 of 1, a row", 3_500, |asked| asked.found().is_some() && asked.is_column(0, 1)),
    ("column 0 of 2, a row", 850, |asked| asked.found().is_some() && asked.is_column(0, 2)),
    ("column 1 of 2, a row", 850, |asked| asked.found().is_some() && asked.is_column(1, 2)),
    ("column 0 of 3, a row", 200, |asked| asked.found().is_some() && asked.is_column(0, 3)),
    ("column 1 of 3, a row", 200, |asked| asked.found().is_some() && asked.is_column(1, 3)),
    ("column 2 of 3, a row", 200, |asked| asked.found().is_some() && asked.is_column(2, 3)),
    ("column 0 of 4, a row", 100, |asked| asked.found().is_some() && asked.is_column(0, 4)),
    ("column 1 of 4, a row", 100, |asked| asked.found().is_some() && asked.is_column(1, 4)),
    ("column 2 of 4, a row", 100, |asked| asked.found().is_some() && asked.is_column(2, 4)),
    ("column 3 of 4, a row", 100, |asked| asked.found().is_some() && asked.is_column(3, 4)),
    ("a row of 2 passed over for column 0", 1_500, |asked| asked.passes_over_for(0, 2)),
    ("a row of 2 passed over for column 1", 1_500, |asked| asked.passes_over_for(1, 2)),
    ("a row of 3 passed over for column 0 alone", 90, |asked| asked.passes_over_for(0, 3)),
    ("a row of 3 passed over for column 1 alone", 80, |asked| asked.passes_over_for(1, 3)),
    ("a row of 3 passed over for column 2 alone", 90, |asked| asked.passes_over_for(2, 3)),
    ("a row of 4 passed over for column 0 alone", 55, |asked| asked.passes_over_for(0, 4)),
    ("a row of 4 passed over for column 1 alone", 45, |asked| asked.passes_over_for(1, 4)),
    ("a row of 4 passed over for column 2 alone", 50, |asked| asked.passes_over_for(2, 4)),
    ("a row of 4 passed over for column 3 alone", 50, |asked| asked.passes_over_for(3, 4)),
];

const CODES: [Shape; 19] = [
    ("a code that stands", 4_000, |asked| asked.is_answered() && asked.stands()),
    ("a code that does not stand, a row", 2_000, |asked| asked.found().is_some() && !asked.stands()),
    ("a code that does not stand of an unanswered field, a row", 650, |asked| {
        asked.found().is_some() && !asked.stands() && asked.held().is_none()
    }),
    ("a code that the field's answer forbids, a row", 1_000, |asked| asked.found().is_some() && asked.is_forbidden()),
    ("a code that the field's answer forbids, none", 2_500, |asked| asked.none() && asked.is_forbidden()),
    ("the field's answer, which does not stand, a row", 200, |asked| {
        asked.found().is_some() && asked.is_held() && !asked.stands()
    }),
    ("the field's answer, which does not stand, none", 950, |asked| asked.none() && asked.is_held()),
    ("one field, a code that stands", 1_500, |asked| asked.is_column(0, 1) && asked.is_answered() && asked.stands()),
    ("one field, a code that does not stand, a row", 1_500, |asked| {
        asked.is_column(0, 1) && asked.found().is_some() && !asked.stands()
    }),
    ("one field, none", 450, |asked| asked.is_column(0, 1) && asked.none()),
    ("nothing stands at all, one field, a row", 700, |asked| {
        asked.is_column(0, 1) && asked.found().is_some() && !asked.standing.concat().contains(&true)
    }),
    ("some field is empty, one field, a row", 1_000, |asked| {
        asked.contradicts() && asked.is_column(0, 1) && asked.found().is_some()
    }),
    ("some field is empty, more fields, a row", 300, |asked| {
        asked.contradicts() && !asked.is_column(0, 1) && asked.found().is_some()
    }),
    ("some field is empty, more fields, none in a table with the code", 4_000, |asked| {
        asked.contradicts() && asked.none() && asked.passed_over().count() > 0
    }),
    ("the row comes again behind it", 3_000, |asked| asked.comes_again(1..=4_096)),
    ("the row comes again next to it", 1_500, |asked| asked.comes_again(1..=1)),
    ("another row with the code and other standing codes behind it", 650, |asked| asked.another_behind()),
    ("a row that comes again before it", 1_000, |asked| asked.repeats_before()),
    ("the code in another column before it", 600, |asked| asked.in_another_column()),
];

/// For each number that is none of the book's, which.
const BEYOND: [Shape; 18] = [
    ("15 for the field behind the last", 500, |asked| asked.lacks(15, next)),
    ("15 for field 255", 250, |asked| asked.lacks(15, |field, _| field == 255)),
    ("15 for field 256", 250, |asked| asked.lacks(15, |field, _| field == 256)),
    ("15 for 2^16 and a field", 300, |asked| asked.lacks(15, |field, fields| is_above(field, 16, fields))),
    ("15 for 2^32 and a field", 300, |asked| asked.lacks(15, |field, fields| is_above(field, 32, fields))),
    ("15 for the largest number", 150, |asked| asked.lacks(15, |field, _| field == usize::MAX)),
    ("16 for the code behind the last", 350, |asked| asked.lacks(16, next)),
    ("16 for code 255", 150, |asked| asked.lacks(16, |code, _| code == 255)),
    ("16 for code 256", 200, |asked| asked.lacks(16, |code, _| code == 256)),
    ("16 for 2^16 and a code", 200, |asked| asked.lacks(16, |code, codes| is_above(code, 16, codes))),
    ("16 for 2^32 and a code", 250, |asked| asked.lacks(16, |code, codes| is_above(code, 32, codes))),
    ("16 for the largest number", 100, |asked| asked.lacks(16, |code, _| code == usize::MAX)),
    ("21 for the table behind the last", 1_000, |asked| asked.lacks(21, next)),
    ("21 for table 255", 150, |asked| asked.lacks(21, |table, _| table == 255)),
    ("21 for table 256", 200, |asked| asked.lacks(21, |table, _| table == 256)),
    ("21 for 2^16 and a table", 200, |asked| asked.lacks(21, |table, tables| is_above(table, 16, tables))),
    ("21 for 2^32 and a table", 200, |asked| asked.lacks(21, |table, tables| is_above(table, 32, tables))),
    ("21 for the largest number", 100, |asked| asked.lacks(21, |table, _| table == usize::MAX)),
];

const REFUSALS: [Shape; 17] = [
    ("21 for no such table", 2_500, |asked| asked.number() == 21 && asked.has_no_table()),
    ("21 for a book without tables", 1_000, |asked| asked.number() == 21 && asked.book.tables.is_empty()),
    ("21 for a field not in the table", 600, |asked| asked.number() == 21 && asked.is_outside()),
    ("21 for a field before the table's", 200, |asked| asked.number() == 21 && asked.lies_outside(|least, _, f| f < least)),
    ("21 for a field between the table's", 100, |asked| {
        asked.number() == 21 && asked.lies_outside(|least, most, f| least < f && f < most)
    }),
    ("21 for a field behind the table's", 200, |asked| asked.number() == 21 && asked.lies_outside(|_, most, f| f > most)),
    ("21 for a field that the table before has", 100, |asked| {
        asked.number() == 21 && asked.is_outside() && asked.is_in_beside(-1)
    }),
    ("21 for a field that the table behind has", 65, |asked| asked.number() == 21 && asked.is_outside() && asked.is_in_beside(1)),
    ("21 for a field not in table 63", 8, |asked| asked.number() == 21 && asked.is_outside() && asked.pointed.table == 63),
    ("21 for a field not in a table without rows", 25, |asked| {
        asked.number() == 21 && asked.is_outside() && asked.table().rows.is_empty()
    }),
    ("14 before 15", 850, |asked| asked.number() == 14 && asked.has_no_field()),
    ("14 before 16", 650, |asked| asked.number() == 14 && asked.has_no_code()),
    ("14 before no such table", 1_500, |asked| asked.number() == 14 && asked.has_no_table()),
    ("14 before a field not in the table", 250, |asked| asked.number() == 14 && asked.is_outside()),
    ("15 before no such table", 950, |asked| asked.number() == 15 && asked.has_no_table()),
    ("16 before no such table", 700, |asked| asked.number() == 16 && asked.has_no_table()),
    ("16 before a field not in the table", 200, |asked| asked.number() == 16 && asked.is_outside()),
];

/// The names of all shapes, and how often each has to be reached.
pub fn all() -> impl Iterator<Item = (&'static str, u64)> {
    every().map(|(name, least, _)| (*name, *least))
}

fn every() -> impl Iterator<Item = &'static Shape> {
    ANSWERS.iter().chain(&COLUMNS).chain(&CODES).chain(&BEYOND).chain(&REFUSALS)
}

/// What stands on the sheet, by an accepted book; of no field where the sheet is at fault.
pub fn standing(book: &Book, sheet: &Sheet) -> Subdomain {
    if faults(book, sheet).next().is_some() {
        return Vec::new();
    }
    largest(book, &sheet.answers)
}

pub fn next(number: usize, count: usize) -> bool {
    number == count
}

/// The number is one below the count and this bit more.
pub fn is_above(number: usize, bit: u32, count: usize) -> bool {
    number.checked_sub(1 << bit).is_some_and(|low| low < count)
}

impl<'a> Asked<'a> {
    /// None where the trial is of another call.
    pub fn by(book: &'a Book, sheet: &'a Sheet, standing: &'a Subdomain, trial: &'a Trial) -> Option<Asked<'a>> {
        let Call::Row { field, code, table } = *trial.call else {
            return None;
        };
        Some(Asked { call: trial.call, book, sheet, standing, pointed: Pointed { field, code, table }, left: &trial.left })
    }

    /// The names of the shapes that the call has.
    pub fn shapes(&self) -> impl Iterator<Item = &'static str> + '_ {
        every().filter(|(_, _, has)| has(self)).map(|(name, ..)| *name)
    }

    fn number(&self) -> u64 {
        self.left.number
    }

    fn is_answered(&self) -> bool {
        self.number() == 0
    }

    fn found(&self) -> Option<usize> {
        (self.is_answered() && self.left.cells[1] == 1).then_some(self.left.cells[2] as usize)
    }

    fn none(&self) -> bool {
        self.is_answered() && self.found().is_none()
    }

    fn finds(&self, rows: RangeInclusive<usize>) -> bool {
        self.found().is_some_and(|row| rows.contains(&row))
    }

    fn finds_by(&self, so: impl Fn(&Pointed) -> bool) -> bool {
        self.found().is_some() && so(&self.pointed)
    }

    fn table(&self) -> &Table {
        self.pointed.table(self.book)
    }

    /// The column of the field in an answered call's table.
    fn column(&self) -> usize {
        self.table().fields.iter().position(|&f| f as usize == self.pointed.field).expect("the field is in the table")
    }

    fn is_column(&self, column: usize, arity: usize) -> bool {
        self.is_answered() && self.table().fields.len() == arity && self.column() == column
    }

    /// The rows with the code before the one found, or all of them where none is.
    fn passed_over(&self) -> impl Iterator<Item = &Vec<u8>> {
        let (table, column) = (self.table(), self.column());
        let rows = &table.rows[..self.found().unwrap_or(table.rows.len())];
        rows.iter().filter(move |row| row[column] as usize == self.pointed.code)
    }

    /// Some row is passed over since a code of this column, and of no other, does not stand.
    fn passes_over_for(&self, column: usize, arity: usize) -> bool {
        let struck = |row: &[u8], k: usize| !self.standing[self.table().fields[k] as usize][row[k] as usize];
        let for_it = |row: &Vec<u8>| (0..arity).all(|k| k == self.column() || struck(row, k) == (k == column));
        self.is_answered() && self.table().fields.len() == arity && self.column() != column && self.passed_over().any(for_it)
    }

    /// The table before or behind it answers too, and otherwise.
    fn beside_has_another(&self, step: isize) -> bool {
        let Some(row) = self.found() else {
            return false;
        };
        let beside = Pointed { table: self.pointed.table.wrapping_add_signed(step), ..self.pointed };
        let is_kept = |table: &Table, row: &[u8]| beside.is_kept(table, row, |field, code| self.standing[field][code]);
        let shown = |table: &Table| table.rows.iter().position(|row| is_kept(table, row));
        self.is_in_beside(step) && shown(beside.table(self.book)) != Some(row)
    }

    fn stands(&self) -> bool {
        self.standing[self.pointed.field][self.pointed.code]
    }

    /// The answer of an answered call's field.
    fn held(&self) -> Option<usize> {
        Some(self.sheet.answers[self.pointed.field]).filter(|&code| code != NO_ANSWER).map(usize::from)
    }

    fn is_held(&self) -> bool {
        self.held() == Some(self.pointed.code)
    }

    fn is_forbidden(&self) -> bool {
        self.held().is_some_and(|code| code != self.pointed.code)
    }

    fn contradicts(&self) -> bool {
        self.is_answered() && has_empty(self.standing)
    }

    /// The row found comes again so far behind it.
    fn comes_again(&self, behind: RangeInclusive<usize>) -> bool {
        self.found().is_some_and(|found| {
            let rows = &self.table().rows;
            (found + 1..rows.len()).any(|row| rows[row] == rows[found] && behind.contains(&(row - found)))
        })
    }

    /// Another row behind the one found keeps the code too.
    fn another_behind(&self) -> bool {
        let keeps = |row: &[u8]| self.pointed.is_kept(self.table(), row, |field, code| self.standing[field][code]);
        self.found().is_some_and(|found| {
            let rows = &self.table().rows;
            rows[found + 1..].iter().any(|row| *row != rows[found] && keeps(row))
        })
    }

    /// Of the rows before the one found, some row is repeated among them.
    fn repeats_before(&self) -> bool {
        self.found().is_some_and(|found| {
            let rows = &self.table().rows[..found];
            (1..rows.len()).any(|k| rows[..k].contains(&rows[k]))
        })
    }

    /// A row before the one found has the code, but not in the field's column.
    fn in_another_column(&self) -> bool {
        self.found().is_some_and(|found| {
            let has = |row: &Vec<u8>| row.iter().any(|&code| code as usize == self.pointed.code);
            self.table().rows[..found].iter().any(|row| has(row) && row[self.column()] as usize != self.pointed.code)
        })
    }

    /// The call is refused by this number, and what it names and the book's count of these are so.
    fn lacks(&self, number: u64, so: fn(usize, usize) -> bool) -> bool {
        self.number() == number
            && match number {
                15 => so(self.pointed.field, self.book.counts.len()),
                16 => so(self.pointed.code, self.book.counts[self.pointed.field] as usize),
                _ => self.has_no_table() && so(self.pointed.table, self.book.tables.len()),
            }
    }

    fn has_no_field(&self) -> bool {
        self.pointed.field >= self.book.counts.len()
    }

    fn has_no_code(&self) -> bool {
        self.book.counts.get(self.pointed.field).is_some_and(|&count| self.pointed.code >= count as usize)
    }

    fn has_no_table(&self) -> bool {
        self.pointed.table >= self.book.tables.len()
    }

    /// Both are of the book, and the field is not in the table.
    fn is_outside(&self) -> bool {
        !self.has_no_field() && !self.has_no_table() && !self.is_in_beside(0)
    }

    /// The field is not in the table, and lies so to its first field and its last.
    fn lies_outside(&self, so: fn(usize, usize, usize) -> bool) -> bool {
        self.is_outside() && {
            let fields = &self.table().fields;
            so(fields[0] as usize, fields[fields.len() - 1] as usize, self.pointed.field)
        }
    }

    /// The table so far from this one is there and has the field.
    fn is_in_beside(&self, step: isize) -> bool {
        let beside = self.book.tables.get(self.pointed.table.wrapping_add_signed(step));
        beside.is_some_and(|table| table.fields.iter().any(|&f| f as usize == self.pointed.field))
    }
}

#[cfg(test)]
mod tests {
    use super::{standing, Asked};
    use crate::book::{Book, Table};
    use crate::calls::Call;
    use crate::cases::Case;
    use crate::compare::trials;
    use crate::examples::{e1, E1_ROWS};
    use crate::sheet::{Sheet, PLACES};

    /// The shapes of a call for a row on this book, with these answers.
    fn names(book: &Book, answers: &[u8], [field, code, table]: [usize; 3]) -> Vec<&'static str> {
        let case = Case::new(book.write(), Sheet::of(answers), vec![Call::Row { field, code, table }]);
        let (standing, trials) = (standing(book, &case.sheet), trials(&case, &Ok(book.clone()), 1, 0));
        let asked = Asked::by(book, &case.sheet, &standing, &trials[0]).expect("it is a call for a row");
        asked.shapes().collect()
    }

    #[test]
    fn shapes_of_e1() {
        let shapes = E1_ROWS.map(|(answers, asked, _)| names(&e1(), &answers, asked));
        let row = ["a row", "row 1 to 254", "table 0, a row", "column 1 of 2, a row"];
        assert_eq!(shapes[0], [&row[..], &["a code that stands", "the row comes again behind it"]].concat());
        let over = ["a row of 2 passed over for column 1", "a code that stands", "the row comes again behind it"];
        assert_eq!(shapes[1][shapes[1].len() - 3..], over);
        let stands_not = ["a code that does not stand, a row", "a code that does not stand of an unanswered field, a row"];
        assert!(stands_not.iter().all(|name| shapes[2].contains(name)));
        let none = ["none", "none in a table with the code", "a row of 2 passed over for column 1"];
        assert_eq!(shapes[3], [&none[..], &["a code that the field's answer forbids, none"]].concat());
        assert!(shapes[5].starts_with(&["21 for a field not in the table", "21 for a field between the table's"]));
        assert_eq!(shapes[6], ["21 for the table behind the last", "21 for no such table"]);
        assert_eq!(shapes[7], ["16 for the code behind the last", "16 before no such table"]);
        assert_eq!(shapes[8], ["15 for the field behind the last", "15 before no such table"]);
        assert!(shapes[10].contains(&"a code that the field's answer forbids, a row"));
    }

    #[test]
    fn shapes_of_numbers_and_faults() {
        let book = Book::new(vec![2; 60], vec![Table { fields: vec![59], rows: vec![vec![1]; 257] }]);
        let row = names(&book, &[], [59, 1, 0]);
        assert_eq!(row[..4], ["a row", "row 0", "field 59, a row", "table 0, a row"]);
        assert_eq!(names(&book, &[], [59, 0, 0])[..3], ["none", "none in a table without the code", "field 59, none"]);
        assert_eq!(names(&book, &[], [(1 << 16) + 59, 0, 0]), ["15 for 2^16 and a field"]);
        assert_eq!(names(&book, &[], [59, (1 << 32) + 1, 0]), ["16 for 2^32 and a code"]);
        assert_eq!(names(&book, &[], [59, 0, usize::MAX]), ["21 for the largest number", "21 for no such table"]);
        let mut at_fault = [0; PLACES];
        at_fault[7] = 2;
        assert_eq!(names(&book, &at_fault, [60, 0, 1]), ["14 before 15", "14 before no such table"]);
        assert_eq!(names(&book, &at_fault, [58, 2, 0]), ["14 before 16", "14 before a field not in the table"]);
    }
}
