//! What calls show of document 02's M-109: which tables on the same fields are joined, what is left of their rows and in which order,
//! how large the result is, which refusal comes before which, and the bytes lent.

use std::collections::HashSet;

use crate::book::{Book, Table};
use crate::calls::Call;
use crate::cases::Case;
use crate::desk::Reading;
use crate::joining_asked::Asked;
use crate::pairs::MOST_ROWS;

/// A shape: its name, how often it has to be reached in a run of 52,500 cases, and what has it.
type Shape = (&'static str, u64, fn(&Asked) -> bool);

const BOOKS: &[Shape] = &[
    ("joined", 10_000, |asked| asked.number() == 0),
    ("version 1 with version 1", 3_500, |asked| asked.joins(|both| both.versions() == (1, 1))),
    ("version 1 with version 2", 2_300, |asked| asked.joins(|both| both.versions() == (1, 2))),
    ("version 2 with version 1", 1_300, |asked| asked.joins(|both| both.versions() == (2, 1))),
    ("version 2 with version 2", 3_400, |asked| asked.joins(|both| both.versions() == (2, 2))),
    ("the first lent once more", 1_100, |asked| asked.number() == 0 && asked.is_one_book()),
    ("the same bytes lent twice", 1_300, |asked| asked.number() == 0 && *asked.call == itself_twice(asked.case)),
    ("the first is the result", 430, |asked| asked.joins(|both| both.first == both.result)),
    ("the second is the result", 440, |asked| asked.joins(|both| both.second == both.result)),
    ("both are the result", 280, |asked| asked.joins(|both| both.first == both.result && both.second == both.result)),
    ("the first is the result but for its version", 430, |asked| asked.joins(|both| both.first.version == 1 && both.is_first())),
    ("no tables", 480, |asked| asked.joins(|both| both.result.tables.is_empty())),
    ("no tables in the first alone", 330, |asked| asked.joins(|both| both.tables(0..=0, 1..=64))),
    ("no tables in the second alone", 500, |asked| asked.joins(|both| both.tables(1..=64, 0..=0))),
    ("1 field", 820, |asked| asked.joins(|both| both.first.counts.len() == 1)),
    ("33 to 59 fields", 460, |asked| asked.joins(|both| (33..=59).contains(&both.first.counts.len()))),
    ("60 fields", 930, |asked| asked.joins(|both| both.first.counts.len() == 60)),
    ("half as long again as either book", 45, |asked| asked.writes(|written, first, second| 2 * written > 3 * first.max(second))),
    ("longer than either book", 700, |asked| asked.writes(|written, first, second| written > first.max(second))),
    ("shorter than either book", 5_700, |asked| asked.writes(|written, first, second| written < first.min(second))),
];

const TABLES: &[Shape] = &[
    ("a table on fields of the first alone", 3_800, |asked| asked.has(|on| on.second.is_empty())),
    ("a table on fields of the second alone", 3_200, |asked| asked.has(|on| on.first.is_empty())),
    ("a table on fields of both", 8_200, |asked| asked.has(|on| on.is_in_both())),
    ("two tables on fields of the first alone", 430, |asked| asked.has(|on| on.first.len() == 2 && on.second.is_empty())),
    ("two tables on fields of the second alone", 360, |asked| asked.has(|on| on.first.is_empty() && on.second.len() == 2)),
    ("two tables on fields of the first, one of the second", 460, |asked| {
        asked.has(|on| (on.first.len(), on.second.len()) == (2, 1))
    }),
    ("one table on fields of the first, two of the second", 2_100, |asked| {
        asked.has(|on| (on.first.len(), on.second.len()) == (1, 2))
    }),
    ("five tables on the same fields, or more", 1_600, |asked| asked.has(|on| on.all().len() >= 5)),
    ("a table of 1 field", 6_600, |asked| asked.has(|on| on.result.fields.len() == 1)),
    ("a table of 2 fields", 6_600, |asked| asked.has(|on| on.result.fields.len() == 2)),
    ("a table of 3 fields", 4_100, |asked| asked.has(|on| on.result.fields.len() == 3)),
    ("a table of 4 fields", 3_300, |asked| asked.has(|on| on.result.fields.len() == 4)),
    ("a table on a field from 32 to 58", 1_200, |asked| asked.has(|on| on.result.fields.iter().any(|f| (32..=58).contains(f)))),
    ("a table on field 59", 430, |asked| asked.has(|on| on.result.fields.contains(&59))),
    ("tables out of order in the first alone", 970, |asked| asked.joins(|both| !rise(both.first) && rise(both.second))),
    ("tables out of order in the second alone", 1_000, |asked| asked.joins(|both| rise(both.first) && !rise(both.second))),
    ("tables in order in both, and not one behind the other", 170, |asked| {
        asked.joins(|both| rise(both.first) && rise(both.second) && both.are_mixed())
    }),
    ("a list before one that continues it", 3_400, |asked| asked.joins(|both| both.some_pair(|one, next| next.starts_with(one)))),
    ("three lists that continue each other", 470, |asked| {
        asked.joins(|both| both.fields().windows(3).any(|of| of[1].starts_with(of[0]) && of[2].starts_with(of[1])))
    }),
    ("a longer list before a shorter one", 5_700, |asked| asked.joins(|both| both.some_pair(|one, next| one.len() > next.len()))),
    ("lists that part in the second field", 3_700, |asked| asked.joins(|both| both.lists_part_at(1))),
    ("lists that part in the third field", 840, |asked| asked.joins(|both| both.lists_part_at(2))),
    ("lists that part in the fourth field", 150, |asked| asked.joins(|both| both.lists_part_at(3))),
    ("lists that do not rise from the last field on", 6_100, |asked| {
        asked.joins(|both| both.some_pair(|one, next| one.iter().rev().gt(next.iter().rev())))
    }),
];

const ROWS: &[Shape] = &[
    ("rows of the first left out for the second", 3_500, |asked| asked.has(|on| on.is_narrowed(&on.first))),
    ("rows of the second left out for the first", 2_800, |asked| asked.has(|on| on.is_narrowed(&on.second))),
    ("rows of either left out for the other, some kept", 880, |asked| {
        asked.has(|on| on.is_narrowed(&on.first) && on.is_narrowed(&on.second) && !on.result.rows.is_empty())
    }),
    ("rows left out within the first book alone", 420, |asked| asked.has(|on| on.second.is_empty() && on.is_uneven())),
    ("rows left out within the second book alone", 400, |asked| asked.has(|on| on.first.is_empty() && on.is_uneven())),
    ("rows left out for the last of three tables or more", 1_100, |asked| asked.has(|on| on.is_narrowed_by_last(3))),
    ("the same rows in both books", 5_400, |asked| {
        asked.has(|on| on.is_in_both() && !on.result.rows.is_empty() && on.all().iter().all(|table| on.is_whole(table)))
    }),
    ("no row in common of both books", 1_000, |asked| asked.has(|on| on.is_in_both() && on.has_nothing_in_common())),
    ("no row in common within one book", 200, |asked| asked.has(|on| !on.is_in_both() && on.has_nothing_in_common())),
    ("no row in common, and tables before and behind it", 580, |asked| asked.joins(|both| both.has_empty_between())),
    ("a table without rows in one book, with rows in the other", 1_700, |asked| {
        asked.has(|on| on.is_in_both() && on.all().iter().any(|table| table.rows.is_empty()) && !on.is_without_rows())
    }),
    ("a table without rows in the first alone", 390, |asked| asked.has(|on| on.second.is_empty() && on.is_without_rows())),
    ("a table without rows in the second alone", 590, |asked| asked.has(|on| on.first.is_empty() && on.is_without_rows())),
    ("only tables without rows", 700, |asked| {
        asked
            .joins(|both| !both.result.tables.is_empty() && both.result.rows() == 0 && both.first.rows() + both.second.rows() > 0)
    }),
    ("a row twice in a table of the first", 6_500, |asked| asked.has(|on| on.first.iter().any(|table| repeats(table)))),
    ("a row twice in a table of the second", 7_900, |asked| asked.has(|on| on.second.iter().any(|table| repeats(table)))),
    ("a row twice in each table of both", 4_000, |asked| asked.has(|on| on.is_in_both() && on.all().iter().all(|t| repeats(t)))),
    ("rows out of order in the first", 6_500, |asked| asked.has(|on| on.first.iter().any(|table| !table.rows.is_sorted()))),
    ("rows out of order in the second alone", 2_200, |asked| {
        asked.has(|on| on.first.is_empty() && on.second.iter().any(|table| !table.rows.is_sorted()))
    }),
    ("rows out of order in each table of both", 4_100, |asked| {
        asked.has(|on| on.is_in_both() && on.all().iter().all(|table| !table.rows.is_sorted()))
    }),
    ("rows that part in the first column", 7_700, |asked| asked.has(|on| on.part_at(0))),
    ("rows that part in the second column", 4_300, |asked| asked.has(|on| on.part_at(1))),
    ("rows that part in the third column", 2_500, |asked| asked.has(|on| on.part_at(2))),
    ("rows that part in the fourth column", 990, |asked| asked.has(|on| on.part_at(3))),
    ("rows that do not rise from the last code on", 4_800, |asked| {
        asked.has(|on| on.result.rows.windows(2).any(|pair| pair[0].iter().rev().gt(pair[1].iter().rev())))
    }),
    ("rows with code 31", 860, |asked| asked.has(|on| on.result.rows.concat().contains(&31))),
];

const SIZES: &[Shape] = &[
    ("63 tables", 33, |asked| asked.joins(|both| both.result.tables.len() == 63)),
    ("64 tables", 60, |asked| asked.joins(|both| both.result.tables.len() == 64)),
    ("64 tables, of which neither book has all", 11, |asked| {
        asked.joins(|both| both.result.tables.len() == 64 && both.second.tables.len() < 64 && both.first.tables.len() < 64)
    }),
    ("64 tables, and as many in each book", 20, |asked| {
        asked.joins(|both| both.result.tables.len() == 64 && both.tables(64..=64, 64..=64))
    }),
    ("more than 64 tables in both together", 410, |asked| {
        asked.joins(|both| both.first.tables.len() + both.second.tables.len() > 64)
    }),
    ("4,095 rows", 17, |asked| asked.joins(|both| both.result.rows() == 4_095)),
    ("4,096 rows", 49, |asked| asked.joins(|both| both.result.rows() == 4_096)),
    ("4,096 rows, of which neither book has all", 8, |asked| {
        asked.joins(|both| both.result.rows() == 4_096 && both.first.rows() < 4_096 && both.second.rows() < 4_096)
    }),
    ("4,096 rows in one table", 31, |asked| asked.has(|on| on.result.rows.len() == 4_096)),
    ("256 to 4,095 rows in one table", 74, |asked| asked.has(|on| (256..=4_095).contains(&on.result.rows.len()))),
    ("more than 4,096 rows in both together", 210, |asked| asked.joins(|both| both.first.rows() + both.second.rows() > 4_096)),
    ("8,192 rows in both together", 98, |asked| asked.joins(|both| both.first.rows() + both.second.rows() == 8_192)),
    ("16,898 bytes", 7, |asked| asked.writes(|written, _, _| written == 16_898)),
    ("16,898 bytes asked, 16,897 lent", 7, |asked| asked.writes(|written, _, _| written == 16_898) && asked.lends_less_by(1)),
];

const REFUSALS: &[Shape] = &[
    ("1 to 13 of the first alone", 4_500, |asked| asked.first.is_err() && asked.second.is_ok()),
    ("1 to 13 of the second alone", 2_100, |asked| asked.first.is_ok() && asked.second.is_err()),
    ("1 to 13 of both, the first's above the second's", 440, |asked| asked.are_refused(|first, second| first > second)),
    ("1 to 13 of both, the first's below the second's", 470, |asked| asked.are_refused(|first, second| first < second)),
    ("1 to 13 of both by the same number, at other places", 110, |asked| {
        asked.are_refused(|first, second| first == second) && asked.first.as_ref().err() != asked.second.as_ref().err()
    }),
    ("1 to 13 of the book that is lent twice", 480, |asked| asked.first.is_err() && asked.is_one_book()),
    ("1 to 13 of the second before 25", 340, |asked| asked.first.is_ok() && asked.second.is_err() && asked.has_other_counts()),
    ("25 for the first field alone", 230, |asked| asked.is_25(|first, second| differing(first, second) == [0])),
    ("25 for the last field alone", 160, |asked| {
        asked.is_25(|first, second| first.len() > 1 && differing(first, second) == [first.len() - 1])
    }),
    ("25 for a field in between alone", 160, |asked| {
        asked.is_25(|first, second| matches!(differing(first, second)[..], [field] if field > 0 && field + 1 < first.len()))
    }),
    ("25 for several fields", 88, |asked| asked.is_25(|first, second| differing(first, second).len() > 1)),
    ("25 for a field more in the first", 130, |asked| {
        asked.is_25(|first, second| first.starts_with(second) && first.len() == second.len() + 1)
    }),
    ("25 for a field more in the second", 330, |asked| {
        asked.is_25(|first, second| second.starts_with(first) && second.len() == first.len() + 1)
    }),
    ("25 for two fields fewer in the second, or more", 40, |asked| {
        asked.is_25(|first, second| first.starts_with(second) && first.len() > second.len() + 1)
    }),
    ("25 for counts exchanged", 88, |asked| asked.is_25(|first, second| sorted(first) == sorted(second))),
    ("25 for counts above the first's", 360, |asked| asked.is_25(|first, second| is_above(second, first))),
    ("25 for counts below the first's", 200, |asked| asked.is_25(is_above)),
    ("25 of books with rows", 990, |asked| asked.number() == 25 && asked.are_both(|book| book.rows() > 0)),
    ("25 of tables that could not be joined either", 10, |asked| asked.number() == 25 && asked.would_break()),
    ("25 of books without tables", 54, |asked| asked.number() == 25 && asked.are_both(|book| book.tables.is_empty())),
    ("25 with no byte lent", 1_100, |asked| asked.number() == 25 && asked.lends(|lent| lent == 0)),
    ("25 where enough is lent", 74, |asked| asked.number() == 25 && asked.lends(|lent| lent >= sighting::BOOK_BYTES)),
    ("26 for 65 tables", 35, |asked| asked.is_26(65..=65, 0..=4_096)),
    ("26 for 66 to 127 tables", 20, |asked| asked.is_26(66..=127, 0..=4_096)),
    ("26 for 128 tables", 13, |asked| asked.is_26(128..=128, 0..=4_096)),
    ("26 for 65 tables, of which 64 are in one book", 14, |asked| asked.is_26(65..=65, 0..=4_096) && asked.has_all_but_one()),
    ("26 for 4,097 rows", 26, |asked| asked.is_26(0..=64, 4_097..=4_097)),
    ("26 for 4,098 to 8,191 rows", 15, |asked| asked.is_26(0..=64, 4_098..=8_191)),
    ("26 for 8,192 rows", 12, |asked| asked.is_26(0..=64, 8_192..=8_192)),
    ("26 for a row beside 4,096 of one book", 13, |asked| {
        asked.is_26(0..=64, 4_097..=4_097) && [asked.first, &asked.second].iter().any(|book| has_rows(book, MOST_ROWS))
    }),
    ("26 with no byte lent", 120, |asked| asked.number() == 26 && asked.lends(|lent| lent == 0)),
    ("26 where as much is lent as a book may have", 7, |asked| {
        asked.number() == 26 && asked.lends(|lent| lent >= sighting::BOOK_BYTES)
    }),
];

const LENGTHS: &[Shape] = &[
    ("one byte too few", 10_000, |asked| asked.number() == 0 && asked.lends_less_by(1)),
    ("no byte lent", 320, |asked| asked.number() == 0 && asked.lends(|lent| lent == 0)),
    ("fewer bytes lent", 10_000, |asked| {
        asked.number() == 0 && asked.trials.iter().any(|trial| trial.lent.elements() + 1 < asked.written())
    }),
    ("more bytes lent", 10_000, |asked| {
        asked.number() == 0 && asked.trials.iter().any(|trial| trial.lent.elements() > asked.written())
    }),
    ("as much lent as a book may have", 670, |asked| asked.number() == 0 && asked.lends(|lent| lent == sighting::BOOK_BYTES)),
    ("as much lent as the first book has, too few", 1_700, |asked| asked.is_18_for(asked.case.book.len())),
    ("as much lent as either book has, too few", 700, |asked| {
        asked.is_18_for(asked.case.book.len().max(asked.call.list().len()))
    }),
    ("less lent than the first book has, and enough", 7_100, |asked| {
        asked.trials.iter().any(|trial| trial.left.number == 0 && trial.lent.elements() < asked.case.book.len())
    }),
];

fn every() -> impl Iterator<Item = &'static Shape> {
    [BOOKS, TABLES, ROWS, SIZES, REFUSALS, LENGTHS].into_iter().flatten()
}

/// The names of all shapes, and how often each has to be reached.
pub fn all() -> impl Iterator<Item = (&'static str, u64)> {
    every().map(|(name, least, _)| (*name, *least))
}

fn itself_twice(case: &Case) -> Call {
    Call::Join { second: Some(case.book.clone()) }
}

fn rise(book: &Book) -> bool {
    book.tables.is_sorted_by(|one, next| one.fields <= next.fields)
}

fn repeats(table: &Table) -> bool {
    table.rows.iter().collect::<HashSet<_>>().len() < table.rows.len()
}

fn has_rows(reading: &Reading, rows: usize) -> bool {
    reading.as_ref().is_ok_and(|book| book.rows() == rows)
}

/// The fields whose counts differ; none where there are not as many.
fn differing(first: &[u8], second: &[u8]) -> Vec<usize> {
    let fields = if first.len() == second.len() { first.len() } else { 0 };
    (0..fields).filter(|&field| first[field] != second[field]).collect()
}

fn sorted(counts: &[u8]) -> Vec<u8> {
    let mut counts = counts.to_vec();
    counts.sort();
    counts
}

/// As many fields, each with as many codes at least, and not the same.
fn is_above(counts: &[u8], others: &[u8]) -> bool {
    counts.len() == others.len() && counts != others && counts.iter().zip(others).all(|(one, other)| one >= other)
}

impl Asked<'_> {
    /// The names of the shapes that the call has.
    pub fn shapes(&self) -> impl Iterator<Item = &'static str> + '_ {
        every().filter(|(_, _, has)| has(self)).map(|(name, ..)| *name)
    }
}

#[cfg(test)]
mod tests {
    use super::Asked;
    use crate::book::Book;
    use crate::calls::Call;
    use crate::cases::Case;
    use crate::compare::trials;
    use crate::examples::{e1, with_e1, JOINED};
    use crate::reader::Reader;
    use crate::sheet::FRESH;

    /// The shapes of joining these books, but for those of the lengths lent.
    fn names(first: &[u8], second: Option<&[u8]>) -> Vec<&'static str> {
        let case = Case::new(first.to_vec(), FRESH, vec![Call::Join { second: second.map(<[u8]>::to_vec) }]);
        let reading = Reader::default().read(&case.book);
        let trials = trials(&case, &reading, 1, 0);
        let asked = Asked::by(&case, &reading, &trials).expect("it is a call that joins");
        asked.shapes().filter(|name| !name.contains("lent") && !name.contains("byte")).collect()
    }

    #[test]
    fn shapes_of_e1() {
        let shapes = names(&e1().write(), Some(&with_e1().write()));
        for shape in [
            "version 1 with version 1",
            "a table on fields of the first alone",
            "a table on fields of the second alone",
            "a table on fields of both",
            "tables out of order in the second alone",
            "a list before one that continues it",
            "rows of either left out for the other, some kept",
            "a row twice in a table of the first",
            "a row twice in a table of the second",
        ] {
            assert!(shapes.contains(&shape), "{shape}: {shapes:?}");
        }
        assert!(!shapes.contains(&"the first is the result") && !shapes.contains(&"two tables on fields of the first alone"));
        let again = names(&JOINED, Some(&JOINED));
        assert!(again.contains(&"both are the result") && !again.contains(&"rows of the first left out for the second"));
    }

    #[test]
    fn shapes_of_refusals() {
        let of = |counts: &[u8]| Book::new(counts.to_vec(), Vec::new()).write();
        let without = "25 of books without tables";
        for (first, second, expected) in [
            (&[2, 3][..], &[1, 3][..], &["25 for the first field alone", "25 for counts below the first's", without][..]),
            (&[2, 3], &[2, 4], &["25 for the last field alone", "25 for counts above the first's", without]),
            (&[2, 3], &[3, 2], &["25 for several fields", "25 for counts exchanged", without]),
            (&[2, 3], &[2], &["25 for a field more in the first", without]),
            (&[2], &[2, 3], &["25 for a field more in the second", without]),
            (&[2, 3, 4], &[2], &["25 for two fields fewer in the second, or more", without]),
        ] {
            assert_eq!(names(&of(first), Some(&of(second))), expected, "{first:?} with {second:?}");
        }
        let (good, bad) = (of(&[2]), Book { version: 3, ..Book::new(vec![2], Vec::new()) }.write());
        assert_eq!(names(&good, Some(&bad)), ["1 to 13 of the second alone"]);
        assert_eq!(names(&bad, Some(&good)), ["1 to 13 of the first alone"]);
        assert_eq!(names(&bad, Some(&bad[1..])), ["1 to 13 of both by the same number, at other places"]);
    }
}
