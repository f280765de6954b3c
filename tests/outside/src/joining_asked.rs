//! Calls that join two books as they were made, and what is asked of them, their tables and their rows.

use std::collections::HashSet;
use std::ops::RangeInclusive;

use crate::book::{Book, Table};
use crate::calls::Call;
use crate::cases::Case;
use crate::compare::Trial;
use crate::desk::Reading;
use crate::joining::joined;
use crate::pairs::{MOST_ROWS, MOST_TABLES};
use crate::reader::{field_list, Reader};

/// A call that joins two books as it was made, with one length lent or another.
pub struct Asked<'a> {
    pub call: &'a Call,
    pub case: &'a Case,
    pub first: &'a Reading,
    pub second: Reading,
    pub trials: &'a [Trial<'a>],
    /// What would be written if no limit were looked at; none where a book is refused, or the code counts differ.
    pub result: Option<Book>,
}

/// Two books that are joined.
pub struct Both<'a> {
    pub first: &'a Book,
    pub second: &'a Book,
    pub result: &'a Book,
}

/// The tables on the same fields: of the first book, of the second, and the one of the result.
pub struct OnFields<'a> {
    pub first: Vec<&'a Table>,
    pub second: Vec<&'a Table>,
    pub result: &'a Table,
}

impl<'a> Asked<'a> {
    /// None where the trials are of another call.
    pub fn by(case: &'a Case, reading: &'a Reading, trials: &'a [Trial]) -> Option<Asked<'a>> {
        let call = trials.first()?.call;
        let Call::Join { second } = call else {
            return None;
        };
        let second = second.as_ref().map_or_else(|| reading.clone(), |bytes| Reader::default().read(bytes));
        let result = match (reading, &second) {
            (Ok(first), Ok(second)) if first.counts == second.counts => Some(joined(first, second)),
            _ => None,
        };
        Some(Asked { call, case, first: reading, second, trials, result })
    }

    /// The number where as many elements are lent as are asked for.
    pub fn number(&self) -> u64 {
        self.trials[0].left.number
    }

    pub fn written(&self) -> usize {
        self.trials[0].asked.written
    }

    pub fn is_one_book(&self) -> bool {
        *self.call == Call::Join { second: None }
    }

    /// The books are joined and so.
    pub fn joins(&self, so: impl Fn(&Both) -> bool) -> bool {
        match (self.first, &self.second, &self.result) {
            (Ok(first), Ok(second), Some(result)) => self.number() == 0 && so(&Both { first, second, result }),
            _ => false,
        }
    }

    /// The tables on some list of fields are so.
    pub fn has(&self, so: impl Fn(&OnFields) -> bool) -> bool {
        self.joins(|both| both.result.tables.iter().any(|table| so(&both.on(table))))
    }

    /// So many bytes are written, of books of so many.
    pub fn writes(&self, so: fn(usize, usize, usize) -> bool) -> bool {
        let second = if self.is_one_book() { &self.case.book[..] } else { self.call.list() };
        self.number() == 0 && so(self.written(), self.case.book.len(), second.len())
    }

    /// So many bytes are lent once.
    pub fn lends(&self, so: fn(usize) -> bool) -> bool {
        self.trials.iter().any(|trial| so(trial.lent.elements()))
    }

    pub fn lends_less_by(&self, missing: usize) -> bool {
        self.trials.iter().any(|trial| trial.lent.elements() + missing == self.written())
    }

    /// 18 though so many bytes are lent.
    pub fn is_18_for(&self, bytes: usize) -> bool {
        self.trials.iter().any(|trial| trial.left.number == 18 && trial.lent.elements() >= bytes)
    }

    /// Both books are refused, by such numbers.
    pub fn are_refused(&self, so: fn(u64, u64) -> bool) -> bool {
        match (self.first, &self.second) {
            (Err(first), Err(second)) => so(first.number, second.number),
            _ => false,
        }
    }

    pub fn are_both(&self, so: fn(&Book) -> bool) -> bool {
        [self.first, &self.second].iter().all(|reading| reading.as_ref().is_ok_and(so))
    }

    /// What the bytes of the second book have for a field list is not the first's, as far as they have one.
    pub fn has_other_counts(&self) -> bool {
        let counts = field_list(self.call.list()).map(|(_, counts)| counts);
        self.first.as_ref().is_ok_and(|first| counts.is_some_and(|counts| counts != first.counts))
    }

    /// 25 for such counts.
    pub fn is_25(&self, so: fn(&[u8], &[u8]) -> bool) -> bool {
        match (self.first, &self.second) {
            (Ok(first), Ok(second)) => self.number() == 25 && so(&first.counts, &second.counts),
            _ => false,
        }
    }

    /// The tables of both together would break a limit.
    pub fn would_break(&self) -> bool {
        let (Ok(first), Ok(second)) = (self.first, &self.second) else {
            return false;
        };
        let result = joined(first, second);
        result.tables.len() > MOST_TABLES || result.rows() > MOST_ROWS
    }

    /// 26 for so many tables and rows.
    pub fn is_26(&self, tables: RangeInclusive<usize>, rows: RangeInclusive<usize>) -> bool {
        let of = |result: &Book| tables.contains(&result.tables.len()) && rows.contains(&result.rows());
        self.number() == 26 && self.result.as_ref().is_some_and(of)
    }

    /// One of the books has tables on all lists of fields but one.
    pub fn has_all_but_one(&self) -> bool {
        let sets = |book: &Book| book.tables.iter().map(|table| table.fields.clone()).collect::<HashSet<_>>().len();
        let most = [self.first, &self.second].iter().filter_map(|reading| reading.as_ref().ok().map(sets)).max();
        self.result.as_ref().is_some_and(|result| most == result.tables.len().checked_sub(1))
    }
}

impl<'a> Both<'a> {
    pub fn versions(&self) -> (u8, u8) {
        (self.first.version, self.second.version)
    }

    /// The first book's tables are those of the result.
    pub fn is_first(&self) -> bool {
        self.first.tables == self.result.tables
    }

    /// The books have so many tables.
    pub fn tables(&self, first: RangeInclusive<usize>, second: RangeInclusive<usize>) -> bool {
        first.contains(&self.first.tables.len()) && second.contains(&self.second.tables.len())
    }

    pub fn on(&self, result: &'a Table) -> OnFields<'a> {
        let of = |book: &'a Book| book.tables.iter().filter(|table| table.fields == result.fields).collect();
        OnFields { first: of(self.first), second: of(self.second), result }
    }

    /// The lists of fields of the result.
    pub fn fields(&self) -> Vec<&[u8]> {
        self.result.tables.iter().map(|table| &table.fields[..]).collect()
    }

    /// Two lists that follow each other are so.
    pub fn some_pair(&self, so: fn(&[u8], &[u8]) -> bool) -> bool {
        self.fields().windows(2).any(|pair| so(pair[0], pair[1]))
    }

    /// Two lists that follow each other are equal before this place, and not there.
    pub fn lists_part_at(&self, place: usize) -> bool {
        self.fields().windows(2).any(|pair| part_at(pair[0], pair[1], place))
    }

    /// A table of either book belongs between two of the other.
    pub fn are_mixed(&self) -> bool {
        let between = |one: &Book, other: &Book| match (other.tables.first(), other.tables.last()) {
            (Some(front), Some(back)) => one.tables.iter().any(|t| front.fields < t.fields && t.fields < back.fields),
            _ => false,
        };
        between(self.first, self.second) || between(self.second, self.first)
    }

    /// A table of no row in common, between tables that have some.
    pub fn has_empty_between(&self) -> bool {
        let tables = &self.result.tables;
        let is_full = |table: &Table| !table.rows.is_empty();
        (1..tables.len().max(1)).any(|k| {
            let around = tables[..k].iter().any(is_full) && tables[k + 1..].iter().any(is_full);
            around && self.on(&tables[k]).has_nothing_in_common()
        })
    }
}

/// The two are equal before this place, and differ there.
fn part_at(one: &[u8], other: &[u8], place: usize) -> bool {
    one.len().min(other.len()) > place && one[..place] == other[..place] && one[place] != other[place]
}

impl OnFields<'_> {
    pub fn all(&self) -> Vec<&Table> {
        self.first.iter().chain(&self.second).copied().collect()
    }

    pub fn is_in_both(&self) -> bool {
        !self.first.is_empty() && !self.second.is_empty()
    }

    /// All rows of the table are in the result.
    pub fn is_whole(&self, table: &Table) -> bool {
        table.rows.iter().collect::<HashSet<_>>().len() == self.result.rows.len()
    }

    /// A row that all these tables have is left out.
    pub fn is_narrowed(&self, tables: &[&Table]) -> bool {
        let [first, others @ ..] = tables else {
            return false;
        };
        let others: Vec<HashSet<&Vec<u8>>> = others.iter().map(|table| table.rows.iter().collect()).collect();
        let in_all = |row: &&Vec<u8>| others.iter().all(|rows| rows.contains(row));
        first.rows.iter().filter(in_all).any(|row| self.result.rows.binary_search(row).is_err())
    }

    /// Some table has rows that another lacks.
    pub fn is_uneven(&self) -> bool {
        self.all().iter().any(|table| !self.is_whole(table))
    }

    /// Of so many tables or more, the last one leaves a row out that all others have.
    pub fn is_narrowed_by_last(&self, least: usize) -> bool {
        let all = self.all();
        all.len() >= least && self.is_narrowed(&all[..all.len() - 1])
    }

    /// All tables have rows, and the result none.
    pub fn has_nothing_in_common(&self) -> bool {
        self.result.rows.is_empty() && self.all().iter().all(|table| !table.rows.is_empty())
    }

    /// No table has rows.
    pub fn is_without_rows(&self) -> bool {
        self.all().iter().all(|table| table.rows.is_empty())
    }

    /// Two rows that follow each other are equal before this column, and not there.
    pub fn part_at(&self, column: usize) -> bool {
        self.result.rows.windows(2).any(|pair| part_at(&pair[0], &pair[1], column))
    }
}
