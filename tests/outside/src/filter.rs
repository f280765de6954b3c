//! The largest arc-consistent subdomain, straight from document 01's definition and with no care for speed.

use crate::book::{Book, Table};
use crate::sheet::{Sheet, NO_ANSWER};

/// For each field, whether each of its codes is in the subdomain.
pub type Subdomain = Vec<Vec<bool>>;

/// A filter: a subdomain for a book and answers.
pub type Filter = fn(&Book, &[u8]) -> Subdomain;

/// Some row of the table has `code` in column `column` and, in its other columns, codes that are all in the subdomain.
fn supported(domain: &Subdomain, table: &Table, column: usize, code: usize) -> bool {
    table.rows.iter().any(|row| {
        row[column] as usize == code && (0..row.len()).all(|k| k == column || domain[table.fields[k] as usize][row[k] as usize])
    })
}

/// The codes in the subdomain that the table has the field of and does not support.
pub fn unsupported(table: &Table, domain: &Subdomain) -> Vec<(usize, usize)> {
    let mut found = Vec::new();
    for (column, &field) in table.fields.iter().enumerate() {
        let codes = domain[field as usize].iter().enumerate().filter(|(_, &stands)| stands);
        let codes = codes.filter(|&(code, _)| !supported(domain, table, column, code));
        found.extend(codes.map(|(code, _)| (field as usize, code)));
    }
    found
}

pub fn remove(domain: &mut Subdomain, codes: &[(usize, usize)]) {
    for &(field, code) in codes {
        domain[field][code] = false;
    }
}

/// All that the answers allow.
pub fn allowed(book: &Book, answers: &[u8]) -> Subdomain {
    let allowed = |f: usize, c: u8| answers[f] == NO_ANSWER || answers[f] == c;
    let counts = book.counts.iter().enumerate();
    counts.map(|(f, &count)| (0..count).map(|c| allowed(f, c)).collect()).collect()
}

/// Removes the codes that some table does not support, and answers whether there were any.
pub fn round(book: &Book, domain: &mut Subdomain) -> bool {
    let removed: Vec<_> = book.tables.iter().flat_map(|table| unsupported(table, domain)).collect();
    remove(domain, &removed);
    !removed.is_empty()
}

/// Removes unsupported codes again and again from all that the answers allow. What is removed is in no arc-consistent subdomain
/// within the answers, and what is left is one.
pub fn largest(book: &Book, answers: &[u8]) -> Subdomain {
    let mut domain = allowed(book, answers);
    while round(book, &mut domain) {}
    domain
}

/// The answers without field f's.
pub fn relaxed(answers: &[u8], f: usize) -> Vec<u8> {
    let mut relaxed = answers.to_vec();
    relaxed[f] = NO_ANSWER;
    relaxed
}

/// Some field has no code in the subdomain.
pub fn has_empty(domain: &Subdomain) -> bool {
    domain.iter().any(|codes| !codes.contains(&true))
}

/// A case of the one pass: the field that is lifted, if one is, and the largest subdomain with it lifted.
pub struct PassCase {
    pub lifted: Option<usize>,
    pub domain: Subdomain,
}

impl PassCase {
    /// The lifted field's own codes in the subdomain, as lines.
    pub fn lines(&self) -> Vec<(u8, u8)> {
        let Some(f) = self.lifted else {
            return Vec::new();
        };
        let codes = (0..self.domain[f].len()).filter(|&c| self.domain[f][c]);
        codes.map(|c| (f as u8, c as u8)).collect()
    }

    /// The marks of the case that are struck.
    pub fn struck(&self) -> u64 {
        self.domain.iter().flatten().filter(|&&stands| !stands).count() as u64
    }
}

/// This field lifted by itself.
pub fn lifting(book: &Book, answers: &[u8], largest: Filter, f: usize) -> PassCase {
    PassCase { lifted: Some(f), domain: largest(book, &relaxed(answers, f)) }
}

/// Nothing lifted, then each answered field lifted by itself, but for a photographed one, which "gets no case of its own".
pub fn pass_cases(book: &Book, sheet: &Sheet, largest: Filter) -> Vec<PassCase> {
    let lifted = (0..book.counts.len()).filter(|&f| sheet.is_in_doubt(f)).map(|f| lifting(book, &sheet.answers, largest, f));
    [PassCase { lifted: None, domain: largest(book, &sheet.answers) }].into_iter().chain(lifted).collect()
}

/// What the one pass answers.
#[derive(Debug, PartialEq)]
pub struct Alternatives {
    pub lines: Vec<(u8, u8)>,
    pub struck: u64,
}

/// "A field's alternatives are listed only if, with it lifted, no field at all is empty. Otherwise it has none." What is struck counts
/// in every case.
pub fn alternatives(book: &Book, sheet: &Sheet, largest: Filter) -> Alternatives {
    in_cases(&pass_cases(book, sheet, largest))
}

/// What these cases list and strike.
pub fn in_cases(cases: &[PassCase]) -> Alternatives {
    let listed = cases.iter().filter(|case| !has_empty(&case.domain));
    Alternatives { lines: listed.flat_map(PassCase::lines).collect(), struck: cases.iter().map(PassCase::struck).sum() }
}

#[cfg(test)]
mod tests {
    use super::{alternatives, largest};
    use crate::book::{Book, Table};
    use crate::examples::{e1, e4, e6, two_pairs};
    use crate::sheet::{Sheet, NO_ANSWER};

    /// The lines and the struck count are these, with these fields photographed.
    fn lists_with(photographed: &[usize], book: &Book, answers: &[u8], lines: &[(u8, u8)], struck: u64) {
        let found = alternatives(book, &Sheet::of(answers).with_photographs(photographed), largest);
        assert_eq!((&found.lines[..], found.struck), (lines, struck));
    }

    fn lists(book: &Book, answers: &[u8], lines: &[(u8, u8)], struck: u64) {
        lists_with(&[], book, answers, lines, struck);
    }

    #[test]
    fn examples_of_document_01() {
        lists(&e1(), &[0, 1, NO_ANSWER], &[(0, 0), (0, 1), (1, 0), (1, 1)], 11);
        lists(&e1(), &[1, 0, NO_ANSWER], &[(0, 0), (1, 1), (1, 2)], 17);
        lists(&e4(), &[0, NO_ANSWER, NO_ANSWER], &[(0, 0), (0, 1)], 6);
    }

    #[test]
    fn a_lifted_answer_that_mends_nothing() {
        lists(&e6(), &[0, NO_ANSWER], &[], 5);
        // E1's 11, and the code of field 3 in each of the three cases
        let mut book = e1();
        book.counts.push(1);
        book.tables.push(Table { fields: vec![3], rows: Vec::new() });
        lists(&book, &[0, 1, NO_ANSWER, NO_ANSWER], &[], 14);
    }

    /// Fields 0 and 1 contradict each other: with one of them lifted each field has one code or two, with field 2 lifted they are empty.
    #[test]
    fn one_part_of_two_contradicts() {
        lists(&two_pairs(), &[0, 1, 0, NO_ANSWER], &[(0, 1), (1, 0)], 6 + 4 + 4 + 4);
        lists(&two_pairs(), &[0, 1, 0, 1], &[], 8 + 4 * 6);
        lists(&two_pairs(), &[0, 0, 1, 1], &[(0, 0), (1, 0), (2, 1), (3, 1)], 5 * 4);
    }

    /// E1's cases strike 5 with nothing lifted, 3 with field 0 and 3 with field 1.
    #[test]
    fn photographed_fields_of_e1() {
        let answers = [0, 1, NO_ANSWER];
        lists_with(&[0], &e1(), &answers, &[(1, 0), (1, 1)], 5 + 3);
        lists_with(&[1], &e1(), &answers, &[(0, 0), (0, 1)], 5 + 3);
        lists_with(&[0, 1], &e1(), &answers, &[], 5);
    }

    /// A contradiction stays where the field that would mend it is photographed; what is photographed still rules codes out.
    #[test]
    fn photographed_fields_that_contradict() {
        lists_with(&[0], &two_pairs(), &[0, 1, 0, NO_ANSWER], &[(1, 0)], 6 + 4 + 4);
        lists_with(&[0, 1], &two_pairs(), &[0, 1, 0, NO_ANSWER], &[], 6 + 4);
        lists_with(&[2], &two_pairs(), &[0, 1, 0, NO_ANSWER], &[(0, 1), (1, 0)], 6 + 4 + 4);
        lists_with(&[0], &e6(), &[0, NO_ANSWER], &[], 3);
    }
}
