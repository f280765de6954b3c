//! What makes bytes no short form of a book, cause by cause.

use crate::book::Book;

#[derive(Clone, Copy, Debug, PartialEq)]
pub enum Cause {
    /// They are no entries of three bytes and two more.
    Length,
    /// The trailer's number of answers is not that of the entries.
    Answers,
    /// The trailer's number of fields is not the book's.
    Fields,
    /// The book has no such field.
    Lacking,
    /// A field is not above the one before it.
    Order,
    /// A photographed byte is neither 0 nor 1.
    Photographed,
}

const CAUSES: [Cause; 6] = [Cause::Length, Cause::Answers, Cause::Fields, Cause::Lacking, Cause::Order, Cause::Photographed];

/// Bytes that are taken for a short form of a book with so many fields.
#[derive(Clone, Copy)]
pub struct Form<'a> {
    pub fields: usize,
    pub bytes: &'a [u8],
}

impl<'a> Form<'a> {
    pub fn of(book: &Book, bytes: &'a [u8]) -> Form<'a> {
        Form { fields: book.counts.len(), bytes }
    }

    /// The entries before the trailer, as many as are whole.
    pub fn entries(self) -> &'a [[u8; 3]] {
        self.bytes[..self.bytes.len().saturating_sub(2)].as_chunks().0
    }

    /// The fields of each entry and the next.
    pub fn pairs(self) -> impl Iterator<Item = (u8, u8)> + 'a {
        self.entries().windows(2).map(|pair| (pair[0][0], pair[1][0]))
    }

    /// The number of answers and the number of fields that the trailer tells.
    pub fn trailer(self) -> Option<[usize; 2]> {
        self.bytes.last_chunk().map(|told: &[u8; 2]| told.map(usize::from))
    }

    pub fn has(self, cause: Cause) -> bool {
        let (entries, told) = (self.entries(), self.trailer());
        match cause {
            Cause::Length => self.bytes.len() % 3 != 2,
            Cause::Answers => told.is_none_or(|[answers, _]| answers != entries.len()),
            Cause::Fields => told.is_none_or(|[_, fields]| fields != self.fields),
            Cause::Lacking => entries.iter().any(|&[field, ..]| field as usize >= self.fields),
            Cause::Order => self.pairs().any(|(one, next)| one >= next),
            Cause::Photographed => entries.iter().any(|&[_, _, photographed]| photographed > 1),
        }
    }

    /// It has none but these causes.
    pub fn has_only(self, causes: &[Cause]) -> bool {
        CAUSES.iter().all(|&cause| !self.has(cause) || causes.contains(&cause))
    }

    /// It has these causes and no others.
    pub fn has_just(self, causes: &[Cause]) -> bool {
        CAUSES.iter().all(|&cause| self.has(cause) == causes.contains(&cause))
    }
}

#[cfg(test)]
mod tests {
    use super::Form;
    use crate::desk::Desk;
    use crate::forms::some_form;
    use crate::random::{book, Random};

    /// A form has no cause exactly where it is not refused by 24: where it is what is written for the entries that it says.
    #[test]
    fn forms_without_a_cause_are_loaded() {
        let (desk, mut r) = (Desk::default(), Random(1));
        for _ in 0..3_000 {
            let book = book(&mut r);
            let form = some_form(&mut r, &book);
            let is_24 = (desk.load_short)(&book, &form).is_err_and(|r| r.number == 24);
            assert_eq!(!Form::of(&book, &form).has_just(&[]), is_24, "{form:?}");
        }
    }
}
