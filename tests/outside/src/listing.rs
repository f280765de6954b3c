//! A listing, and the bytes of the book that it says, written from document 02's M-100 and M-103 alone and with no care for speed.

use crate::book::{Book, Refusal};
use crate::reader::Reader;

/// A table as a listing has it: nothing is known of its numbers.
#[derive(Clone, Debug, PartialEq)]
pub struct ListedTable {
    pub fields: Vec<u16>,
    pub rows: u16,
    /// The codes, row after row.
    pub codes: Vec<u16>,
}

/// A listing by its parts. The numbers that only say how many follow are not among them.
#[derive(Clone, Debug, PartialEq)]
pub struct Listing {
    pub counts: Vec<u16>,
    pub tables: Vec<ListedTable>,
    pub version: u16,
}

/// Why no book has a listing.
#[derive(Clone, Copy, Debug, PartialEq)]
pub enum Fault {
    Missing,
    LeftOver,
    TooLarge,
    /// Reading refuses the bytes laid out.
    Refused(Refusal),
}

/// The numbers of a listing that have not been taken yet.
struct Numbers<'a>(&'a [u16]);

impl Numbers<'_> {
    fn take(&mut self, how_many: usize) -> Result<Vec<u16>, Fault> {
        let (taken, rest) = self.0.split_at_checked(how_many).ok_or(Fault::Missing)?;
        self.0 = rest;
        Ok(taken.to_vec())
    }

    fn one(&mut self) -> Result<u16, Fault> {
        self.take(1).map(|taken| taken[0])
    }

    fn table(&mut self) -> Result<ListedTable, Fault> {
        let arity = self.one()? as usize;
        let fields = self.take(arity)?;
        let rows = self.one()?;
        let codes = self.take(rows as usize * arity)?;
        Ok(ListedTable { fields, rows, codes })
    }
}

/// A number that has one byte.
fn one_byte(number: usize) -> Result<u8, Fault> {
    u8::try_from(number).map_err(|_| Fault::TooLarge)
}

/// A number that has two bytes, the low one first.
fn two_bytes(number: usize) -> Result<[u8; 2], Fault> {
    u16::try_from(number).map(u16::to_le_bytes).map_err(|_| Fault::TooLarge)
}

fn one_byte_each(numbers: &[u16]) -> Result<Vec<u8>, Fault> {
    numbers.iter().map(|&number| one_byte(number as usize)).collect()
}

impl ListedTable {
    fn numbers(&self) -> Vec<u16> {
        [&[self.fields.len() as u16][..], &self.fields, &[self.rows], &self.codes].concat()
    }

    fn lay_out(&self) -> Result<Vec<u8>, Fault> {
        let (arity, rows) = (one_byte(self.fields.len())?, two_bytes(self.rows as usize)?);
        Ok([&[arity][..], &one_byte_each(&self.fields)?, &rows, &one_byte_each(&self.codes)?].concat())
    }
}

impl Listing {
    /// What a book shows.
    pub fn of(book: &Book) -> Listing {
        let wide = |bytes: &[u8]| bytes.iter().map(|&byte| byte as u16).collect::<Vec<u16>>();
        let tables = book.tables.iter().map(|table| ListedTable {
            fields: wide(&table.fields),
            rows: table.rows.len() as u16,
            codes: wide(&table.rows.concat()),
        });
        Listing { counts: wide(&book.counts), tables: tables.collect(), version: book.version as u16 }
    }

    /// The parts of the listing that the numbers begin with, and the numbers behind it.
    pub fn in_front(numbers: &[u16]) -> Result<(Listing, &[u16]), Fault> {
        let mut numbers = Numbers(numbers);
        let fields = numbers.one()? as usize;
        let counts = numbers.take(fields)?;
        let tables = numbers.one()?;
        let tables = (0..tables).map(|_| numbers.table()).collect::<Result<Vec<_>, _>>()?;
        let version = numbers.one()?;
        Ok((Listing { counts, tables, version }, numbers.0))
    }

    /// The parts of the listing that the numbers are.
    pub fn taken_apart(numbers: &[u16]) -> Result<Listing, Fault> {
        match Listing::in_front(numbers)? {
            (listing, []) => Ok(listing),
            _ => Err(Fault::LeftOver),
        }
    }

    pub fn numbers(&self) -> Vec<u16> {
        let tables: Vec<u16> = self.tables.iter().flat_map(ListedTable::numbers).collect();
        [&[self.counts.len() as u16][..], &self.counts, &[self.tables.len() as u16], &tables, &[self.version]].concat()
    }

    pub fn lay_out_tables(&self) -> Result<Vec<u8>, Fault> {
        Ok(self.tables.iter().map(ListedTable::lay_out).collect::<Result<Vec<_>, _>>()?.concat())
    }

    /// The bytes of a book that begins with these bytes of its tables.
    pub fn lay_out_behind(&self, tables: &[u8]) -> Result<Vec<u8>, Fault> {
        let place = two_bytes(tables.len())?;
        let trailer = [one_byte(self.counts.len())?, one_byte(self.tables.len())?, one_byte(self.version as usize)?, 0xE5];
        Ok([tables, &one_byte_each(&self.counts)?, &place, &trailer].concat())
    }

    /// The bytes of the book, where each number has room in its bytes.
    pub fn lay_out(&self) -> Result<Vec<u8>, Fault> {
        self.lay_out_behind(&self.lay_out_tables()?)
    }
}

/// The bytes of the book that a listing says, where this reader accepts them.
pub fn book_bytes(reader: &Reader, numbers: &[u16]) -> Result<Vec<u8>, Fault> {
    let bytes = Listing::taken_apart(numbers)?.lay_out()?;
    reader.read(&bytes).map_err(Fault::Refused)?;
    Ok(bytes)
}

#[cfg(test)]
mod tests {
    use super::{book_bytes, Fault, Listing};
    use crate::book::{Refusal, Table};
    use crate::reader::Reader;

    const E1: [u16; 30] = [3, 2, 3, 3, 2, 2, 0, 2, 4, 0, 0, 0, 1, 1, 2, 0, 1, 2, 1, 2, 4, 0, 0, 1, 1, 1, 2, 2, 2, 1];

    #[test]
    fn e1_there_and_back() {
        let bytes = book_bytes(&Reader::default(), &E1).expect("E1 is a book");
        let first = [2, 0, 2, 4, 0, 0, 0, 0, 1, 1, 2, 0, 1];
        let second = [2, 1, 2, 4, 0, 0, 0, 1, 1, 1, 2, 2, 2];
        assert_eq!(bytes, [&first[..], &second, &[2, 3, 3, 0x1A, 0, 3, 2, 1, 0xE5]].concat());
        let book = Reader::default().read(&bytes).expect("accepted");
        assert_eq!(book.tables[0], Table { fields: vec![0, 2], rows: vec![vec![0, 0], vec![0, 1], vec![1, 2], vec![0, 1]] });
        assert_eq!(Listing::of(&book).numbers(), E1);
    }

    #[test]
    fn why_no_book_has_a_listing() {
        let why = |numbers: &[u16]| book_bytes(&Reader::default(), numbers).expect_err("no book has it");
        let refused = |number, place| Fault::Refused(Refusal { number, place });
        assert_eq!(why(&[]), Fault::Missing);
        assert_eq!(why(&E1[..28]), Fault::Missing);
        assert_eq!(why(&[&E1[..], &[0]].concat()), Fault::LeftOver);
        assert_eq!(why(&[1, 256, 0, 1]), Fault::TooLarge);
        assert_eq!(why(&[1, 33, 0, 1]), refused(7, 0));
        assert_eq!(why(&[0, 0, 1]), refused(4, 2));
        assert_eq!(why(&[1, 1, 1, 0, 65_535, 1]), refused(9, 0));
    }

    #[test]
    fn versions_of_a_listing() {
        let laid_out = |numbers: &[u16]| book_bytes(&Reader::default(), numbers);
        let refused = |number, place| Err(Fault::Refused(Refusal { number, place }));
        assert_eq!(laid_out(&E1[..29]), Err(Fault::Missing));
        assert_eq!(laid_out(&[1, 1, 0, 1]), Ok(vec![1, 0, 0, 1, 0, 1, 0xE5]));
        assert_eq!(laid_out(&[1, 1, 0, 2]), Ok(vec![1, 0, 0, 1, 0, 2, 0xE5]));
        assert_eq!(laid_out(&[1, 1, 0, 0]), refused(3, 5));
        assert_eq!(laid_out(&[1, 1, 0, 3]), refused(3, 5));
        assert_eq!(laid_out(&[1, 1, 0, 257]), Err(Fault::TooLarge));
        let fields = |fields: u16, version: u16| [&[fields][..], &vec![1; fields as usize], &[0, version]].concat();
        for (most, version) in [(32, 1), (60, 2)] {
            assert!(laid_out(&fields(most, version)).is_ok());
            assert_eq!(laid_out(&fields(most + 1, version)), refused(4, most as u64 + 3));
        }
    }

    /// One table on one field: its bytes are four and one for each row.
    #[test]
    fn bytes_beyond_all_limits() {
        let why = |rows: u16| {
            let numbers = [&[1, 1, 1, 1, 0, rows][..], &vec![0; rows as usize], &[1]].concat();
            book_bytes(&Reader::default(), &numbers).expect_err("no book has it")
        };
        assert_eq!(why(4_097), Fault::Refused(Refusal { number: 12, place: 0 }));
        assert_eq!(why(32_768 - 11), Fault::Refused(Refusal { number: 12, place: 0 }));
        assert_eq!(why(32_768 - 10), Fault::Refused(Refusal { number: 1, place: 0 }));
        assert_eq!(why(65_535 - 4), Fault::Refused(Refusal { number: 1, place: 0 }));
        assert_eq!(why(65_535 - 3), Fault::TooLarge);
    }
}
