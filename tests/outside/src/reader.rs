//! Reading a book, written from document 01 and document 02's M-103 alone. Its tests stand in a list, in document 01's order: a wrong
//! reader is a list with another test or another order. So each test may come first: where it lacks its bytes, it has nothing to say.

use std::ops::RangeInclusive;

use crate::book::{field_limit, Book, Refusal, Table};

/// A test of the whole book.
pub type Test = fn(&[u8]) -> Option<Refusal>;

/// A test of one table.
pub type TableTest = fn(&TableAt) -> Option<Refusal>;

pub enum Stage {
    Whole(Test),
    /// 3, a number that is no version.
    Version,
    /// 4, by the version's limit.
    Fields,
    /// The tests of each table in turn.
    Tables(Vec<TableTest>),
    /// Bytes left over before the field list.
    LeftOver,
}

pub struct Reader {
    pub stages: Vec<Stage>,
    /// The most fields of a version; 0 for a number that is none.
    pub limit: fn(u8) -> usize,
    /// A table's number of rows, from its two bytes.
    pub rows: fn([u8; 2]) -> usize,
}

impl Default for Reader {
    fn default() -> Reader {
        use Stage::{Fields, LeftOver, Tables, Version, Whole};
        let table: [TableTest; 7] = [some_byte, arity, head, field_numbers, rows_fit, row_total, codes];
        let trailer = [Whole(length), Whole(closing), Version, Fields, Whole(tables), Whole(place), Whole(code_counts)];
        let stages = trailer.into_iter().chain([Tables(table.to_vec()), LeftOver]);
        Reader { stages: stages.collect(), limit: field_limit, rows: |bytes| u16::from_le_bytes(bytes) as usize }
    }
}

fn refusal(wrong: bool, number: u64, place: usize) -> Option<Refusal> {
    wrong.then_some(Refusal { number, place: place as u64 })
}

/// The byte of the trailer so far from the book's end, with its place.
fn from_end(bytes: &[u8], back: usize) -> Option<(usize, u8)> {
    let place = bytes.len().checked_sub(back)?;
    Some((place, bytes[place]))
}

/// The place of the field list, as the trailer has it.
fn list_place(bytes: &[u8]) -> Option<usize> {
    let ((_, low), (_, high)) = (from_end(bytes, 6)?, from_end(bytes, 5)?);
    Some(low as usize + 256 * high as usize)
}

/// The place of the field list and its bytes.
pub fn field_list(bytes: &[u8]) -> Option<(usize, &[u8])> {
    let (list, (_, fields)) = (list_place(bytes)?, from_end(bytes, 4)?);
    Some((list, bytes.get(list..list + fields as usize)?))
}

/// 1, for a length outside these.
pub fn length_outside(bytes: &[u8], lengths: RangeInclusive<usize>) -> Option<Refusal> {
    refusal(!lengths.contains(&bytes.len()), 1, 0)
}

fn length(bytes: &[u8]) -> Option<Refusal> {
    length_outside(bytes, 6..=32_768)
}

/// 2
fn closing(bytes: &[u8]) -> Option<Refusal> {
    let (place, byte) = from_end(bytes, 1)?;
    refusal(byte != 0xE5, 2, place)
}

/// 3, for a version outside these.
pub fn version_outside(bytes: &[u8], versions: RangeInclusive<u8>) -> Option<Refusal> {
    let (place, version) = from_end(bytes, 2)?;
    refusal(!versions.contains(&version), 3, place)
}

/// 4, for a number of fields outside these.
pub fn fields_outside(bytes: &[u8], numbers: RangeInclusive<usize>) -> Option<Refusal> {
    let (place, byte) = from_end(bytes, 4)?;
    refusal(!numbers.contains(&(byte as usize)), 4, place)
}

/// 5, for more tables than this.
pub fn tables_above(bytes: &[u8], most: u8) -> Option<Refusal> {
    let (place, byte) = from_end(bytes, 3)?;
    refusal(byte > most, 5, place)
}

fn tables(bytes: &[u8]) -> Option<Refusal> {
    tables_above(bytes, 64)
}

/// 6
fn place(bytes: &[u8]) -> Option<Refusal> {
    let (list, (_, fields)) = (list_place(bytes)?, from_end(bytes, 4)?);
    refusal(list + fields as usize + 6 != bytes.len(), 6, bytes.len() - 6)
}

/// 7 for each field whose number of codes is outside these.
pub fn codes_outside(bytes: &[u8], numbers: RangeInclusive<u8>) -> Vec<Refusal> {
    let (list, counts) = field_list(bytes).unwrap_or_default();
    let refusals = counts.iter().enumerate().map(|(f, count)| refusal(!numbers.contains(count), 7, list + f));
    refusals.flatten().collect()
}

fn code_counts(bytes: &[u8]) -> Option<Refusal> {
    codes_outside(bytes, 1..=32).first().copied()
}

/// A table at the place where it begins. It ends before the field list; a byte that is not there any more counts as 0.
pub struct TableAt<'a> {
    /// The bytes before the field list.
    bytes: &'a [u8],
    /// The number of codes of each field.
    counts: &'a [u8],
    at: usize,
    rows: usize,
    /// The rows of the tables before it.
    pub rows_before: usize,
}

impl<'a> TableAt<'a> {
    /// The bytes from the table's first on.
    fn rest(&self) -> &'a [u8] {
        self.bytes.get(self.at..).unwrap_or_default()
    }

    fn byte(&self, k: usize) -> u8 {
        self.rest().get(k).copied().unwrap_or(0)
    }

    fn arity(&self) -> usize {
        self.byte(0) as usize
    }

    /// The bytes of the table's head: the number of fields, the fields, and the number of rows.
    fn head_length(&self) -> usize {
        self.arity() + 3
    }

    /// The field numbers, as far as there are bytes.
    fn fields(&self) -> &'a [u8] {
        let rest = self.rest();
        &rest[rest.len().min(1)..rest.len().min(1 + self.arity())]
    }

    /// The codes of all rows, as far as there are bytes.
    fn codes(&self) -> &'a [u8] {
        let rest = self.rest();
        &rest[rest.len().min(self.head_length())..rest.len().min(self.length())]
    }

    fn length(&self) -> usize {
        self.head_length() + self.rows * self.arity()
    }

    fn end(&self) -> usize {
        self.at + self.length()
    }

    fn table(&self) -> Table {
        Table { fields: self.fields().to_vec(), rows: self.codes().chunks(self.arity()).map(<[u8]>::to_vec).collect() }
    }

    /// 8, for a head of which more than so many bytes are missing.
    pub fn head_short_by(&self, missing: usize) -> Option<Refusal> {
        refusal(self.rest().len() + missing < self.head_length(), 8, self.at)
    }

    /// 10, where a field number has to exceed the one before it by this at least.
    pub fn fields_not_rising_by(&self, least: u8) -> Option<Refusal> {
        let fields = self.fields();
        let wrong = |j: usize| fields[j] as usize >= self.counts.len() || (j > 0 && fields[j] < fields[j - 1] + least);
        refusal(true, 10, self.at + 1 + (0..fields.len()).find(|&j| wrong(j))?)
    }

    /// 12, for more rows than this with so many before.
    pub fn rows_above(&self, most: usize, rows_before: usize) -> Option<Refusal> {
        refusal(rows_before + self.rows > most, 12, self.at)
    }

    /// 11, for the first wrong code of the first rows.
    pub fn bad_code_in(&self, rows: usize) -> Option<Refusal> {
        let fields = self.fields();
        let count = |i: usize| self.counts[fields[i % fields.len()] as usize];
        let codes = self.codes().iter().take(rows * fields.len());
        let wrong = codes.enumerate().position(|(i, &code)| code >= count(i))?;
        refusal(true, 11, self.at + self.head_length() + wrong)
    }
}

/// 8, no byte left
fn some_byte(table: &TableAt) -> Option<Refusal> {
    refusal(table.rest().is_empty(), 8, table.at)
}

/// 9
fn arity(table: &TableAt) -> Option<Refusal> {
    refusal(!(1..=4).contains(&table.arity()), 9, table.at)
}

/// 8, no room for the head
fn head(table: &TableAt) -> Option<Refusal> {
    table.head_short_by(0)
}

fn field_numbers(table: &TableAt) -> Option<Refusal> {
    table.fields_not_rising_by(1)
}

/// 8, no room for the rows
fn rows_fit(table: &TableAt) -> Option<Refusal> {
    refusal(table.rest().len() < table.length(), 8, table.at)
}

fn row_total(table: &TableAt) -> Option<Refusal> {
    table.rows_above(4_096, table.rows_before)
}

fn codes(table: &TableAt) -> Option<Refusal> {
    table.bad_code_in(table.rows)
}

impl Reader {
    /// The tests of the tables.
    pub fn table_tests(&mut self) -> &mut Vec<TableTest> {
        let tests = self.stages.iter_mut().find_map(|stage| if let Stage::Tables(tests) = stage { Some(tests) } else { None });
        tests.expect("every reader tests its tables")
    }

    fn version(&self, bytes: &[u8]) -> Option<Refusal> {
        let (place, version) = from_end(bytes, 2)?;
        refusal((self.limit)(version) == 0, 3, place)
    }

    fn fields(&self, bytes: &[u8]) -> Option<Refusal> {
        let (_, version) = from_end(bytes, 2)?;
        fields_outside(bytes, 1..=(self.limit)(version))
    }

    /// Goes over the tables in turn, and ends at the first refusal. The trailer has been tested before.
    fn walk<'a>(&self, bytes: &'a [u8], tests: &[TableTest]) -> Result<Vec<TableAt<'a>>, Refusal> {
        let (list, counts) = field_list(bytes).expect("the field list lies within the book");
        let tables = bytes[bytes.len() - 3];
        let mut walked: Vec<TableAt> = Vec::new();
        let (mut at, mut rows_before) = (0, 0);
        for _ in 0..tables {
            let mut table = TableAt { bytes: &bytes[..list], counts, at, rows: 0, rows_before };
            table.rows = (self.rows)([table.byte(1 + table.arity()), table.byte(2 + table.arity())]);
            tests.iter().find_map(|test| test(&table)).map_or(Ok(()), Err)?;
            (at, rows_before) = (table.end(), rows_before + table.rows);
            walked.push(table);
        }
        Ok(walked)
    }

    fn left_over(&self, bytes: &[u8]) -> Result<(), Refusal> {
        let end = self.walk(bytes, &[])?.last().map_or(0, TableAt::end);
        let list = list_place(bytes).expect("the trailer is there");
        refusal(end < list, 13, end).map_or(Ok(()), Err)
    }

    /// The book that the bytes hold, or the first refusal.
    pub fn read(&self, bytes: &[u8]) -> Result<Book, Refusal> {
        for stage in &self.stages {
            match stage {
                Stage::Whole(test) => test(bytes).map_or(Ok(()), Err)?,
                Stage::Version => self.version(bytes).map_or(Ok(()), Err)?,
                Stage::Fields => self.fields(bytes).map_or(Ok(()), Err)?,
                Stage::Tables(tests) => self.walk(bytes, tests).map(|_| ())?,
                Stage::LeftOver => self.left_over(bytes)?,
            }
        }
        let (_, counts) = field_list(bytes).expect("the field list lies within the book");
        let tables = self.walk(bytes, &[])?.iter().map(TableAt::table).collect();
        Ok(Book { version: bytes[bytes.len() - 2], counts: counts.to_vec(), tables })
    }
}

#[cfg(test)]
mod tests {
    use super::Reader;
    use crate::book::{refuse, Book};

    /// Reads a book of fields of one code without tables.
    fn reads(version: u8, fields: usize, refused: Option<(u64, usize)>) {
        let book = Book { version, ..Book::new(vec![1; fields], Vec::new()) };
        let expected = refused.map_or(Ok(book.clone()), |(number, place)| refuse(number, place));
        assert_eq!(Reader::default().read(&book.write()), expected, "{fields} fields of version {version}");
    }

    #[test]
    fn versions_and_their_limits() {
        for (version, most) in [(1, 32), (2, 60)] {
            reads(version, 0, Some((4, 2)));
            reads(version, 1, None);
            reads(version, most, None);
            reads(version, most + 1, Some((4, most + 3)));
            reads(version, 255, Some((4, 257)));
        }
        for version in [0, 3, 4, 255] {
            [0, 1, 32, 33, 60, 61, 255].iter().for_each(|&fields| reads(version, fields, Some((3, fields + 4))));
        }
    }
}
