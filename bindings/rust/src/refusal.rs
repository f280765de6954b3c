//! Why a call was turned down.

use std::error::Error;
use std::fmt;

/// A refusal: its number, 1 to 29, and its place. The place is a byte of the book for 1 to 13, the first place of the sheet at fault, or
/// the first such field of a short stored sheet, for 14, the first byte of a table for the 28 and 29 of [`read_tree`](crate::read_tree),
/// and 0 for the others. Of the two books of [`join`](crate::join) it is the first that 1 to 13 refuse where [`read`](crate::read) refuses
/// that, and else the second.
#[derive(Clone, Copy, Debug, PartialEq, Eq)]
pub struct Refusal {
    pub number: u64,
    pub place: u64,
}

/// What each number says, from 1.
const MEANINGS: [&str; 29] = [
    "the book has fewer than 6 or more than 32,768 bytes",
    "the closing byte is not 0xE5",
    "the version is neither 1 nor 2",
    "the number of fields is not 1 to 32 (version 1) or 1 to 60 (version 2)",
    "the number of tables is above 64",
    "the place of the field list does not agree with the length",
    "a field has not 1 to 32 codes",
    "a table has too few bytes before the field list",
    "a table ties not 1 to 4 fields",
    "a table's field number is too large or not rising",
    "a row has a code that its field lacks",
    "the tables have more than 4,096 rows",
    "bytes are left over before the field list",
    "the sheet holds an answer or a photograph that it cannot have",
    "the book has no such field",
    "the field has no such code",
    "the field has no answer",
    "too few elements lent",
    "the stored sheet's length is not the number of fields",
    "no book has this listing",
    "the book has no such table, or the field is not in it",
    "a photographed answer would change; for storing, there is one",
    "all fields' numbers of codes multiplied are above 65,536",
    "the bytes are no short stored sheet of this book",
    "the fields of the two books differ in their numbers of codes",
    "the joined book would break a limit of version 2",
    "the list of questions is none that may be asked",
    "a table ties more than two fields",
    "the tables' links form a ring",
];

impl Refusal {
    /// What the number says, in words.
    pub fn meaning(&self) -> &'static str {
        let known = (self.number as usize).checked_sub(1).and_then(|i| MEANINGS.get(i));
        known.copied().unwrap_or("no refusal has this number")
    }
}

impl fmt::Display for Refusal {
    fn fmt(&self, f: &mut fmt::Formatter<'_>) -> fmt::Result {
        write!(f, "refused {} at {}: {}", self.number, self.place, self.meaning())
    }
}

impl Error for Refusal {}

#[cfg(test)]
mod tests {
    use super::Refusal;

    #[test]
    fn every_number_has_a_meaning() {
        let meaning = |number| Refusal { number, place: 0 }.meaning();
        assert_eq!(meaning(1), "the book has fewer than 6 or more than 32,768 bytes");
        assert_eq!(meaning(19), "the stored sheet's length is not the number of fields");
        assert_eq!(meaning(20), "no book has this listing");
        assert_eq!(meaning(21), "the book has no such table, or the field is not in it");
        assert_eq!(meaning(22), "a photographed answer would change; for storing, there is one");
        assert_eq!(meaning(23), "all fields' numbers of codes multiplied are above 65,536");
        assert_eq!(meaning(24), "the bytes are no short stored sheet of this book");
        assert_eq!(meaning(25), "the fields of the two books differ in their numbers of codes");
        assert_eq!(meaning(26), "the joined book would break a limit of version 2");
        assert_eq!(meaning(27), "the list of questions is none that may be asked");
        assert_eq!((meaning(28), meaning(29)), ("a table ties more than two fields", "the tables' links form a ring"));
        assert_eq!((meaning(0), meaning(30)), ("no refusal has this number", "no refusal has this number"));
        assert_eq!(Refusal { number: 3, place: 33 }.to_string(), "refused 3 at 33: the version is neither 1 nor 2");
    }
}
