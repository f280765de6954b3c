//! What alternatives show of document 02's M-112: how the lines and the standing codes of tree books hang on full readings, and that those of
//! other books need not.

use crate::book::Book;
use crate::filter::{has_empty, largest, relaxed, Subdomain};
use crate::meaning::{is_looked_at, Readings};
use crate::sheet::Sheet;
use crate::trees::{links, Trees};

/// A sheet that is not at fault, by an accepted book whose readings are looked at.
pub struct Asked<'a> {
    book: &'a Book,
    sheet: &'a Sheet,
    /// 28 or 29, where it is no tree book.
    broken: Option<u64>,
    readings: Readings,
    /// What stands with nothing lifted.
    standing: Subdomain,
    /// Each field that may be put in doubt, with what stands where it is lifted.
    lifted: Vec<(usize, Subdomain)>,
}

/// A shape: its name, how often it has to be reached in a run of 52,500 cases, and what has it.
type Shape = (&'static str, u64, fn(&Asked) -> bool);

const TREES: [Shape; 9] = [
    ("a line of a tree book with links", 2_400, |asked| asked.is_linked() && asked.fields_listed() > 0),
    ("lines of several fields of a tree book", 1_500, |asked| asked.is_linked() && asked.fields_listed() > 1),
    ("lines of a tree book with five links", 200, |asked| {
        asked.is_tree() && links(&asked.book.tables).len() == 5 && asked.fields_listed() > 0
    }),
    ("a line of a tree book to another code", 2_000, |asked| asked.is_linked() && asked.lists_another()),
    ("lines of a tree book where no reading keeps all answers", 580, |asked| {
        asked.is_linked() && asked.fields_listed() > 0 && has_empty(&asked.standing)
    }),
    ("lines of a tree book beside a photograph", 1_000, |asked| {
        asked.is_linked() && asked.fields_listed() > 0 && asked.sheet.has_photograph()
    }),
    ("answers of a tree book and no line", 580, |asked| {
        asked.is_linked() && !asked.lifted.is_empty() && asked.fields_listed() == 0
    }),
    ("a lifted field of a tree book that has codes while another is empty", 460, |asked| {
        asked.is_linked() && asked.is_unmended()
    }),
    ("a tree book with no field empty and no answer in doubt", 800, |asked| {
        asked.is_linked() && asked.lifted.is_empty() && !has_empty(&asked.standing)
    }),
];

const OTHERS: [Shape; 4] = [
    ("a line of a ring that is of no full reading", 70, |asked| asked.broken == Some(29) && asked.lists_no_reading()),
    ("a standing code of a ring that is of no full reading", 160, |asked| {
        asked.broken == Some(29) && asked.stands_in_no_reading()
    }),
    ("a line by a wide table that is of no full reading", 50, |asked| asked.broken == Some(28) && asked.lists_no_reading()),
    ("a standing code by a wide table that is of no full reading", 170, |asked| {
        asked.broken == Some(28) && asked.stands_in_no_reading()
    }),
];

impl<'a> Asked<'a> {
    /// None where the readings are too many to look at.
    pub fn by(book: &'a Book, sheet: &'a Sheet) -> Option<Asked<'a>> {
        is_looked_at(book).then(|| {
            let in_doubt = (0..book.counts.len()).filter(|&field| sheet.is_in_doubt(field));
            Asked {
                book,
                sheet,
                broken: Trees::default().broken(book).map(|(number, _)| number),
                readings: Readings::of(book),
                standing: largest(book, &sheet.answers),
                lifted: in_doubt.map(|field| (field, largest(book, &relaxed(&sheet.answers, field)))).collect(),
            }
        })
    }

    fn is_tree(&self) -> bool {
        self.broken.is_none()
    }

    fn is_linked(&self) -> bool {
        self.is_tree() && !links(&self.book.tables).is_empty()
    }

    /// The fields that lines go out for, with what stands where each is lifted.
    fn listed(&self) -> impl Iterator<Item = &(usize, Subdomain)> + '_ {
        self.lifted.iter().filter(|(_, standing)| !has_empty(standing))
    }

    fn fields_listed(&self) -> usize {
        self.listed().count()
    }

    /// A line has another code than its field's answer.
    fn lists_another(&self) -> bool {
        self.listed().any(|(field, standing)| {
            (0..standing[*field].len()).any(|code| standing[*field][code] && code as u8 != self.sheet.answers[*field])
        })
    }

    /// A field has codes where it is lifted, and another has none.
    fn is_unmended(&self) -> bool {
        self.lifted.iter().any(|(field, standing)| standing[*field].contains(&true) && has_empty(standing))
    }

    /// A line has a code that is in no full reading which keeps all other answers.
    fn lists_no_reading(&self) -> bool {
        self.listed().any(|(field, standing)| {
            let codes = self.readings.codes(&relaxed(&self.sheet.answers, *field))[*field];
            (0..standing[*field].len()).any(|code| standing[*field][code] && codes >> code & 1 == 0)
        })
    }

    /// No field is empty, and a code stands that is in no full reading which keeps all answers.
    fn stands_in_no_reading(&self) -> bool {
        let codes = self.readings.codes(&self.sheet.answers);
        let is_of_none = |(field, of_field): (usize, &Vec<bool>)| {
            (0..of_field.len()).any(|code| of_field[code] && codes[field] >> code & 1 == 0)
        };
        !has_empty(&self.standing) && self.standing.iter().enumerate().any(is_of_none)
    }

    /// The names of the shapes that it has.
    pub fn shapes(&self) -> impl Iterator<Item = &'static str> + '_ {
        TREES.iter().chain(&OTHERS).filter(|(_, _, has)| has(self)).map(|(name, ..)| *name)
    }
}

/// The names of all shapes, and how often each has to be reached.
pub fn all() -> impl Iterator<Item = (&'static str, u64)> {
    TREES.iter().chain(&OTHERS).map(|&(name, least, _)| (name, least))
}
