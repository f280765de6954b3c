//! The text that the program prints.

use crate::book::Book;
use crate::desk::{accepted, Desk, Reading};
use crate::sheet::Sheet;

/// The lines for a book and a sheet that are accepted.
fn lines(desk: &Desk, book: &Book, sheet: &Sheet) -> String {
    let different = (desk.different_rows)(book);
    let mut text = format!("book {} {} {} {different}\n", book.counts.len(), book.tables.len(), book.rows());
    let answered = (0..book.counts.len()).filter(|&f| sheet.is_answered(f)).count();
    let found = (desk.alternatives)(book, sheet, desk.largest);
    text += &format!("sheet {} {} {}\n", answered, found.lines.len(), found.struck);
    for (f, c) in &found.lines {
        text += &format!("alt {f} {c}\n");
    }
    let standing = (desk.largest)(book, &sheet.answers);
    for f in (0..book.counts.len()).filter(|&f| !sheet.is_answered(f)) {
        for c in (0..book.counts[f] as usize).filter(|&c| standing[f][c]) {
            text += &format!("open {f} {c}\n");
        }
    }
    text
}

/// The whole text for a book so read and for this stored sheet.
pub fn report(desk: &Desk, reading: &Reading, form: &[u8]) -> String {
    let loaded = accepted(reading).and_then(|book| Ok((book, desk.loaded(reading, form)?)));
    match loaded {
        Ok((book, sheet)) => lines(desk, book, &sheet),
        Err(r) => format!("refused {} {}\n", r.number, r.place),
    }
}

#[cfg(test)]
mod tests {
    use super::report;
    use crate::desk::Desk;
    use crate::examples::{e4, e6, two_pairs};

    const E1: [u8; 35] = [
        0x02, 0x00, 0x02, 0x04, 0x00, 0x00, 0x00, 0x00, 0x01, 0x01, 0x02, 0x00, 0x01, 0x02, 0x01, 0x02, 0x04, 0x00, 0x00, 0x00,
        0x01, 0x01, 0x01, 0x02, 0x02, 0x02, 0x02, 0x03, 0x03, 0x1A, 0x00, 0x03, 0x02, 0x01, 0xE5,
    ];

    fn prints(bytes: &[u8], form: &[u8], text: &str) {
        let desk = Desk::default();
        assert_eq!(report(&desk, &desk.reader.read(bytes), form), text);
    }

    #[test]
    fn examples_of_document_01() {
        prints(&E1, &[0, 1, 255], "book 3 2 8 7\nsheet 2 4 11\nalt 0 0\nalt 0 1\nalt 1 0\nalt 1 1\nopen 2 1\n");
        prints(&E1, &[1, 0, 255], "book 3 2 8 7\nsheet 2 3 17\nalt 0 0\nalt 1 1\nalt 1 2\n");
        prints(&e4().write(), &[0, 255, 255], "book 3 3 6 6\nsheet 1 2 6\nalt 0 0\nalt 0 1\n");
        prints(&e6().write(), &[0, 255], "book 2 1 0 0\nsheet 1 0 5\n");
        let e7 = [1, 0, 0, 1, 0, 1, 0xE5];
        prints(&e7, &[0], "book 1 0 0 0\nsheet 1 1 0\nalt 0 0\n");
        prints(&e7[..6], &[0], "refused 2 5\n");
    }

    /// Field 2 has no line, since fields 0 and 1 stay empty with it lifted; what stands is open all the same.
    #[test]
    fn one_part_of_two_contradicts() {
        prints(&two_pairs().write(), &[0, 1, 0, 255], "book 4 2 4 4\nsheet 3 2 18\nalt 0 1\nalt 1 0\nopen 3 0\n");
    }

    #[test]
    fn no_answers() {
        let all = |fields: &[u8]| {
            let lines = fields.iter().enumerate().flat_map(|(f, &n)| (0..n).map(move |c| format!("open {f} {c}\n")));
            lines.collect::<String>()
        };
        prints(&E1, &[255; 3], &format!("book 3 2 8 7\nsheet 0 0 0\n{}", all(&[2, 3, 3])));
        prints(&e4().write(), &[255; 3], &format!("book 3 3 6 6\nsheet 0 0 0\n{}", all(&[2, 2, 2])));
    }
}
