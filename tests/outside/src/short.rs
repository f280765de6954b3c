//! The short stored form of a sheet, straight from document 02's M-108. Whether bytes are such a form is not tested byte by byte: they are
//! taken for what they would say, and have to be the form of that.

use std::collections::BTreeMap;

use crate::book::{refuse, Book, Refusal};
use crate::desk::{accepted, is_no_code, opened, stored, Desk, Reading};
use crate::sheet::{Sheet, FRESH, PLACES};

/// A way to load a short form by an accepted book.
pub type Load = fn(&Book, &[u8]) -> Result<Sheet, Refusal>;

/// A way to write the short form of a sheet without a fault.
pub type Store = fn(&Book, &Sheet) -> Vec<u8>;

/// What a form says of each answered field, by rising field: its code, and whether it is photographed.
pub type Entries = BTreeMap<u8, [u8; 2]>;

/// "Three bytes for each answered field, by rising field: field, code, photographed (0 or 1). It ends in a two-byte trailer: number of
/// answers, then number of fields."
pub fn form(entries: &Entries, fields: usize) -> Vec<u8> {
    let of_each = entries.iter().flat_map(|(&field, &[code, photographed])| [field, code, photographed]);
    of_each.chain([entries.len() as u8, fields as u8]).collect()
}

/// What the bytes say: 24. Of a field that stands twice the last entry is taken, so that the form has fewer than the bytes.
fn entries(book: &Book, bytes: &[u8]) -> Result<Entries, Refusal> {
    let before_trailer = &bytes[..bytes.len().saturating_sub(2)];
    let said: Entries = before_trailer.chunks_exact(3).map(|entry| (entry[0], [entry[1], entry[2]])).collect();
    let fields = book.counts.len();
    let is_possible = said.iter().all(|(&field, &[_, photographed])| (field as usize) < fields && photographed <= 1);
    if is_possible && form(&said, fields) == bytes {
        return Ok(said);
    }
    refuse(24, 0)
}

/// Loads a short form, "marks kept": 24, "then 14 for codes, 255 being at fault in the new form".
pub fn load(book: &Book, bytes: &[u8]) -> Result<Sheet, Refusal> {
    let mut sheet = FRESH;
    for (field, [code, photographed]) in entries(book, bytes)? {
        let field = field as usize;
        if is_no_code(book, field, code) {
            return refuse(14, field);
        }
        (sheet.answers[field], sheet.photographs[field]) = (code, photographed);
    }
    Ok(sheet)
}

/// The short form of a sheet without a fault.
pub fn store(book: &Book, sheet: &Sheet) -> Vec<u8> {
    let answered = (0..PLACES).filter(|&field| sheet.is_answered(field));
    let entry = |field: usize| (field as u8, [sheet.answers[field], sheet.is_photographed(field) as u8]);
    form(&answered.map(entry).collect(), book.counts.len())
}

impl Desk {
    /// The sheet that a short form makes: 1 to 13, 24, 14.
    pub fn loaded_short(&self, reading: &Reading, form: &[u8]) -> Result<Sheet, Refusal> {
        (self.load_short)(accepted(reading)?, form)
    }

    /// The short form of a sheet: 1 to 13, 14.
    pub fn stored_short(&self, reading: &Reading, sheet: &Sheet) -> Result<Vec<u8>, Refusal> {
        Ok((self.store_short)(opened(reading, sheet)?, sheet))
    }

    /// "From the old form: 19 and 14 as in loading."
    pub fn shortened(&self, reading: &Reading, form: &[u8]) -> Result<Vec<u8>, Refusal> {
        Ok((self.store_short)(accepted(reading)?, &self.loaded(reading, form)?))
    }

    /// "With photographs the way back is refused by 22 as in storing."
    pub fn lengthened(&self, reading: &Reading, form: &[u8]) -> Result<Vec<u8>, Refusal> {
        stored(accepted(reading)?, &self.loaded_short(reading, form)?)
    }
}

#[cfg(test)]
mod tests {
    use crate::book::{refuse, Book, Refusal};
    use crate::calls::Call;
    use crate::desk::{Desk, Reading};
    use crate::examples::{e1, E1_SHORT};
    use crate::sheet::{Sheet, FRESH, NO_ANSWER, PLACES};

    fn load(form: &[u8]) -> Result<Sheet, Refusal> {
        Desk::default().loaded_short(&Ok(e1()), form)
    }

    #[test]
    fn examples_of_e1() {
        let (desk, book) = (Desk::default(), Ok(e1()));
        for (answers, photographed, form) in E1_SHORT {
            let sheet = Sheet::of(answers).with_photographs(photographed);
            assert_eq!(desk.stored_short(&book, &sheet).as_deref(), Ok(form));
            assert_eq!(desk.loaded_short(&book, form), Ok(sheet));
            let old = &sheet.answers[..3];
            let way_back = if photographed.is_empty() { Ok(old.to_vec()) } else { refuse(22, 0) };
            assert_eq!(desk.lengthened(&book, form), way_back, "{form:?}");
            let without = Sheet::of(answers);
            assert_eq!(desk.shortened(&book, old), desk.stored_short(&book, &without));
        }
    }

    /// Each cause of 24 by itself, and before a code at fault.
    #[test]
    fn causes_of_24() {
        for form in [
            &[][..],
            &[3],
            &[0, 0, 1, 1, 1, 0, 2],
            &[0, 0, 1, 1, 1, 0, 0, 2, 3],
            &[0, 0, 1, 2, 3],
            &[0, 0, 1, 1, 1, 0, 1, 3],
            &[0, 0, 1, 1, 1, 0, 3, 3],
            &[0, 0, 1, 1, 1, 0, 2, 2],
            &[0, 0, 1, 1, 1, 0, 2, 4],
            &[0, 0, 1, 1, 1, 0, 3, 2],
            &[2, 3, 0, 2, 3, 0, 2, 3],
            &[0, 0, 1, 3, 1, 0, 2, 3],
            &[0, 0, 1, 255, 1, 0, 2, 3],
            &[1, 1, 0, 0, 0, 1, 2, 3],
            &[0, 0, 1, 0, 0, 1, 2, 3],
            &[0, 0, 2, 1, 1, 0, 2, 3],
            &[0, 0, 1, 1, 1, 255, 2, 3],
        ] {
            assert_eq!(load(form), refuse(24, 0), "{form:?}");
            let with_fault: Vec<u8> = form.iter().enumerate().map(|(i, &byte)| if i == 1 { 255 } else { byte }).collect();
            assert_eq!(load(&with_fault), refuse(24, 0), "{with_fault:?}");
        }
    }

    #[test]
    fn codes_at_fault() {
        assert_eq!(load(&[0, 2, 0, 1, 3, 0, 2, 3]), refuse(14, 0));
        assert_eq!(load(&[0, 1, 0, 2, 3, 0, 2, 3]), refuse(14, 2));
        assert_eq!(load(&[1, NO_ANSWER, 0, 1, 3]), refuse(14, 1));
        assert_eq!(Desk::default().lengthened(&Ok(e1()), &[0, 1, 1, 2, NO_ANSWER, 1, 2, 3]), refuse(14, 2));
        assert_eq!(Desk::default().shortened(&Ok(e1()), &[0, 1, 3]), refuse(14, 2));
        assert_eq!(Desk::default().shortened(&Ok(e1()), &[0, 1, 3, 3]), refuse(19, 0));
    }

    /// The call's number, its cells, and the bytes that it leaves of as many.
    fn left(call: Call, book: &Reading, sheet: Sheet, lent: usize) -> (u64, Vec<u64>, Vec<u8>) {
        let left = Desk::default().answer(&call, book, &sheet).left(&call, &vec![7u8; lent].into());
        (left.number, left.cells, left.out.bytes)
    }

    #[test]
    fn bytes_and_cells() {
        let (book, sheet) = (Ok(e1()), Sheet::of(&[0, 1]).with_photographs(&[0]));
        let form = vec![0, 0, 1, 1, 1, 0, 2, 3];
        assert_eq!(left(Call::StoreShort, &book, sheet, 8), (0, vec![0, 8], form.clone()));
        assert_eq!(left(Call::StoreShort, &book, sheet, 9), (0, vec![0, 8], [&form[..], &[7]].concat()));
        assert_eq!(left(Call::StoreShort, &book, sheet, 7), (18, vec![0, 0], vec![7; 7]));
        assert_eq!(left(Call::StoreShort, &book, FRESH, 1), (18, vec![0, 0], vec![7]));
        assert_eq!(left(Call::StoreShort, &book, FRESH, 2), (0, vec![0, 2], vec![0, 3]));
        assert_eq!(left(Call::StoreShort, &book, Sheet::of(&[0, 3]), 0), (14, vec![1, 0], Vec::new()));
        let lengthen = |form: &[u8]| Call::Lengthen { form: form.to_vec() };
        assert_eq!(left(lengthen(&form), &book, FRESH, 2), (22, vec![0, 0], vec![7; 2]));
        assert_eq!(left(lengthen(&[1, 1, 0, 1, 3]), &book, FRESH, 2), (18, vec![0, 0], vec![7; 2]));
        assert_eq!(left(lengthen(&[1, 1, 0, 1, 3]), &book, FRESH, 4), (0, vec![0, 3], vec![255, 1, 255, 7]));
        assert_eq!(left(lengthen(&[1, 1, 0, 1, 3]), &refuse(9, 4), FRESH, 4), (9, vec![4, 0], vec![7; 4]));
        let shorten = Call::Shorten { form: vec![255, 1, 255] };
        assert_eq!(left(shorten.clone(), &book, FRESH, 5), (0, vec![0, 5], vec![1, 1, 0, 1, 3]));
        assert_eq!(left(shorten, &book, FRESH, 4), (18, vec![0, 0], vec![7; 4]));
    }

    /// A refused load hands back a fresh sheet, an accepted one nothing of what was there.
    #[test]
    fn sheets_loaded() {
        let before = Sheet::of(&[1, 2, 2]).with_photographs(&[0, 2, 59]);
        let sheet = |form: &[u8]| Desk::default().answer(&Call::LoadShort { form: form.to_vec() }, &Ok(e1()), &before).sheet;
        assert_eq!(sheet(&[1, 0, 1, 1, 3]), Sheet::of(&[NO_ANSWER, 0]).with_photographs(&[1]));
        assert_eq!((sheet(&[1, 3, 1, 1, 3]), sheet(&[1, 0, 2, 1, 3]), sheet(&[0, 3])), (FRESH, FRESH, FRESH));
    }

    #[test]
    fn sixty_answers() {
        let (desk, book) = (Desk::default(), Ok(Book::new(vec![32; PLACES], Vec::new())));
        let sheet = Sheet::of(&[31; PLACES]).with_photographs(&[0, 59]);
        let form = desk.stored_short(&book, &sheet).expect("no place is at fault");
        assert_eq!((form.len(), &form[..3], &form[177..]), (182, &[0, 31, 1][..], &[59, 31, 1, 60, 60][..]));
        assert_eq!(desk.loaded_short(&book, &form), Ok(sheet));
    }
}
