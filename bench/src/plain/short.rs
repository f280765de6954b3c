//! Short stored sheets: three bytes for each answered field, then the number of answers and the number of fields. Nothing here asks for a
//! table, so none is kept.

use super::reader::{view, View};
use super::sheet::{Sheet, NO_ANSWER, SHEET_BYTES};
use super::Refused;

/// Field, code, photographed: the bytes of an answered field.
type Entry = [u8; 3];

/// The entries of a form; none where it is no short form of this book: refusal 24.
fn entries<'a>(book: &View, form: &'a [u8]) -> Option<&'a [Entry]> {
    let (entries, &[answers, fields]) = form.split_last_chunk()?;
    let (entries, left) = entries.as_chunks();
    let mut lowest = 0;
    for &[field, _, photographed] in entries {
        if field < lowest || field as usize >= book.fields || photographed > 1 {
            return None;
        }
        lowest = field + 1;
    }
    let told = left.is_empty() && answers as usize == entries.len() && fields as usize == book.fields;
    told.then_some(entries)
}

/// The sheet that a short form says.
fn read(book: &View, form: &[u8]) -> Result<Sheet, Refused> {
    let mut sheet = Sheet::fresh();
    for &[field, code, photographed] in entries(book, form).ok_or((24, 0))? {
        let f = field as usize;
        if code as usize >= book.codes(f) {
            return Err((14, f as u64));
        }
        sheet.answers[f] = code;
        sheet.photographed[f] = photographed == 1;
    }
    Ok(sheet)
}

/// How many bytes the short form of a sheet without faults has; they go to `out`.
fn write(book: &View, sheet: &Sheet, out: &mut [u8]) -> Result<u64, Refused> {
    let answers = &sheet.answers[..book.fields];
    let many = answers.iter().filter(|&&code| code != NO_ANSWER).count();
    let out = out.get_mut(..3 * many + 2).ok_or((18, 0))?;
    let mut at = 0;
    for (f, &code) in answers.iter().enumerate() {
        if code != NO_ANSWER {
            out[at..at + 3].copy_from_slice(&[f as u8, code, sheet.photographed[f] as u8]);
            at += 3;
        }
    }
    out[at..].copy_from_slice(&[many as u8, book.fields as u8]);
    Ok(out.len() as u64)
}

/// The bytes of the sheet that a short form says.
pub fn load_short(book: &[u8], form: &[u8]) -> Result<[u8; SHEET_BYTES], Refused> {
    read(&view(book)?, form).map(|sheet| sheet.bytes())
}

/// How many bytes the sheet's short form has; they go to `out`.
pub fn store_short(sheet: &[u8; SHEET_BYTES], book: &[u8], out: &mut [u8]) -> Result<u64, Refused> {
    let book = view(book)?;
    let sheet = Sheet::held(sheet);
    sheet.check(&book)?;
    write(&book, &sheet, out)
}

/// How many bytes the short form has that a form of one byte for each field is moved to; they go to `out`.
pub fn shorten(book: &[u8], form: &[u8], out: &mut [u8]) -> Result<u64, Refused> {
    let book = view(book)?;
    if form.len() != book.fields {
        return Err((19, 0));
    }
    let mut sheet = Sheet::fresh();
    sheet.answers[..book.fields].copy_from_slice(form);
    sheet.check(&book)?;
    write(&book, &sheet, out)
}

/// How many bytes a short form is moved to, one for each field; they go to `out`.
pub fn lengthen(book: &[u8], form: &[u8], out: &mut [u8]) -> Result<u64, Refused> {
    let book = view(book)?;
    let sheet = read(&book, form)?;
    if sheet.photographed.contains(&true) {
        return Err((22, 0));
    }
    let out = out.get_mut(..book.fields).ok_or((18, 0))?;
    out.copy_from_slice(&sheet.answers[..book.fields]);
    Ok(out.len() as u64)
}
