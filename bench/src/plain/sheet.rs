//! A sheet: the answers, and which of them are photographed.

use super::reader::{check, View};
use super::{Refused, PLACES};

pub const NO_ANSWER: u8 = 255;

/// An answer for each place, then for each place whether it is photographed.
pub const SHEET_BYTES: usize = 2 * PLACES;

pub struct Sheet {
    pub answers: [u8; PLACES],
    pub photographed: [bool; PLACES],
}

impl Sheet {
    /// A sheet without answers and photographs.
    pub fn fresh() -> Sheet {
        Sheet { answers: [NO_ANSWER; PLACES], photographed: [false; PLACES] }
    }

    /// The sheet that a caller's bytes hold.
    pub fn held(bytes: &[u8; SHEET_BYTES]) -> Sheet {
        let mut sheet = Sheet::fresh();
        for p in 0..PLACES {
            sheet.answers[p] = bytes[p];
            sheet.photographed[p] = bytes[PLACES + p] != 0;
        }
        sheet
    }

    /// The bytes that hold it.
    pub fn bytes(&self) -> [u8; SHEET_BYTES] {
        let mut bytes = [0; SHEET_BYTES];
        for p in 0..PLACES {
            bytes[p] = self.answers[p];
            bytes[PLACES + p] = self.photographed[p] as u8;
        }
        bytes
    }

    /// Whether a field has a case of its own: it is answered, and not photographed.
    pub fn in_doubt(&self, f: usize) -> bool {
        self.answers[f] != NO_ANSWER && !self.photographed[f]
    }

    /// The lowest place at fault: refusal 14.
    pub fn check(&self, book: &View) -> Result<(), Refused> {
        for (f, &a) in self.answers.iter().enumerate() {
            let code = || f < book.fields && (a as usize) < book.codes(f);
            if !(if a == NO_ANSWER { !self.photographed[f] } else { code() }) {
                return Err((14, f as u64));
            }
        }
        Ok(())
    }
}

/// Notes a photograph of an answered field.
pub fn photograph(bytes: &mut [u8; SHEET_BYTES], book: &[u8], field: usize) -> Result<(), Refused> {
    let book = check(book)?;
    let mut sheet = Sheet::held(bytes);
    sheet.check(&book.view)?;
    if field >= book.view.fields {
        return Err((15, 0));
    }
    if sheet.answers[field] == NO_ANSWER {
        return Err((17, 0));
    }
    sheet.photographed[field] = true;
    *bytes = sheet.bytes();
    Ok(())
}
