//! The two stored forms that a library makes, held against each other: each way there and back gives what it began with.

use crate::calls::{Call, Left, OF_SHORT_FORMS};
use crate::cases::Case;
use crate::compare::{hex, Rooms};
use crate::desk::{Desk, Reading};
use crate::library::Library;
use crate::memory::End;
use crate::sheet::{Sheet, FRESH, NO_ANSWER};

/// A library with the book that all calls are made on.
pub struct On<'a> {
    pub rooms: &'a Rooms,
    pub library: &'a dyn Library,
    pub book: &'a [u8],
}

impl On<'_> {
    /// What a call leaves on this sheet where enough is lent; none where it is refused.
    pub fn left(&self, call: Call, sheet: Sheet) -> Option<Left> {
        let (case, lent) = (Case::new(self.book.to_vec(), sheet, Vec::new()), vec![NO_ANSWER; call.sufficient().unwrap_or(0)]);
        self.rooms.left(self.library, &case, &call, &lent.into(), End::Back).filter(|left| left.number == 0)
    }

    /// The bytes that a call writes by what it tells.
    pub fn written(&self, call: Call, sheet: Sheet) -> Option<Vec<u8>> {
        let left = self.left(call, sheet)?;
        left.out.bytes.get(..left.cells[1] as usize).map(<[u8]>::to_vec)
    }

    fn shorten(&self, form: &[u8]) -> Option<Vec<u8>> {
        self.written(Call::Shorten { form: form.to_vec() }, FRESH)
    }

    fn lengthen(&self, form: &[u8]) -> Option<Vec<u8>> {
        self.written(Call::Lengthen { form: form.to_vec() }, FRESH)
    }

    fn store_short(&self, sheet: Sheet) -> Option<Vec<u8>> {
        self.written(Call::StoreShort, sheet)
    }

    fn load_short(&self, form: &[u8]) -> Option<Sheet> {
        self.left(Call::LoadShort { form: form.to_vec() }, FRESH).map(|left| left.sheet)
    }

    fn load(&self, form: &[u8]) -> Option<Sheet> {
        self.left(Call::Load { form: form.to_vec() }, FRESH).map(|left| left.sheet)
    }

    /// "Moving an old form to the new and back gives the old bytes", and both make the same sheet.
    fn old_moved(&self, form: &[u8]) -> Option<&'static str> {
        let short = self.shorten(form).unwrap_or_default();
        match (self.lengthen(&short).as_deref() == Some(form), self.load_short(&short) == self.load(form)) {
            (false, _) => Some("an old form moved to the new and back is another"),
            (_, false) => Some("an old form and the new one that it is moved to make different sheets"),
            _ => None,
        }
    }

    /// "Moving a new form without photographs to the old and back gives the new bytes. With photographs the way back is refused."
    fn new_moved(&self, form: &[u8]) -> Option<&'static str> {
        let loaded = self.load_short(form)?;
        match self.lengthen(form) {
            Some(_) if loaded.has_photograph() => Some("a new form with photographs is moved to the old"),
            None if loaded.has_photograph() => None,
            old => {
                let again = old.and_then(|old| self.shorten(&old));
                (again.as_deref() != Some(form)).then_some("a new form moved to the old and back is another")
            }
        }
    }

    /// "Sheets can be loaded from and stored in the new form, marks kept."
    fn stored_and_loaded(&self, sheet: &Sheet) -> Option<&'static str> {
        let loaded = self.store_short(*sheet).and_then(|form| self.load_short(&form));
        (loaded != Some(sheet.in_bits())).then_some("a sheet stored and loaded is another")
    }

    /// The other way round.
    fn loaded_and_stored(&self, form: &[u8]) -> Option<&'static str> {
        let stored = self.load_short(form).and_then(|sheet| self.store_short(sheet));
        (stored.as_deref() != Some(form)).then_some("a new form loaded and stored is another")
    }

    /// What does not fit together, of a call that has to be accepted.
    fn problem(&self, call: &Call, sheet: &Sheet) -> Option<&'static str> {
        match call {
            Call::Shorten { form } => self.old_moved(form),
            Call::Lengthen { form } => self.new_moved(form),
            Call::StoreShort => self.stored_and_loaded(sheet),
            Call::LoadShort { form } => self.loaded_and_stored(form).or_else(|| self.new_moved(form)),
            _ => None,
        }
    }
}

impl Rooms {
    /// Where a way there and back does not give what it began with, or the two forms do not fit together. By a call that has to be refused
    /// nothing is held against anything.
    pub fn form_disagreement(&self, library: &dyn Library, case: &Case, reading: &Reading) -> Option<String> {
        let (desk, on) = (Desk::default(), On { rooms: self, library, book: &case.book });
        let is_accepted = |call: &Call| desk.answer(call, reading, &case.sheet).result.is_ok();
        let mut calls = case.calls.iter().filter(|call| OF_SHORT_FORMS.contains(&call.name()) && is_accepted(call));
        calls.find_map(|call| {
            on.problem(call, &case.sheet).map(|problem| {
                let (book, sheet) = (hex(&case.book), hex(&case.sheet.bytes()));
                format!("{call:?}\nbook {book}\nsheet {sheet}\n{problem}")
            })
        })
    }
}

#[cfg(test)]
mod tests {
    use super::On;
    use crate::calls::Call;
    use crate::compare::Rooms;
    use crate::examples::e1;
    use crate::sheet::Sheet;
    use crate::slips::{all, SlowLibrary};

    /// What does not fit together where this call is made on E1, with fields 0 and 1 answered and field 0 photographed.
    fn problem(library: &SlowLibrary, call: &Call) -> Option<&'static str> {
        let (rooms, book) = (Rooms::default(), e1().write());
        On { rooms: &rooms, library, book: &book }.problem(call, &Sheet::of(&[0, 1]).with_photographs(&[0]))
    }

    #[test]
    fn each_way() {
        let (old, plain, photographed) = (vec![0, 1, 255], vec![0, 0, 0, 1, 1, 0, 2, 3], vec![0, 0, 1, 1, 1, 0, 2, 3]);
        let moved = "an old form moved to the new and back is another";
        for (slip, call, expected) in [
            ("shorten: 255 refused by 14", Call::Shorten { form: old.clone() }, moved),
            ("shorten: fields from 1", Call::Shorten { form: old }, moved),
            ("shorten: 255 refused by 14", Call::Lengthen { form: plain }, "a new form moved to the old and back is another"),
            ("load_short: photographs lost", Call::LoadShort { form: photographed }, "a new form loaded and stored is another"),
            ("store_short: photographs lost", Call::StoreShort, "a sheet stored and loaded is another"),
        ] {
            let slips = all();
            let wrong = SlowLibrary::with(slips.iter().find(|listed| listed.name == slip).expect("it is listed"));
            assert_eq!(problem(&wrong, &call), Some(expected), "{slip}");
            assert_eq!(problem(&SlowLibrary::default(), &call), None);
        }
    }
}
