//! A case with its book turned into the other version. Where both versions allow so many fields, each call leaves what it left before,
//! but for the version that a listing names; else it leaves what it leaves by a book refused by 4.

use crate::book::{field_limit, refuse, Book};
use crate::calls::{Call, Left};
use crate::cases::Case;
use crate::compare::{of_each_call, Trial};
use crate::desk::{Desk, Reading};

/// The case with an accepted book turned, and its calls, each with the first length lent to it.
pub fn turned<'a>(case: &Case, reading: &Reading, trials: &[Trial<'a>]) -> Option<(Case, Vec<Trial<'a>>)> {
    let book = reading.as_ref().ok()?;
    let first = of_each_call(trials).map(|of_call| &of_call[0]);
    let trials = first.map(|trial| Trial { left: left(case, book, trial), lent: trial.lent.clone(), ..*trial }).collect();
    let mut bytes = case.book.clone();
    let place = bytes.len() - 2;
    bytes[place] = other(book);
    Some((Case::new(bytes, case.sheet, Vec::new()), trials))
}

fn other(book: &Book) -> u8 {
    3 - book.version
}

/// What the call leaves on the book turned.
fn left(case: &Case, book: &Book, trial: &Trial) -> Left {
    if book.counts.len() > field_limit(other(book)) {
        let refused = refuse(4, case.book.len() - 4);
        return Desk::default().answer(trial.call, &refused, &case.sheet).left(trial.call, &trial.lent);
    }
    let mut left = trial.left.clone();
    if *trial.call == Call::Show {
        left.out.listing[trial.asked.written - 1] = other(book) as u16;
    }
    left
}

#[cfg(test)]
mod tests {
    use super::turned;
    use crate::cases::case;
    use crate::compare::{trials, Rooms};
    use crate::desk::Desk;
    use crate::slips::SlowLibrary;

    #[test]
    fn a_desk_without_a_slip_is_not_caught() {
        let (desk, library, rooms) = (Desk::default(), SlowLibrary::default(), Rooms::default());
        let mut refused = 0;
        for index in 0..300 {
            let case = case(1, index);
            let reading = desk.reader.read(&case.book);
            let trials = trials(&case, &reading, 1, index);
            let Some((turned, trials)) = turned(&case, &reading, &trials) else {
                continue;
            };
            assert_eq!(trials.iter().find_map(|trial| rooms.difference(&library, &turned, trial)), None);
            refused += desk.reader.read(&turned.book).is_err() as u32;
        }
        assert!(refused > 0);
    }
}
