//! What photographs cost and save: the one pass with fewer cases, and the calls that change a sheet.

use sighting::{Refusal, Sheet};

use crate::families::Family;
use crate::measure::{agree, one_pass, plain_pass};
use crate::plain::sheet;
use crate::timing::{medians, Contender};

/// The answers of each sheet, and how many of them are photographed.
pub const ANSWERS: usize = 32;
const PHOTOGRAPHED: [usize; 3] = [0, 16, ANSWERS];

/// The medians of one pass with so many of the answers photographed, by the library and by plain Rust.
pub struct Photographed {
    pub photographed: usize,
    pub library: f64,
    pub plain: f64,
}

/// All sheets in turns, so that they can be compared with each other.
pub fn passes(family: &Family) -> Vec<Photographed> {
    let book = &family.book[..];
    let sheets = PHOTOGRAPHED.map(|k| Sheet::from(family.photographed(ANSWERS, k)));
    for sheet in &sheets {
        agree(book, sheet, None);
    }
    let library = sheets.iter().map(|sheet| Box::new(|| one_pass(book, sheet)) as Contender);
    let plain = sheets.iter().map(|sheet| Box::new(|| plain_pass(book, sheet)) as Contender);
    let times = medians(&mut library.chain(plain).collect::<Vec<_>>());
    let (library, plain) = times.split_at(sheets.len());
    let each = PHOTOGRAPHED.into_iter().zip(library).zip(plain);
    each.map(|((photographed, &library), &plain)| Photographed { photographed, library, plain }).collect()
}

/// The medians of the calls that change a sheet with all fields answered, each on the field that is answered last, and of plain
/// Rust's photograph.
pub struct Changes {
    pub n: usize,
    pub enter: f64,
    pub withdraw: f64,
    pub photograph: f64,
    /// Of a field that is photographed already.
    pub again: f64,
    /// Enter of the code held on a photographed field, as tablets send answers again.
    pub resent: f64,
    /// Enter of another code there: 22.
    pub refused: f64,
    pub plain: f64,
}

/// The number of a call on a copy of the sheet, so that the next finds the same.
fn number(mut sheet: Sheet, call: impl Fn(&mut Sheet) -> Result<(), Refusal>) -> u64 {
    call(&mut sheet).map_or_else(|refusal| refusal.number, |()| 0)
}

pub fn changes(family: &Family) -> Changes {
    let (book, n, field) = (&family.book[..], family.fields(), family.last());
    let given = Sheet::from(family.sheet(n));
    let code = given.answer(field).expect("answered") as usize;
    let (mut photographed, mut plain) = (given, *given.bytes());
    assert!(photographed.photograph(book, field).is_ok());
    assert_eq!(sheet::photograph(&mut plain, book, field), Ok(()));
    assert_eq!(photographed.bytes(), &plain);
    let enter = |sheet: &mut Sheet| sheet.enter(book, field, code);
    let replace = |sheet: &mut Sheet| sheet.enter(book, field, usize::from(code == 0));
    let withdraw = |sheet: &mut Sheet| sheet.withdraw(book, field);
    let photograph = |sheet: &mut Sheet| sheet.photograph(book, field);
    assert_eq!((number(photographed, enter), number(photographed, replace)), (0, 22));
    let times = medians(&mut [
        Box::new(|| number(given, enter)),
        Box::new(|| number(given, withdraw)),
        Box::new(|| number(given, photograph)),
        Box::new(|| number(photographed, photograph)),
        Box::new(|| number(photographed, enter)),
        Box::new(|| number(photographed, replace)),
        Box::new(|| {
            let mut bytes = *given.bytes();
            sheet::photograph(&mut bytes, book, field).map_or_else(|refused| refused.0, |()| 0)
        }),
    ]);
    let [enter, withdraw, photograph, again, resent, refused, plain] = times[..] else { unreachable!("seven contenders") };
    Changes { n, enter, withdraw, photograph, again, resent, refused, plain }
}
