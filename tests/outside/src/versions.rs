//! What cases show of document 02's M-103: versions and numbers of fields, places and fields behind version 1's limit, and lists that are
//! longer for them.

use std::ops::RangeInclusive;

use crate::book::Refusal;
use crate::calls::{Call, LISTING, OF_A_BOOK, OF_A_FIELD, OF_A_FORM, OF_A_SHEET, ONE_FOR_EACH, WITH_PAIRS};
use crate::desk::Desk;
use crate::made::{Made, Shape};
use crate::sheet::{Sheet, NO_ANSWER};

const ALL: RangeInclusive<u8> = 0..=255;

pub const SHAPES: &[Shape] = &[
    ("version 1, fewer than 32 fields", 5_000, OF_A_BOOK, |made| made.reads(1, 1..=31)),
    ("version 1, 32 fields", 350, OF_A_BOOK, |made| made.reads(1, 32..=32)),
    ("version 2, fewer than 32 fields", 2_500, OF_A_BOOK, |made| made.reads(2, 1..=31)),
    ("version 2, 32 fields", 200, OF_A_BOOK, |made| made.reads(2, 32..=32)),
    ("version 2, 33 fields", 80, OF_A_BOOK, |made| made.reads(2, 33..=33)),
    ("version 2, 34 to 58 fields", 250, OF_A_BOOK, |made| made.reads(2, 34..=58)),
    ("version 2, 59 fields", 75, OF_A_BOOK, |made| made.reads(2, 59..=59)),
    ("version 2, 60 fields", 450, OF_A_BOOK, |made| made.reads(2, 60..=60)),
    ("4 for no fields of version 1", 45, OF_A_BOOK, |made| made.turns_down(4, 1..=1, 0..=0)),
    ("4 for 33 fields of version 1", 45, OF_A_BOOK, |made| made.turns_down(4, 1..=1, 33..=33)),
    ("4 for 34 to 60 fields of version 1", 45, OF_A_BOOK, |made| made.turns_down(4, 1..=1, 34..=60)),
    ("4 for more than 60 fields of version 1", 90, OF_A_BOOK, |made| made.turns_down(4, 1..=1, 61..=255)),
    ("4 for no fields of version 2", 30, OF_A_BOOK, |made| made.turns_down(4, 2..=2, 0..=0)),
    ("4 for 61 fields of version 2", 30, OF_A_BOOK, |made| made.turns_down(4, 2..=2, 61..=61)),
    ("4 for more than 61 fields of version 2", 70, OF_A_BOOK, |made| made.turns_down(4, 2..=2, 62..=255)),
    ("3 for version 0", 60, OF_A_BOOK, |made| made.turns_down(3, 0..=0, ALL)),
    ("3 for version 3", 80, OF_A_BOOK, |made| made.turns_down(3, 3..=3, ALL)),
    ("3 for versions above 3", 240, OF_A_BOOK, |made| made.turns_down(3, 4..=255, ALL)),
    ("3 beside no fields", 20, OF_A_BOOK, |made| made.turns_down(3, ALL, 0..=0)),
    ("3 beside 1 to 32 fields", 250, OF_A_BOOK, |made| made.turns_down(3, ALL, 1..=32)),
    ("3 beside 33 to 60 fields", 60, OF_A_BOOK, |made| made.turns_down(3, ALL, 33..=60)),
    ("3 beside more than 60 fields", 45, OF_A_BOOK, |made| made.turns_down(3, ALL, 61..=255)),
    ("14 at 31", 120, OF_A_SHEET, |made| made.fault(31..=31, true) || made.fault(31..=31, false)),
    ("14 at 32, a field", 10, OF_A_SHEET, |made| made.fault(32..=32, true)),
    ("14 at 33 to 58, a field", 35, OF_A_SHEET, |made| made.fault(33..=58, true)),
    ("14 at 59, a field", 6, OF_A_SHEET, |made| made.fault(59..=59, true)),
    ("14 at 32 for version 1", 65, OF_A_SHEET, |made| made.fault(32..=32, false) && made.is_version(1)),
    ("14 at 33 to 58 for version 1", 80, OF_A_SHEET, |made| made.fault(33..=58, false) && made.is_version(1)),
    ("14 at 59 for version 1", 40, OF_A_SHEET, |made| made.fault(59..=59, false) && made.is_version(1)),
    ("14 at 32 to 58 behind the fields of version 2", 80, OF_A_SHEET, |made| made.fault(32..=58, false) && made.is_version(2)),
    ("14 at 59 behind the fields of version 2", 25, OF_A_SHEET, |made| made.fault(59..=59, false) && made.is_version(2)),
    ("field 32 taken", 10, OF_A_FIELD, |made| made.takes(32..=32)),
    ("a field from 33 to 58 taken", 60, OF_A_FIELD, |made| made.takes(33..=58)),
    ("field 59 taken", 15, OF_A_FIELD, |made| made.takes(59..=59)),
    ("15 for field 32 of 32", 15, OF_A_FIELD, |made| made.lacks(32..=32, 32..=32)),
    ("15 for a field from 32 to 59", 50, OF_A_FIELD, |made| made.lacks(32..=59, 1..=59)),
    ("15 for field 60 of 60", 5, OF_A_FIELD, |made| made.lacks(60..=60, 60..=60)),
    ("60 elements asked, 60 lent", 220, ONE_FOR_EACH, |made| made.lent_of(60) == Some(60)),
    ("60 elements asked, 59 lent", 220, ONE_FOR_EACH, |made| made.lent_of(60) == Some(59)),
    ("60 elements asked, more lent", 220, ONE_FOR_EACH, |made| made.lent_of(60) > Some(60)),
    ("33 to 59 bytes loaded", 200, OF_A_FORM, |made| made.loads(33..=59)),
    ("60 bytes loaded", 220, OF_A_FORM, |made| made.loads(60..=60)),
    ("14 at 32 to 58 of a stored sheet", 20, OF_A_FORM, |made| made.fault_loaded(32..=58)),
    ("14 at 59 of a stored sheet", 7, OF_A_FORM, |made| made.fault_loaded(59..=59)),
    ("19 for 59 bytes of 60", 30, OF_A_FORM, |made| made.not_loaded(59) && made.fields() == 60),
    ("19 for 61 bytes of 60", 30, OF_A_FORM, |made| made.not_loaded(61) && made.fields() == 60),
    ("19 for 60 bytes of fewer, 255 behind them", 70, OF_A_FORM, |made| {
        made.not_loaded(60) && made.trial.call.list().iter().skip(made.fields()).all(|&byte| byte == NO_ANSWER)
    }),
    ("a line of a field from 32 to 58", 200, WITH_PAIRS, |made| made.lists(32..=58)),
    ("a line of field 59", 55, WITH_PAIRS, |made| made.lists(59..=59)),
    ("more than 1,024 lines", 7, LISTING, |made| made.totals(1_025..=1_920)),
    ("1,920 lines", 2, LISTING, |made| made.totals(1_920..=1_920)),
    ("3,840 bytes asked, 3,839 lent", 2, WITH_PAIRS, |made| made.lent_of(3_840) == Some(3_839)),
    ("more than 33,792 struck", 35, LISTING, |made| made.strikes(33_793..=117_120)),
    ("more than 65,535 struck", 22, LISTING, |made| made.strikes(65_536..=117_120)),
    ("more than 99,999 struck", 9, LISTING, |made| made.strikes(100_000..=117_120)),
    ("117,120 struck", 2, LISTING, |made| made.strikes(117_120..=117_120)),
    ("an answer from 32 to 58 reached", 400, &["replay"], |made| made.reached(32..=58)),
    ("answer 59 reached", 120, &["replay"], |made| made.reached(59..=59)),
    ("a withdrawal from 32 on in a list", 120, &["replay"], |made| made.withdraws(32..=59)),
    ("more than 11,305 bytes of text", 45, &["report"], |made| made.has_text(11_306..=21_162)),
    ("1,920 open codes", 6, &["report"], |made| made.opens(1_920)),
    ("a text of 16 KB or more, one byte too few lent", 40, &["report"], |made| {
        made.trial.asked.written >= 16_384 && made.lent_of(made.trial.lent.elements() + 1).is_some()
    }),
    ("16,803 numbers asked and lent", 3, &["show"], |made| made.lent_of(16_803) == Some(16_803)),
    ("16,831 numbers asked and lent", 3, &["show"], |made| made.lent_of(16_831) == Some(16_831)),
    ("16,831 numbers asked, one less lent", 3, &["show"], |made| made.lent_of(16_831) == Some(16_830)),
    ("16,870 bytes asked and lent", 8, &["write"], |made| made.lent_of(16_870) == Some(16_870)),
    ("16,898 bytes asked and lent", 8, &["write"], |made| made.lent_of(16_898) == Some(16_898)),
    ("16,898 bytes asked, one less lent", 8, &["write"], |made| made.lent_of(16_898) == Some(16_897)),
];

impl Made<'_> {
    fn is_version(&self, version: u8) -> bool {
        self.reading.as_ref().is_ok_and(|book| book.version == version)
    }

    fn reads(&self, version: u8, fields: RangeInclusive<usize>) -> bool {
        self.is_version(version) && fields.contains(&self.fields())
    }

    /// The book is refused by 3 or 4, and has such a version and number of fields in its trailer.
    fn turns_down(&self, number: u64, versions: RangeInclusive<u8>, fields: RangeInclusive<u8>) -> bool {
        let refused = self.reading.as_ref().is_err_and(|r| r.number == number);
        let from_end = |back: usize| self.case.book[self.case.book.len() - back];
        refused && versions.contains(&from_end(2)) && fields.contains(&from_end(4))
    }

    /// 14 names such a place, of a field of the book or behind its fields.
    fn fault(&self, places: RangeInclusive<u64>, of_a_field: bool) -> bool {
        let place = self.trial.left.cells[0];
        self.number() == 14 && places.contains(&place) && (place < self.fields() as u64) == of_a_field
    }

    fn takes(&self, fields: RangeInclusive<usize>) -> bool {
        self.number() == 0 && self.trial.call.field().is_some_and(|field| fields.contains(&field))
    }

    /// 15 for such a field, of a book of so many fields.
    fn lacks(&self, fields: RangeInclusive<usize>, of: RangeInclusive<usize>) -> bool {
        let refused = self.number() == 15 && of.contains(&self.fields());
        refused && self.trial.call.field().is_some_and(|field| fields.contains(&field))
    }

    /// How many elements are lent, where the call has so many to write.
    fn lent_of(&self, written: usize) -> Option<usize> {
        (self.trial.asked.written == written).then(|| self.trial.lent.elements())
    }

    /// The length of the stored sheet, and what loading it answers.
    fn loading(&self) -> (usize, Result<Sheet, Refusal>) {
        let form = self.trial.call.list();
        (form.len(), Desk::default().loaded(self.reading, form))
    }

    fn loads(&self, lengths: RangeInclusive<usize>) -> bool {
        matches!(self.loading(), (length, Ok(_)) if lengths.contains(&length))
    }

    fn fault_loaded(&self, places: RangeInclusive<u64>) -> bool {
        matches!(self.loading(), (_, Err(r)) if r.number == 14 && places.contains(&r.place))
    }

    fn not_loaded(&self, length: usize) -> bool {
        matches!(self.loading(), (found, Err(r)) if r.number == 19 && found == length)
    }

    /// The bytes that the call writes; none where it is refused.
    fn written(&self) -> &[u8] {
        let written = if self.number() == 0 { self.trial.asked.written } else { 0 };
        &self.trial.left.out.bytes[..written]
    }

    /// The lines of a report's text.
    fn lines(&self) -> impl Iterator<Item = &[u8]> {
        self.written().split_inclusive(|&byte| byte == b'\n')
    }

    /// The total and what is struck; in a report its second line has them.
    fn counts(&self) -> Option<(u64, u64)> {
        let cells = match self.trial.call {
            _ if self.number() != 0 => return None,
            Call::Report { .. } => {
                let line = String::from_utf8_lossy(self.lines().nth(1)?);
                line.split_whitespace().filter_map(|word| word.parse().ok()).collect()
            }
            _ => self.trial.left.cells.clone(),
        };
        Some((cells[1], cells[2]))
    }

    fn totals(&self, totals: RangeInclusive<u64>) -> bool {
        self.counts().is_some_and(|(total, _)| totals.contains(&total))
    }

    fn strikes(&self, struck: RangeInclusive<u64>) -> bool {
        self.counts().is_some_and(|(_, found)| struck.contains(&found))
    }

    /// A pair has such a field.
    fn lists(&self, fields: RangeInclusive<u8>) -> bool {
        self.written().chunks(2).any(|pair| fields.contains(&pair[0]))
    }

    /// The list of calls reaches an answer in such a field.
    fn reached(&self, fields: RangeInclusive<usize>) -> bool {
        self.trial.left.sheet.answers[fields].iter().any(|&answer| answer != NO_ANSWER)
    }

    /// The list of calls withdraws an answer from such a field.
    fn withdraws(&self, fields: RangeInclusive<u8>) -> bool {
        let calls = self.trial.call.list();
        let (numbers, _) = Desk::default().after(self.reading, calls);
        calls.chunks_exact(3).zip(numbers).any(|(call, number)| call[0] == 1 && number == 0 && fields.contains(&call[1]))
    }

    fn has_text(&self, lengths: RangeInclusive<usize>) -> bool {
        lengths.contains(&self.written().len())
    }

    /// So many codes are open, and no field is answered.
    fn opens(&self, codes: usize) -> bool {
        self.totals(0..=0) && self.lines().count() == codes + 2
    }
}

#[cfg(test)]
mod tests {
    use super::SHAPES;
    use crate::book::Book;
    use crate::calls::Call;
    use crate::made::names_of;
    use crate::sheet::{Sheet, FRESH, NO_ANSWER, PLACES};

    /// The shapes of a call on such a book without tables and on this sheet.
    fn names(version: u8, counts: Vec<u8>, sheet: Sheet, call: Call) -> Vec<&'static str> {
        names_of(SHAPES, &Book { version, ..Book::new(counts, Vec::new()) }, sheet, call)
    }

    #[test]
    fn shapes_of_books() {
        let read = |version, fields| names(version, vec![1; fields], FRESH, Call::Read);
        assert_eq!(read(1, 32), ["version 1, 32 fields"]);
        assert_eq!(read(1, 33), ["4 for 33 fields of version 1"]);
        assert_eq!(read(2, 33), ["version 2, 33 fields"]);
        assert_eq!(read(2, 61), ["4 for 61 fields of version 2"]);
        assert_eq!(read(0, 60), ["3 for version 0", "3 beside 33 to 60 fields"]);
        assert_eq!(read(255, 0), ["3 for versions above 3", "3 beside no fields"]);
    }

    #[test]
    fn shapes_of_sheets() {
        let mut sheet = FRESH;
        sheet.answers[PLACES - 1] = 1;
        let store = |version, fields| names(version, vec![1; fields], sheet, Call::Store);
        assert_eq!(store(1, 1), ["version 1, fewer than 32 fields", "14 at 59 for version 1"]);
        assert_eq!(store(2, 59), ["version 2, 59 fields", "14 at 59 behind the fields of version 2"]);
        assert_eq!(store(2, 60), ["version 2, 60 fields", "14 at 59, a field"]);
        let load = |fields, length| names(2, vec![1; fields], sheet, Call::Load { form: vec![NO_ANSWER; length] });
        assert_eq!(load(60, 60), ["version 2, 60 fields", "60 bytes loaded"]);
        assert_eq!(load(60, 61), ["version 2, 60 fields", "19 for 61 bytes of 60"]);
        assert_eq!(load(33, 60), ["version 2, 33 fields", "19 for 60 bytes of fewer, 255 behind them"]);
    }

    #[test]
    fn shapes_of_lists() {
        let of_all = |call| names(2, vec![32; 60], Sheet::of(&[0; PLACES]), call);
        let lines = ["a line of a field from 32 to 58", "a line of field 59", "more than 1,024 lines", "1,920 lines"];
        let struck = ["more than 33,792 struck", "more than 65,535 struck", "more than 99,999 struck"];
        let expected = [&["version 2, 60 fields"], &lines[..], &["3,840 bytes asked, 3,839 lent"], &struck].concat();
        assert_eq!(of_all(Call::Alternatives), expected);
        let report = of_all(Call::Report { form: vec![NO_ANSWER; 60] });
        assert!(report.ends_with(&["1,920 open codes", "a text of 16 KB or more, one byte too few lent"]));
        let replay = of_all(Call::Replay { calls: vec![0, 59, 0, 1, 59, 0, 0, 32, 0] });
        assert!(replay.ends_with(&["an answer from 32 to 58 reached", "a withdrawal from 32 on in a list"]));
    }
}
