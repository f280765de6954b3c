//! What calls show of document 02's M-108: short forms that are loaded and stored, each cause of 24 by itself and before a code at fault,
//! codes at fault and photographs in their order, and the bytes lent.

use std::ops::RangeInclusive;

use crate::book::Book;
use crate::calls::{Call, OF_A_SHORT_FORM, SHORTENING};
use crate::causes::{Cause, Form};
use crate::desk::{is_no_code, Desk};
use crate::made::{Made, Shape};
use crate::sheet::{Sheet, NO_ANSWER, PLACES};

const LOAD: &[&str] = &["load_short"];
const LENGTHEN: &[&str] = &["lengthen"];
const STORE: &[&str] = &["store_short"];
const SHORTEN: &[&str] = &["shorten"];

/// The calls that lend bytes to be written.
const WRITING: &[&str] = &["store_short", "shorten", "lengthen"];

pub const SHAPES: &[Shape] = &[
    ("no answers read", 3_200, OF_A_SHORT_FORM, |made| made.reads_answers(|answers, _| answers == 0)),
    ("some fields answered, read", 1_800, OF_A_SHORT_FORM, |made| {
        made.reads_answers(|answers, fields| 0 < answers && answers < fields)
    }),
    ("all fields answered, read", 1_100, OF_A_SHORT_FORM, |made| made.reads_answers(|answers, fields| answers == fields)),
    ("60 answers read", 44, OF_A_SHORT_FORM, |made| made.reads_answers(|answers, _| answers == PLACES)),
    ("an answer of field 0 read", 2_000, OF_A_SHORT_FORM, |made| made.reads_field(0..=0)),
    ("an answer of a field from 32 to 58 read", 310, OF_A_SHORT_FORM, |made| made.reads_field(32..=58)),
    ("an answer of field 59 read", 120, OF_A_SHORT_FORM, |made| made.reads_field(59..=59)),
    ("code 31 read", 78, OF_A_SHORT_FORM, |made| made.number() == 0 && made.entries().iter().any(|entry| entry[1] == 31)),
    ("24 for no byte", 170, OF_A_SHORT_FORM, |made| made.is_24() && made.form().is_empty()),
    ("24 for one byte", 340, OF_A_SHORT_FORM, |made| made.is_24() && made.form().len() == 1),
    ("24 for one byte, the number of fields", 200, OF_A_SHORT_FORM, |made| made.is_24() && made.form() == [made.fields() as u8]),
    ("24 for one byte more alone", 87, OF_A_SHORT_FORM, |made| made.is_by(Cause::Length) && made.form().len() % 3 == 0),
    ("24 for two bytes more alone", 230, OF_A_SHORT_FORM, |made| made.is_by(Cause::Length) && made.form().len() % 3 == 1),
    ("24 for more than 255 entries", 91, OF_A_SHORT_FORM, |made| made.is_24() && made.entries().len() > 255),
    ("24 for more than 65,535 bytes", 46, OF_A_SHORT_FORM, |made| made.is_24() && made.form().len() > 65_535),
    ("24 for one answer more told alone", 150, OF_A_SHORT_FORM, |made| {
        made.tells_otherwise(Cause::Answers, |told, answers| told == answers + 1)
    }),
    ("24 for one answer fewer told alone", 110, OF_A_SHORT_FORM, |made| {
        made.tells_otherwise(Cause::Answers, |told, answers| told + 1 == answers)
    }),
    ("24 for 0 answers told alone", 81, OF_A_SHORT_FORM, |made| made.tells_otherwise(Cause::Answers, |told, _| told == 0)),
    ("24 for 255 answers told alone", 42, OF_A_SHORT_FORM, |made| made.tells_otherwise(Cause::Answers, |told, _| told == 255)),
    ("24 for one field more told alone", 30, OF_A_SHORT_FORM, |made| {
        made.tells_otherwise(Cause::Fields, |told, fields| told == fields + 1)
    }),
    ("24 for one field fewer told alone", 30, OF_A_SHORT_FORM, |made| {
        made.tells_otherwise(Cause::Fields, |told, fields| told + 1 == fields)
    }),
    ("24 for 0 fields told alone", 44, OF_A_SHORT_FORM, |made| made.tells_otherwise(Cause::Fields, |told, _| told == 0)),
    ("24 for 255 fields told alone", 29, OF_A_SHORT_FORM, |made| made.tells_otherwise(Cause::Fields, |told, _| told == 255)),
    ("24 for 60 fields told alone", 26, OF_A_SHORT_FORM, |made| made.tells_otherwise(Cause::Fields, |told, _| told == PLACES)),
    ("24 for a trailer turned round", 100, OF_A_SHORT_FORM, |made| {
        made.is_by_all(&[Cause::Answers, Cause::Fields]) && made.short().trailer() == Some([made.fields(), made.entries().len()])
    }),
    ("24 for a field of the number of fields alone", 92, OF_A_SHORT_FORM, |made| made.is_of_no_field(|field, n| field == n)),
    ("24 for field 255 alone", 22, OF_A_SHORT_FORM, |made| made.is_of_no_field(|field, _| field == 255)),
    ("24 for a field that a sheet has a place for alone", 110, OF_A_SHORT_FORM, |made| {
        made.is_of_no_field(|field, _| field < PLACES)
    }),
    ("24 for field 60 of 60 alone", 5, OF_A_SHORT_FORM, |made| made.is_of_no_field(|field, n| (field, n) == (60, 60))),
    ("24 for the only entry's field alone", 50, OF_A_SHORT_FORM, |made| made.is_by(Cause::Lacking) && made.entries().len() == 1),
    ("24 for a field twice alone, the first", 57, OF_A_SHORT_FORM, |made| {
        made.is_out_of_order(Place::First, |one, next| one == next)
    }),
    ("24 for a field twice alone, in between", 22, OF_A_SHORT_FORM, |made| {
        made.is_out_of_order(Place::Between, |one, next| one == next)
    }),
    ("24 for a field twice alone, the last", 53, OF_A_SHORT_FORM, |made| {
        made.is_out_of_order(Place::Last, |one, next| one == next)
    }),
    ("24 for a falling field alone, the first", 26, OF_A_SHORT_FORM, |made| {
        made.is_out_of_order(Place::First, |one, next| one > next)
    }),
    ("24 for a falling field alone, in between", 7, OF_A_SHORT_FORM, |made| {
        made.is_out_of_order(Place::Between, |one, next| one > next)
    }),
    ("24 for a falling field alone, the last", 34, OF_A_SHORT_FORM, |made| {
        made.is_out_of_order(Place::Last, |one, next| one > next)
    }),
    ("24 for fields that all fall alone", 63, OF_A_SHORT_FORM, |made| {
        made.is_by(Cause::Order) && made.entries().len() > 2 && made.short().pairs().all(|(one, next)| one > next)
    }),
    ("24 for a photographed byte of 2 alone", 59, OF_A_SHORT_FORM, |made| made.is_no_photograph(|_, byte| byte == 2)),
    ("24 for a photographed byte of 255 alone", 29, OF_A_SHORT_FORM, |made| made.is_no_photograph(|_, byte| byte == 255)),
    ("24 for a photographed byte from 3 to 254 alone", 120, OF_A_SHORT_FORM, |made| {
        made.is_no_photograph(|_, byte| (3..=254).contains(&byte))
    }),
    ("24 for the first photographed byte alone", 71, OF_A_SHORT_FORM, |made| {
        made.is_no_photograph(|place, _| place == Place::First)
    }),
    ("24 for a photographed byte in between alone", 26, OF_A_SHORT_FORM, |made| {
        made.is_no_photograph(|place, _| place == Place::Between)
    }),
    ("24 for the last photographed byte alone", 67, OF_A_SHORT_FORM, |made| {
        made.is_no_photograph(|place, _| place == Place::Last)
    }),
    ("24 for bytes of an old form", 77, OF_A_SHORT_FORM, |made| {
        made.is_24() && Desk::default().loaded(made.reading, made.form()).is_ok()
    }),
    ("24 for the length, before 14", 67, OF_A_SHORT_FORM, |made| made.is_before_14(Cause::Length)),
    ("24 for the answers, before 14", 95, OF_A_SHORT_FORM, |made| made.is_before_14(Cause::Answers)),
    ("24 for the fields, before 14", 57, OF_A_SHORT_FORM, |made| made.is_before_14(Cause::Fields)),
    ("24 for a field, before 14", 56, OF_A_SHORT_FORM, |made| made.is_before_14(Cause::Lacking)),
    ("24 for the order, before 14", 130, OF_A_SHORT_FORM, |made| made.is_before_14(Cause::Order)),
    ("24 for a photographed byte, before 14", 71, OF_A_SHORT_FORM, |made| made.is_before_14(Cause::Photographed)),
    ("24 behind a code at fault", 20, OF_A_SHORT_FORM, |made| made.is_behind_fault()),
    ("14 for the number of codes", 520, OF_A_SHORT_FORM, |made| made.is_fault_of(|[field, code, _]| code == made.count(field))),
    ("14 for 254", 520, OF_A_SHORT_FORM, |made| made.is_fault_of(|[_, code, _]| code == 254)),
    ("14 for 255", 520, OF_A_SHORT_FORM, |made| made.is_fault_of(|[_, code, _]| code == NO_ANSWER)),
    ("14 for a photographed code", 560, OF_A_SHORT_FORM, |made| made.is_fault_of(|[_, _, photographed]| photographed == 1)),
    ("14 for the only entry", 410, OF_A_SHORT_FORM, |made| made.number() == 14 && made.entries().len() == 1),
    ("14 for the first of several entries", 970, OF_A_SHORT_FORM, |made| {
        made.is_fault(|index| made.stands(index) == Place::First)
    }),
    ("14 for an entry in between", 260, OF_A_SHORT_FORM, |made| made.is_fault(|index| made.stands(index) == Place::Between)),
    ("14 for the last of several entries", 440, OF_A_SHORT_FORM, |made| made.is_fault(|index| made.stands(index) == Place::Last)),
    ("14 for one of several codes at fault", 610, OF_A_SHORT_FORM, |made| made.number() == 14 && made.codes_at_fault().len() > 1),
    ("14 at a field that is not the entry's number", 790, OF_A_SHORT_FORM, |made| {
        made.is_fault(|index| index as u64 != made.place())
    }),
    ("14 at a field from 32 to 58", 52, OF_A_SHORT_FORM, |made| made.number() == 14 && (32..=58).contains(&made.place())),
    ("14 at field 59", 22, OF_A_SHORT_FORM, |made| made.number() == 14 && made.place() == 59),
    ("some answers photographed in the form", 1_200, LOAD, |made| {
        made.number() == 0 && made.made_sheet().has_photograph() && !made.made_sheet().is_all_photographed()
    }),
    ("all answers photographed in the form", 870, LOAD, |made| made.number() == 0 && made.made_sheet().is_all_photographed()),
    ("field 0 photographed in the form", 860, LOAD, |made| made.number() == 0 && made.made_sheet().is_photographed(0)),
    ("a field from 32 to 58 photographed in the form", 300, LOAD, |made| {
        made.number() == 0 && (32..=58).any(|field| made.made_sheet().is_photographed(field))
    }),
    ("field 59 photographed in the form", 110, LOAD, |made| made.number() == 0 && made.made_sheet().is_photographed(59)),
    ("60 answers photographed in the form", 33, LOAD, |made| {
        made.number() == 0 && made.made_sheet().photographed().count() == PLACES
    }),
    ("an answer before it of a field without an entry", 5_100, LOAD, |made| {
        made.number() == 0 && some_place(|place| made.sheet().is_answered(place) && !made.made_sheet().is_answered(place))
    }),
    ("a photograph before it of a field answered without one", 1_100, LOAD, |made| {
        made.number() == 0 && some_place(|place| made.sheet().is_photographed(place) && made.made_sheet().is_in_doubt(place))
    }),
    ("24 with answers before it", 2_800, LOAD, |made| made.is_24() && some_place(|place| made.sheet().is_answered(place))),
    ("14 with answers before it", 1_600, LOAD, |made| made.number() == 14 && some_place(|place| made.sheet().is_answered(place))),
    ("1 to 13 with answers before it", 5_200, LOAD, |made| {
        made.is_refused(1..=13) && some_place(|place| made.sheet().is_answered(place))
    }),
    ("24 before 22", 1_000, LENGTHEN, |made| made.is_24() && made.has_photographed_entry()),
    ("14 before 22", 870, LENGTHEN, |made| made.number() == 14 && made.has_photographed_entry()),
    ("22 for the first of several entries alone", 110, LENGTHEN, |made| {
        made.is_22_for(|index| made.stands(index) == Place::First)
    }),
    ("22 for an entry in between alone", 160, LENGTHEN, |made| made.is_22_for(|index| made.stands(index) == Place::Between)),
    ("22 for the last of several entries alone", 510, LENGTHEN, |made| made.is_22_for(|index| made.stands(index) == Place::Last)),
    ("22 for all entries", 910, LENGTHEN, |made| made.number() == 22 && made.entries().iter().all(|entry| entry[2] == 1)),
    ("22 for field 59 alone", 28, LENGTHEN, |made| made.is_22_for(|index| made.entries()[index][0] == 59)),
    ("24 before 18", 3_600, LENGTHEN, |made| made.is_24() && made.lent() < made.fields()),
    ("24 where enough is lent", 2_700, LENGTHEN, |made| made.is_24() && made.lent() >= made.fields()),
    ("14 before 18", 2_100, LENGTHEN, |made| made.number() == 14 && made.lent() < made.fields()),
    ("14 where enough is lent", 1_600, LENGTHEN, |made| made.number() == 14 && made.lent() >= made.fields()),
    ("22 before 18", 2_200, LENGTHEN, |made| made.number() == 22 && made.lent() < made.fields()),
    ("22 where enough is lent", 1_600, LENGTHEN, |made| made.number() == 22 && made.lent() >= made.fields()),
    ("18 for a form shorter than the fields", 2_600, LENGTHEN, |made| {
        made.number() == 18 && made.form().len() < made.fields() && made.lent() >= made.form().len()
    }),
    ("fewer bytes lent than the form has", 3_100, LENGTHEN, |made| made.number() == 0 && made.lent() < made.form().len()),
    ("no answers written", 1_700, SHORTENING, |made| made.writes(|answers, _| answers == 0)),
    ("one answer written", 890, SHORTENING, |made| made.writes(|answers, _| answers == 1)),
    ("some fields answered, written", 2_700, SHORTENING, |made| made.writes(|answers, fields| 0 < answers && answers < fields)),
    ("all fields answered, written", 1_700, SHORTENING, |made| made.writes(|answers, fields| answers == fields)),
    ("182 bytes written", 95, SHORTENING, |made| made.writes(|answers, _| answers == PLACES)),
    ("182 bytes asked, 181 lent", 95, SHORTENING, |made| made.number() == 18 && (made.asked(), made.lent()) == (182, 181)),
    ("field 0 without an answer, written", 3_100, SHORTENING, |made| made.writes_sheet(|sheet, _| !sheet.is_answered(0))),
    ("the last field alone answered, written", 430, SHORTENING, |made| {
        made.writes_sheet(|sheet, fields| (0..fields).all(|field| sheet.is_answered(field) == (field + 1 == fields)))
    }),
    ("a field from 32 to 58 written", 610, SHORTENING, |made| {
        made.writes_sheet(|sheet, _| (32..=58).any(|f| sheet.is_answered(f)))
    }),
    ("field 59 written", 250, SHORTENING, |made| made.writes_sheet(|sheet, _| sheet.is_answered(59))),
    ("a form shorter than the fields, written where it has room", 1_500, SHORTENING, |made| {
        made.number() == 0 && made.lent() < made.fields()
    }),
    ("18 where as many bytes are lent as fields", 4_300, SHORTENING, |made| made.number() == 18 && made.lent() >= made.fields()),
    ("one byte too few", 6_300, WRITING, |made| made.number() == 18 && made.lent() + 1 == made.asked()),
    ("no byte lent", 1_200, WRITING, |made| made.number() == 18 && made.lent() == 0),
    ("just enough lent", 6_300, WRITING, |made| made.number() == 0 && made.lent() == made.asked()),
    ("more lent", 6_300, WRITING, |made| made.number() == 0 && made.lent() > made.asked()),
    ("14 before 18", 1_700, SHORTENING, |made| made.number() == 14 && made.lent() < 2),
    ("14 where enough is lent", 960, SHORTENING, |made| made.number() == 14 && made.lent() >= 3 * made.fields() + 2),
    ("some answers photographed, written", 2_100, STORE, |made| made.number() == 0 && made.is_part_photographed()),
    ("all answers photographed, written", 1_200, STORE, |made| made.number() == 0 && made.sheet().is_all_photographed()),
    ("a photograph by a byte above 1, written", 1_200, STORE, |made| made.number() == 0 && made.has_byte_above_1()),
    ("a photograph of field 0 alone, written", 380, STORE, |made| made.number() == 0 && made.sheet().photographed().eq([0])),
    ("a photograph of the last field alone, written", 550, STORE, |made| {
        made.number() == 0 && made.sheet().photographed().eq([made.fields() - 1])
    }),
    ("a photograph of a field from 32 to 58, written", 530, STORE, |made| {
        made.number() == 0 && made.sheet().photographed().any(|field| (32..=58).contains(&field))
    }),
    ("a photograph of field 59, written", 110, STORE, |made| made.number() == 0 && made.sheet().is_photographed(59)),
    ("60 photographs written", 35, STORE, |made| made.number() == 0 && made.sheet().photographed().count() == PLACES),
    ("18 with a photograph", 3_300, STORE, |made| made.number() == 18 && made.sheet().has_photograph()),
    ("19 before 14", 2_100, SHORTEN, |made| made.number() == 19 && made.old_faults().next().is_some()),
    ("19 before 18", 6_200, SHORTEN, |made| made.number() == 19 && made.lent() < 2),
    ("19 where enough is lent", 3_500, SHORTEN, |made| made.number() == 19 && made.lent() >= 3 * made.fields() + 2),
    ("14 for one of several codes of an old form", 380, SHORTEN, |made| made.number() == 14 && made.old_faults().count() > 1),
];

/// Where something stands among several, in a row of that length.
#[derive(Clone, Copy, PartialEq)]
enum Place {
    Only,
    First,
    Between,
    Last,
}

impl Place {
    fn of(index: usize, length: usize) -> Place {
        match index {
            _ if length == 1 => Place::Only,
            0 => Place::First,
            _ if index + 1 == length => Place::Last,
            _ => Place::Between,
        }
    }
}

/// Some place of a sheet is so.
fn some_place(so: impl Fn(usize) -> bool) -> bool {
    (0..PLACES).any(so)
}

impl Made<'_> {
    /// The bytes that the call is given.
    fn form(&self) -> &[u8] {
        self.trial.call.list()
    }

    /// These bytes as a short form.
    fn short(&self) -> Form<'_> {
        Form { fields: self.fields(), bytes: self.form() }
    }

    fn entries(&self) -> &[[u8; 3]] {
        self.short().entries()
    }

    fn is_24(&self) -> bool {
        self.number() == 24
    }

    /// 24 for these causes and no others.
    fn is_by_all(&self, causes: &[Cause]) -> bool {
        self.is_24() && self.short().has_just(causes)
    }

    /// 24 for this cause alone.
    fn is_by(&self, cause: Cause) -> bool {
        self.is_by_all(&[cause])
    }

    /// 24 for a number of the trailer alone, which is so beside the right one.
    fn tells_otherwise(&self, cause: Cause, so: fn(usize, usize) -> bool) -> bool {
        let pair = self.short().trailer().map(|[answers, fields]| match cause {
            Cause::Answers => (answers, self.entries().len()),
            _ => (fields, self.fields()),
        });
        self.is_by(cause) && pair.is_some_and(|(told, right)| so(told, right))
    }

    /// 24 for a field alone that the book lacks: the first such is so beside the number of fields.
    fn is_of_no_field(&self, so: fn(usize, usize) -> bool) -> bool {
        let lacking = self.entries().iter().map(|entry| entry[0] as usize).find(|&field| field >= self.fields());
        self.is_by(Cause::Lacking) && lacking.is_some_and(|field| so(field, self.fields()))
    }

    /// 24 for one pair of fields alone, which stands there among all pairs and is so.
    fn is_out_of_order(&self, place: Place, so: fn(u8, u8) -> bool) -> bool {
        let pairs: Vec<(u8, u8)> = self.short().pairs().collect();
        let wrong: Vec<usize> = (0..pairs.len()).filter(|&index| pairs[index].0 >= pairs[index].1).collect();
        self.is_by(Cause::Order)
            && wrong.len() == 1
            && Place::of(wrong[0], pairs.len()) == place
            && so(pairs[wrong[0]].0, pairs[wrong[0]].1)
    }

    /// The entries that are so, by their number.
    fn which(&self, so: impl Fn([u8; 3]) -> bool) -> Vec<usize> {
        (0..self.entries().len()).filter(|&index| so(self.entries()[index])).collect()
    }

    /// Where an entry stands among all.
    fn stands(&self, index: usize) -> Place {
        Place::of(index, self.entries().len())
    }

    /// 24 for one photographed byte alone, which is so, with its entry's place.
    fn is_no_photograph(&self, so: fn(Place, u8) -> bool) -> bool {
        let wrong = self.which(|[_, _, photographed]| photographed > 1);
        self.is_by(Cause::Photographed) && wrong.len() == 1 && so(self.stands(wrong[0]), self.entries()[wrong[0]][2])
    }

    /// The entries of the book's fields whose codes are at fault.
    fn codes_at_fault(&self) -> Vec<usize> {
        let is_fault = |book: &Book, field: usize, code: u8| field < book.counts.len() && is_no_code(book, field, code);
        self.which(|[field, code, _]| self.reading.as_ref().is_ok_and(|book| is_fault(book, field as usize, code)))
    }

    /// 24 for this cause alone, with a code at fault.
    fn is_before_14(&self, cause: Cause) -> bool {
        self.is_by(cause) && !self.codes_at_fault().is_empty()
    }

    /// 24 for a photographed byte behind a code at fault, which a form read entry by entry would meet first.
    fn is_behind_fault(&self) -> bool {
        let first = self.which(|[_, _, photographed]| photographed > 1).first().copied();
        self.is_by(Cause::Photographed) && self.codes_at_fault().first().is_some_and(|&fault| Some(fault) < first)
    }

    /// The place that 14 names.
    fn place(&self) -> u64 {
        self.trial.left.cells[0]
    }

    /// The number of codes of a field.
    fn count(&self, field: u8) -> u8 {
        self.reading.as_ref().map_or(0, |book| book.counts[field as usize])
    }

    /// 14 for an entry that is so, by its number.
    fn is_fault(&self, so: impl Fn(usize) -> bool) -> bool {
        self.number() == 14 && self.codes_at_fault().first().is_some_and(|&index| so(index))
    }

    /// 14 for an entry with such bytes.
    fn is_fault_of(&self, so: impl Fn([u8; 3]) -> bool) -> bool {
        self.is_fault(|index| so(self.entries()[index]))
    }

    fn has_photographed_entry(&self) -> bool {
        self.entries().iter().any(|entry| entry[2] == 1)
    }

    /// 22 for one entry alone, which is so.
    fn is_22_for(&self, so: impl Fn(usize) -> bool) -> bool {
        let photographed = self.which(|[_, _, photographed]| photographed == 1);
        self.number() == 22 && photographed.len() == 1 && so(photographed[0])
    }

    /// An accepted short form has so many answers of so many fields.
    fn reads_answers(&self, so: fn(usize, usize) -> bool) -> bool {
        self.number() == 0 && so(self.entries().len(), self.fields())
    }

    fn reads_field(&self, fields: RangeInclusive<u8>) -> bool {
        self.number() == 0 && self.entries().iter().any(|entry| fields.contains(&entry[0]))
    }

    /// The sheet that the call hands back.
    fn made_sheet(&self) -> &Sheet {
        &self.trial.left.sheet
    }

    fn lent(&self) -> usize {
        self.trial.lent.elements()
    }

    fn asked(&self) -> usize {
        self.trial.asked.written
    }

    /// The sheet whose short form the call writes is so, and the number of fields.
    fn writes_sheet(&self, so: fn(&Sheet, usize) -> bool) -> bool {
        let sheet = || match self.trial.call {
            Call::Shorten { form } => Sheet::of(form),
            _ => *self.sheet(),
        };
        self.number() == 0 && so(&sheet(), self.fields())
    }

    /// So many answers of so many fields are written.
    fn writes(&self, so: fn(usize, usize) -> bool) -> bool {
        self.number() == 0 && so((self.asked() - 2) / 3, self.fields())
    }

    /// The fields of an old form whose codes are at fault.
    fn old_faults(&self) -> impl Iterator<Item = usize> + '_ {
        let codes = self.form().iter().take(self.fields()).enumerate().filter(|(_, &code)| code != NO_ANSWER);
        let is_fault = |field: usize, code: u8| self.reading.as_ref().is_ok_and(|book| is_no_code(book, field, code));
        codes.filter(move |&(field, &code)| is_fault(field, code)).map(|(field, _)| field)
    }
}

#[cfg(test)]
mod tests {
    use super::SHAPES;
    use crate::calls::Call;
    use crate::examples::e1;
    use crate::made::names_of;
    use crate::sheet::{Sheet, FRESH};

    /// The shapes of loading this form on E1.
    fn names(form: &[u8]) -> Vec<&'static str> {
        names_of(SHAPES, &e1(), FRESH, Call::LoadShort { form: form.to_vec() })
    }

    #[test]
    fn shapes_of_loaded_forms() {
        assert_eq!(names(&[0, 3]), ["no answers read"]);
        let some = ["some fields answered, read", "an answer of field 0 read"];
        assert_eq!(names(&[0, 0, 0, 1, 1, 0, 2, 3]), some);
        let photographed = ["some answers photographed in the form", "field 0 photographed in the form"];
        assert_eq!(names(&[0, 0, 1, 1, 1, 0, 2, 3]), [some, photographed].concat());
        let before = Sheet::of(&[1, 1]).with_photographs(&[0]);
        let load = Call::LoadShort { form: vec![0, 1, 0, 1, 3] };
        let replaced =
            ["an answer before it of a field without an entry", "a photograph before it of a field answered without one"];
        assert_eq!(names_of(SHAPES, &e1(), before, load), [some, replaced].concat());
    }

    #[test]
    fn causes_by_themselves() {
        for (form, expected) in [
            (&[][..], &["24 for no byte"][..]),
            (&[3], &["24 for one byte", "24 for one byte, the number of fields"]),
            (&[0, 0, 1, 9, 1, 3], &["24 for one byte more alone"]),
            (&[0, 0, 1, 9, 9, 1, 3], &["24 for two bytes more alone"]),
            (&[0, 0, 1, 2, 3], &["24 for one answer more told alone"]),
            (&[0, 0, 1, 0, 3], &["24 for one answer fewer told alone", "24 for 0 answers told alone"]),
            (&[0, 0, 1, 1, 4], &["24 for one field more told alone"]),
            (&[0, 0, 1, 1, 60], &["24 for 60 fields told alone"]),
            (&[0, 0, 1, 3, 1], &["24 for a trailer turned round"]),
            (&[0, 0, 1, 255, 0, 0, 2, 3], &["24 for field 255 alone"]),
            (&[0, 0, 0, 0, 0, 0, 1, 1, 0, 3, 3], &["24 for a field twice alone, the first"]),
            (&[0, 0, 0, 2, 0, 0, 1, 1, 0, 3, 3], &["24 for a falling field alone, the last"]),
            (&[2, 0, 0, 1, 0, 0, 0, 1, 0, 3, 3], &["24 for fields that all fall alone"]),
            (&[0, 0, 0, 1, 0, 2, 2, 3], &["24 for a photographed byte of 2 alone", "24 for the last photographed byte alone"]),
        ] {
            assert_eq!(names(form), expected, "{form:?}");
        }
        let byte = ["24 for a photographed byte of 255 alone", "24 for the last photographed byte alone"];
        let before_14 = ["24 for a photographed byte, before 14", "24 behind a code at fault"];
        assert_eq!(names(&[0, 2, 0, 1, 0, 255, 2, 3]), [byte, before_14].concat());
        assert_eq!(names(&[0, 2, 0, 1, 0, 255, 1, 3]), Vec::<&str>::new());
    }

    #[test]
    fn codes_at_fault() {
        let last = ["14 for the last of several entries", "14 at a field that is not the entry's number"];
        assert_eq!(names(&[0, 0, 1, 2, 255, 0, 2, 3]), [&["14 for 255"], &last[..]].concat());
        let first = ["14 for the first of several entries", "14 for one of several codes at fault"];
        let photographed = ["14 for the number of codes", "14 for a photographed code"];
        assert_eq!(names(&[0, 2, 1, 1, 3, 0, 2, 3]), [photographed, first].concat());
    }

    #[test]
    fn shapes_of_written_forms() {
        let shorten = names_of(SHAPES, &e1(), FRESH, Call::Shorten { form: vec![255, 255, 1] });
        let written = ["one answer written", "some fields answered, written", "field 0 without an answer, written"];
        assert!(shorten.starts_with(&[&written[..], &["the last field alone answered, written"]].concat()), "{shorten:?}");
        let store = names_of(SHAPES, &e1(), Sheet::of(&[0, 1]).with_photographs(&[0]), Call::StoreShort);
        let photographs = ["some answers photographed, written", "a photograph of field 0 alone, written"];
        assert!(store.ends_with(&[&photographs[..], &["18 with a photograph"]].concat()), "{store:?}");
        let lengthen = names_of(SHAPES, &e1(), FRESH, Call::Lengthen { form: vec![0, 0, 1, 1, 1, 0, 2, 3] });
        assert!(lengthen.starts_with(&["22 for the first of several entries alone", "22 before 18"]), "{lengthen:?}");
    }
}
