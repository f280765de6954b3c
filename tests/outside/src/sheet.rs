//! A sheet: answers and photographs, as the bytes that are lent hold them.

/// The places of a sheet, whatever the book's version.
pub const PLACES: usize = 60;

pub const NO_ANSWER: u8 = 255;

/// The answer of each place, and for each whether it is photographed: any byte but 0 says so.
#[derive(Clone, Copy, Debug, PartialEq)]
pub struct Sheet {
    pub answers: [u8; PLACES],
    pub photographs: [u8; PLACES],
}

pub const FRESH: Sheet = Sheet { answers: [NO_ANSWER; PLACES], photographs: [0; PLACES] };

impl Sheet {
    /// These answers of the first fields, and no photographs.
    pub fn of(answers: &[u8]) -> Sheet {
        let mut sheet = FRESH;
        sheet.answers[..answers.len()].copy_from_slice(answers);
        sheet
    }

    /// The sheet with these places photographed too.
    pub fn with_photographs(mut self, places: &[usize]) -> Sheet {
        places.iter().for_each(|&place| self.photographs[place] = 1);
        self
    }

    /// The sheet with those places photographed that are so, and no others.
    pub fn photographed_where(&self, so: impl Fn(usize) -> bool) -> Sheet {
        Sheet { photographs: std::array::from_fn(|place| so(place) as u8), ..*self }
    }

    pub fn from_bytes(bytes: [u8; 2 * PLACES]) -> Sheet {
        let (mut answers, mut photographs) = ([0; PLACES], [0; PLACES]);
        answers.copy_from_slice(&bytes[..PLACES]);
        photographs.copy_from_slice(&bytes[PLACES..]);
        Sheet { answers, photographs }
    }

    pub fn bytes(&self) -> [u8; 2 * PLACES] {
        let mut bytes = [0; 2 * PLACES];
        bytes[..PLACES].copy_from_slice(&self.answers);
        bytes[PLACES..].copy_from_slice(&self.photographs);
        bytes
    }

    pub fn is_answered(&self, place: usize) -> bool {
        self.answers[place] != NO_ANSWER
    }

    pub fn is_photographed(&self, place: usize) -> bool {
        self.photographs[place] != 0
    }

    pub fn photographed(&self) -> impl Iterator<Item = usize> + '_ {
        (0..PLACES).filter(|&place| self.is_photographed(place))
    }

    pub fn has_photograph(&self) -> bool {
        self.photographed().next().is_some()
    }

    /// Some place is photographed, and each answer is.
    pub fn is_all_photographed(&self) -> bool {
        self.has_photograph() && !(0..PLACES).any(|place| self.is_in_doubt(place))
    }

    /// Answered, and without a photograph.
    pub fn is_in_doubt(&self, place: usize) -> bool {
        self.is_answered(place) && !self.is_photographed(place)
    }

    /// The same answers and photographs, these by 0 and 1.
    pub fn in_bits(&self) -> Sheet {
        self.photographed_where(|place| self.is_photographed(place))
    }
}
