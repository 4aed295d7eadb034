//! Refusals with their numbers, and faults (docs/REFUSALS.md).

/// Why something is refused. The numbers are those that are printed.
#[derive(Clone, Copy, Debug, PartialEq, Eq)]
pub enum Refusal {
    SourceOutOfRange = 1,
    ReportUnmarked = 2,
    WrongTermCount = 3,
    TooManyKilograms = 4,
    OverseasAboveReading = 5,
    OffsetsAboveReading = 6,
    KindNotInRule = 10,
    FigureNotGiven = 11,
    FieldOutOfRange = 12,
    ReadingBelowZero = 13,
    IdOpen = 14,
    BookFull = 15,
    IdNotOpen = 16,
    PostOutOfRange = 20,
    BondOutsideDecember = 21,
    MonthPosted = 22,
    PositionsFull = 24,
    ExposureTooLarge = 25,
    BondAboveDenominator = 26,
    LineMalformed = 30,
    BeyondLimits = 31,
    LineMissing = 32,
}

/// A refusal, its place, and the number of the source that found it (0 outside sources).
#[derive(Clone, Copy, Debug, PartialEq, Eq)]
pub struct Fault {
    pub refusal: Refusal,
    pub place: usize,
    pub source: u8,
}

impl Fault {
    /// A fault found by an emission source.
    pub fn in_source(source: u8, refusal: Refusal) -> Fault {
        Fault { refusal, place: 0, source }
    }

    pub fn at(self, place: usize) -> Fault {
        Fault { place, ..self }
    }
}

impl From<Refusal> for Fault {
    /// A fault found outside sources.
    fn from(refusal: Refusal) -> Fault {
        Fault { refusal, place: 0, source: 0 }
    }
}
