//! The refusals of document 01, "When a call says no", as document 02 changes them: 1 is taken
//! away, and 20 comes after 14.
use std::error::Error;
use std::fmt;

/// Why a call did nothing. Its number is document 01's or document 02's; later versions may have
/// more of them. 1 is no refusal any more: version 1 had it for bit 7 of a record's map. 15 to 19
/// are none yet.
#[derive(Clone, Copy, Debug, PartialEq, Eq)]
#[non_exhaustive]
pub enum Refusal {
    RecordTruncated,
    PointCount,
    PointsNotRising,
    UnknownKind,
    FieldMismatch,
    TrailingBytes,
    UnsupportedFormat,
    PictureTooLarge,
    MissingPlane,
    RowStep,
    PlaneTooShort,
    OutputTooSmall,
    TableLength,
    HeightRange,
    /// A number that this crate does not know: the archive is of another version.
    Unknown(u8),
}

/// Each refusal, in the order of the numbers, in the documents' words.
const ALL: [(Refusal, &str); 14] = [
    (Refusal::RecordTruncated, "a record ends before its map or inside a field whose bit stands"),
    (Refusal::PointCount, "a count of points is above 64, or a record's master count is 0"),
    (Refusal::PointsNotRising, "a record's or set's points don't strictly rise in x"),
    (Refusal::UnknownKind, "the kind byte is above 9"),
    (Refusal::FieldMismatch, "bit 5 or bit 6 disagrees with the kind"),
    (Refusal::TrailingBytes, "bytes follow the last field"),
    (
        Refusal::UnsupportedFormat,
        "the set call is given Ya8, Cmyk or CmykInverted, or a call an unknown format",
    ),
    (Refusal::PictureTooLarge, "width or height is above 4,096"),
    (Refusal::MissingPlane, "the set call has no plane, or fewer than three for YUV"),
    (Refusal::RowStep, "the first plane's row step is below the row bytes or above 32,768"),
    (Refusal::PlaneTooShort, "the first plane has fewer bytes than needed"),
    (Refusal::OutputTooSmall, "an output holds less than what would be written"),
    (Refusal::TableLength, "a float table's length isn't 256 or 4,096 (build) or 4,096 (lookup)"),
    (
        Refusal::HeightRange,
        "a height is above 65,280 or, when today's record is written, no multiple of 256",
    ),
];

impl Refusal {
    /// Each refusal, in the order of the numbers.
    pub fn all() -> [Refusal; 14] {
        ALL.map(|(refusal, _)| refusal)
    }

    pub fn number(self) -> u8 {
        match self {
            Refusal::RecordTruncated => 2,
            Refusal::PointCount => 3,
            Refusal::PointsNotRising => 4,
            Refusal::UnknownKind => 5,
            Refusal::FieldMismatch => 6,
            Refusal::TrailingBytes => 7,
            Refusal::UnsupportedFormat => 8,
            Refusal::PictureTooLarge => 9,
            Refusal::MissingPlane => 10,
            Refusal::RowStep => 11,
            Refusal::PlaneTooShort => 12,
            Refusal::OutputTooSmall => 13,
            Refusal::TableLength => 14,
            Refusal::HeightRange => 20,
            Refusal::Unknown(number) => number,
        }
    }

    /// The documents' words for it.
    pub fn words(self) -> &'static str {
        let known = ALL.iter().find(|(refusal, _)| *refusal == self);
        known.map_or("an answer that this version does not know", |(_, words)| words)
    }

    /// The answer byte of a boundary function: 0, or a refusal's number.
    #[doc(hidden)]
    pub fn check(answer: u8) -> Result<(), Refusal> {
        if answer == 0 {
            return Ok(());
        }
        let known = Refusal::all().into_iter().find(|refusal| refusal.number() == answer);
        Err(known.unwrap_or(Refusal::Unknown(answer)))
    }
}

impl fmt::Display for Refusal {
    fn fmt(&self, f: &mut fmt::Formatter) -> fmt::Result {
        write!(f, "refused {}: {}", self.number(), self.words())
    }
}

impl Error for Refusal {}
