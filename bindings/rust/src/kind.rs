//! The ten kinds of interpolation.

/// A kind of interpolation, with what Cardinal and ClampedCubic carry. The default is that of a new
/// set.
///
/// A record may leave its kind out (bit 4 of its map is off). Then bit 7 says which is meant:
/// without it `MonotoneCubic`, with it `MonotoneCubicBox`. A kind that is named stands, and bit 7
/// changes nothing else.
#[derive(Clone, Copy, Debug, Default, PartialEq, Eq)]
pub enum Kind {
    Linear,
    CatmullRom,
    MonotoneCubic,
    #[default]
    MonotoneCubicBox,
    NaturalCubic,
    CentripetalCatmullRom,
    ChordalCatmullRom,
    /// The tension is in 255ths.
    Cardinal {
        tension: u8,
    },
    /// The slopes at both ends are in 256ths.
    ClampedCubic {
        start_slope: i16,
        end_slope: i16,
    },
    NotAKnotCubic,
}

impl Kind {
    /// Each kind's name, by its number.
    pub const NAMES: [&'static str; 10] = [
        "Linear",
        "CatmullRom",
        "MonotoneCubic",
        "MonotoneCubicBox",
        "NaturalCubic",
        "CentripetalCatmullRom",
        "ChordalCatmullRom",
        "Cardinal",
        "ClampedCubic",
        "NotAKnotCubic",
    ];

    pub fn number(self) -> u8 {
        match self {
            Kind::Linear => 0,
            Kind::CatmullRom => 1,
            Kind::MonotoneCubic => 2,
            Kind::MonotoneCubicBox => 3,
            Kind::NaturalCubic => 4,
            Kind::CentripetalCatmullRom => 5,
            Kind::ChordalCatmullRom => 6,
            Kind::Cardinal { .. } => 7,
            Kind::ClampedCubic { .. } => 8,
            Kind::NotAKnotCubic => 9,
        }
    }
}

/// A kind as the boundary takes it, in numbers. One above 9 is refused by the calls.
#[derive(Clone, Copy, Debug, PartialEq, Eq)]
pub struct KindNumbers {
    pub number: u8,
    /// Read for Cardinal only.
    pub tension: u8,
    /// Read for ClampedCubic only.
    pub start_slope: i16,
    /// Read for ClampedCubic only.
    pub end_slope: i16,
}

impl KindNumbers {
    /// The kind that these numbers stand for, if there is one.
    pub fn kind(self) -> Option<Kind> {
        let KindNumbers { number, tension, start_slope, end_slope } = self;
        Some(match number {
            0 => Kind::Linear,
            1 => Kind::CatmullRom,
            2 => Kind::MonotoneCubic,
            3 => Kind::MonotoneCubicBox,
            4 => Kind::NaturalCubic,
            5 => Kind::CentripetalCatmullRom,
            6 => Kind::ChordalCatmullRom,
            7 => Kind::Cardinal { tension },
            8 => Kind::ClampedCubic { start_slope, end_slope },
            9 => Kind::NotAKnotCubic,
            _ => return None,
        })
    }
}

impl From<Kind> for KindNumbers {
    fn from(kind: Kind) -> KindNumbers {
        let (tension, start_slope, end_slope) = match kind {
            Kind::Cardinal { tension } => (tension, 0, 0),
            Kind::ClampedCubic { start_slope, end_slope } => (0, start_slope, end_slope),
            _ => (0, 0, 0),
        };
        KindNumbers { number: kind.number(), tension, start_slope, end_slope }
    }
}
