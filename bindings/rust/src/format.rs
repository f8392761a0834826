//! The twelve formats of pictures.

/// How the bytes of a picture stand. The value is the format's number at the boundary.
#[derive(Clone, Copy, Debug, PartialEq, Eq)]
#[repr(u8)]
pub enum Format {
    Gray8 = 0,
    Ya8 = 1,
    Rgb24 = 2,
    Rgba = 3,
    Cmyk = 4,
    CmykInverted = 5,
    Yuv420P = 6,
    Yuv422P = 7,
    Yuv444P = 8,
    YuvJ420P = 9,
    YuvJ422P = 10,
    YuvJ444P = 11,
}

impl Format {
    /// Each format, by its number.
    pub const ALL: [Format; 12] = [
        Format::Gray8,
        Format::Ya8,
        Format::Rgb24,
        Format::Rgba,
        Format::Cmyk,
        Format::CmykInverted,
        Format::Yuv420P,
        Format::Yuv422P,
        Format::Yuv444P,
        Format::YuvJ420P,
        Format::YuvJ422P,
        Format::YuvJ444P,
    ];

    pub fn number(self) -> u8 {
        self as u8
    }

    /// Bytes of the first plane for each pixel.
    pub fn bytes_a_pixel(self) -> usize {
        match self {
            Format::Ya8 => 2,
            Format::Rgb24 => 3,
            Format::Rgba | Format::Cmyk | Format::CmykInverted => 4,
            _ => 1,
        }
    }

    /// Whether the format has chroma planes.
    pub fn is_yuv(self) -> bool {
        (Format::Yuv420P.number()..=Format::YuvJ444P.number()).contains(&self.number())
    }
}

impl From<Format> for u8 {
    fn from(format: Format) -> u8 {
        format.number()
    }
}

/// A format as the boundary takes it, a number. One above 11 is refused by the calls.
///
/// Nothing but a [`Format`] becomes one unasked, so no other number passes for a format:
///
/// ```compile_fail,E0277
/// tone::plane(&[0; 256], true, 1, 1, &mut [0], 1);
/// ```
#[derive(Clone, Copy, Debug, PartialEq, Eq)]
pub struct FormatNumber(pub u8);

impl From<Format> for FormatNumber {
    fn from(format: Format) -> FormatNumber {
        FormatNumber(format.number())
    }
}
