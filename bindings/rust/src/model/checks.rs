//! "Checks run in this order, as far as they touch the call": what the calls of the boundary must
//! answer, from numbers alone.
use crate::{Format, Refusal};

pub type Answer = Result<(), Refusal>;

fn unless(refused: bool, refusal: Refusal) -> Answer {
    if refused {
        Err(refusal)
    } else {
        Ok(())
    }
}

/// 3, 20, 5: a given list, of three bytes a point, and a kind. "20 a height above 65,280 in a list
/// or set [..] it is tested in each list after 3 and 4, before the next list and all later checks":
/// in every point that is given, kept or not. Bytes left over behind the last whole point are none.
pub fn given(points: &[u8], kind: u8) -> Answer {
    let height = |point: &[u8]| u16::from_le_bytes([point[1], point[2]]);
    unless(points.len() / 3 > 64, Refusal::PointCount)?;
    unless(points.chunks_exact(3).any(|point| height(point) > 65_280), Refusal::HeightRange)?;
    unless(kind > 9, Refusal::UnknownKind)
}

/// 13: room for the 256 bytes of a table.
pub fn table_room(length: usize) -> Answer {
    unless(length < 256, Refusal::OutputTooSmall)
}

/// 14: the length of a fine table to build.
pub fn fine_length(length: usize) -> Answer {
    unless(length != 256 && length != 4096, Refusal::TableLength)
}

/// 14: the length of a table to look in.
pub fn lookup_length(length: usize) -> Answer {
    unless(length != 4096, Refusal::TableLength)
}

/// A picture in numbers: lengths in place of bytes.
#[derive(Clone, Copy, Debug, PartialEq, Eq)]
pub struct Shape {
    /// The format's number, any byte.
    pub format: u8,
    pub width: u32,
    pub height: u32,
    pub step: usize,
    /// How many planes the set call is told it has.
    pub planes: usize,
    pub first: usize,
    pub chroma: [usize; 2],
    pub outputs: [usize; 3],
}

impl Shape {
    pub fn known(&self) -> Option<Format> {
        Format::ALL.get(usize::from(self.format)).copied()
    }

    /// "row bytes: width times 1 (Gray8, luma), 2 (Ya8), 3 (Rgb24), 4 (Rgba, Cmyk, CmykInverted)"
    pub fn row(&self, format: Format) -> u64 {
        u64::from(self.width) * format.bytes_a_pixel() as u64
    }

    /// "Bytes needed: 0 if width or height is 0, else (height − 1) × step + row."
    pub fn needed(&self, format: Format) -> u64 {
        match (self.width, self.height) {
            (0, _) | (_, 0) => 0,
            (_, height) => u64::from(height - 1) * self.step as u64 + self.row(format),
        }
    }

    /// Tight rows.
    pub fn written(&self, format: Format) -> u64 {
        self.row(format) * u64::from(self.height)
    }

    /// The one-table call: 8 for an unknown format, 9, 11, 12.
    pub fn plane_answer(&self) -> Answer {
        let format = self.known().ok_or(Refusal::UnsupportedFormat)?;
        self.sides()?;
        self.rows(format)
    }

    /// The set call behind the record: 8, 9, 10, 11, 12, 13.
    pub fn picture_answer(&self) -> Answer {
        let format = self.known().ok_or(Refusal::UnsupportedFormat)?;
        unless(
            matches!(format, Format::Ya8 | Format::Cmyk | Format::CmykInverted),
            Refusal::UnsupportedFormat,
        )?;
        self.sides()?;
        unless(self.planes < if format.is_yuv() { 3 } else { 1 }, Refusal::MissingPlane)?;
        self.rows(format)?;
        let [y, u, v] = self.outputs;
        unless((y as u64) < self.written(format), Refusal::OutputTooSmall)?;
        // only YUV writes chroma, each plane whole
        unless(
            format.is_yuv() && (u < self.chroma[0] || v < self.chroma[1]),
            Refusal::OutputTooSmall,
        )
    }

    fn sides(&self) -> Answer {
        unless(self.width > 4096 || self.height > 4096, Refusal::PictureTooLarge)
    }

    /// "also at height 0": the step is tested before the bytes.
    fn rows(&self, format: Format) -> Answer {
        unless((self.step as u64) < self.row(format) || self.step > 32_768, Refusal::RowStep)?;
        unless((self.first as u64) < self.needed(format), Refusal::PlaneTooShort)
    }
}
