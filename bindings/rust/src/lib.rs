//! The tone engine for Rust callers: safe calls over the C boundary of the proved library.
//!
//! Every call does its work or answers the first refusal that applies; a refusal
//! changes nothing that was lent.
//!
//! ```
//! use tone::{Kind, Point};
//!
//! let mut table = [0; 256];
//! let points = [Point::at_level(0, 0), Point { x: 64, height: 38_528 }];
//! tone::table(&points, Kind::Linear, &mut table)?;
//! assert_eq!(table[64], 151);
//! # Ok::<(), tone::Refusal>(())
//! ```
//!
//! A [`Point`]'s height is in 256ths of a level: 38,528 is level 150 and a half. Records hold
//! levels only.
//!
//! Kinds and formats are enums. Whoever has numbers from elsewhere passes them as [`KindNumbers`]
//! or as a [`FormatNumber`]: one that means nothing is refused.
//!
//! # What a caller must see to
//!
//! The slices take care of pointers, lengths, alignment and overlap. What is left:
//!
//! - Rounding is to nearest and small numbers are not flushed to zero, as a program finds it at its
//!   start. Link nothing with `-ffast-math` or `-Ofast`, and load no library that was: their start
//!   code turns the flush on for the whole program. Before a call put a rounding mode of your own
//!   back. In another mode tables are not those promised: upward rounding changes a third of all
//!   their bytes.
//! - There is stack for the call: up to 12 KB, each call's figure is in `enum tone_stack` of the C
//!   header. A test measures them; no proof does.
//! - The machine is x86-64 Linux, the only one that the archive is for.
//!
//! A refused call has changed nothing. The first refusal is meant in the order of documents 01 and
//! 02: that in which each function here names its refusals, and inside a record field by field, not
//! by number.
//!
//! # What is proved
//!
//! The source of the linked archive, for every input. No proof covers the compiler's back end
//! (LLVM), the prover and its libraries, this crate and the C header, which are written by hand and
//! tested, the operating system, or how much stack there is. Of floats the proof tells the values,
//! and all NaN are one value: that a refused call leaves the bits of a NaN too as they were is
//! tested.
#[doc(hidden)]
pub mod boundary;
#[doc(hidden)]
pub mod model;
#[cfg(original)]
#[doc(hidden)]
pub mod original;
#[doc(hidden)]
pub mod trial;

mod format;
mod kind;
mod picture;
mod point;
mod refusal;
mod version;

use point::PointBytes;

pub use format::{Format, FormatNumber};
pub use kind::{Kind, KindNumbers};
pub use picture::{Outputs, Planes};
pub use point::{Point, LARGEST_HEIGHT};
pub use refusal::Refusal;
pub use version::VERSION;

/// No record is longer, so an output of this size holds every record.
pub const LONGEST_RECORD: usize = 522;

/// The version of the archive that is linked: [`VERSION`], or this crate does not describe it.
pub fn version() -> u32 {
    // SAFETY: nothing passes.
    unsafe { boundary::tone_version() }
}

/// Writes the byte table of a list of points to the first 256 bytes of `table`.
///
/// The points may be in any order; of equal x the first counts. Refusals, in order: more than 64
/// points; a height above [`LARGEST_HEIGHT`], also of a point that does not count; a kind above 9;
/// fewer than 256 bytes of room.
pub fn table(
    points: &[Point],
    kind: impl Into<KindNumbers>,
    table: &mut [u8],
) -> Result<(), Refusal> {
    boundary::table(PointBytes::of(points).as_slice(), kind.into(), table)
}

/// Fills `table` with the samples of a list of points.
///
/// `points` as for [`table`]. Refusals, in order: more than 64 points; a height above
/// [`LARGEST_HEIGHT`], also of a point that does not count; a kind above 9; a length that is
/// neither 256 nor 4,096.
pub fn fine_table(
    points: &[Point],
    kind: impl Into<KindNumbers>,
    table: &mut [f32],
) -> Result<(), Refusal> {
    boundary::fine_table(PointBytes::of(points).as_slice(), kind.into(), table)
}

/// Replaces each value by the table's height there, 0..1 for 0..255. A table that has not
/// 4,096 samples is refused.
pub fn lookup(table: &[f32], values: &mut [f32]) -> Result<(), Refusal> {
    // SAFETY: both slices pass as their pointer and length, and live for the call.
    Refusal::check(unsafe {
        boundary::tone_lookup(table.as_ptr(), table.len(), values.as_mut_ptr(), values.len())
    })
}

/// Tones a plane in place by one table. Alpha of Ya8 and Rgba and what lies between the rows stay
/// as they are; Cmyk tones all four inks.
///
/// `step` is from a row to the next, in bytes. Refusals, in order: a format above 11; a width or
/// height above 4,096; a step below the row's bytes or above 32,768; a plane too short.
pub fn plane(
    table: &[u8; 256],
    format: impl Into<FormatNumber>,
    width: u32,
    height: u32,
    plane: &mut [u8],
    step: usize,
) -> Result<(), Refusal> {
    let format = format.into().0;
    // SAFETY: as in `lookup`; the array passes as its pointer.
    Refusal::check(unsafe {
        boundary::tone_plane(table, format, width, height, plane.as_mut_ptr(), plane.len(), step)
    })
}

/// Tones a picture by the set that a record holds, into tight rows: Gray8 and luma by the master,
/// Rgb24 and Rgba by each colour's list or else the master's, alpha and chroma copied. What stands
/// in an output behind that stays as it is.
///
/// Refusals, in order: the record's; Ya8, Cmyk, CmykInverted or a format above 11; a width or
/// height above 4,096; no plane, or fewer than three for YUV; a step below the row's bytes or above
/// 32,768; a first plane too short; an output too small.
pub fn picture(
    record: &[u8],
    format: impl Into<FormatNumber>,
    width: u32,
    height: u32,
    planes: Planes,
    outputs: Outputs,
) -> Result<(), Refusal> {
    let format = format.into().0;
    let [u, v] = planes.chroma;
    let [out_u, out_v] = outputs.chroma;
    // SAFETY: as in `lookup`; the outputs are lent to this call alone.
    Refusal::check(unsafe {
        boundary::tone_picture(
            record.as_ptr(),
            record.len(),
            format,
            width,
            height,
            planes.count,
            planes.first.as_ptr(),
            planes.first.len(),
            planes.step,
            u.as_ptr(),
            u.len(),
            v.as_ptr(),
            v.len(),
            outputs.first.as_mut_ptr(),
            outputs.first.len(),
            out_u.as_mut_ptr(),
            out_u.len(),
            out_v.as_mut_ptr(),
            out_v.len(),
        )
    })
}

/// Writes the byte table of a record's master, by its kind, to the first 256 bytes of `table`.
///
/// Refusals, in order: the record's; fewer than 256 bytes of room.
pub fn record_table(record: &[u8], table: &mut [u8]) -> Result<(), Refusal> {
    // SAFETY: as in `lookup`.
    Refusal::check(unsafe {
        boundary::tone_record_table(record.as_ptr(), record.len(), table.as_mut_ptr(), table.len())
    })
}

/// Reads a record and writes the set it holds to the front of `out`, as the present writer has it;
/// gives the length written.
///
/// The writer sets bit 7 always and leaves the kind out when it is `MonotoneCubicBox`. So a record
/// without bit 7 that names no kind has a copy that is one byte longer, for the copy names
/// `MonotoneCubic`. No other copy is longer than its record, and [`LONGEST_RECORD`] bytes always
/// suffice.
///
/// Refusals, in order: the record's; an output too small.
pub fn record_copy(record: &[u8], out: &mut [u8]) -> Result<usize, Refusal> {
    let mut written = 0;
    // SAFETY: as in `lookup`; the length passes as its pointer.
    let answer = unsafe {
        boundary::tone_record_copy(
            record.as_ptr(),
            record.len(),
            out.as_mut_ptr(),
            out.len(),
            &mut written,
        )
    };
    Refusal::check(answer).map(|()| written)
}
