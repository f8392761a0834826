//! The exported functions, as `bindings/c/tone.h` declares and describes them. A slice passes
//! as a pointer and a length.
//!
//! Behind them come both table calls as safe functions that take their points as bytes. The trials
//! call these where the memory of the points counts, or where bytes are left over.
use crate::{KindNumbers, Refusal};

extern "C" {
    pub fn tone_version() -> u32;
    pub fn tone_table(
        points: *const u8,
        points_length: usize,
        kind: u8,
        tension: u8,
        start_slope: i16,
        end_slope: i16,
        table: *mut u8,
        table_length: usize,
    ) -> u8;
    pub fn tone_fine_table(
        points: *const u8,
        points_length: usize,
        kind: u8,
        tension: u8,
        start_slope: i16,
        end_slope: i16,
        table: *mut f32,
        table_length: usize,
    ) -> u8;
    pub fn tone_lookup(
        table: *const f32,
        table_length: usize,
        values: *mut f32,
        values_length: usize,
    ) -> u8;
    pub fn tone_plane(
        table: *const [u8; 256],
        format: u8,
        width: u32,
        height: u32,
        plane: *mut u8,
        plane_length: usize,
        step: usize,
    ) -> u8;
    pub fn tone_picture(
        record: *const u8,
        record_length: usize,
        format: u8,
        width: u32,
        height: u32,
        planes: usize,
        y: *const u8,
        y_length: usize,
        y_step: usize,
        u: *const u8,
        u_length: usize,
        v: *const u8,
        v_length: usize,
        out_y: *mut u8,
        out_y_length: usize,
        out_u: *mut u8,
        out_u_length: usize,
        out_v: *mut u8,
        out_v_length: usize,
    ) -> u8;
    pub fn tone_record_table(
        record: *const u8,
        record_length: usize,
        table: *mut u8,
        table_length: usize,
    ) -> u8;
    pub fn tone_record_copy(
        record: *const u8,
        record_length: usize,
        out: *mut u8,
        out_length: usize,
        written: *mut usize,
    ) -> u8;
}

/// [`crate::table`] of points in bytes, three each; one or two bytes left over are ignored.
pub fn table(points: &[u8], kind: KindNumbers, table: &mut [u8]) -> Result<(), Refusal> {
    // SAFETY: both slices pass as their pointer and length, and live for the call.
    Refusal::check(unsafe {
        tone_table(
            points.as_ptr(),
            points.len(),
            kind.number,
            kind.tension,
            kind.start_slope,
            kind.end_slope,
            table.as_mut_ptr(),
            table.len(),
        )
    })
}

/// [`crate::fine_table`] of points in bytes, as for [`table`].
pub fn fine_table(points: &[u8], kind: KindNumbers, table: &mut [f32]) -> Result<(), Refusal> {
    // SAFETY: as in `table`.
    Refusal::check(unsafe {
        tone_fine_table(
            points.as_ptr(),
            points.len(),
            kind.number,
            kind.tension,
            kind.start_slope,
            kind.end_slope,
            table.as_mut_ptr(),
            table.len(),
        )
    })
}
