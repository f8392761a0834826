//! The version of the boundary that this crate is written for. The build script reads it too.

/// The version of the boundary: `TONE_VERSION` of the C header, and what the archive answers to
/// [`version`](fn@crate::version). The build stops where the three are not one number.
pub const VERSION: u32 = 3;
