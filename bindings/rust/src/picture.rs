//! What the set call is lent: planes to read and outputs to fill.

/// The planes of a picture. Only the YUV formats read chroma.
#[derive(Clone, Copy, Debug)]
pub struct Planes<'a> {
    /// How many planes are given.
    pub count: usize,
    pub first: &'a [u8],
    /// From a row of the first plane to the next, in bytes.
    pub step: usize,
    /// Copied whole, whatever their length.
    pub chroma: [&'a [u8]; 2],
}

impl<'a> Planes<'a> {
    pub fn one(first: &'a [u8], step: usize) -> Planes<'a> {
        Planes { count: 1, first, step, chroma: [&[], &[]] }
    }

    pub fn three(first: &'a [u8], step: usize, chroma: [&'a [u8]; 2]) -> Planes<'a> {
        Planes { count: 3, first, step, chroma }
    }
}

/// Where a toned picture goes: tight rows, and for the YUV formats the chroma planes as they were.
#[derive(Debug)]
pub struct Outputs<'a> {
    pub first: &'a mut [u8],
    pub chroma: [&'a mut [u8]; 2],
}

impl<'a> Outputs<'a> {
    pub fn one(first: &'a mut [u8]) -> Outputs<'a> {
        Outputs { first, chroma: [&mut [], &mut []] }
    }

    pub fn three(first: &'a mut [u8], chroma: [&'a mut [u8]; 2]) -> Outputs<'a> {
        Outputs { first, chroma }
    }
}
