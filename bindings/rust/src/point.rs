//! The points that a curve goes through.

/// The largest height of a point: that of level 255.
pub const LARGEST_HEIGHT: u16 = 65_280;

/// A point of a curve. Its height is in 256ths of a level, so level n is the height 256 n; one
/// above [`LARGEST_HEIGHT`] is refused by the calls.
#[derive(Clone, Copy, Debug, PartialEq, Eq)]
pub struct Point {
    pub x: u8,
    pub height: u16,
}

impl Point {
    /// A point at a whole level, 0 to 255.
    pub const fn at_level(x: u8, level: u8) -> Point {
        Point { x, height: 256 * level as u16 }
    }

    /// The level at which the point is, if its height is that of a whole one.
    pub fn level(self) -> Option<u8> {
        let [rest, level] = self.height.to_le_bytes();
        (rest == 0).then_some(level)
    }

    /// The point as the boundary takes it: x, then the height, low byte first.
    pub fn to_bytes(self) -> [u8; 3] {
        let [low, high] = self.height.to_le_bytes();
        [self.x, low, high]
    }
}

/// How many points of a list are passed on: one more than a list may have. A longer list is refused
/// for its count before anything else of it is read.
const PASSED: usize = 65;

/// The bytes of a list, as the boundary takes them.
pub(crate) struct PointBytes {
    bytes: [u8; 3 * PASSED],
    length: usize,
}

impl PointBytes {
    pub(crate) fn of(points: &[Point]) -> PointBytes {
        let passed = &points[..points.len().min(PASSED)];
        let mut bytes = [0; 3 * PASSED];
        for (place, point) in bytes.chunks_exact_mut(3).zip(passed) {
            place.copy_from_slice(&point.to_bytes());
        }
        PointBytes { bytes, length: 3 * passed.len() }
    }

    pub(crate) fn as_slice(&self) -> &[u8] {
        &self.bytes[..self.length]
    }
}
