//! What document 02's U9 says of the bytes of a table, over whole numbers: "demand 3's order still
//! holds under its premises, a Linear byte is within 1/2 + 1/16,384 of the broken line, and at a
//! kept x the byte is its height rounded, a half upward, under the seven kinds."
use super::curve::{kept, knots};
use crate::{Kind, Point};

/// How much of a table was looked at and is as promised.
#[derive(Clone, Copy, Debug, Default, PartialEq, Eq)]
pub struct Kept {
    /// Bytes at a kept x.
    pub at_points: u64,
    /// Bytes near the exact broken line.
    pub near_line: u64,
    /// Whether the table had to be in order.
    pub in_order: bool,
}

/// All that is said of a table of a list and a kind, or what is not so.
pub fn kept_by(points: &[Point], kind: Kind, table: &[u8; 256]) -> Result<Kept, String> {
    let mut found = Kept::default();
    if !matches!(kind, Kind::NaturalCubic | Kind::ClampedCubic { .. } | Kind::NotAKnotCubic) {
        found.at_points = rounded_at_points(points, table)?;
    }
    if kind == Kind::Linear {
        found.near_line = near_the_line(points, table)?;
        found.in_order = in_order(points, table)?;
    }
    Ok(found)
}

/// "at a kept x the byte is its height rounded, a half upward"
fn rounded_at_points(points: &[Point], table: &[u8; 256]) -> Result<u64, String> {
    let kept = kept(points);
    for Point { x, height } in &kept {
        let (byte, rounded) = (table[usize::from(*x)], (u32::from(*height) + 128) / 256);
        if u32::from(byte) != rounded {
            return Err(format!("at {x} the byte is {byte}, the height rounded {rounded}"));
        }
    }
    Ok(kept.len() as u64)
}

/// "a Linear byte is within 1/2 + 1/16,384 of the broken line": with the line's height n / d,
/// 16,384 |b d − n| ≤ 8,193 d.
fn near_the_line(points: &[Point], table: &[u8; 256]) -> Result<u64, String> {
    let knots = knots(points);
    for (v, byte) in (0..).zip(table) {
        let (n, d) = line(&knots, v);
        if 16_384 * (i64::from(*byte) * d - n).abs() > 8_193 * d {
            return Err(format!("at {v} the byte is {byte}, the line {n} / {d}"));
        }
    }
    Ok(256)
}

/// The exact broken line at v, as a fraction. "At a byte v between two neighbouring knots (x0, y0)
/// and (x1, y1), both ends included, it has the height y0 + (y1 − y0) × (v − x0) / (x1 − x0)"
fn line(knots: &[Point], v: i64) -> (i64, i64) {
    let [left, right] = knots
        .windows(2)
        .map(|pair| [pair[0], pair[1]].map(|p| (i64::from(p.x), i64::from(p.height))))
        .find(|[_, right]| v <= right.0)
        .expect("the last knot is at 255");
    let width = right.0 - left.0;
    (left.1 * width + (right.1 - left.1) * (v - left.0), 256 * width)
}

/// Demand 3's order, of one list: where it has no "point lower than the one before it", the table
/// never falls. Gives whether this list is such a one.
fn in_order(points: &[Point], table: &[u8; 256]) -> Result<bool, String> {
    let falls = !kept(points).is_sorted_by_key(|point| point.height);
    if !falls && !table.is_sorted() {
        return Err("the list never falls, and the table does".to_owned());
    }
    Ok(!falls)
}
