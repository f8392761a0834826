//! The curves: from a list of points to its knots, its samples and its byte table, and the lookup
//! in a fine table.
//!
//! "Each operation rounds once to single precision, in the order given by the file, left to right,
//! after IEEE 754." Where document 01 points to the file for a formula, the formula is written out
//! here as it is published, in that order.
use super::{spline, tangents};
use crate::{Kind, Point};

/// "A knot is an x and a height y, both single-precision floats"
#[derive(Clone, Copy, Debug, PartialEq)]
pub struct Knot {
    pub x: f32,
    pub y: f32,
}

impl Knot {
    /// "A point's height becomes a 16-bit number of 256ths of a level, 0 to 65,280; as a float it
    /// is that number over 256."
    fn of(point: Point) -> Knot {
        Knot { x: f32::from(point.x), y: f32::from(point.height) / 256.0 }
    }
}

/// "It is sorted by x; of equal x the one given first is kept."
pub fn kept(points: &[Point]) -> Vec<Point> {
    let mut at = [None; 256];
    for point in points {
        at[usize::from(point.x)].get_or_insert(*point);
    }
    at.into_iter().flatten().collect()
}

/// The knots, still as points. "Knots: the kept points; if none stands at x = 0, one with the first
/// y goes in front; if none at 255, one with the last y behind. An empty list gives (0,0),(255,0)."
pub fn knots(points: &[Point]) -> Vec<Point> {
    let kept = kept(points);
    let missing = |x: u8| kept.iter().all(|point| point.x != x);
    let added = |x: u8, beside: Option<&Point>| {
        missing(x).then_some(Point { x, height: beside.map_or(0, |point| point.height) })
    };
    let (front, behind) = (added(0, kept.first()), added(255, kept.last()));
    front.into_iter().chain(kept).chain(behind).collect()
}

/// "S samples, S = 256 or 4,096: step = 255 / (S − 1), sample v at x = v × step. [..] Samples are
/// clamped."
pub fn samples(points: &[Point], kind: Kind, count: usize) -> Vec<f32> {
    let curve = Curve::of(points, kind);
    let step = 255.0 / (count - 1) as f32;
    (0..count).map(|v| clamped(curve.height(v as f32 * step))).collect()
}

/// "The byte table of 256 entries": each sample of 256 as a byte.
pub fn byte_table(points: &[Point], kind: Kind) -> [u8; 256] {
    let samples = samples(points, kind, 256);
    std::array::from_fn(|v| to_byte(samples[v]))
}

/// "Clamp to 0..255: below gives 0, above gives 255, else the value, NaN too."
#[allow(clippy::manual_clamp)] // the sentence's cases, one by one
fn clamped(value: f32) -> f32 {
    match value {
        v if v < 0.0 => 0.0,
        v if v > 255.0 => 255.0,
        v => v,
    }
}

/// "To a byte: nearest whole number, a half away from zero, NaN gives 0." The value is clamped, so
/// away from zero is upward, and the rest above the whole number is exact.
fn to_byte(value: f32) -> u8 {
    let whole = value.floor();
    if value - whole >= 0.5 {
        (whole + 1.0) as u8
    } else {
        whole as u8
    }
}

/// Knots and what joins them.
struct Curve {
    knots: Vec<Knot>,
    pieces: Pieces,
}

enum Pieces {
    Straight,
    /// With the tangent at each knot.
    Hermite(Vec<f32>),
    /// With the second derivative at each knot.
    Spline(Vec<f32>),
}

impl Curve {
    fn of(points: &[Point], kind: Kind) -> Curve {
        let knots: Vec<Knot> = knots(points).into_iter().map(Knot::of).collect();
        let pieces = pieces(&knots, kind);
        Curve { knots, pieces }
    }

    /// The height at x, not clamped. "The segment advances only while the next knot's x is less
    /// than x: at an inner knot the left segment is used." No x is above that of the last knot.
    fn height(&self, x: f32) -> f32 {
        let i = self.knots[1..].partition_point(|next| next.x < x);
        let (left, right) = (self.knots[i], self.knots[i + 1]);
        match &self.pieces {
            Pieces::Straight => straight(left, right, x),
            Pieces::Hermite(m) => hermite(left, right, m[i], m[i + 1], x),
            Pieces::Spline(m) => spline::piece(left, right, m[i], m[i + 1], x),
        }
    }
}

/// "Kinds, numbered 0 to 9: Linear, CatmullRom, MonotoneCubic, MonotoneCubicBox, NaturalCubic,
/// CentripetalCatmullRom, ChordalCatmullRom, Cardinal, ClampedCubic, NotAKnotCubic."
fn pieces(knots: &[Knot], kind: Kind) -> Pieces {
    match kind {
        Kind::Linear => Pieces::Straight,
        Kind::CatmullRom => Pieces::Hermite(tangents::catmull_rom(knots)),
        Kind::MonotoneCubic => Pieces::Hermite(tangents::monotone_cubic(knots)),
        Kind::MonotoneCubicBox => Pieces::Hermite(tangents::monotone_cubic_box(knots)),
        Kind::NaturalCubic => Pieces::Spline(spline::natural(knots)),
        Kind::CentripetalCatmullRom => Pieces::Hermite(tangents::centripetal(knots)),
        Kind::ChordalCatmullRom => Pieces::Hermite(tangents::chordal(knots)),
        Kind::Cardinal { tension } => Pieces::Hermite(tangents::cardinal(knots, tension)),
        Kind::ClampedCubic { start_slope, end_slope } => {
            Pieces::Spline(spline::clamped(knots, start_slope, end_slope))
        }
        Kind::NotAKnotCubic => Pieces::Spline(spline::not_a_knot(knots)),
    }
}

/// "With h the segment's width, t = (x − x0) / h. [..] Linear: y0 + (y1 − y0) × t."
fn straight(left: Knot, right: Knot, x: f32) -> f32 {
    let t = (x - left.x) / (right.x - left.x);
    left.y + (right.y - left.y) * t
}

/// "Hermite kinds (1, 2, 3, 5, 6, 7): the file's h00, h10, h01, h11 with tangents m."
fn hermite(left: Knot, right: Knot, m0: f32, m1: f32, x: f32) -> f32 {
    let h = right.x - left.x;
    let [h00, h10, h01, h11] = basis((x - left.x) / h);
    h00 * left.y + h10 * h * m0 + h01 * right.y + h11 * h * m1
}

/// The cubic Hermite basis: h00, h10, h01, h11.
fn basis(t: f32) -> [f32; 4] {
    let rest = 1.0 - t;
    [(1.0 + 2.0 * t) * rest * rest, t * rest * rest, t * t * (3.0 - 2.0 * t), t * t * (t - 1.0)]
}

/// The rise of each segment over its width.
pub fn secants(knots: &[Knot]) -> Vec<f32> {
    knots.windows(2).map(|k| (k[1].y - k[0].y) / (k[1].x - k[0].x)).collect()
}

/// "A value is clamped to 0..1, NaN gives 0, times 4,095 is the position; i its floor, at most
/// 4,094; f the rest; the result is `(T[i] × (1 − f) + T[i+1] × f) / 255`, T the table."
pub fn lookup(table: &[f32], value: f32) -> f32 {
    let inside = match value {
        v if v > 1.0 => 1.0,
        v if v >= 0.0 => v,
        _ => 0.0,
    };
    let position = inside * 4095.0;
    let i = (position.floor() as usize).min(4094);
    let f = position - i as f32;
    (table[i] * (1.0 - f) + table[i + 1] * f) / 255.0
}
