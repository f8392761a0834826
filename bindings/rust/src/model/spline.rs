//! "Splines (4, 8, 9; de Boor 1978): second derivatives by the Thomas solve [..]. The edge rule is
//! natural, clamped, with its start slope and end slope as floats, or not-a-knot."
//!
//! In de Boor's system the row of a knot between the widths g and h, whose secants are d and e, is
//! g M₋ + 2 (g + h) M + h M₊ = 6 (e − d). The edge rules differ in the first and the last row.
use super::curve::{secants, Knot};

/// A row of a system: factors of the unknown before, of its own and of the one behind, and what
/// they sum to.
#[derive(Clone, Copy)]
struct Row {
    before: f32,
    own: f32,
    behind: f32,
    sum: f32,
}

/// Widths and secants, segment by segment.
struct Segments {
    widths: Vec<f32>,
    secants: Vec<f32>,
}

impl Segments {
    fn of(knots: &[Knot]) -> Segments {
        let widths = knots.windows(2).map(|k| k[1].x - k[0].x).collect();
        Segments { widths, secants: secants(knots) }
    }

    /// The rows of the inner knots.
    fn inner(&self) -> Vec<Row> {
        let pairs = self.widths.windows(2).zip(self.secants.windows(2));
        let row = |(w, s): (&[f32], &[f32])| Row {
            before: w[0],
            own: 2.0 * (w[0] + w[1]),
            behind: w[1],
            sum: 6.0 * (s[1] - s[0]),
        };
        pairs.map(row).collect()
    }
}

/// Natural: no second derivative at either end.
pub fn natural(knots: &[Knot]) -> Vec<f32> {
    let inner = solved(&Segments::of(knots).inner());
    std::iter::once(0.0).chain(inner).chain([0.0]).collect()
}

/// "ClampedCubic carries two slopes, signed 16-bit, each divided by 256." The slopes are those of
/// the curve at both ends: 2 h M + h M₊ = 6 (secant − start), h M₋ + 2 h M = 6 (end − secant).
pub fn clamped(knots: &[Knot], start_slope: i16, end_slope: i16) -> Vec<f32> {
    let segments = Segments::of(knots);
    let [start, end] = [start_slope, end_slope].map(|slope| f32::from(slope) / 256.0);
    let last = segments.widths.len() - 1;
    let (g, h) = (segments.widths[0], segments.widths[last]);
    let (d, e) = (segments.secants[0], segments.secants[last]);
    let first_row = Row { before: 0.0, own: 2.0 * g, behind: g, sum: 6.0 * (d - start) };
    let last_row = Row { before: h, own: 2.0 * h, behind: 0.0, sum: 6.0 * (end - e) };
    let rows: Vec<Row> =
        std::iter::once(first_row).chain(segments.inner()).chain([last_row]).collect();
    solved(&rows)
}

/// "Not-a-knot with 3 knots fills 2 × (secant1 − secant0) / (h0 + h1); with 2 knots, zeros."
pub fn not_a_knot(knots: &[Knot]) -> Vec<f32> {
    let segments = Segments::of(knots);
    match (&segments.widths[..], &segments.secants[..]) {
        ([_], _) => vec![0.0; 2],
        ([h0, h1], [d, e]) => vec![2.0 * (e - d) / (h0 + h1); 3],
        _ => not_a_knot_of_four(&segments),
    }
}

/// From four knots on: the third derivative is the same on both sides of the second knot and of
/// the last but one. So the end beside the widths g and h has M + (g / h) × (M − M₊), M and M₊
/// being the two unknowns next to it. Put into the row of the knot next to it, times h, this leaves
/// (g + h) (g + 2 h) M + (h − g) (h + g) M₊ = h × 6 (e − d).
fn not_a_knot_of_four(segments: &Segments) -> Vec<f32> {
    let (w, s) = (&segments.widths, &segments.secants);
    let last = w.len() - 1;
    let mut rows = segments.inner();
    rows[0] = reduced(w[0], w[1], s[1] - s[0], |factor| Row { behind: factor, ..NONE });
    rows[last - 1] = reduced(w[last], w[last - 1], s[last] - s[last - 1], |factor| Row {
        before: factor,
        ..NONE
    });
    let inner = solved(&rows);
    let end = |g: f32, h: f32, next: f32, second: f32| next + g / h * (next - second);
    let first = end(w[0], w[1], inner[0], inner[1]);
    let behind = end(w[last], w[last - 1], inner[last - 1], inner[last - 2]);
    std::iter::once(first).chain(inner).chain([behind]).collect()
}

const NONE: Row = Row { before: 0.0, own: 0.0, behind: 0.0, sum: 0.0 };

/// The row next to an end of width g, the width behind it being h: `placed` puts the other
/// unknown's factor where it belongs.
fn reduced(g: f32, h: f32, rise: f32, placed: impl Fn(f32) -> Row) -> Row {
    let own = (g + h) * (g + 2.0 * h);
    Row { own, sum: h * 6.0 * rise, ..placed((h - g) * (h + g)) }
}

/// "the Thomas solve, whose pivot below 1e-12 in size uses inverse 0": from the first row on each
/// unknown is a value less a factor times the next one; then the unknowns from the last.
fn solved(rows: &[Row]) -> Vec<f32> {
    let (mut factor, mut value) = (0.0, 0.0);
    let mut swept = Vec::new();
    for row in rows {
        let pivot = row.own - row.before * factor;
        let inverse = if pivot.abs() < 1e-12 { 0.0 } else { 1.0 / pivot };
        value = (row.sum - row.before * value) * inverse;
        factor = row.behind * inverse;
        swept.push((value, factor));
    }
    let mut next = 0.0;
    for (value, factor) in swept.iter_mut().rev() {
        *value -= *factor * next;
        next = *value;
    }
    swept.into_iter().map(|(value, _)| value).collect()
}

/// The height at x of the piece between two knots with the second derivatives m0 and m1, its powers
/// of x − x0 from the lowest: de Boor's coefficients. A product with one half, which document 02's
/// U3 asks for, has the bits of this quotient by 2.
pub fn piece(left: Knot, right: Knot, m0: f32, m1: f32, x: f32) -> f32 {
    let h = right.x - left.x;
    let d = x - left.x;
    let secant = (right.y - left.y) / h;
    let c1 = secant - h * (2.0 * m0 + m1) / 6.0;
    let c2 = m0 / 2.0;
    let c3 = (m1 - m0) / (6.0 * h);
    left.y + c1 * d + c2 * d * d + c3 * d * d * d
}
