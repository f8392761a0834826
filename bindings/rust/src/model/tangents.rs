//! The tangents of the six Hermite kinds, one for each knot.
use super::curve::{secants, Knot};

/// Each knot between its neighbours, "a missing neighbour replaced by the knot".
fn with_neighbours(knots: &[Knot]) -> impl Iterator<Item = [Knot; 3]> + '_ {
    let last = knots.len() - 1;
    (0..=last).map(move |i| [knots[i.saturating_sub(1)], knots[i], knots[last.min(i + 1)]])
}

/// "CatmullRom: (right y − left y) / (right x − left x), a missing neighbour replaced by the knot."
pub fn catmull_rom(knots: &[Knot]) -> Vec<f32> {
    let tangent = |[left, _, right]: [Knot; 3]| (right.y - left.y) / (right.x - left.x);
    with_neighbours(knots).map(tangent).collect()
}

/// "Cardinal carries a tension q, 0..255, c = q / 255." "Cardinal: (1 − c) times that rise first,
/// then divided."
pub fn cardinal(knots: &[Knot], q: u8) -> Vec<f32> {
    let c = f32::from(q) / 255.0;
    let tangent = |[left, _, right]: [Knot; 3]| (1.0 - c) * (right.y - left.y) / (right.x - left.x);
    with_neighbours(knots).map(tangent).collect()
}

/// MonotoneCubic: "if a × a + b × b > 9, both become 3 / root × a (or b) × secant, from the a and b
/// before that zeroing".
pub fn monotone_cubic(knots: &[Knot]) -> Vec<f32> {
    monotone(knots, |tangents, [a, b], secant| {
        let sum = a * a + b * b;
        if sum > 9.0 {
            [a, b].map(|ratio| 3.0 / sum.sqrt() * ratio * secant)
        } else {
            zeroed(tangents, [a, b])
        }
    })
}

/// "The Box kind caps each at 3 secants."
pub fn monotone_cubic_box(knots: &[Knot]) -> Vec<f32> {
    monotone(knots, |tangents, ratios, secant| {
        let [m0, m1] = zeroed(tangents, ratios);
        let capped = |m: f32, ratio: f32| if ratio > 3.0 { 3.0 * secant } else { m };
        [capped(m0, ratios[0]), capped(m1, ratios[1])]
    })
}

/// "MonotoneCubic (Fritsch-Carlson 1980): secants; mean of neighbours, one-sided at the ends; then
/// segment by segment from the left. A secant below 1e-9 in size sets both tangents 0. Else a, b
/// are tangents over the secant". What becomes of the tangents then is `limited`: it is given the
/// two tangents, a and b, and the secant.
fn monotone(knots: &[Knot], limited: impl Fn([f32; 2], [f32; 2], f32) -> [f32; 2]) -> Vec<f32> {
    let secants = secants(knots);
    let mut m = means(&secants);
    for (i, secant) in secants.into_iter().enumerate() {
        let both = [m[i], m[i + 1]];
        [m[i], m[i + 1]] = if secant.abs() < 1e-9 {
            [0.0, 0.0]
        } else {
            limited(both, both.map(|tangent| tangent / secant), secant)
        };
    }
    m
}

/// "mean of neighbours, one-sided at the ends"
fn means(secants: &[f32]) -> Vec<f32> {
    let ends = (secants[0], secants[secants.len() - 1]);
    let inner = secants.windows(2).map(|pair| (pair[0] + pair[1]) / 2.0);
    std::iter::once(ends.0).chain(inner).chain([ends.1]).collect()
}

/// "a negative one sets its tangent 0"
fn zeroed(tangents: [f32; 2], ratios: [f32; 2]) -> [f32; 2] {
    std::array::from_fn(|k| if ratios[k] < 0.0 { 0.0 } else { tangents[k] })
}

/// "`powf(0.5)` has no fixed rounding: here it is the square root"
pub fn centripetal(knots: &[Knot]) -> Vec<f32> {
    let tangent = |three: [Knot; 3]| barry_goldman(three, |a, b| chord(a, b).sqrt());
    with_neighbours(knots).map(tangent).collect()
}

/// "`powf(1.0)` the chord"
pub fn chordal(knots: &[Knot]) -> Vec<f32> {
    with_neighbours(knots).map(|three| barry_goldman(three, chord)).collect()
}

/// The distance of two knots.
fn chord(a: Knot, b: Knot) -> f32 {
    let (dx, dy) = (b.x - a.x, b.y - a.y);
    (dx * dx + dy * dy).sqrt()
}

/// "Centripetal and Chordal: the three-term tangent of Barry-Goldman 1988 as in
/// `alpha_catmull_rom_tangents`." By a parameter u, which grows by so much from a knot to the next,
/// dy / du has the terms right, across and left, and dx / du is that across. At the ends, where a
/// neighbour is missing, both have one term.
fn barry_goldman([left, knot, right]: [Knot; 3], growth: impl Fn(Knot, Knot) -> f32) -> f32 {
    let (before, after) = (growth(left, knot), growth(knot, right));
    let rate = |from: f32, to: f32, du: f32| (to - from) / du;
    if before == 0.0 {
        return rate(knot.y, right.y, after) / rate(knot.x, right.x, after);
    }
    if after == 0.0 {
        return rate(left.y, knot.y, before) / rate(left.x, knot.x, before);
    }
    let across = before + after;
    let dy =
        rate(knot.y, right.y, after) - rate(left.y, right.y, across) + rate(left.y, knot.y, before);
    dy / rate(left.x, right.x, across)
}
