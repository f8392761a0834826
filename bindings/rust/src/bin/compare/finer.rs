//! Finer heights: the port beside the model, and what document 02's U9 says of the bytes. The model
//! is held to the original where that has an answer, on points at levels.
use super::run::Trial;
use super::tables;
use tone::model::{curve, promised};
use tone::original::curves;
use tone::trial::{any_finer_list, height, kind, Question, EXTREME_HEIGHTS};
use tone::{Kind, KindNumbers, Point, Refusal, LARGEST_HEIGHT};

/// The model's byte table and both of its fine tables beside the original's. The port has no part
/// in it.
pub fn model(t: &mut Trial) {
    let question = t.question();
    let (points, kind) = (&question.points[..], question.kind());
    let original = curves::curve(points);
    t.same(&curve::byte_table(points, kind), &curves::byte_table(&original, kind), &question);
    for samples in [256, 4096] {
        let table = curves::fine_table(&original, kind, samples);
        t.same(&curve::samples(points, kind, samples), &table, &question);
    }
    t.tally.modelled += 256 + 256 + 4096;
}

/// Linear more often than other kinds, for more is said of it.
pub fn byte_table(t: &mut Trial) {
    let mut question = t.finer_question();
    if t.random.once_in(4) {
        question.numbers.number = Kind::Linear.number();
    }
    let table = tables::make_bytes(t, &question);
    properties(t, &question, &table);
}

pub fn fine_table(t: &mut Trial, samples: usize) {
    let question = t.finer_question();
    tables::make_samples(t, &question, samples);
}

/// Lists with a height that is too large, in any place, dropped or kept, and lists too long.
pub fn refused(t: &mut Trial) {
    let mut points = any_finer_list(&mut t.random);
    if t.random.once_in(5) {
        let count = t.random.of(&[64, 65, 66, 100]);
        points = (0..count).map(|_| any_point(t)).collect();
    }
    for _ in 0..t.random.below(3) {
        spoil(t, &mut points);
    }
    tables::refused_tables(t, points);
}

fn any_point(t: &mut Trial) -> Point {
    Point { x: t.random.byte(), height: height(&mut t.random) }
}

/// Gives a point a height that is too large, or puts one that is dropped behind a point.
fn spoil(t: &mut Trial, points: &mut Vec<Point>) {
    if points.is_empty() {
        return;
    }
    let place = t.random.below(points.len());
    let room = usize::from(u16::MAX - LARGEST_HEIGHT);
    let any = LARGEST_HEIGHT + 1 + t.random.below(room) as u16;
    let height = t.random.of(&[LARGEST_HEIGHT, LARGEST_HEIGHT + 1, 65_535, any]);
    if t.random.once_in(2) {
        points[place].height = height;
    } else {
        points.insert(place + 1, Point { height, ..points[place] });
    }
}

/// Each 16-bit height in a list of one point: refused, or flat.
pub fn every_height(t: &mut Trial) {
    for height in 0..=u16::MAX {
        let point = Point { x: height as u8, height };
        let numbers = kind(Kind::Linear.number(), &mut t.random);
        let question = Question { points: vec![point], numbers };
        if height > LARGEST_HEIGHT {
            let answer = tone::table(&question.points, numbers, &mut [0; 256]);
            t.answered(answer, Err(Refusal::HeightRange), &question);
        } else {
            let table = tables::make_bytes(t, &question);
            properties(t, &question, &table);
        }
    }
}

/// Each pair of extreme heights under each kind, with extreme tensions and slopes: neighbours in x,
/// at both ends, and in the middle beside a third.
pub fn extremes(t: &mut Trial) {
    for (first, second) in EXTREME_HEIGHTS.iter().flat_map(|a| EXTREME_HEIGHTS.map(|b| (*a, b))) {
        for xs in [[0, 1, 2], [253, 254, 255], [0, 255, 128], [127, 128, 129], [0, 1, 255]] {
            let points = [0, 1, 2].map(|k| Point { x: xs[k], height: [first, second, first][k] });
            for count in [1, 2, 3] {
                for numbers in extreme_kinds() {
                    extreme(t, Question { points: points[..count].to_vec(), numbers });
                }
            }
        }
    }
}

fn extreme(t: &mut Trial, question: Question) {
    let table = tables::make_bytes(t, &question);
    properties(t, &question, &table);
    tables::make_samples(t, &question, 256);
    tables::make_samples(t, &question, 4096);
}

/// Every kind, Cardinal and ClampedCubic with what is extreme of theirs.
fn extreme_kinds() -> impl Iterator<Item = KindNumbers> {
    let plain = (0..Kind::NAMES.len() as u8).map(|number| KindNumbers {
        number,
        tension: 1,
        start_slope: 1,
        end_slope: -1,
    });
    let tense = [0, 128, 255].map(|tension| Kind::Cardinal { tension }.into());
    let (low, high) = (i16::MIN, i16::MAX);
    let sloped = [(low, high), (high, low), (0, 0), (low, low)];
    plain.chain(tense).chain(
        sloped.map(|(start_slope, end_slope)| Kind::ClampedCubic { start_slope, end_slope }.into()),
    )
}

/// Holds a table to what document 02 says of its bytes.
fn properties(t: &mut Trial, question: &Question, table: &[u8; 256]) {
    match promised::kept_by(&question.points, question.kind(), table) {
        Ok(kept) => {
            t.tally.at_points += kept.at_points;
            t.tally.near_lines += kept.near_line;
            t.tally.in_order += u64::from(kept.in_order);
        }
        Err(fault) => t.differ(&format_args!("{fault}: {question:?}")),
    }
}
