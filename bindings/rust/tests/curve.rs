//! The model of the curves, in which the engine has no part: numbers from outside, the original's
//! tables of whole heights, and what document 02 says of the bytes of finer ones.
use tone::model::{checks, curve, promised};
use tone::trial::{refused_vectors, Question, Random, FINE_SAMPLES, VECTORS};
use tone::{Kind, KindNumbers, Point, LARGEST_HEIGHT};

fn levels(pairs: &[(u8, u8)]) -> Vec<Point> {
    pairs.iter().map(|(x, level)| Point::at_level(*x, *level)).collect()
}

#[test]
fn examples_of_document_01() {
    let table = |pairs: &[(u8, u8)], kind: Kind| curve::byte_table(&levels(pairs), kind);
    let straight: [u8; 256] = std::array::from_fn(|v| v as u8);
    assert_eq!(table(&[], Kind::Linear), [0; 256], "P1");
    assert_eq!(table(&[(128, 200)], Kind::Linear), [200; 256], "P2");
    assert_eq!(table(&[(10, 5), (10, 9), (0, 0)], Kind::Linear)[10], 5, "P3");
    assert_eq!(table(&[(0, 0), (2, 1)], Kind::Linear)[1], 1, "P4");
    let both = [(0, 0), (255, 255)];
    assert_eq!(table(&both, Kind::NaturalCubic), straight, "P5");
    assert_eq!(table(&both, Kind::Cardinal { tension: 255 })[51], 27, "P6");
    let clamped = Kind::ClampedCubic { start_slope: 256, end_slope: 256 };
    assert_eq!(table(&both, clamped), straight, "P7");
}

/// "Knots: the kept points; if none stands at x = 0, one with the first y goes in front; if none at
/// 255, one with the last y behind."
#[test]
fn knots_of_a_list() {
    let at = |x: u8, height: u16| Point { x, height };
    assert_eq!(curve::knots(&[]), [at(0, 0), at(255, 0)]);
    assert_eq!(curve::knots(&[at(9, 5)]), [at(0, 5), at(9, 5), at(255, 5)]);
    assert_eq!(curve::knots(&[at(255, 7), at(0, 1)]), [at(0, 1), at(255, 7)]);
    let equal = [at(8, 3), at(4, 2), at(8, 1), at(4, 9)];
    assert_eq!(curve::kept(&equal), [at(4, 2), at(8, 3)]);
    assert_eq!(curve::knots(&equal), [at(0, 2), at(4, 2), at(8, 3), at(255, 3)]);
}

#[test]
fn finer_heights() {
    for vector in &VECTORS {
        let table = curve::byte_table(vector.points, vector.kind);
        assert!(vector.holds(&table), "{vector:?}: {table:?}");
    }
    let (points, stated) = FINE_SAMPLES;
    let fine = curve::samples(&points, Kind::Linear, 4096);
    assert_eq!(stated.map(|(v, _)| (v, fine[v].to_bits())), stated);
}

#[test]
fn heights_that_are_too_large() {
    for (points, kind, refusal) in refused_vectors() {
        let bytes: Vec<u8> = points.iter().flat_map(|point| point.to_bytes()).collect();
        assert_eq!(checks::given(&bytes, kind), Err(refusal), "{points:?}");
        // one or two bytes left over are no point
        for left_over in [&[255][..], &[255, 255]] {
            let longer = [&bytes, left_over].concat();
            assert_eq!(checks::given(&longer, kind), Err(refusal), "{points:?}");
        }
    }
    let highest = [3, 0, 255];
    assert_eq!(checks::given(&highest, 9), Ok(()));
    assert_eq!(checks::given(&[&highest[..], &[3, 255]].concat(), 9), Ok(()));
}

/// A height alone is rounded, a half upward: under Linear everywhere, under the other kinds that
/// are no splines at the point's x. Beside it their flat pieces may be a rounding lower, and so a
/// half may go down there.
#[test]
fn a_height_alone() {
    let others = [1, 2, 3, 5, 6, 7].map(|number| KindNumbers { number, ..Kind::CatmullRom.into() });
    for height in (0..=LARGEST_HEIGHT).step_by(61).chain([127, 128, 129, 65_151, 65_152, 65_279]) {
        let points = [Point { x: (height % 256) as u8, height }];
        let rounded = ((u32::from(height) + 128) / 256) as u8;
        assert_eq!(curve::byte_table(&points, Kind::Linear), [rounded; 256], "{height}");
        for kind in others.map(|numbers| numbers.kind().unwrap()) {
            let table = curve::byte_table(&points, kind);
            assert_eq!(table[usize::from(points[0].x)], rounded, "{height} {kind:?}");
            let beside =
                |entry: &u8| *entry == rounded || height % 256 == 128 && *entry + 1 == rounded;
            assert!(table.iter().all(beside), "{height} {kind:?}");
        }
    }
    let half = curve::byte_table(&[Point { x: 128, height: 7_808 }], Kind::MonotoneCubic);
    assert_eq!((half[128], half[130]), (31, 30));
}

#[test]
fn bytes_of_finer_heights_are_as_promised() {
    let mut random = Random::new(13);
    let (mut points, mut in_order) = (0, 0);
    for _ in 0..4000 {
        let question = Question::finer(&mut random);
        for kind in [Kind::Linear, question.kind()] {
            let table = curve::byte_table(&question.points, kind);
            let kept = promised::kept_by(&question.points, kind, &table);
            let kept = kept.unwrap_or_else(|fault| panic!("{fault}: {question:?}"));
            points += kept.at_points;
            in_order += u32::from(kept.in_order);
        }
    }
    assert!(points > 10_000 && in_order > 500, "{points} points, {in_order} in order");
}

/// What the promises refuse: a byte beside the one expected, and a table out of order.
#[test]
fn other_bytes_are_not_as_promised() {
    let points = [Point { x: 0, height: 0 }, Point { x: 100, height: 50 * 256 }];
    let table = curve::byte_table(&points, Kind::Linear);
    let kept = promised::Kept { at_points: 2, near_line: 256, in_order: true };
    assert_eq!(promised::kept_by(&points, Kind::Linear, &table), Ok(kept));
    for v in 0..256 {
        for other in [table[v].wrapping_add(1), table[v].wrapping_sub(1)] {
            let mut wrong = table;
            wrong[v] = other;
            // at odd v the line is halfway between two bytes, and both will do
            let nearest = v < 100 && (2 * i32::from(other) - v as i32).abs() == 1;
            let judged = promised::kept_by(&points, Kind::Linear, &wrong);
            assert_eq!(judged.is_ok(), nearest, "{v}: {other}");
        }
    }
    let falling = [Point { x: 0, height: 640 }, Point { x: 255, height: 0 }];
    let table = curve::byte_table(&falling, Kind::Linear);
    assert!(!promised::kept_by(&falling, Kind::Linear, &table).unwrap().in_order);
    assert_eq!(promised::kept_by(&falling, Kind::NaturalCubic, &[9; 256]), Ok(Default::default()));
}

#[cfg(original)]
mod beside_the_original {
    use super::*;
    use tone::original::{curves, lookup};
    use tone::trial::kind;

    fn bits(values: &[f32]) -> Vec<u32> {
        let all_nan_are_one = |v: &f32| if v.is_nan() { u32::MAX } else { v.to_bits() };
        values.iter().map(all_nan_are_one).collect()
    }

    fn compare(question: &Question) {
        let (points, kind) = (&question.points[..], question.kind());
        let original = curves::curve(points);
        let table = curves::byte_table(&original, kind);
        assert_eq!(curve::byte_table(points, kind), table, "{question:?}");
        for samples in [256, 4096] {
            let here = curve::samples(points, kind, samples);
            let there = curves::fine_table(&original, kind, samples);
            assert_eq!(bits(&here), bits(&there), "{samples} of {question:?}");
        }
    }

    #[test]
    fn random_lists() {
        let mut random = Random::new(14);
        (0..3000).for_each(|_| compare(&Question::random(&mut random)));
    }

    /// Levels at both ends of the range, one x apart and as far as can be, under every kind with
    /// tensions and slopes that are often extreme.
    #[test]
    fn extreme_lists() {
        let mut random = Random::new(15);
        let levels = [0, 1, 127, 128, 254, 255];
        for (a, b) in levels.into_iter().flat_map(|a| levels.map(|b| (a, b))) {
            for xs in [[0, 1, 2, 3], [252, 253, 254, 255], [0, 1, 254, 255], [0, 255, 128, 127]] {
                let points = [0, 1, 2, 3].map(|k| Point::at_level(xs[k], [a, b, a, b][k]));
                for number in 0..Kind::NAMES.len() as u8 {
                    let count = 1 + random.below(4);
                    let numbers = kind(number, &mut random);
                    compare(&Question { points: points[..count].to_vec(), numbers });
                }
            }
        }
    }

    #[test]
    fn lookups() {
        let mut random = Random::new(16);
        let ends = [f32::NAN, f32::INFINITY, f32::NEG_INFINITY, 0.0, -0.0, 1.0, 1.0000001];
        for _ in 0..20 {
            let table: Vec<f32> = (0..4096).map(|_| random.float()).collect();
            let values: Vec<f32> = ends
                .into_iter()
                .chain((0..2000).map(|_| random.unit() * 1.5 - 0.25))
                .chain((0..=4095).map(|k| k as f32 / 4095.0))
                .collect();
            let here: Vec<f32> = values.iter().map(|v| curve::lookup(&table, *v)).collect();
            let there: Vec<f32> = values.iter().map(|v| lookup::lookup(&table, *v)).collect();
            assert_eq!(bits(&here), bits(&there));
        }
    }
}
