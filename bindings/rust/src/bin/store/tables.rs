//! Tables and lookups: random lists of every kind, then the lists of the page `Kinds.antt` of
//! `examples`, on which a slip in a kind's formula shows, then finer heights.
//!
//! A question is a line of 199 bytes in hexadecimal: the kind's number, the tension, the start
//! slope and the end slope (two bytes each, low byte first), the count of points, and 64 points of
//! three bytes (x, then the height in 256ths of a level, low byte first), zeros past the count. The
//! answer is a line: the 256 entries of the byte table in hexadecimal, and FNV-1a digests (64 bits,
//! over the bit patterns, low byte first) of the table of 256 samples, of that of 4,096 samples,
//! and of 256 lookups in the latter.
//!
//! Points at levels have the original's answers. It knows no finer heights: theirs are the model's
//! answers, a second reading of documents 01 and 02, which is held to the original on levels.
use super::{hex, Sample};
use tone::model::curve;
use tone::original::{curves, lookup};
use tone::trial::{
    any_finer_list, any_list, height, kind, never_falling, Page, Question, Random, EXTREME_HEIGHTS,
};
use tone::{Kind, Point};

const SEED: u64 = 3;
const LISTS_A_KIND: usize = 36;

/// Finer heights have numbers of their own, so that a list more leaves all the others as they are.
const FINER_SEED: u64 = 9;

pub fn sample() -> Sample {
    let mut sample = Sample::default();
    for question in whole_questions() {
        sample.add(&bytes_of(&question), &originals_answer(&question));
    }
    for question in finer_questions() {
        sample.add(&bytes_of(&question), &models_answer(&question));
    }
    sample
}

fn whole_questions() -> Vec<Question> {
    let mut random = Random::new(SEED);
    let mut questions = Vec::new();
    for _ in 0..LISTS_A_KIND {
        for number in 0..Kind::NAMES.len() as u8 {
            let numbers = kind(number, &mut random);
            questions.push(Question { numbers, points: any_list(&mut random) });
        }
    }
    questions.extend(Page::Kinds.questions());
    questions
}

/// Each shape of list under each kind. None has levels alone, and none is refused.
fn finer_questions() -> Vec<Question> {
    let mut random = Random::new(FINER_SEED);
    let mut questions = Vec::new();
    for shape in FINER_SHAPES {
        for number in 0..Kind::NAMES.len() as u8 {
            let numbers = kind(number, &mut random);
            let question = Question { numbers, points: shape(&mut random) };
            assert!(!question.is_whole() && question.points.len() <= 64, "{question:?}");
            questions.push(question);
        }
    }
    questions
}

const FINER_SHAPES: [fn(&mut Random) -> Vec<Point>; 8] = [
    some_finer_list,
    some_finer_list,
    some_finer_list,
    // neighbours in x, all 64
    |random| (96..160).map(|x| Point { x, height: height(random) }).collect(),
    // each extreme height, from end to end
    |_| {
        let xs = [0, 1, 2, 60, 61, 128, 129, 253, 254, 255];
        let turns = xs.iter().zip(EXTREME_HEIGHTS.iter().cycle().step_by(3));
        turns.map(|(x, height)| Point { x: *x, height: *height }).collect()
    },
    // two knots, and neither end at a level
    |random| vec![Point { x: 0, height: 1 + random.below(200) as u16 }, at_end(65_279)],
    // of equal x the first counts, and the list is not in order
    |random| {
        let points = [200, 10, 200, 90, 10, 91].map(|x| Point { x, height: height(random) });
        points.into_iter().chain([at_end(65_152), at_end(128)]).collect()
    },
    |random| never_falling(random, 33).into_iter().chain([at_end(65_279)]).collect(),
];

fn at_end(height: u16) -> Point {
    Point { x: 255, height }
}

/// A random list of which the original has no table.
fn some_finer_list(random: &mut Random) -> Vec<Point> {
    loop {
        let points = any_finer_list(random);
        if points.iter().any(|point| point.level().is_none()) {
            return points;
        }
    }
}

fn bytes_of(question: &Question) -> Vec<u8> {
    let numbers = question.numbers;
    let mut bytes = vec![numbers.number, numbers.tension];
    bytes.extend(numbers.start_slope.to_le_bytes());
    bytes.extend(numbers.end_slope.to_le_bytes());
    bytes.push(question.points.len() as u8);
    bytes.extend(question.bytes());
    bytes.resize(199, 0);
    bytes
}

fn originals_answer(question: &Question) -> String {
    let (curve, kind) = (curves::curve(&question.points), question.kind());
    let fine = curves::fine_table(&curve, kind, 4096);
    let looked: Vec<f32> = values().map(|v| lookup::lookup(&fine, v)).collect();
    let coarse = curves::fine_table(&curve, kind, 256);
    line(&curves::byte_table(&curve, kind), &coarse, &fine, &looked)
}

fn models_answer(question: &Question) -> String {
    let (points, kind) = (&question.points[..], question.kind());
    let fine = curve::samples(points, kind, 4096);
    let looked: Vec<f32> = values().map(|v| curve::lookup(&fine, v)).collect();
    let coarse = curve::samples(points, kind, 256);
    line(&curve::byte_table(points, kind), &coarse, &fine, &looked)
}

fn line(bytes: &[u8], coarse: &[f32], fine: &[f32], looked: &[f32]) -> String {
    let [coarse, fine, looked] = [coarse, fine, looked].map(digest);
    format!("{} {coarse:016x} {fine:016x} {looked:016x}", hex(bytes))
}

/// From below 0 to above 1.
fn values() -> impl Iterator<Item = f32> {
    (0..256).map(|k| (k as f32 - 16.0) / 224.0)
}

/// FNV-1a. All NaN count as one.
fn digest(floats: &[f32]) -> u64 {
    let bits = floats.iter().map(|v| if v.is_nan() { 0x7FC0_0000 } else { v.to_bits() });
    let bytes = bits.flat_map(u32::to_le_bytes);
    bytes.fold(0xCBF2_9CE4_8422_2325, |h, b| (h ^ u64::from(b)).wrapping_mul(0x0000_0100_0000_01B3))
}
