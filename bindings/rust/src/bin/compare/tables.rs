//! Tables and lookups beside the original's.
use super::run::Trial;
use tone::boundary;
use tone::model::checks::{self, Answer};
use tone::model::curve;
use tone::original::{curves, lookup};
use tone::trial::{kind, Element, Lent, Question, Random};
use tone::{Kind, KindNumbers, Point};

pub fn byte_table(t: &mut Trial) {
    let question = t.question();
    make_bytes(t, &question);
}

pub fn fine_table(t: &mut Trial, samples: usize) {
    let question = t.question();
    make_samples(t, &question, samples);
}

/// Asks for a byte table and compares it with the one expected.
pub fn make_bytes(t: &mut Trial, question: &Question) -> [u8; 256] {
    let room = 256 + t.random.below(3) * 7;
    let mut points = Lent::new(&question.bytes());
    let mut table = Lent::new(&vec![t.random.byte(); room]);
    let answer = boundary::table(points.lend(), question.numbers, table.lend());
    t.answered(answer, Ok(()), question);
    same_bytes(t, question, &table);
    t.kept(&table, 256, question);
    t.kept(&points, 0, question);
    std::array::from_fn(|v| table.now()[v])
}

/// The original's bytes of points at levels, the model's of others.
fn same_bytes(t: &mut Trial, question: &Question, table: &Lent<u8>) {
    let table = &table.now()[..256];
    if question.is_whole() {
        let original = curves::byte_table(&curves::curve(&question.points), question.kind());
        t.same(table, &original, question);
        t.tally.entries += 256;
    } else {
        t.same(table, &curve::byte_table(&question.points, question.kind()), question);
        t.tally.finer_tables += 1;
        t.tally.finer_entries += 256;
    }
}

/// Asks for a fine table and compares it with the one expected.
pub fn make_samples(t: &mut Trial, question: &Question, samples: usize) {
    let mut points = Lent::new(&question.bytes());
    let mut table = Lent::new(&vec![t.random.float(); samples]);
    let answer = boundary::fine_table(points.lend(), question.numbers, table.lend());
    t.answered(answer, Ok(()), question);
    same_samples(t, question, &table);
    t.kept(&table, samples, question);
    t.kept(&points, 0, question);
}

/// The original's samples of points at levels, the model's of others.
fn same_samples(t: &mut Trial, question: &Question, table: &Lent<f32>) {
    let (table, kind) = (table.now(), question.kind());
    let samples = table.len();
    if question.is_whole() {
        let original = curves::fine_table(&curves::curve(&question.points), kind, samples);
        t.same(table, &original, question);
        t.tally.samples += samples as u64;
    } else {
        t.same(table, &curve::samples(&question.points, kind, samples), question);
        t.tally.finer_tables += 1;
        t.tally.finer_samples += samples as u64;
    }
}

/// Each slope, at the start and at the end of a list that is level at 128, with short segments at
/// both ends: the samples beside the ends are not clamped, and each slope gives another.
pub fn every_slope(t: &mut Trial) {
    let mut before = [-1.0, 256.0];
    for slope in i16::MIN..=i16::MAX {
        let now = [slopes(t, slope, 0)[1], slopes(t, 0, slope)[254]];
        assert!(before[0] < now[0] && now[1] < before[1], "slope {slope} does not show");
        before = now;
    }
}

fn slopes(t: &mut Trial, start_slope: i16, end_slope: i16) -> [f32; 256] {
    let points = [0, 5, 250, 255].map(|x| Point::at_level(x, 128));
    let kind = Kind::ClampedCubic { start_slope, end_slope };
    let mut samples = [0.0; 256];
    let answer = tone::fine_table(&points, kind, &mut samples);
    t.answered(answer, Ok(()), &kind);
    t.same(&samples, &curves::fine_table(&curves::curve(&points), kind, 256), &kind);
    t.tally.samples += 256;
    samples
}

pub fn lookups(t: &mut Trial) {
    let table = table_to_look_in(t);
    let values: Vec<f32> = (0..t.random.below(2048)).map(|_| value(&mut t.random)).collect();
    let mut table = Lent::new(&table);
    let mut results = Lent::new(&values);
    let answer = tone::lookup(table.lend(), results.lend());
    t.answered(answer, Ok(()), &values.len());
    let original: Vec<f32> = values.iter().map(|v| lookup::lookup(table.now(), *v)).collect();
    t.same(results.now(), &original, &"lookup");
    t.kept(&results, values.len(), &"lookup");
    t.kept(&table, 0, &"lookup");
    t.tally.lookups += values.len() as u64;
}

/// A fine table of a list, one of heights without order, or one of any bits.
fn table_to_look_in(t: &mut Trial) -> Vec<f32> {
    match t.random.below(3) {
        0 => {
            let question = t.question();
            curves::fine_table(&curves::curve(&question.points), question.kind(), 4096)
        }
        1 => (0..4096).map(|_| t.random.unit() * 255.0).collect(),
        _ => (0..4096).map(|_| t.random.float()).collect(),
    }
}

fn value(random: &mut Random) -> f32 {
    const ENDS: [f32; 10] = [
        f32::NAN,
        f32::INFINITY,
        f32::NEG_INFINITY,
        0.0,
        -0.0,
        1.0,
        0.99999994,
        1.0000001,
        f32::MIN_POSITIVE,
        -1e-45,
    ];
    match random.below(5) {
        0 => random.float(),
        1 => random.of(&ENDS),
        // at a sample of the table, or one bit beside it
        2 => {
            let at = (random.below(4096) as f32 / 4095.0).to_bits();
            f32::from_bits(at + random.below(3) as u32 - u32::from(at > 0))
        }
        3 => random.unit() * 2.0 - 0.5,
        _ => random.unit(),
    }
}

/// Calls of points at levels of which some are refused: the first refusal that applies must be the
/// answer. Some have bytes left over behind the last point.
pub fn refused(t: &mut Trial) {
    let count = if t.random.once_in(3) { t.random.below(70) } else { t.random.below(65) };
    let points = (0..count).map(|_| Point::at_level(t.random.byte(), t.random.byte()));
    let points: Vec<Point> = points.collect();
    refused_tables(t, points);
    refused_lookup(t);
}

/// Both table calls with any kind, any room and up to two bytes left over.
pub fn refused_tables(t: &mut Trial, points: Vec<Point>) {
    let number =
        if t.random.once_in(3) { t.random.byte() } else { t.random.below(Kind::NAMES.len()) as u8 };
    let numbers: KindNumbers = kind(number, &mut t.random);
    let question = Question { points, numbers };
    let left_over = t.random.below(3);
    let bytes = [question.bytes(), t.random.bytes(left_over)].concat();
    let listed = checks::given(&bytes, number);
    refused_table(t, &question, &bytes, listed);
    refused_fine_table(t, &question, &bytes, listed);
}

fn refused_table(t: &mut Trial, question: &Question, bytes: &[u8], listed: Answer) {
    let room = t.random.below(400);
    let expected = listed.and(checks::table_room(room));
    let mut points = Lent::new(bytes);
    let mut table = Lent::new(&vec![t.random.byte(); room]);
    let answer = boundary::table(points.lend(), question.numbers, table.lend());
    judged(t, answer, expected, &table, 256);
    t.kept(&points, 0, question);
    if expected.is_ok() {
        same_bytes(t, question, &table);
    }
}

fn refused_fine_table(t: &mut Trial, question: &Question, bytes: &[u8], listed: Answer) {
    let samples = if t.random.once_in(4) {
        t.random.below(5000)
    } else {
        t.random.of(&[0, 1, 2, 255, 256, 257, 4095, 4096, 4097])
    };
    let expected = listed.and(checks::fine_length(samples));
    let mut points = Lent::new(bytes);
    let mut table = Lent::new(&vec![t.random.float(); samples]);
    let answer = boundary::fine_table(points.lend(), question.numbers, table.lend());
    judged(t, answer, expected, &table, samples);
    t.kept(&points, 0, question);
    if expected.is_ok() {
        same_samples(t, question, &table);
    }
}

fn refused_lookup(t: &mut Trial) {
    let samples = t.random.of(&[0, 1, 256, 4094, 4095, 4097, 5000]);
    let mut table = Lent::new(&vec![t.random.unit(); samples]);
    let mut values = Lent::new(&vec![t.random.float(); t.random.below(100)]);
    let answer = tone::lookup(table.lend(), values.lend());
    judged(t, answer, checks::lookup_length(samples), &values, 0);
    t.kept(&table, 0, &samples);
}

/// Holds an answer to the one expected, and what was lent to what the call may write.
fn judged<T: Element>(
    t: &mut Trial,
    answer: Answer,
    expected: Answer,
    lent: &Lent<T>,
    written: usize,
) {
    t.answered(answer, expected, &"refusals");
    t.kept(lent, if expected.is_ok() { written } else { 0 }, &expected);
}
