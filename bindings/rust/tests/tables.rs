//! Tables and lookups through the wrapper: document 01's examples, finer heights, refusals in their
//! order, memory left alone.
use tone::boundary;
use tone::model::promised;
use tone::trial::{refused_vectors, Question, Random, FINE_SAMPLES, VECTORS};
use tone::{Kind, KindNumbers, Point, Refusal, LARGEST_HEIGHT};

const STRAIGHT: [Point; 2] = [Point::at_level(0, 0), Point::at_level(255, 255)];

/// The kind of a number, known or not.
fn numbered(number: u8) -> KindNumbers {
    KindNumbers { number, tension: 0, start_slope: 0, end_slope: 0 }
}

fn table(points: &[Point], kind: Kind) -> [u8; 256] {
    let mut table = [0; 256];
    tone::table(points, kind, &mut table).unwrap();
    table
}

/// Of x and level.
fn level_table(pairs: &[(u8, u8)], kind: Kind) -> [u8; 256] {
    let points: Vec<Point> = pairs.iter().map(|(x, level)| Point::at_level(*x, *level)).collect();
    table(&points, kind)
}

fn straight_table() -> [u8; 256] {
    std::array::from_fn(|v| v as u8)
}

/// "Heights written in document 01 are levels."
#[test]
fn examples_of_document_01() {
    assert_eq!(level_table(&[], Kind::Linear), [0; 256], "P1");
    assert_eq!(level_table(&[(128, 200)], Kind::Linear), [200; 256], "P2");
    assert_eq!(level_table(&[(10, 5), (10, 9), (0, 0)], Kind::Linear)[10], 5, "P3");
    assert_eq!(level_table(&[(0, 0), (2, 1)], Kind::Linear)[1], 1, "P4");
    assert_eq!(table(&STRAIGHT, Kind::NaturalCubic), straight_table(), "P5");
    assert_eq!(table(&STRAIGHT, Kind::Cardinal { tension: 255 })[51], 27, "P6");
    assert_eq!(
        table(&STRAIGHT, Kind::ClampedCubic { start_slope: 256, end_slope: 256 }),
        straight_table(),
        "P7"
    );
}

#[test]
fn finer_heights() {
    for vector in &VECTORS {
        assert!(vector.holds(&table(vector.points, vector.kind)), "{vector:?}");
    }
    let (points, stated) = FINE_SAMPLES;
    let mut fine = [0.0; 4096];
    tone::fine_table(&points, Kind::Linear, &mut fine).unwrap();
    assert_eq!(stated.map(|(v, _)| (v, fine[v].to_bits())), stated);
}

/// What document 02 says of the bytes of finer heights.
#[test]
fn bytes_of_finer_heights_are_as_promised() {
    let mut random = Random::new(11);
    for _ in 0..2000 {
        let Question { points, numbers } = Question::finer(&mut random);
        for kind in [Kind::Linear, numbers.kind().unwrap()] {
            let kept = promised::kept_by(&points, kind, &table(&points, kind));
            kept.unwrap_or_else(|fault| panic!("{fault}: {kind:?} {points:?}"));
        }
    }
}

/// The wrapper passes the points that it is given, whatever their number: those of a list that is
/// refused for its heights or for its length too.
#[test]
fn points_pass_as_three_bytes_each() {
    let mut random = Random::new(12);
    for count in (0..=70).chain([1000]) {
        let mut points: Vec<Point> = (0..count)
            .map(|_| Point { x: random.byte(), height: random.bits() as u16 % 65_281 })
            .collect();
        for height in [None, Some(LARGEST_HEIGHT + 1)] {
            if let (Some(height), Some(last)) = (height, points.last_mut()) {
                last.height = height;
            }
            same_as_bytes(&points);
        }
    }
}

fn same_as_bytes(points: &[Point]) {
    let bytes: Vec<u8> = points.iter().flat_map(|point| point.to_bytes()).collect();
    let (mut here, mut there) = ([1; 256], [1; 256]);
    assert_eq!(
        tone::table(points, numbered(1), &mut here),
        boundary::table(&bytes, numbered(1), &mut there)
    );
    assert_eq!(here, there, "{points:?}");
    let (mut here, mut there) = ([1.0; 256], [1.0; 256]);
    assert_eq!(
        tone::fine_table(points, numbered(1), &mut here),
        boundary::fine_table(&bytes, numbered(1), &mut there)
    );
    assert_eq!(here, there, "{points:?}");
}

#[test]
fn bytes_left_over_are_ignored() {
    let mut made = [0; 256];
    for left_over in [&[][..], &[7], &[7, 255], &[255, 255]] {
        let bytes = [&[128, 0, 200], left_over].concat();
        boundary::table(&bytes, numbered(0), &mut made).unwrap();
        assert_eq!(made, [200; 256]);
        let most = [&[9; 3 * 64], left_over].concat();
        boundary::table(&most, numbered(0), &mut made).unwrap();
        assert_eq!(made, [9; 256]);
        let mut samples = [0.0; 256];
        boundary::fine_table(&bytes, numbered(0), &mut samples).unwrap();
        assert_eq!(samples, [200.0; 256]);
    }
}

#[test]
fn a_table_takes_the_first_256_bytes() {
    let mut room = [3; 300];
    tone::table(&[Point::at_level(128, 200)], Kind::Linear, &mut room).unwrap();
    assert_eq!(room[..256], [200; 256]);
    assert_eq!(room[256..], [3; 44]);
}

/// 3, 20, 5, 13 and 3, 20, 5, 14.
#[test]
fn refusals_come_in_order_and_change_nothing() {
    let many = [Point { x: 1, height: u16::MAX }; 65];
    let high = [Point { x: 1, height: LARGEST_HEIGHT + 1 }];
    let unknown = numbered(10);
    let mut short = [7; 255];
    assert_eq!(tone::table(&many, unknown, &mut short), Err(Refusal::PointCount));
    assert_eq!(tone::table(&many[1..], unknown, &mut short), Err(Refusal::HeightRange));
    assert_eq!(tone::table(&high, unknown, &mut short), Err(Refusal::HeightRange));
    assert_eq!(tone::table(&[], unknown, &mut short), Err(Refusal::UnknownKind));
    assert_eq!(tone::table(&[], Kind::Linear, &mut short), Err(Refusal::OutputTooSmall));
    assert_eq!(short, [7; 255]);

    let mut floats = [7.0; 257];
    assert_eq!(tone::fine_table(&many, unknown, &mut floats), Err(Refusal::PointCount));
    assert_eq!(tone::fine_table(&many[1..], unknown, &mut floats), Err(Refusal::HeightRange));
    assert_eq!(tone::fine_table(&high, unknown, &mut floats), Err(Refusal::HeightRange));
    assert_eq!(tone::fine_table(&[], unknown, &mut floats), Err(Refusal::UnknownKind));
    assert_eq!(tone::fine_table(&[], Kind::Linear, &mut floats), Err(Refusal::TableLength));
    assert_eq!(tone::lookup(&[0.0; 4095], &mut floats), Err(Refusal::TableLength));
    assert_eq!(floats, [7.0; 257]);
}

/// "20 a height above 65,280 in a list": with room and without, the same answer.
#[test]
fn heights_that_are_too_large() {
    for (points, kind, refusal) in refused_vectors() {
        for room in [0, 255, 256, 257, 4096] {
            let (mut bytes, mut floats) = (vec![7; room], vec![7.0; room]);
            let kind = numbered(kind);
            assert_eq!(tone::table(&points, kind, &mut bytes), Err(refusal), "{points:?}");
            assert_eq!(tone::fine_table(&points, kind, &mut floats), Err(refusal), "{points:?}");
            assert!(bytes.iter().all(|b| *b == 7) && floats.iter().all(|f| *f == 7.0));
        }
    }
}

/// In every place of lists of every length, kept or dropped.
#[test]
fn a_height_is_tested_in_every_place() {
    let mut made = [7; 256];
    for count in 1..=64 {
        for (place, x) in (0..count).flat_map(|place| [(place, place as u8), (place, 0)]) {
            let mut points: Vec<Point> = (0..count).map(|x| Point::at_level(x as u8, 9)).collect();
            points[place] = Point { x, height: LARGEST_HEIGHT };
            assert_eq!(tone::table(&points, Kind::Linear, &mut [0; 256]), Ok(()));
            points[place].height += 1;
            let answer = tone::table(&points, Kind::Linear, &mut made);
            assert_eq!(answer, Err(Refusal::HeightRange), "place {place} of {count}, x {x}");
        }
    }
    assert_eq!(made, [7; 256]);
}

#[test]
fn a_straight_fine_table_looks_up_each_sample_as_itself() {
    let mut fine = [0.0; 4096];
    tone::fine_table(&STRAIGHT, Kind::Linear, &mut fine).unwrap();
    assert_eq!((fine[0], fine[4095]), (0.0, 255.0));
    let mut values = [0.0, 1.0, -3.0, 7.0, f32::NAN, f32::INFINITY];
    tone::lookup(&fine, &mut values).unwrap();
    assert_eq!(values, [0.0, 1.0, 0.0, 1.0, 0.0, 1.0]);
}
