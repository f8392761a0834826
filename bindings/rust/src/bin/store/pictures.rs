//! Pictures toned by both calls.
//!
//! A question is a line of 363 bytes in hexadecimal. The first eleven are the call (0 by the table
//! of the record's master, 1 by the set), the format, the width, the height, the row step, the
//! number of planes, and the lengths of the record, of the first plane, of the two chroma planes
//! and of the tight rows. Then come the record (64 bytes), the first plane (240) and the chroma
//! planes (24 each), zeros past the lengths. "Runs beside the Rust name the kind in full": so do
//! the records. The answer is a line in hexadecimal: the whole plane of the call by one table; the
//! tight rows of the set call and, of a YUV format, behind a space each, the chroma planes; or the
//! word `refused`, where the original has the set call fail.
use super::{hex, Sample};
use tone::model::record::{encode, Set};
use tone::original::{curves, frame, pixel_format, tonal_lut, PixelFilter, VideoStreamParams};
use tone::trial::{kind, rising_list, Random};
use tone::{Format, Kind};

const SEED: u64 = 4;
const ONE_TABLE_A_FORMAT: usize = 8;
const BY_SET_A_FORMAT: usize = 11;

struct Question {
    by_set: bool,
    format: Format,
    width: usize,
    height: usize,
    step: usize,
    set: Set,
    /// As many as the call is told of; the first is always there.
    planes: Vec<Vec<u8>>,
}

pub fn sample() -> Sample {
    let mut random = Random::new(SEED);
    let mut sample = Sample::default();
    let mut add = |question: Question| sample.add(&bytes_of(&question), &answer(&question));
    for format in Format::ALL {
        (0..ONE_TABLE_A_FORMAT).for_each(|_| add(question(false, format, 1, &mut random)));
        if matches!(format, Format::Ya8 | Format::Cmyk | Format::CmykInverted) {
            add(question(true, format, 1, &mut random));
            continue;
        }
        let planes = if format.is_yuv() { 3 } else { 1 };
        (0..BY_SET_A_FORMAT).for_each(|_| add(question(true, format, planes, &mut random)));
    }
    add(question(true, Format::Yuv420P, 2, &mut random));
    add(question(true, Format::YuvJ444P, 1, &mut random));
    sample
}

/// A picture of up to 8 by 8 whose plane has at most 240 bytes and, at width 0 too, reaches to the
/// start of every row: else the original panics.
fn question(by_set: bool, format: Format, planes: usize, random: &mut Random) -> Question {
    loop {
        let (width, height) = (random.below(9), random.below(9));
        let row = width * format.bytes_a_pixel();
        let step = row + if random.once_in(3) { 0 } else { random.below(12) };
        let length = height.saturating_sub(1) * step + row + random.below(5);
        if length <= 240 {
            let lengths = [length, random.below(25), random.below(25)];
            let planes = lengths.map(|n| random.bytes(n)).into_iter().take(planes).collect();
            return Question { by_set, format, width, height, step, set: set(random), planes };
        }
    }
}

/// Few points, so that the record has at most 64 bytes.
fn set(random: &mut Random) -> Set {
    let mut list = |most: usize| {
        let count = random.below(most + 1);
        rising_list(random, count)
    };
    let (master, colours) = (list(6), [(); 3].map(|()| list(4)));
    let number = random.below(Kind::NAMES.len()) as u8;
    Set {
        master,
        colours: colours.map(|points| if random.once_in(3) { None } else { Some(points) }),
        kind: kind(number, random).kind().expect("a number below 10"),
    }
}

fn bytes_of(question: &Question) -> Vec<u8> {
    let record = encode(&question.set, false, true);
    let plane = |k: usize| question.planes.get(k).map_or(&[][..], |p| p);
    let tight = question.width * question.format.bytes_a_pixel() * question.height;
    let lengths = [record.len(), plane(0).len(), plane(1).len(), plane(2).len(), tight];
    let mut bytes = vec![u8::from(question.by_set), question.format.number()];
    let numbers = [question.width, question.height, question.step, question.planes.len()];
    bytes.extend(
        numbers.into_iter().chain(lengths).map(|n| u8::try_from(n).expect("a small picture")),
    );
    for (part, room) in [(&record[..], 64), (plane(0), 240), (plane(1), 24), (plane(2), 24)] {
        let end = bytes.len() + room;
        bytes.extend(part);
        assert!(bytes.len() <= end);
        bytes.resize(end, 0);
    }
    bytes
}

fn answer(question: &Question) -> String {
    let (width, height) = (question.width as u32, question.height as u32);
    let mut given = frame(question.planes.iter().map(|p| (p.clone(), question.step)));
    if question.by_set {
        let params = VideoStreamParams { format: pixel_format(question.format), width, height };
        return match curves::set(&question.set).apply_pixels(&given, params) {
            Ok(toned) => toned.planes.iter().map(|p| hex(&p.data)).collect::<Vec<_>>().join(" "),
            Err(_) => "refused".to_owned(),
        };
    }
    let table = curves::byte_table(&curves::curve(&question.set.master), question.set.kind);
    tonal_lut::tone(&mut given, &table, question.format, width, height);
    hex(&given.planes[0].data)
}
