//! Random lists of points and kinds.
use super::Random;
use crate::model::record::rises;
use crate::{Kind, KindNumbers, Point, LARGEST_HEIGHT};

/// A table to build: points and a kind, with a tension and slopes that other kinds must not read.
#[derive(Clone, Debug, PartialEq, Eq)]
pub struct Question {
    pub points: Vec<Point>,
    pub numbers: KindNumbers,
}

impl Question {
    /// Of points at levels.
    pub fn random(random: &mut Random) -> Question {
        let number = random.below(Kind::NAMES.len()) as u8;
        Question { points: any_list(random), numbers: kind(number, random) }
    }

    /// Of points at any height.
    pub fn finer(random: &mut Random) -> Question {
        let number = random.below(Kind::NAMES.len()) as u8;
        Question { points: any_finer_list(random), numbers: kind(number, random) }
    }

    pub fn kind(&self) -> Kind {
        self.numbers.kind().expect("a number below 10")
    }

    /// Whether the points strictly rise in x.
    pub fn rises(&self) -> bool {
        rises(&self.points)
    }

    /// Whether all points are at levels, so that the original has an answer.
    pub fn is_whole(&self) -> bool {
        self.points.iter().all(|point| point.level().is_some())
    }

    /// The points as the boundary takes them.
    pub fn bytes(&self) -> Vec<u8> {
        self.points.iter().flat_map(|point| point.to_bytes()).collect()
    }
}

/// The kind of a number, with a tension and slopes that are often extreme.
pub fn kind(number: u8, random: &mut Random) -> KindNumbers {
    KindNumbers {
        number,
        tension: tension(random),
        start_slope: slope(random),
        end_slope: slope(random),
    }
}

fn tension(random: &mut Random) -> u8 {
    if random.below(2) == 0 {
        random.byte()
    } else {
        random.of(&[0, 1, 127, 128, 254, 255])
    }
}

fn slope(random: &mut Random) -> i16 {
    match random.below(3) {
        0 => random.bits() as i16,
        1 => random.below(1024) as i16 - 512,
        _ => random.of(&[i16::MIN, i16::MIN + 1, -256, -1, 0, 1, 255, 256, i16::MAX]),
    }
}

/// A list of up to 64 points at levels, of one of several shapes.
pub fn any_list(random: &mut Random) -> Vec<Point> {
    match random.below(7) {
        // anything
        0 => pairs(random.below(65), || (random.byte(), random.byte())),
        // few points
        1 => pairs(random.below(5), || (random.byte(), random.byte())),
        // x often equal
        2 => {
            let (from, width) = (random.byte(), 1 + random.below(40));
            pairs(random.below(65), || {
                (from.saturating_add(random.below(width) as u8), random.byte())
            })
        }
        // the ends of both ranges
        3 => pairs(random.below(17), || {
            (random.of(&[0, 1, 2, 3, 252, 253, 254, 255]), random.of(&[0, 1, 254, 255]))
        }),
        // rising in x
        4 => rising(random, |_, y| y),
        // rising in x and y
        5 => rising(random, |i, y| (i * 4 + usize::from(y) % 4) as u8),
        // rising in x, flat and steep by turns
        _ => rising(random, |i, y| if i % 3 == 0 { 255 - y / 64 } else { y / 64 }),
    }
}

fn pairs(count: usize, mut point: impl FnMut() -> (u8, u8)) -> Vec<Point> {
    let mut at_level = || {
        let (x, level) = point();
        Point::at_level(x, level)
    };
    (0..count).map(|_| at_level()).collect()
}

/// Up to 64 points that rise in x, the level of point i made of a random byte.
fn rising(random: &mut Random, level: impl Fn(usize, u8) -> u8) -> Vec<Point> {
    let count = random.below(65);
    let xs = distinct(random, count);
    let points = xs.into_iter().enumerate();
    points.map(|(i, x)| Point::at_level(x, level(i, random.byte()))).collect()
}

/// `count` points at levels that rise in x.
pub fn rising_list(random: &mut Random, count: usize) -> Vec<Point> {
    distinct(random, count).into_iter().map(|x| Point::at_level(x, random.byte())).collect()
}

/// Heights at which a slip shows: both ends of the range, and the first half and the first level
/// with what is beside them.
pub const EXTREME_HEIGHTS: [u16; 10] =
    [0, 1, 127, 128, 255, 256, 257, LARGEST_HEIGHT - 128, LARGEST_HEIGHT - 1, LARGEST_HEIGHT];

/// Any height, often an extreme one or one beside the half between two levels.
pub fn height(random: &mut Random) -> u16 {
    match random.below(4) {
        0 => random.of(&EXTREME_HEIGHTS),
        1 => 127 + 256 * random.below(255) as u16 + random.below(3) as u16,
        _ => random.below(usize::from(LARGEST_HEIGHT) + 1) as u16,
    }
}

/// A list of up to 64 points at any height, of one of several shapes.
pub fn any_finer_list(random: &mut Random) -> Vec<Point> {
    let count = random.below(65);
    match random.below(10) {
        // anything
        0 => points(count, || (random.byte(), height(random))),
        // few points
        1 => points(count % 5, || (random.byte(), height(random))),
        // x often equal
        2 => {
            let (from, width) = (random.byte(), 1 + random.below(40));
            let x = |r: &mut Random| from.saturating_add(r.below(width) as u8);
            points(count, || (x(random), height(random)))
        }
        // the ends of both ranges
        3 => points(count % 17, || {
            (random.of(&[0, 1, 2, 3, 252, 253, 254, 255]), random.of(&EXTREME_HEIGHTS))
        }),
        // neighbours in x, often 64 of them
        4 => {
            let count = if random.once_in(2) { 64 } else { count };
            let from = random.below(257 - count);
            let at = |x: usize| Point { x: x as u8, height: height(random) };
            (from..from + count).map(at).collect()
        }
        // rising in x
        5 => finer_rising(random, count, |_, h| h),
        // rising in x and never falling: by 256ths of a level, or steeper
        6 => never_falling(random, count),
        // rising in x, level but for some 256ths
        7 => {
            let level = height(random).min(LARGEST_HEIGHT - 3);
            finer_rising(random, count, |_, h| level + h % 4)
        }
        // rising in x, flat and steep by turns
        8 => {
            let steep = |low: u16| [LARGEST_HEIGHT - low, low, low];
            finer_rising(random, count, |i, h| steep(h / 512)[i % 3])
        }
        _ => five_to_one(random),
    }
}

fn points(count: usize, mut point: impl FnMut() -> (u8, u16)) -> Vec<Point> {
    let mut at = || {
        let (x, height) = point();
        Point { x, height }
    };
    (0..count).map(|_| at()).collect()
}

/// `count` points that rise in x, the height of point i made of a random one.
fn finer_rising(random: &mut Random, count: usize, of: impl Fn(usize, u16) -> u16) -> Vec<Point> {
    let xs = distinct(random, count).into_iter().enumerate();
    xs.map(|(i, x)| Point { x, height: of(i, height(random)) }).collect()
}

/// `count` points that rise in x and never fall.
pub fn never_falling(random: &mut Random, count: usize) -> Vec<Point> {
    let steepest = random.of(&[1, 2, 3, 300, 1020, 20_000]);
    let start = if random.once_in(2) { 0 } else { height(random) };
    let mut heights = std::iter::successors(Some(start), |h| {
        Some(h.saturating_add(random.below(steepest + 1) as u16).min(LARGEST_HEIGHT))
    });
    let heights: Vec<u16> = heights.by_ref().take(count).collect();
    let xs = distinct(random, count);
    xs.into_iter().zip(heights).map(|(x, height)| Point { x, height }).collect()
}

/// Segments of one width, each second one five times as steep as the others but for a 256th or
/// none: tangents are three secants there, where the Box kind caps them.
fn five_to_one(random: &mut Random) -> Vec<Point> {
    let width = 1 + random.below(20);
    let count = 2 + random.below(256 / width - 1).min(62);
    let rise = 1 + random.below(21_000 / count);
    let mut height = random.below(3);
    let point = |k: usize| {
        let at = Point { x: (k * width) as u8, height: height as u16 };
        height += if k.is_multiple_of(2) { rise } else { 5 * rise - 1 + random.below(3) };
        at
    };
    (0..count).map(point).collect()
}

/// `count` bytes, each another, in order.
pub fn distinct(random: &mut Random, count: usize) -> Vec<u8> {
    let mut all: Vec<u8> = (0..=255).collect();
    for i in 0..count {
        let j = i + random.below(256 - i);
        all.swap(i, j);
    }
    all.truncate(count);
    all.sort_unstable();
    all
}
