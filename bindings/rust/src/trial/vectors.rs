//! Finer heights with numbers from outside: what tables hold, and what is refused. Model and engine
//! are held to them alike.
use crate::{Kind, Point, Refusal};

/// What a byte table holds.
#[derive(Debug)]
pub struct Vector {
    pub kind: Kind,
    pub points: &'static [Point],
    /// Entries and their values.
    pub entries: &'static [(u8, u8)],
    /// The sum of all entries, where it is stated.
    pub sum: Option<u32>,
}

impl Vector {
    /// Whether a table is as stated.
    pub fn holds(&self, table: &[u8; 256]) -> bool {
        let sum: u32 = table.iter().map(|entry| u32::from(*entry)).sum();
        let stated = |(v, value): &(u8, u8)| table[usize::from(*v)] == *value;
        self.entries.iter().all(stated) && self.sum.is_none_or(|stated| stated == sum)
    }
}

const fn at(x: u8, height: u16) -> Point {
    Point { x, height }
}

/// The same value everywhere.
const fn flat(value: u8) -> [(u8, u8); 256] {
    let mut entries = [(0, value); 256];
    let mut v = 0;
    while v < 256 {
        entries[v].0 = v as u8;
        v += 1;
    }
    entries
}

/// Each entry its place.
const fn straight() -> [(u8, u8); 256] {
    let mut entries = flat(0);
    let mut v = 0;
    while v < 256 {
        entries[v].1 = v as u8;
        v += 1;
    }
    entries
}

const fn linear(points: &'static [Point], entries: &'static [(u8, u8)]) -> Vector {
    Vector { kind: Kind::Linear, points, entries, sum: None }
}

/// A list that is level but for a 256th, then steep.
const STEP: [Point; 4] = [at(0, 0), at(64, 10_000), at(128, 10_001), at(255, 65_280)];

const fn by_step(kind: Kind, entries: &'static [(u8, u8)], sum: u32) -> Vector {
    Vector { kind, points: &STEP, entries, sum: Some(sum) }
}

pub static VECTORS: [Vector; 14] = [
    linear(&[at(0, 128)], &flat(1)),
    linear(&[at(0, 127)], &flat(0)),
    linear(&[at(0, 0), at(2, 255)], &[(0, 0), (1, 0), (2, 1)]),
    linear(&[at(0, 0), at(2, 256)], &[(0, 0), (1, 1), (2, 1)]),
    linear(&[at(0, 0), at(255, 65_280)], &straight()),
    linear(&[at(0, 15_218), at(241, 63_175)], &[(0, 59), (121, 154), (241, 247), (255, 247)]),
    linear(&[at(10, 65_280), at(10, 0), at(200, 65_152)], &flat(255)),
    by_step(
        Kind::CatmullRom,
        &[(0, 0), (32, 22), (64, 39), (96, 32), (128, 39), (200, 154), (255, 255)],
        21_610,
    ),
    by_step(
        Kind::MonotoneCubic,
        &[(0, 0), (32, 24), (64, 39), (96, 39), (128, 39), (200, 139), (255, 255)],
        20_473,
    ),
    by_step(
        Kind::MonotoneCubicBox,
        &[(0, 0), (32, 24), (64, 39), (96, 39), (128, 39), (200, 139), (255, 255)],
        20_473,
    ),
    by_step(
        Kind::CentripetalCatmullRom,
        &[(0, 0), (32, 22), (64, 39), (96, 37), (128, 39), (200, 146), (255, 255)],
        21_043,
    ),
    by_step(
        Kind::ChordalCatmullRom,
        &[(0, 0), (32, 22), (64, 39), (96, 39), (128, 39), (200, 142), (255, 255)],
        20_766,
    ),
    by_step(
        Kind::Cardinal { tension: 128 },
        &[(0, 0), (32, 21), (64, 39), (96, 36), (128, 39), (200, 161), (255, 255)],
        22_074,
    ),
    Vector {
        kind: Kind::MonotoneCubicBox,
        points: &[at(10, 128), at(20, 384), at(30, 640)],
        entries: &[(0, 1), (10, 1), (15, 1), (20, 2), (25, 2), (30, 3), (255, 3)],
        sum: Some(700),
    },
];

/// Of the 4,096 samples of (0,1),(255,65279) under Linear: a place and its bits.
pub const FINE_SAMPLES: ([Point; 2], [(usize, u32); 4]) = (
    [at(0, 1), at(255, 65_279)],
    [(0, 0x3b80_0000), (1, 0x3d87_86f9), (2048, 0x42ff_0ff2), (4095, 0x437e_ff00)],
);

/// Lists, kinds by number, and the refusal of both table calls, whatever their room.
pub fn refused_vectors() -> Vec<(Vec<Point>, u8, Refusal)> {
    let too_high = at(0, 65_281);
    let mut many = vec![at(0, 0); 65];
    many[64] = too_high;
    vec![
        (vec![too_high], 0, Refusal::HeightRange),
        (vec![at(0, 65_535)], 0, Refusal::HeightRange),
        (many, 0, Refusal::PointCount),
        // the second is dropped, and tested all the same
        (vec![at(7, 0), at(7, 65_281)], 0, Refusal::HeightRange),
        (vec![too_high], 10, Refusal::HeightRange),
        (vec![at(0, 65_280)], 10, Refusal::UnknownKind),
    ]
}
