//! Random pictures: sizes, row steps and contents, good and bad.
use super::Random;
use crate::model::checks::Shape;
use crate::Format;

/// A picture that both calls take, where they take its format: odd and even sizes, empty ones, up
/// to 4,096 wide or high, rows with and without padding.
pub fn shape(format: Format, random: &mut Random) -> Shape {
    let (width, height) = size(random);
    let row = width as usize * format.bytes_a_pixel();
    let mut shape = Shape {
        format: format.number(),
        width,
        height,
        step: step(row, height, random),
        planes: random.of(&[3, 3, 4, usize::MAX]),
        first: 0,
        chroma: chroma(width, height, random),
        outputs: [0; 3],
    };
    if !format.is_yuv() {
        shape.planes = random.of(&[1, 1, 2, 3]);
    }
    shape.first = shape.needed(format) as usize + spare(random);
    shape.outputs = [shape.written(format) as usize, shape.chroma[0], shape.chroma[1]]
        .map(|n| n + spare(random));
    shape
}

fn size(random: &mut Random) -> (u32, u32) {
    const WIDTHS: [u32; 16] = [1, 2, 3, 5, 7, 8, 9, 15, 16, 17, 31, 33, 63, 64, 65, 129];
    let mut below = |n: usize| random.below(n) as u32;
    match below(16) {
        0 => (4096 - below(3), below(4)),
        1 => (below(4), 4096 - below(3)),
        2 => (0, below(10)),
        3 => (below(10), 0),
        4 => (below(300), below(60)),
        5..9 => (random.of(&WIDTHS), random.below(6) as u32),
        _ => (below(40), below(20)),
    }
}

/// From the row's bytes to 32,768, as long as the plane stays small.
fn step(row: usize, height: u32, random: &mut Random) -> usize {
    let room = if random.once_in(50) { 2_000_000 } else { 40_000 };
    let most = (row + room / (height as usize + 1)).min(32_768);
    match random.below(4) {
        0 => row,
        1 => most,
        2 => row + random.below(most - row + 1),
        _ => (row + 1 + random.below(20)).min(most),
    }
}

/// "Chroma may have any length": often as the format would have it, but for all formats the same.
fn chroma(width: u32, height: u32, random: &mut Random) -> [usize; 2] {
    [(); 2].map(|()| match random.below(3) {
        0 => width.div_ceil(2) as usize * height.div_ceil(2) as usize,
        1 => random.below(100),
        _ => 0,
    })
}

fn spare(random: &mut Random) -> usize {
    if random.once_in(2) {
        random.below(70)
    } else {
        0
    }
}

/// The same picture with some of its numbers bad or at a limit, the bytes
/// lent with it too few or not.
pub fn damaged(mut shape: Shape, random: &mut Random) -> Shape {
    const SIDES: [u32; 6] = [0, 4096, 4097, 5000, 1 << 31, u32::MAX];
    if random.once_in(5) {
        shape.format = random.of(&[1, 4, 5, 12, 13, 100, 255]);
    }
    if random.once_in(5) {
        shape.width = random.of(&SIDES);
    }
    if random.once_in(5) {
        shape.height = random.of(&SIDES);
    }
    if random.once_in(5) {
        shape.planes = random.below(4);
    }
    if random.once_in(4) {
        shape.step = random.of(&[
            0,
            1,
            shape.step.wrapping_sub(1),
            shape.step + 1,
            32_767,
            32_768,
            32_769,
            usize::MAX,
        ]);
    }
    if random.once_in(4) {
        shape.first = fewer(shape.first, random);
    }
    for output in &mut shape.outputs {
        if random.once_in(5) {
            *output = fewer(*output, random);
        }
    }
    shape
}

fn fewer(length: usize, random: &mut Random) -> usize {
    if random.once_in(2) {
        length.saturating_sub(1)
    } else {
        random.below(length + 1)
    }
}

/// Bytes for every plane and output of a picture.
pub struct Contents {
    pub first: Vec<u8>,
    pub chroma: [Vec<u8>; 2],
    pub outputs: [Vec<u8>; 3],
}

impl Contents {
    pub fn of(shape: &Shape, random: &mut Random) -> Contents {
        Contents {
            first: random.bytes(shape.first),
            chroma: shape.chroma.map(|n| random.bytes(n)),
            outputs: shape.outputs.map(|n| random.bytes(n)),
        }
    }
}
