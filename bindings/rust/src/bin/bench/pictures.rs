//! Both picture calls.
use super::clock::best;
use std::cell::RefCell;
use std::hint::black_box;
use tone::model::record::{encode, Set};
use tone::original::{curves, frame, pixel_format, tonal_lut, PixelFilter, VideoStreamParams};
use tone::trial::{rising_list, Random};
use tone::{Format, Kind, Outputs, Planes};

const SIZES: [(u32, u32); 2] = [(1920, 1080), (4096, 4096)];

pub fn all(rounds: u64, random: &mut Random) {
    println!(
        "{:<28}{:>12}{:>10}{:>10}{:>7}{:>12}{:>14}",
        "picture", "size", "port, us", "Rust, us", "ratio", "memcpy, us", "to fresh, us"
    );
    for format in [Format::Gray8, Format::Ya8, Format::Rgb24, Format::Rgba, Format::Yuv420P] {
        for size in SIZES {
            one_table(rounds, format, size, random);
        }
    }
    for format in [Format::Gray8, Format::Rgb24, Format::Rgba, Format::Yuv420P] {
        for size in SIZES {
            by_set(rounds, format, size, random);
        }
    }
}

/// Brightness turned round, so that the plane does not run out of values in many turns. Both tone
/// the same memory: where its pages lie counts for more than the two differ.
fn one_table(rounds: u64, format: Format, (width, height): (u32, u32), random: &mut Random) {
    let table: [u8; 256] = std::array::from_fn(|v| 255 - v as u8);
    let row = width as usize * format.bytes_a_pixel();
    let bytes = random.bytes(row * height as usize);
    let there = RefCell::new(frame([(bytes.clone(), row)]));
    let mut port = |_: usize| {
        let plane = &mut there.borrow_mut().planes[0].data;
        tone::plane(black_box(&table), black_box(format), width, height, plane, row).unwrap();
        black_box(plane);
    };
    let mut original = |_: usize| {
        let frame = &mut there.borrow_mut();
        tonal_lut::tone(frame, black_box(&table), black_box(format), width, height);
        black_box(frame);
    };
    let mut copied = bytes.clone();
    let mut copy = |_: usize| {
        copied.copy_from_slice(black_box(&bytes));
        black_box(&copied);
    };
    let times = best(rounds, 1, &mut [&mut port, &mut original, &mut copy]);
    case(&format!("{format:?}, one table"), width, height, &times);
}

/// Four lists of 8 points, all colours present, MonotoneCubic, which the record names.
fn by_set(rounds: u64, format: Format, (width, height): (u32, u32), random: &mut Random) {
    let mut list = || rising_list(random, 8);
    let set = Set {
        master: list(),
        colours: [Some(list()), Some(list()), Some(list())],
        kind: Kind::MonotoneCubic,
    };
    let record = encode(&set, true, true);
    let row = width as usize * format.bytes_a_pixel();
    let bytes = random.bytes(row * height as usize);
    let chroma = if format.is_yuv() {
        random.bytes((width / 2) as usize * (height / 2) as usize)
    } else {
        Vec::new()
    };
    let (mut y, mut u, mut v) = (bytes.clone(), chroma.clone(), chroma.clone());
    let mut port = |_: usize| {
        let planes = Planes::three(black_box(&bytes), row, [&chroma, &chroma]);
        let outputs = Outputs::three(&mut y, [&mut u, &mut v]);
        tone::picture(black_box(&record), black_box(format), width, height, planes, outputs)
            .unwrap();
        black_box((&y, &u, &v));
    };
    let curves = curves::set(&set);
    let half = width as usize / 2;
    let given = frame([(bytes.clone(), row), (chroma.clone(), half), (chroma.clone(), half)]);
    let params = VideoStreamParams { format: pixel_format(format), width, height };
    let mut original = |_: usize| {
        black_box(black_box(&curves).apply_pixels(black_box(&given), black_box(params)).unwrap());
    };
    let all = [&bytes[..], &chroma, &chroma].concat();
    let mut copied = all.clone();
    let mut copy = |_: usize| {
        copied.copy_from_slice(black_box(&all));
        black_box(&copied);
    };
    let mut fresh = |_: usize| {
        black_box(black_box(&all).to_vec());
    };
    let times = best(rounds, 1, &mut [&mut port, &mut original, &mut copy, &mut fresh]);
    case(&format!("{format:?}, a set"), width, height, &times);
}

/// A line: the port's time, the original's and the ratio, then the copies.
fn case(name: &str, width: u32, height: u32, times: &[f64]) {
    print!(
        "{name:<28}{:>12}{:>10.0}{:>10.0}{:>7.2}",
        format!("{width}x{height}"),
        times[0] / 1e3,
        times[1] / 1e3,
        times[0] / times[1]
    );
    for (copy, columns) in times[2..].iter().zip([12, 14]) {
        print!("{:>columns$.0}", copy / 1e3);
    }
    println!();
}
