//! The straight segments: each width with each pair of ends, and each width at each of its places.
use super::run::Trial;
use tone::original::curves;
use tone::trial::grouped;
use tone::{Kind, Point};

/// The most segments between the points of a list.
const MOST: usize = 63;

pub fn all(t: &mut Trial) {
    let heights = heights();
    let mut segments = 0;
    let mut places = 0;
    for width in 1..256 {
        let mut seen = [false; 256];
        let mut next = 0;
        let mut turn = 0;
        while next < 1 << 16 {
            // the lists of a width start at one x after the other
            let start = turn % (256 - width);
            let count = ((255 - start) / width).min(MOST);
            compare(t, &heights, next, start, width, count);
            (0..count).for_each(|k| seen[start + k * width] = true);
            next += count;
            turn += 1;
        }
        segments += next as u64;
        places += seen.iter().filter(|s| **s).count() as u64;
    }
    println!(
        "{} segments, each width with each pair of ends; {} of 32,640 widths and places",
        grouped(segments),
        grouped(places)
    );
}

/// A row in which each pair of bytes stands once as neighbours, when its end is joined to
/// its start (de Bruijn 1946).
fn heights() -> Vec<u8> {
    let from = |a: u8| std::iter::once(a).chain((a..255).flat_map(move |b| [a, b + 1]));
    (0..=255).flat_map(from).collect()
}

/// A list of `count` segments of one width, its heights from the row.
fn compare(t: &mut Trial, heights: &[u8], first: usize, start: usize, width: usize, count: usize) {
    let level = |k: usize| heights[(first + k) % heights.len()];
    let points: Vec<Point> =
        (0..=count).map(|k| Point::at_level((start + k * width) as u8, level(k))).collect();
    let mut table = [0; 256];
    let answer = tone::table(&points, Kind::Linear, &mut table);
    t.answered(answer, Ok(()), &points);
    let original = curves::byte_table(&curves::curve(&points), Kind::Linear);
    t.same(&table, &original, &points);
    t.tally.entries += 256;
}
