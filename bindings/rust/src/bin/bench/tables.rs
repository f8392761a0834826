//! Tables and lookups.
use super::clock::best;
use std::hint::black_box;
use tone::boundary;
use tone::original::{curves, lookup, published};
use tone::trial::{rising_list, Random};
use tone::{Kind, KindNumbers, Point};

const VALUES: usize = 1_000_000;

pub fn all(rounds: u64, lists: usize, random: &mut Random) {
    println!(
        "{:<35}{:>7}{:>10}{:>10}{:>7}{:>12}{:>7}",
        "table", "points", "port, ns", "Rust, ns", "ratio", "curve made", "ratio"
    );
    for number in 0..Kind::NAMES.len() as u8 {
        let numbers = KindNumbers { number, tension: 100, start_slope: 256, end_slope: -300 };
        for count in [2, 8, 64] {
            let lists: Vec<List> = (0..lists).map(|_| List::random(count, random)).collect();
            tables(rounds, &lists, numbers.kind().expect("a number below 10"));
        }
    }
}

/// Points at levels as each side takes them, so that neither has to make them in its time.
struct List {
    bytes: Vec<u8>,
    pairs: Vec<(u8, u8)>,
}

impl List {
    fn random(count: usize, random: &mut Random) -> List {
        let points = rising_list(random, count);
        let pair = |point: &Point| (point.x, point.level().expect("a level"));
        List {
            bytes: points.iter().flat_map(|point| point.to_bytes()).collect(),
            pairs: points.iter().map(pair).collect(),
        }
    }
}

fn tables(rounds: u64, lists: &[List], kind: Kind) {
    let number = kind.number();
    let name = Kind::NAMES[usize::from(number)];
    let count = lists[0].pairs.len();
    let made: Vec<_> = lists.iter().map(|l| curves::curve_of_pairs(&l.pairs)).collect();
    let points = |i: usize| black_box(&lists[i].bytes[..]);
    let pairs = |i: usize| black_box(&lists[i].pairs[..]);
    let mut bytes = [0; 256];
    let mut port = |i: usize| {
        boundary::table(points(i), black_box(kind).into(), &mut bytes).unwrap();
        black_box(&bytes);
    };
    let mut original = |i: usize| {
        black_box(curves::byte_table(&curves::curve_of_pairs(pairs(i)), black_box(kind)));
    };
    let mut table_alone = |i: usize| {
        black_box(curves::byte_table(black_box(&made[i]), black_box(kind)));
    };
    case(
        &format!("{name}, 256 bytes"),
        count,
        &best(rounds, lists.len(), &mut [&mut port, &mut original, &mut table_alone]),
    );
    if number == 5 || number == 6 {
        let mut original = |i: usize| {
            let curve = published::curve_of_pairs(pairs(i));
            black_box(published::byte_table(&curve, black_box(kind)));
        };
        case(
            &format!("{name}, with powf"),
            count,
            &best(rounds, lists.len(), &mut [&mut port, &mut original]),
        );
    }
    for samples in [256, 4096] {
        let mut table = vec![0.0; samples];
        let mut port = |i: usize| {
            boundary::fine_table(points(i), black_box(kind).into(), &mut table).unwrap();
            black_box(&table);
        };
        let mut original = |i: usize| {
            let curve = curves::curve_of_pairs(pairs(i));
            black_box(curves::fine_table(&curve, black_box(kind), samples));
        };
        let mut table_alone = |i: usize| {
            black_box(curves::fine_table(black_box(&made[i]), black_box(kind), samples));
        };
        let times = best(rounds, lists.len(), &mut [&mut port, &mut original, &mut table_alone]);
        case(&format!("{name}, {samples} samples"), count, &times);
    }
}

/// A million values through a fine table. Each turn begins with fresh values, whose copying is
/// timed alone, as the floor, and taken off.
pub fn lookups(rounds: u64, random: &mut Random) {
    let table =
        curves::fine_table(&curves::curve(&rising_list(random, 8)), Kind::MonotoneCubic, 4096);
    for (name, from, width) in
        [("lookup, values in 0..1", 0.0, 1.0), ("lookup, values in -0.5..1.5", -0.5, 2.0)]
    {
        let fresh: Vec<f32> = (0..VALUES).map(|_| from + width * random.unit()).collect();
        let (mut a, mut b, mut c) = (fresh.clone(), fresh.clone(), fresh.clone());
        let mut port = |_: usize| {
            a.copy_from_slice(black_box(&fresh));
            tone::lookup(black_box(&table), &mut a).unwrap();
            black_box(&a);
        };
        let mut original = |_: usize| {
            b.copy_from_slice(black_box(&fresh));
            let table = black_box(&table);
            for v in &mut b {
                *v = lookup::lookup(table, *v);
            }
            black_box(&b);
        };
        let mut copy = |_: usize| {
            c.copy_from_slice(black_box(&fresh));
            black_box(&c);
        };
        let times = best(rounds, 1, &mut [&mut port, &mut original, &mut copy]);
        case(name, VALUES, &[times[0] - times[2], times[1] - times[2]]);
        println!("{:<35}{VALUES:>7}{:>10.0}", "  memcpy, taken off both", times[2]);
    }
}

/// A line: the port's time, then each other with its ratio.
fn case(name: &str, count: usize, times: &[f64]) {
    print!("{name:<35}{count:>7}{:>10.0}", times[0]);
    for (other, width) in times[1..].iter().zip([10, 12]) {
        print!("{other:>width$.0}{:>7.2}", times[0] / other);
    }
    println!();
}
