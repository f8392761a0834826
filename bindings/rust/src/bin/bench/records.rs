//! Records: reading one for its table, and reading and writing it.
use super::clock::best;
use std::hint::black_box;
use tone::boundary;
use tone::model::record::{write, Set};
use tone::trial::{rising_list, Random};
use tone::Kind;

pub fn all(rounds: u64, records: usize, random: &mut Random) {
    println!(
        "{:<35}{:>7}{:>16}{:>16}{:>16}",
        "record of four lists, Linear", "points", "its table, ns", "a copy, ns", "table alone, ns"
    );
    for count in [2, 8, 64] {
        let sets: Vec<Set> = (0..records).map(|_| set(count, random)).collect();
        let records: Vec<Vec<u8>> = sets.iter().map(write).collect();
        let masters = sets.iter().map(|set| set.master.iter().flat_map(|point| point.to_bytes()));
        let masters: Vec<Vec<u8>> = masters.map(|bytes| bytes.collect()).collect();
        let mut bytes = [0; tone::LONGEST_RECORD];
        let mut tables = [[0; 256]; 2];
        let [a, b] = &mut tables;
        let mut table = |i: usize| {
            tone::record_table(black_box(&records[i]), a).unwrap();
            black_box(&a);
        };
        let mut copy = |i: usize| {
            black_box(tone::record_copy(black_box(&records[i]), &mut bytes).unwrap());
            black_box(&bytes);
        };
        let mut alone = |i: usize| {
            boundary::table(black_box(&masters[i]), Kind::Linear.into(), b).unwrap();
            black_box(&b);
        };
        let times = best(rounds, sets.len(), &mut [&mut table, &mut copy, &mut alone]);
        println!("{:<35}{count:>7}{:>16.0}{:>16.0}{:>16.0}", "", times[0], times[1], times[2]);
    }
}

fn set(count: usize, random: &mut Random) -> Set {
    let mut list = || rising_list(random, count);
    Set { master: list(), colours: [Some(list()), Some(list()), Some(list())], kind: Kind::Linear }
}
