//! Random sets, and records that are good, damaged or anything.
use super::{kind, rising_list, Random};
use crate::model::record::{encode, read, stands, unnamed, Set};
use crate::{Kind, Point};

/// A set whose lists rise, with any colours and any kind.
pub fn any_set(random: &mut Random) -> Set {
    let number = random.below(Kind::NAMES.len()) as u8;
    Set {
        master: any_rising(random),
        colours: [(); 3].map(|()| if random.once_in(2) { Some(any_rising(random)) } else { None }),
        kind: kind(number, random).kind().expect("a number below 10"),
    }
}

/// Often few points, now and then none or all 64.
fn any_rising(random: &mut Random) -> Vec<Point> {
    let count = match random.below(6) {
        0 => random.below(65),
        1 => random.of(&[0, 1, 63, 64]),
        _ => random.below(6),
    };
    rising_list(random, count)
}

/// A record that reads as a set: with bit 7 or without it, its kind named or, where it is the one
/// that is meant then, left out.
pub fn legal_record(set: &Set, random: &mut Random) -> Vec<u8> {
    let newer = random.once_in(2);
    encode(set, newer, set.kind != unnamed(newer) || random.once_in(2))
}

/// A record that reads as a set, for a run beside the original: "Runs beside the Rust name the kind
/// in full." With bit 7 or without it.
pub fn full_record(set: &Set, random: &mut Random) -> Vec<u8> {
    encode(set, random.once_in(2), true)
}

/// The same record with its kind named, or as it is where it is refused.
pub fn in_full(record: Vec<u8>) -> Vec<u8> {
    match read(&record) {
        Ok(set) => encode(&set, stands(record[0], 7), true),
        Err(_) => record,
    }
}

/// A legal record, one with up to three faults, or any bytes.
pub fn any_record(random: &mut Random) -> Vec<u8> {
    if random.once_in(8) {
        let length = if random.once_in(2) { random.below(12) } else { random.below(600) };
        return random.bytes(length);
    }
    let set = any_set(random);
    let mut record = legal_record(&set, random);
    for _ in 0..random.below(4) {
        spoil(&mut record, random);
    }
    record
}

fn spoil(record: &mut Vec<u8>, random: &mut Random) {
    let length = record.len();
    if length == 0 {
        return;
    }
    match random.below(8) {
        // a bit of the map turned
        0 => record[0] ^= 1 << random.below(8),
        // cut short
        1 => record.truncate(random.below(length)),
        // a byte more
        2 => record.push(random.byte()),
        // the kind unknown or another, where nothing follows it
        3 => record[length - 1] = random.below(12) as u8,
        // a count above 64, or none
        4 => record[1 % length] = random.of(&[0, 64, 65, 66, 128, 255]),
        // an x as the one before it
        5 => {
            let i = random.below(length);
            record[i] = record[i.saturating_sub(2)];
        }
        // any byte another
        _ => record[random.below(length)] = random.byte(),
    }
}
