//! The stored record: what a reader must answer and a writer must write. "Today's stored record
//! holds whole heights only": its y are levels, and its reader has no height to refuse.
use crate::{Kind, KindNumbers, Point, Refusal};

/// A master, three optional colours and a kind.
#[derive(Clone, Debug, Default, PartialEq, Eq)]
pub struct Set {
    pub master: Vec<Point>,
    pub colours: [Option<Vec<Point>>; 3],
    pub kind: Kind,
}

/// The kind of a record without bit 4, by its bit 7. "Records in the racks without bit 4 relied on
/// kind 2 and must still show kind 2. From now on bit 7 says "new default": with it, a missing kind
/// means 3." Stored records keep what they mean, whatever becomes of the default of new sets.
pub fn unnamed(newer: bool) -> Kind {
    if newer {
        Kind::MonotoneCubicBox
    } else {
        Kind::MonotoneCubic
    }
}

/// Whether a bit of a record's map stands.
pub fn stands(map: u8, bit: u8) -> bool {
    map & (1 << bit) != 0
}

/// "Inside a record 2 to 5 run field by field [..] then 6, and only then 2 for tension or
/// slopes", and 7 at the end.
pub fn read(record: &[u8]) -> Result<Set, Refusal> {
    let mut left = record;
    let map = take(&mut left, 1)?[0];
    // "Bit 0 off: empty master; 1 to 3 off: absent colour, a count of 0 being an empty one"
    let mut set = Set::default();
    if stands(map, 0) {
        set.master = list(&mut left, 1)?;
    }
    for (colour, bit) in set.colours.iter_mut().zip(1..) {
        if stands(map, bit) {
            *colour = Some(list(&mut left, 0)?);
        }
    }
    set.kind = kind(&mut left, map)?;
    // "7. Bytes follow the last field."
    match left {
        [] => Ok(set),
        _ => Err(Refusal::TrailingBytes),
    }
}

/// "2. A record ends before its map or inside a field whose bit stands."
fn take<'a>(left: &mut &'a [u8], count: usize) -> Result<&'a [u8], Refusal> {
    let (taken, rest) = left.split_at_checked(count).ok_or(Refusal::RecordTruncated)?;
    *left = rest;
    Ok(taken)
}

/// "a missing count, 3, missing points, 4"
fn list(left: &mut &[u8], least: u8) -> Result<Vec<Point>, Refusal> {
    let count = take(left, 1)?[0];
    // "3. A count of points is above 64, or a record's master count is 0."
    if count > 64 || count < least {
        return Err(Refusal::PointCount);
    }
    let pairs = take(left, 2 * usize::from(count))?.chunks_exact(2);
    let points: Vec<Point> = pairs.map(|pair| Point::at_level(pair[0], pair[1])).collect();
    if !rises(&points) {
        return Err(Refusal::PointsNotRising);
    }
    Ok(points)
}

/// "4. A record's or set's points don't strictly rise in x."
pub fn rises(points: &[Point]) -> bool {
    points.windows(2).all(|pair| pair[0].x < pair[1].x)
}

/// "a missing kind byte, 5; then 6, and only then 2 for tension or slopes"
fn kind(left: &mut &[u8], map: u8) -> Result<Kind, Refusal> {
    let number = if stands(map, 4) { take(left, 1)?[0] } else { unnamed(stands(map, 7)).number() };
    let (tense, sloped) = (stands(map, 5), stands(map, 6));
    if number > 9 {
        return Err(Refusal::UnknownKind);
    }
    // "Bit 5 stands with Cardinal only, bit 6 with ClampedCubic only, and always then."
    if tense != (number == 7) || sloped != (number == 8) {
        return Err(Refusal::FieldMismatch);
    }
    let mut carried = KindNumbers { number, tension: 0, start_slope: 0, end_slope: 0 };
    if tense {
        carried.tension = take(left, 1)?[0];
    }
    if sloped {
        carried.start_slope = slope(left)?;
        carried.end_slope = slope(left)?;
    }
    carried.kind().ok_or(Refusal::UnknownKind)
}

/// "two's complement, low byte first"
fn slope(left: &mut &[u8]) -> Result<i16, Refusal> {
    let bytes = take(left, 2)?;
    let value = i32::from(bytes[0]) + 256 * i32::from(bytes[1]);
    Ok(if value < 32_768 { value as i16 } else { (value - 65_536) as i16 })
}

/// "The writer sets bit 7 always and leaves the kind out when it is 3."
pub fn write(set: &Set) -> Vec<u8> {
    encode(set, true, set.kind != unnamed(true))
}

/// A record with the lists of a set and what its kind carries: with bit 7 or without it, the kind
/// named or not. Heights are whole: no call of the boundary writes a set with others.
pub fn encode(set: &Set, newer: bool, named: bool) -> Vec<u8> {
    let mut record = vec![if newer { 0x80 } else { 0 }];
    if !set.master.is_empty() {
        add_list(&mut record, 0, &set.master);
    }
    for (colour, bit) in set.colours.iter().zip(1..) {
        if let Some(points) = colour {
            add_list(&mut record, bit, points);
        }
    }
    if named {
        add(&mut record, 4, &[set.kind.number()]);
    }
    match set.kind {
        Kind::Cardinal { tension } => add(&mut record, 5, &[tension]),
        Kind::ClampedCubic { start_slope, end_slope } => {
            let [a, b] = start_slope.to_le_bytes();
            let [c, d] = end_slope.to_le_bytes();
            add(&mut record, 6, &[a, b, c, d]);
        }
        _ => {}
    }
    record
}

/// "each a count byte, then x, y pairs"
fn add_list(record: &mut Vec<u8>, bit: u8, points: &[Point]) {
    add(record, bit, &[points.len() as u8]);
    record.extend(points.iter().flat_map(|p| [p.x, p.level().expect("a whole height")]));
}

fn add(record: &mut Vec<u8>, bit: u8, field: &[u8]) {
    record[0] |= 1 << bit;
    record.extend_from_slice(field);
}
