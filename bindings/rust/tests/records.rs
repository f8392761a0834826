//! Records through the wrapper.
use tone::model::record::{read, write};
use tone::trial::{any_set, legal_record, Random};
use tone::{Kind, Refusal};

/// P10 "stays readable", "P11 becomes an accepted empty set".
#[test]
fn examples_of_document_01() {
    let straight: [u8; 256] = std::array::from_fn(|v| v as u8);
    let mut table = [0; 256];
    let record = [0x11, 2, 0, 0, 0xFF, 0xFF, 0, 0];
    tone::record_table(&record[..7], &mut table).unwrap();
    assert_eq!(table, straight, "P10");
    assert_eq!(tone::record_table(&record, &mut table), Err(Refusal::TrailingBytes), "P10");
    assert_eq!(table, straight);
    tone::record_table(&[0x80], &mut table).unwrap();
    assert_eq!(table, [0; 256], "P11");
    for flat in [&[0x11, 1, 0, 7, 0][..], &[0x01, 1, 0, 7], &[0x81, 1, 0, 7]] {
        tone::record_table(flat, &mut table).unwrap();
        assert_eq!(table, [7; 256], "{flat:?}");
    }
}

/// A record, the kind that it is of, and its copy.
type Case = (&'static [u8], Kind, &'static [u8]);

const ACCEPTED: [Case; 15] = [
    (&[0x00], Kind::MonotoneCubic, &[0x90, 2]),
    (&[0x80], Kind::MonotoneCubicBox, &[0x80]),
    (&[0x82, 0], Kind::MonotoneCubicBox, &[0x82, 0]),
    (&[0x12, 0, 2], Kind::MonotoneCubic, &[0x92, 0, 2]),
    (&[0x90, 2], Kind::MonotoneCubic, &[0x90, 2]),
    (&[0x90, 3], Kind::MonotoneCubicBox, &[0x80]),
    (&[0x10, 2], Kind::MonotoneCubic, &[0x90, 2]),
    (&[0x10, 3], Kind::MonotoneCubicBox, &[0x80]),
    (&[0xB0, 7, 0xFF], Kind::Cardinal { tension: 255 }, &[0xB0, 7, 0xFF]),
    (
        &[0xD0, 8, 0x00, 0x80, 0xFF, 0x7F],
        Kind::ClampedCubic { start_slope: -32_768, end_slope: 32_767 },
        &[0xD0, 8, 0x00, 0x80, 0xFF, 0x7F],
    ),
    (&[0x11, 2, 0, 0, 0xFF, 0xFF, 0], Kind::Linear, &[0x91, 2, 0, 0, 0xFF, 0xFF, 0]),
    (&[0x91, 2, 0, 0, 0xFF, 0xFF, 0], Kind::Linear, &[0x91, 2, 0, 0, 0xFF, 0xFF, 0]),
    (&[0x01, 1, 0, 7], Kind::MonotoneCubic, &[0x91, 1, 0, 7, 2]),
    (&[0x81, 1, 0, 7], Kind::MonotoneCubicBox, &[0x81, 1, 0, 7]),
    (&[0x93, 1, 0, 7, 0, 3], Kind::MonotoneCubicBox, &[0x83, 1, 0, 7, 0]),
];

/// A record has this copy: a byte less is no room for it, and what is behind it stays.
fn assert_copied(record: &[u8], copy: &[u8]) {
    let mut out = [9; 12];
    let short = tone::record_copy(record, &mut out[..copy.len() - 1]);
    assert_eq!((short, out), (Err(Refusal::OutputTooSmall), [9; 12]), "{record:02x?}");
    assert_eq!(tone::record_copy(record, &mut out), Ok(copy.len()), "{record:02x?}");
    assert_eq!(out[..copy.len()], *copy, "{record:02x?}");
    assert!(out[copy.len()..].iter().all(|b| *b == 9), "{record:02x?}");
}

/// The model and the archive have the cases above, which come from neither: most are from an
/// earlier model of U1, which is not kept here.
#[test]
fn kinds_and_copies() {
    for (record, kind, copy) in ACCEPTED {
        let set = read(record).unwrap();
        assert_eq!((set.kind, &write(&set)[..]), (kind, copy), "{record:02x?}");
        assert_copied(record, copy);
    }
}

/// The table is that of the master and the kind, whether the record names the kind or not.
#[test]
fn a_record_has_the_table_of_its_kind() {
    let mut random = Random::new(6);
    let (mut expected, mut table) = ([0; 256], [0; 256]);
    for _ in 0..2000 {
        let set = any_set(&mut random);
        tone::table(&set.master, set.kind, &mut expected).unwrap();
        let record = legal_record(&set, &mut random);
        tone::record_table(&record, &mut table).unwrap();
        assert_eq!(table, expected, "{record:02x?}");
    }
}

/// A copy is one byte longer than its record where that has neither bit 7 nor a kind, and never
/// longer otherwise.
#[test]
fn how_long_a_copy_is() {
    let mut random = Random::new(7);
    let mut out = [0; tone::LONGEST_RECORD];
    for _ in 0..2000 {
        let set = any_set(&mut random);
        let record = legal_record(&set, &mut random);
        let length = tone::record_copy(&record, &mut out).unwrap();
        if record[0] & 0x90 == 0 {
            assert_eq!(length, record.len() + 1, "{record:02x?}");
        } else {
            assert!(length <= record.len(), "{record:02x?}");
        }
    }
}

/// Every record of up to three bytes: both calls refuse it as the model does, or its copy is what
/// the model writes and its table is that of an empty master. No such record has room for a point.
#[test]
fn every_short_record_is_as_the_model_has_it() {
    let (mut out, mut table) = ([9; tone::LONGEST_RECORD], [9; 256]);
    let mut records = 0;
    for length in 0..=3 {
        for bits in 0..1u32 << (8 * length) {
            let bytes = bits.to_be_bytes();
            let record = &bytes[4 - length..];
            match read(record) {
                Ok(set) => assert_copied_and_flat(record, &write(&set)),
                Err(refusal) => {
                    assert_eq!(tone::record_copy(record, &mut out), Err(refusal), "{record:02x?}");
                    assert_eq!(tone::record_table(record, &mut table), Err(refusal));
                }
            }
            records += 1;
        }
    }
    assert_eq!(records, 16_843_009);
    assert_eq!((out, table), ([9; tone::LONGEST_RECORD], [9; 256]));
}

fn assert_copied_and_flat(record: &[u8], copy: &[u8]) {
    assert_copied(record, copy);
    let mut table = [9; 256];
    assert_eq!(tone::record_table(record, &mut table), Ok(()), "{record:02x?}");
    assert_eq!(table, [0; 256], "{record:02x?}");
}

#[test]
fn a_table_takes_the_first_256_bytes() {
    let mut room = [3; 300];
    assert_eq!(tone::record_table(&[0], &mut room[..255]), Err(Refusal::OutputTooSmall));
    assert_eq!(room, [3; 300]);
    tone::record_table(&[0], &mut room).unwrap();
    assert_eq!(room[..256], [0; 256]);
    assert_eq!(room[256..], [3; 44]);
}

#[test]
fn each_refusal_of_a_record() {
    let mut out = [9; tone::LONGEST_RECORD];
    for (record, refusal) in [
        (&[][..], Refusal::RecordTruncated),
        (&[0x02], Refusal::RecordTruncated),
        (&[0x02, 2, 0, 0, 0], Refusal::RecordTruncated),
        (&[0x01, 0], Refusal::PointCount),
        (&[0x02, 65], Refusal::PointCount),
        (&[0x08, 2, 5, 0, 5, 1], Refusal::PointsNotRising),
        (&[0x10, 10], Refusal::UnknownKind),
        (&[0x20], Refusal::FieldMismatch),
        (&[0x10, 8], Refusal::FieldMismatch),
        (&[0x30, 7], Refusal::RecordTruncated),
        (&[0x50, 8, 0, 0, 0], Refusal::RecordTruncated),
        (&[0x00, 0], Refusal::TrailingBytes),
        // the same beside bit 7
        (&[0x81], Refusal::RecordTruncated),
        (&[0x90], Refusal::RecordTruncated),
        (&[0xFF, 0], Refusal::PointCount),
        (&[0x88, 2, 5, 0, 5, 1], Refusal::PointsNotRising),
        (&[0x90, 10], Refusal::UnknownKind),
        (&[0xA0], Refusal::FieldMismatch),
        (&[0xF0, 7, 0], Refusal::FieldMismatch),
        (&[0x80, 0], Refusal::TrailingBytes),
    ] {
        assert_eq!(tone::record_copy(record, &mut out), Err(refusal), "{record:?}");
        assert_eq!(tone::record_table(record, &mut out), Err(refusal), "{record:?}");
    }
    assert_eq!(out, [9; tone::LONGEST_RECORD]);
}

#[test]
fn the_longest_record() {
    let list = |first: u8| std::iter::once(64).chain((0..64).flat_map(move |i| [first + 2 * i, i]));
    let mut record = vec![0xDF];
    (0..4).for_each(|i| record.extend(list(i)));
    record.extend([8, 1, 2, 3, 4]);
    assert_eq!(record.len(), tone::LONGEST_RECORD);
    let mut out = [0; tone::LONGEST_RECORD];
    assert_eq!(tone::record_copy(&record, &mut out), Ok(record.len()));
    assert_eq!(out[..], record);
    record[0] = 0x5F;
    assert_eq!(tone::record_copy(&record, &mut out), Ok(record.len()));
    assert_eq!((out[0], &out[1..]), (0xDF, &record[1..]));
}
