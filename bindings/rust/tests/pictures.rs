//! Both picture calls through the wrapper.
use tone::{Format, FormatNumber, Outputs, Planes, Refusal};

/// The table that turns brightness round.
fn negative() -> [u8; 256] {
    std::array::from_fn(|v| 255 - v as u8)
}

/// Linear: the master is flat at 7, red turns brightness round, blue is empty and so flat at 0.
const RECORD: [u8; 11] = [0x1B, 1, 0, 7, 2, 0, 255, 255, 0, 0, 0];

#[test]
fn one_table_keeps_alpha_and_padding() {
    let before: Vec<u8> = (0..40).collect();
    // (format, bytes a pixel, the channel kept)
    for (format, pixel, kept) in [
        (Format::Gray8, 1, None),
        (Format::Ya8, 2, Some(1)),
        (Format::Rgb24, 3, None),
        (Format::Rgba, 4, Some(3)),
        (Format::Cmyk, 4, None),
        (Format::CmykInverted, 4, None),
        (Format::Yuv420P, 1, None),
        (Format::YuvJ444P, 1, None),
    ] {
        let mut plane = before.clone();
        tone::plane(&negative(), format, 3, 2, &mut plane, 17).unwrap();
        for (i, (now, then)) in plane.iter().zip(&before).enumerate() {
            let (row, column) = (i / 17, i % 17);
            let toned = row < 2 && column < 3 * pixel && Some(column % pixel) != kept;
            assert_eq!(*now, if toned { 255 - then } else { *then }, "{format:?}, byte {i}");
        }
    }
}

#[test]
fn p12_of_document_01() {
    let mut row = [1, 2, 3, 4];
    assert_eq!(tone::plane(&negative(), Format::Gray8, 4, 1, &mut row, 3), Err(Refusal::RowStep));
    assert_eq!(row, [1, 2, 3, 4]);
    tone::plane(&negative(), Format::Gray8, 4, 1, &mut row, 4).unwrap();
    assert_eq!(row, [254, 253, 252, 251]);
}

#[test]
fn a_set_tones_by_colour_into_tight_rows() {
    let plane: Vec<u8> = (10..30).collect();
    let mut out = [99; 14];
    tone::picture(&RECORD, Format::Rgb24, 2, 2, Planes::one(&plane, 9), Outputs::one(&mut out))
        .unwrap();
    assert_eq!(out, [245, 7, 0, 242, 7, 0, 236, 7, 0, 233, 7, 0, 99, 99]);
    let mut out = [99; 9];
    tone::picture(&RECORD, Format::Rgba, 1, 2, Planes::one(&plane, 9), Outputs::one(&mut out))
        .unwrap();
    assert_eq!(out, [245, 7, 0, 13, 236, 7, 0, 22, 99]);
}

#[test]
fn a_set_tones_grey_and_luma_by_the_master() {
    let plane = [1, 2, 3, 4];
    let mut out = [99; 5];
    tone::picture(&RECORD, Format::Gray8, 2, 2, Planes::one(&plane, 2), Outputs::one(&mut out))
        .unwrap();
    assert_eq!(out, [7, 7, 7, 7, 99]);
    let (mut y, mut u, mut v) = ([99; 3], [99; 4], [99; 2]);
    let planes = Planes::three(&plane, 3, [&[5, 6, 8], &[9]]);
    tone::picture(&RECORD, Format::Yuv420P, 1, 2, planes, Outputs::three(&mut y, [&mut u, &mut v]))
        .unwrap();
    assert_eq!((y, u, v), ([7, 7, 99], [5, 6, 8, 99], [9, 99]));
}

/// A picture of all bytes, toned by the master (0,0), (50,50), (70,210), (255,255) of a record with
/// this map and what stands behind the list.
fn toned_by(map: u8, kind: &[u8]) -> [u8; 256] {
    let record = [&[map, 4, 0, 0, 50, 50, 70, 210, 255, 255], kind].concat();
    let plane: [u8; 256] = std::array::from_fn(|v| v as u8);
    let mut out = [0; 256];
    let (planes, outputs) = (Planes::one(&plane, 256), Outputs::one(&mut out));
    tone::picture(&record, Format::Gray8, 256, 1, planes, outputs).unwrap();
    out
}

/// "Records in the racks without bit 4 relied on kind 2 and must still show kind 2. From now on bit
/// 7 says "new default": with it, a missing kind means 3."
#[test]
fn a_record_without_a_kind_tones_by_kind_2_or_3() {
    assert_eq!(toned_by(0x01, &[]), toned_by(0x11, &[2]));
    assert_eq!(toned_by(0x81, &[]), toned_by(0x91, &[3]));
    assert_ne!(toned_by(0x01, &[]), toned_by(0x81, &[]));
    // a kind that is named stands, with bit 7 too
    for kind in [0, 1, 2, 3, 4, 5, 6, 9] {
        assert_eq!(toned_by(0x11, &[kind]), toned_by(0x91, &[kind]), "kind {kind}");
    }
    assert_eq!(toned_by(0x31, &[7, 100]), toned_by(0xB1, &[7, 100]));
    assert_eq!(toned_by(0x51, &[8, 1, 2, 3, 4]), toned_by(0xD1, &[8, 1, 2, 3, 4]));
}

#[test]
fn refusals_of_the_one_table_call_come_in_order() {
    let mut plane = [8; 10];
    let table = negative();
    let unknown = FormatNumber(12);
    assert_eq!(
        tone::plane(&table, unknown, 4097, 1, &mut plane, 40_000),
        Err(Refusal::UnsupportedFormat)
    );
    assert_eq!(
        tone::plane(&table, Format::Gray8, 4097, 1, &mut plane, 40_000),
        Err(Refusal::PictureTooLarge)
    );
    assert_eq!(
        tone::plane(&table, Format::Gray8, 1, 5000, &mut plane, 40_000),
        Err(Refusal::PictureTooLarge)
    );
    assert_eq!(tone::plane(&table, Format::Gray8, 1, 0, &mut plane, 32_769), Err(Refusal::RowStep));
    assert_eq!(tone::plane(&table, Format::Rgb24, 4, 1, &mut plane, 11), Err(Refusal::RowStep));
    assert_eq!(
        tone::plane(&table, Format::Rgb24, 4, 1, &mut plane, 12),
        Err(Refusal::PlaneTooShort)
    );
    assert_eq!(
        tone::plane(&table, Format::Gray8, 3, 3, &mut plane, 4),
        Err(Refusal::PlaneTooShort)
    );
    assert_eq!(plane, [8; 10]);
    tone::plane(&table, Format::Gray8, 2, 3, &mut plane, 4).unwrap();
    tone::plane(&table, Format::Gray8, 0, 4096, &mut [], 32_768).unwrap();
}

#[test]
fn refusals_of_the_set_call_come_in_order() {
    let plane = [8; 10];
    let (mut y, mut u, mut v) = ([9; 5], [9; 1], [9; 1]);
    let mut ask = |record: &[u8], format: u8, size: (u32, u32), count: usize, step: usize| {
        let planes = Planes { count, first: &plane, step, chroma: [&[1, 2], &[3]] };
        tone::picture(
            record,
            FormatNumber(format),
            size.0,
            size.1,
            planes,
            Outputs::three(&mut y, [&mut u, &mut v]),
        )
    };
    assert_eq!(ask(&RECORD[..10], 1, (5000, 1), 0, 0), Err(Refusal::RecordTruncated));
    assert_eq!(ask(&[0x81], 1, (5000, 1), 0, 0), Err(Refusal::RecordTruncated));
    assert_eq!(ask(&[0x80], 1, (5000, 1), 0, 0), Err(Refusal::UnsupportedFormat));
    for format in [1, 4, 5, 12, 255] {
        assert_eq!(ask(&RECORD, format, (5000, 1), 0, 0), Err(Refusal::UnsupportedFormat));
    }
    assert_eq!(ask(&RECORD, 0, (5000, 1), 0, 0), Err(Refusal::PictureTooLarge));
    assert_eq!(ask(&RECORD, 0, (3, 3), 0, 0), Err(Refusal::MissingPlane));
    assert_eq!(ask(&RECORD, 6, (3, 3), 2, 0), Err(Refusal::MissingPlane));
    assert_eq!(ask(&RECORD, 6, (3, 3), 3, 2), Err(Refusal::RowStep));
    assert_eq!(ask(&RECORD, 6, (3, 3), 3, 4), Err(Refusal::PlaneTooShort));
    assert_eq!(ask(&RECORD, 0, (3, 2), 1, 3), Err(Refusal::OutputTooSmall));
    assert_eq!(ask(&RECORD, 6, (2, 2), 3, 2), Err(Refusal::OutputTooSmall));
    assert_eq!(ask(&RECORD, 0, (2, 2), 1, 2), Ok(()));
    assert_eq!((y, u, v), ([7, 7, 7, 7, 9], [9], [9]));
}
