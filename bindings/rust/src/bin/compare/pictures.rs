//! Both picture calls beside the original's.
use super::run::Trial;
use tone::model::checks::{Answer, Shape};
use tone::model::record::{self, Set};
use tone::original::{curves, frame, pixel_format, tonal_lut, PixelFilter, VideoStreamParams};
use tone::trial::{any_record, any_set, damaged, full_record, in_full, shape, Contents, Lent};
use tone::{Format, FormatNumber, Kind, Outputs, Planes, Refusal};

/// The one-table call on pictures of every format.
pub fn one_table(t: &mut Trial) {
    let format = t.random.of(&Format::ALL);
    let shape = shape(format, &mut t.random);
    tone_plane(t, shape);
}

/// The set call on pictures of every format that it takes.
pub fn by_set(t: &mut Trial) {
    let format = set_format(t);
    let shape = shape(format, &mut t.random);
    let set = any_set(&mut t.random);
    let record = full_record(&set, &mut t.random);
    tone_picture(t, &record, shape);
}

fn set_format(t: &mut Trial) -> Format {
    loop {
        let format = t.random.of(&Format::ALL);
        if !matches!(format, Format::Ya8 | Format::Cmyk | Format::CmykInverted) {
            return format;
        }
    }
}

/// Pictures, records and outputs of which some are refused.
pub fn refused(t: &mut Trial) {
    let format = t.random.of(&Format::ALL);
    let shape = shape(format, &mut t.random);
    let shape = damaged(shape, &mut t.random);
    tone_plane(t, shape);
    let set = any_set(&mut t.random);
    let record = if t.random.once_in(4) {
        in_full(any_record(&mut t.random))
    } else {
        full_record(&set, &mut t.random)
    };
    tone_picture(t, &record, shape);
}

/// Every format 4,096 wide and high, and rows 32,768 apart; tight and with the widest padding.
pub fn at_the_limits(t: &mut Trial) {
    let set = any_set(&mut t.random);
    let record = full_record(&set, &mut t.random);
    for format in Format::ALL {
        for (width, height, step) in
            [(4096, 4096, 0), (4096, 3, 32_768), (4096, 1, 0), (1, 4096, 0), (7, 300, 32_768)]
        {
            at_the_limit(t, &record, format, width, height, step);
        }
    }
    at_the_limit(t, &record, Format::Gray8, 5, 4096, 32_768);
}

fn at_the_limit(
    t: &mut Trial,
    record: &[u8],
    format: Format,
    width: u32,
    height: u32,
    step: usize,
) {
    let step = step.max(width as usize * format.bytes_a_pixel());
    let mut shape = Shape {
        format: format.number(),
        width,
        height,
        step,
        planes: 3,
        first: 0,
        chroma: [12, 13],
        outputs: [0, 12, 13],
    };
    shape.first = shape.needed(format) as usize;
    shape.outputs[0] = shape.written(format) as usize;
    tone_plane(t, shape);
    tone_picture(t, record, shape);
}

/// Whether the original runs on a picture that is not refused. At width 0 it takes the empty part
/// at the start of each row, where the plane may have ended; but its set call goes through grey and
/// luma byte by byte, and so takes none.
fn runs_there(shape: &Shape, by_rows: bool) -> bool {
    shape.width > 0
        || !by_rows
        || u64::from(shape.height.saturating_sub(1)) * shape.step as u64 <= shape.first as u64
}

fn tone_plane(t: &mut Trial, shape: Shape) {
    let table = any_table(t);
    let contents = t.random.bytes(shape.first);
    let mut plane = Lent::new(&contents);
    let mut lent = Lent::new(&table);
    let of_256: &[u8; 256] = (&*lent.lend()).try_into().expect("256 bytes");
    let answer = tone::plane(
        of_256,
        FormatNumber(shape.format),
        shape.width,
        shape.height,
        plane.lend(),
        shape.step,
    );
    let expected = shape.plane_answer();
    t.answered(answer, expected, &shape);
    t.kept(&lent, 0, &shape);
    if expected.is_err() || !runs_there(&shape, true) {
        t.tally.beyond += u64::from(expected.is_ok());
        return t.kept(&plane, 0, &shape);
    }
    let format = shape.known().expect("a format not refused");
    let mut frame = frame([(contents, shape.step)]);
    tonal_lut::tone(&mut frame, &table, format, shape.width, shape.height);
    t.same(plane.now(), &frame.planes[0].data, &shape);
    t.kept(&plane, shape.first, &shape);
    t.tally.picture_bytes += shape.first as u64;
}

/// Any bytes, or the table of a list.
fn any_table(t: &mut Trial) -> [u8; 256] {
    if t.random.once_in(2) {
        return t.random.bytes(256).try_into().expect("256 bytes");
    }
    let question = t.question();
    curves::byte_table(&curves::curve(&question.points), question.kind())
}

/// "Runs beside the Rust name the kind in full": a record that is accepted names its kind.
fn tone_picture(t: &mut Trial, record: &[u8], shape: Shape) {
    let read = record::read(record);
    assert!(read.is_err() || record::stands(record[0], 4), "{record:02x?}");
    let expected = read.as_ref().map(|_| ()).map_err(|r| *r).and(shape.picture_answer());
    let contents = Contents::of(&shape, &mut t.random);
    let mut record = Lent::new(record);
    let mut first = Lent::new(&contents.first);
    let [mut u, mut v] = contents.chroma.each_ref().map(|c| Lent::new(c));
    let mut outputs = contents.outputs.each_ref().map(|c| Lent::new(c));
    let answer = call(&shape, record.lend(), first.lend(), [u.lend(), v.lend()], &mut outputs);
    t.answered(answer, expected, &shape);
    for lent in [&record, &first, &u, &v] {
        t.kept(lent, 0, &shape);
    }
    let by_rows = matches!(shape.known(), Some(Format::Rgb24 | Format::Rgba));
    match (read, expected) {
        (Ok(set), Ok(())) if runs_there(&shape, by_rows) => {
            same_picture(t, &set, &shape, contents, &outputs)
        }
        _ => {
            t.tally.beyond += u64::from(expected.is_ok());
            let written = written(&shape, expected);
            outputs.iter().zip(written).for_each(|(output, n)| t.kept(output, n, &shape));
        }
    }
    refused_there(t, &shape, answer);
}

fn call(
    shape: &Shape,
    record: &[u8],
    first: &[u8],
    chroma: [&mut [u8]; 2],
    outputs: &mut [Lent<u8>; 3],
) -> Answer {
    let [u, v] = chroma;
    let planes = Planes { count: shape.planes, first, step: shape.step, chroma: [u, v] };
    let [y, u, v] = outputs;
    let outputs = Outputs::three(y.lend(), [u.lend(), v.lend()]);
    tone::picture(record, FormatNumber(shape.format), shape.width, shape.height, planes, outputs)
}

/// How many bytes of each output a call may write.
fn written(shape: &Shape, expected: Answer) -> [usize; 3] {
    match shape.known() {
        Some(format) if expected.is_ok() => {
            let [u, v] = if format.is_yuv() { shape.chroma } else { [0, 0] };
            [shape.written(format) as usize, u, v]
        }
        _ => [0; 3],
    }
}

fn same_picture(
    t: &mut Trial,
    set: &Set,
    shape: &Shape,
    contents: Contents,
    outputs: &[Lent<u8>; 3],
) {
    let format = shape.known().expect("a format not refused");
    let [u, v] = contents.chroma;
    let planes = [(contents.first, shape.step), (u, 1), (v, 2)].into_iter().take(shape.planes);
    let params = VideoStreamParams {
        format: pixel_format(format),
        width: shape.width,
        height: shape.height,
    };
    let toned = curves::set(set)
        .apply_pixels(&frame(planes), params)
        .expect("a picture that the original takes");
    let written = written(shape, Ok(()));
    for (k, output) in outputs.iter().enumerate() {
        if let Some(plane) = toned.planes.get(k) {
            t.same(&output.now()[..written[k]], &plane.data, &(shape, set));
        }
        t.kept(output, written[k], shape);
        t.tally.picture_bytes += written[k] as u64;
    }
}

/// The original says no too where the format or the number of planes is refused.
fn refused_there(t: &mut Trial, shape: &Shape, answer: Answer) {
    if let (Err(Refusal::UnsupportedFormat | Refusal::MissingPlane), Some(format)) =
        (answer, shape.known())
    {
        let params = VideoStreamParams { format: pixel_format(format), width: 0, height: 0 };
        let planes = (0..shape.planes.min(3)).map(|_| (Vec::new(), 0));
        let set = Set { kind: Kind::Linear, ..Set::default() };
        if curves::set(&set).apply_pixels(&frame(planes), params).is_ok() {
            t.differ(&format_args!("answered {answer:?}, where the original tones: {shape:?}"));
        }
    }
}
