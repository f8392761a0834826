//! The original as `build.rs` makes it compile.
#![cfg(original)]
use tone::model::record::Set;
use tone::original::{
    curves, frame, lookup, pixel_format, PixelFilter, PixelFormat, VideoFrame, VideoPlane,
    VideoStreamParams,
};
use tone::trial::{Question, Random};
use tone::{Format, Kind, Point};

/// The function that `build.rs` makes of the closure `lookup` answers as the
/// closure does where it stands.
#[test]
fn the_closure_as_a_function() {
    let mut random = Random::new(5);
    for _ in 0..50 {
        let question = Question::random(&mut random);
        let values: Vec<f32> =
            (0..200).map(|i| if i % 2 == 0 { random.float() } else { random.unit() }).collect();
        let data: Vec<u8> = values.iter().flat_map(|v| v.to_le_bytes()).collect();
        let frame = VideoFrame { pts: None, planes: vec![VideoPlane { stride: data.len(), data }] };
        let params = VideoStreamParams { format: PixelFormat::GrayF32Le, width: 200, height: 1 };
        let curve = curves::curve(&question.points);
        let fine = curves::fine_table(&curve, question.kind(), 4096);
        let there = curves::Curves::new(curve)
            .with_interpolation(curves::mode(question.kind()))
            .apply_pixels(&frame, params)
            .unwrap();
        let here: Vec<u8> =
            values.iter().flat_map(|v| lookup::lookup(&fine, *v).to_le_bytes()).collect();
        assert_eq!(there.planes[0].data, here);
    }
}

/// The stand-ins give the original its formats under the right names: it tones what it should and
/// refuses the three formats that it does not take.
#[test]
fn the_formats_of_the_set_call() {
    for format in Format::ALL {
        let params = VideoStreamParams { format: pixel_format(format), width: 1, height: 1 };
        let planes = [1, 2, 3].map(|b| (vec![b; 4], 4));
        let master = vec![Point::at_level(0, 9)];
        let set = Set { master, kind: Kind::Linear, ..Set::default() };
        match curves::set(&set).apply_pixels(&frame(planes), params) {
            Ok(toned) => {
                let mut expected = vec![9; format.bytes_a_pixel()];
                if format == Format::Rgba {
                    expected[3] = 1;
                }
                assert_eq!(toned.planes[0].data, expected, "{format:?}");
                assert_eq!(toned.planes.len(), if format.is_yuv() { 3 } else { 1 });
            }
            Err(_) => assert!(
                matches!(format, Format::Ya8 | Format::Cmyk | Format::CmykInverted),
                "{format:?}"
            ),
        }
    }
}
