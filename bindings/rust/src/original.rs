//! The Rust original's curve part, made by `build.rs` from its published text, and stand-ins for
//! the types of other crates that it names. No line of the original stands in this repository.

/// What the original takes from elsewhere, as far as its curve part needs it.
mod stand_ins {
    /// `powf` as document 01 has it: the square root for 0.5, the value itself for 1.0.
    #[inline(always)]
    pub fn power(v: f32, exponent: f32) -> f32 {
        if exponent == 0.5 {
            v.sqrt()
        } else {
            v
        }
    }

    #[derive(Clone, Copy, Debug, PartialEq, Eq)]
    pub enum PixelFormat {
        Gray8,
        Ya8,
        Rgb24,
        Rgba,
        Cmyk,
        CmykInverted,
        Yuv420P,
        Yuv422P,
        Yuv444P,
        YuvJ420P,
        YuvJ422P,
        YuvJ444P,
        GrayF32Le,
    }

    #[derive(Clone, Debug)]
    pub struct VideoPlane {
        pub stride: usize,
        pub data: Vec<u8>,
    }

    #[derive(Clone, Debug)]
    pub struct VideoFrame {
        pub pts: Option<i64>,
        pub planes: Vec<VideoPlane>,
    }

    #[derive(Clone, Copy, Debug)]
    pub struct VideoStreamParams {
        pub format: PixelFormat,
        pub width: u32,
        pub height: u32,
    }

    #[derive(Debug)]
    pub struct Error(pub String);

    impl Error {
        pub fn invalid(why: impl Into<String>) -> Error {
            Error(why.into())
        }

        pub fn unsupported(why: impl Into<String>) -> Error {
            Error(why.into())
        }
    }

    pub trait PixelFilter {
        fn accepted_formats(&self) -> &'static [PixelFormat];
        fn is_pointwise(&self) -> bool;
        fn apply_pixels(
            &self,
            input: &VideoFrame,
            params: VideoStreamParams,
        ) -> Result<VideoFrame, Error>;
    }

    pub mod layout {
        pub const CLASSIC_DEEP: &[super::PixelFormat] = &[];
    }

    /// A grey picture of floats: enough to run the closure `lookup` where it stands.
    pub mod deep {
        use super::{Error, PixelFormat, VideoFrame, VideoPlane, VideoStreamParams};

        pub struct FloatImage(Vec<f32>);

        impl FloatImage {
            pub fn color_channels(&self) -> usize {
                1
            }

            pub fn map_tone_in_place(&mut self, tone: impl Fn(f32) -> f32) {
                for v in &mut self.0 {
                    *v = tone(*v);
                }
            }

            pub fn map_pixels_in_place(&mut self, mut f: impl FnMut(&mut [f32])) {
                for v in self.0.chunks_exact_mut(1) {
                    f(v);
                }
            }
        }

        pub fn is_float(format: PixelFormat) -> bool {
            format == PixelFormat::GrayF32Le
        }

        pub fn run(
            input: &VideoFrame,
            _: VideoStreamParams,
            f: impl FnOnce(FloatImage) -> Result<FloatImage, Error>,
        ) -> Result<VideoFrame, Error> {
            let floats = input.planes[0]
                .data
                .chunks_exact(4)
                .map(|b| f32::from_le_bytes([b[0], b[1], b[2], b[3]]));
            let data = f(FloatImage(floats.collect()))?
                .0
                .iter()
                .flat_map(|v| v.to_le_bytes())
                .collect::<Vec<u8>>();
            Ok(VideoFrame { pts: input.pts, planes: vec![VideoPlane { stride: data.len(), data }] })
        }
    }
}

pub use stand_ins::{PixelFilter, PixelFormat, VideoFrame, VideoPlane, VideoStreamParams};

/// The original's name of a format.
pub fn pixel_format(format: crate::Format) -> PixelFormat {
    use crate::Format;
    match format {
        Format::Gray8 => PixelFormat::Gray8,
        Format::Ya8 => PixelFormat::Ya8,
        Format::Rgb24 => PixelFormat::Rgb24,
        Format::Rgba => PixelFormat::Rgba,
        Format::Cmyk => PixelFormat::Cmyk,
        Format::CmykInverted => PixelFormat::CmykInverted,
        Format::Yuv420P => PixelFormat::Yuv420P,
        Format::Yuv422P => PixelFormat::Yuv422P,
        Format::Yuv444P => PixelFormat::Yuv444P,
        Format::YuvJ420P => PixelFormat::YuvJ420P,
        Format::YuvJ422P => PixelFormat::YuvJ422P,
        Format::YuvJ444P => PixelFormat::YuvJ444P,
    }
}

/// A frame of planes, each with its row step.
pub fn frame(planes: impl IntoIterator<Item = (Vec<u8>, usize)>) -> VideoFrame {
    VideoFrame {
        pts: None,
        planes: planes.into_iter().map(|(data, stride)| VideoPlane { stride, data }).collect(),
    }
}

/// Ways into the text included, whose table builds are private.
macro_rules! doors {
    () => {
        pub fn mode(kind: crate::Kind) -> CurveInterpolation {
            use crate::Kind;
            match kind {
                Kind::Linear => CurveInterpolation::Linear,
                Kind::CatmullRom => CurveInterpolation::CatmullRom,
                Kind::MonotoneCubic => CurveInterpolation::MonotoneCubic,
                Kind::MonotoneCubicBox => CurveInterpolation::MonotoneCubicBox,
                Kind::NaturalCubic => CurveInterpolation::NaturalCubic,
                Kind::CentripetalCatmullRom => CurveInterpolation::CentripetalCatmullRom,
                Kind::ChordalCatmullRom => CurveInterpolation::ChordalCatmullRom,
                Kind::Cardinal { tension } => CurveInterpolation::Cardinal { tension_q8: tension },
                Kind::ClampedCubic { start_slope, end_slope } => CurveInterpolation::ClampedCubic {
                    start_slope_q8: start_slope,
                    end_slope_q8: end_slope,
                },
                Kind::NotAKnotCubic => CurveInterpolation::NotAKnotCubic,
            }
        }

        /// The curve through points in any order, whose heights are whole: it knows no others.
        pub fn curve(points: &[crate::Point]) -> Curve {
            Curve::new(points.iter().map(|p| (p.x, p.level().expect("a whole height"))))
        }

        /// The same of x and level, as the original takes them.
        pub fn curve_of_pairs(points: &[(u8, u8)]) -> Curve {
            Curve::new(points.iter().copied())
        }

        pub fn byte_table(curve: &Curve, kind: crate::Kind) -> [u8; 256] {
            curve.build_lut(mode(kind))
        }

        pub fn fine_table(curve: &Curve, kind: crate::Kind, samples: usize) -> Vec<f32> {
            curve.build_table(mode(kind), samples)
        }

        /// The original's set.
        pub fn set(set: &crate::model::record::Set) -> Curves {
            let colour = |i: usize| set.colours[i].as_deref().map(curve);
            let mut curves = Curves::new(curve(&set.master)).with_interpolation(mode(set.kind));
            (curves.red, curves.green, curves.blue) = (colour(0), colour(1), colour(2));
            curves
        }
    };
}

/// The curve part with `powf` as document 01 has it: what the port is compared with.
#[allow(dead_code)]
pub mod curves {
    use super::stand_ins::*;
    include!(concat!(env!("OUT_DIR"), "/curves.rs"));
    doors!();
}

/// The curve part as published, for times.
#[allow(dead_code)]
pub mod published {
    use super::stand_ins::*;
    include!(concat!(env!("OUT_DIR"), "/curves_published.rs"));
    doors!();
}

/// The closure `lookup` of `apply_pixels`, as a function.
pub mod lookup {
    include!(concat!(env!("OUT_DIR"), "/lookup.rs"));
}

/// The one-table call.
#[allow(dead_code, unreachable_patterns)]
pub mod tonal_lut {
    use super::stand_ins::*;
    include!(concat!(env!("OUT_DIR"), "/tonal_lut.rs"));

    /// The call, which is not open outside its crate.
    pub fn tone(
        frame: &mut VideoFrame,
        table: &[u8; 256],
        format: crate::Format,
        width: u32,
        height: u32,
    ) {
        apply_tone_lut(frame, table, super::pixel_format(format), width, height);
    }
}
