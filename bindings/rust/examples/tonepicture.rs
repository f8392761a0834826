//! Tones a picture by a record: `cargo run --release --example tonepicture -- RECORD PICTURE OUT`
//!
//! PICTURE is a binary PGM (P5, toned as Gray8) or PPM (P6, toned as Rgb24) of maxval 255, and OUT
//! becomes the same with toned bytes. Where the engine refuses, the program prints `refused N:
//! words` to standard error and writes no OUT. The same program in C is `bindings/c/tonepicture.c`.
use std::process::ExitCode;
use std::{env, fs};
use tone::{Format, Outputs, Planes};

/// A picture of a file: what stands before its raster, and the raster.
struct Picture<'a> {
    format: Format,
    width: u32,
    height: u32,
    raster: &'a [u8],
}

fn main() -> ExitCode {
    let words: Vec<String> = env::args().skip(1).collect();
    let [record, picture, out] = &words[..] else {
        eprintln!(
            "tonepicture RECORD PICTURE OUT: tones a binary PGM or PPM of maxval 255 by a record"
        );
        return ExitCode::FAILURE;
    };
    match run(record, picture, out) {
        Ok(()) => ExitCode::SUCCESS,
        Err(message) => {
            eprintln!("{message}");
            ExitCode::FAILURE
        }
    }
}

fn run(record: &str, picture: &str, out: &str) -> Result<(), String> {
    let read = |name: &str| fs::read(name).map_err(|e| format!("{name}: {e}"));
    let (record, file) = (read(record)?, read(picture)?);
    let found = header(&file).map_err(|why| format!("{picture}: {why}"))?;
    let toned = toned(&record, &found).map_err(|refusal| refusal.to_string())?;
    let number = if found.format == Format::Gray8 { 5 } else { 6 };
    let mut bytes = format!("P{number}\n{} {}\n255\n", found.width, found.height).into_bytes();
    bytes.extend(toned);
    fs::write(out, bytes).map_err(|e| format!("{out}: {e}"))
}

fn toned(record: &[u8], picture: &Picture) -> Result<Vec<u8>, tone::Refusal> {
    let row = picture.width as usize * picture.format.bytes_a_pixel();
    // a picture larger than the engine takes is refused before it looks at outputs
    let size =
        if picture.width.max(picture.height) > 4096 { 0 } else { row * picture.height as usize };
    let mut toned = vec![0; size];
    let planes = Planes::one(picture.raster, row);
    tone::picture(
        record,
        picture.format,
        picture.width,
        picture.height,
        planes,
        Outputs::one(&mut toned),
    )?;
    Ok(toned)
}

/// Finds format, size and raster. Whether the raster has all its bytes, the engine says.
fn header(file: &[u8]) -> Result<Picture<'_>, &'static str> {
    let (format, mut rest) = match file {
        [b'P', b'5', rest @ ..] => (Format::Gray8, rest),
        [b'P', b'6', rest @ ..] => (Format::Rgb24, rest),
        _ => return Err("is neither a binary PGM (P5) nor a binary PPM (P6)"),
    };
    let mut next = || number(&mut rest).ok_or("has no width, height and maxval in its header");
    let (width, height, most) = (next()?, next()?, next()?);
    if width == 0 || height == 0 {
        return Err("has no pixels");
    }
    if most != 255 {
        return Err("has a maxval other than 255");
    }
    match rest {
        [space, raster @ ..] if is_space(*space) => Ok(Picture { format, width, height, raster }),
        _ => Err("ends in its header"),
    }
}

/// The next number of a header: white space and comments, from # to the end of the
/// line, may stand before it.
fn number(rest: &mut &[u8]) -> Option<u32> {
    while let [first, behind @ ..] = *rest {
        *rest = match first {
            b'#' => &behind[behind.iter().position(|c| *c == b'\n').unwrap_or(behind.len())..],
            c if is_space(*c) => behind,
            _ => break,
        };
    }
    let digits = rest.iter().take_while(|c| c.is_ascii_digit()).count();
    let (number, behind) = rest.split_at(digits);
    *rest = behind;
    std::str::from_utf8(number).ok()?.parse().ok()
}

fn is_space(c: u8) -> bool {
    c.is_ascii_whitespace() || c == 0x0B
}
