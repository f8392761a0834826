//! Links the proved library and, where the original's text is at hand, makes the
//! original's curve part compile.
//!
//! It stops where the target is not x86-64 Linux, and where header, archive and
//! crate are not of one version.
//!
//! | variable | meaning | without it |
//! |---|---|---|
//! | `TONE_ARCHIVE` | the static library to link | `bindings/archive` is run |
//! | `TONE_ORIGINAL` | the folder with `curves.rs` and `tonal_lut.rs` | `../shared/docs/src` |
//!
//! With the original there is the cfg `original`; without it the library and its
//! tests build all the same.
use std::env;
use std::fs;
use std::path::{Path, PathBuf};
use std::process::Command;

#[path = "src/version.rs"]
mod version;

fn main() {
    let here = PathBuf::from(env::var_os("CARGO_MANIFEST_DIR").unwrap());
    let out = PathBuf::from(env::var_os("OUT_DIR").unwrap());
    println!("cargo::rustc-check-cfg=cfg(original)");
    println!("cargo::rerun-if-changed=build.rs");
    println!("cargo::rerun-if-env-changed=TONE_ARCHIVE");
    println!("cargo::rerun-if-env-changed=TONE_ORIGINAL");

    let target = env::var("TARGET").unwrap();
    assert!(is_x86_64_linux(&target), "the archive is for x86-64 Linux only, not for {target}");
    let archive = archive(&here.join("../.."));
    println!("cargo::rerun-if-changed={}", archive.display());
    println!("cargo::rerun-if-changed=src/version.rs");
    one_version("bindings/c/tone.h", header_version(&here.join("../c/tone.h")));
    if is_x86_64_linux(&env::var("HOST").unwrap()) {
        one_version(&archive.display().to_string(), archive_version(&archive, &out));
    }
    println!("cargo::rustc-link-search=native={}", archive.parent().unwrap().display());
    println!("cargo::rustc-link-lib=static=tone_c");

    let original = env::var_os("TONE_ORIGINAL")
        .map_or_else(|| here.join("../../../shared/docs/src"), PathBuf::from);
    let curves = original.join("curves.rs");
    println!("cargo::rerun-if-changed={}", curves.display());
    if curves.exists() {
        generate(&curves, &original.join("tonal_lut.rs"), &out);
        println!("cargo::rustc-cfg=original");
    }
}

/// The static library: the one named, or the one that `rt` makes of the proved crates.
fn archive(root: &Path) -> PathBuf {
    if let Some(named) = env::var_os("TONE_ARCHIVE") {
        let named = PathBuf::from(named);
        assert!(named.ends_with("libtone_c.a"), "TONE_ARCHIVE must name a file libtone_c.a");
        return named;
    }
    println!("cargo::rerun-if-changed={}", root.join("crates.txt").display());
    for entry in fs::read_dir(root.join("crates")).expect("the crates are there") {
        // beside these a crate has `out`, which each check writes
        for part in ["src", "specs", "proofs"] {
            let folder = entry.as_ref().expect("a crate's folder").path().join(part);
            if folder.is_dir() {
                println!("cargo::rerun-if-changed={}", folder.display());
            }
        }
    }
    let run = Command::new(root.join("bindings/archive")).output();
    let run = run.unwrap_or_else(|e| panic!("bindings/archive could not be run: {e}"));
    assert!(
        run.status.success(),
        "bindings/archive failed, which needs rt, the Rattle toolchain, on the path; \
         TONE_ARCHIVE names another archive:\n{}{}",
        String::from_utf8_lossy(&run.stdout),
        String::from_utf8_lossy(&run.stderr)
    );
    root.join("target/staticlib/libtone_c.a")
}

fn is_x86_64_linux(target: &str) -> bool {
    target.starts_with("x86_64-") && target.contains("-linux-")
}

fn one_version(what: &str, found: u32) {
    let here = version::VERSION;
    assert_eq!(found, here, "{what} is of version {found}, the crate tone of version {here}");
}

/// The number of `TONE_VERSION` in the header.
fn header_version(header: &Path) -> u32 {
    let text = read(header);
    let mut defined = text.lines().filter_map(|line| line.strip_prefix("#define TONE_VERSION "));
    let number = defined.next().and_then(|number| number.trim().parse().ok());
    number.unwrap_or_else(|| panic!("{} defines no TONE_VERSION", header.display()))
}

/// What the archive's `tone_version` answers: a program of one line is linked with it and run.
fn archive_version(archive: &Path, out: &Path) -> u32 {
    let source = concat!(
        "extern \"C\" { fn tone_version() -> u32; }\n",
        "fn main() { print!(\"{}\", unsafe { tone_version() }) }\n"
    );
    write(out, "archive_version.rs", source);
    let program = out.join("archive_version");
    let mut rustc = Command::new(env::var_os("RUSTC").unwrap());
    rustc.arg(out.join("archive_version.rs")).arg("-o").arg(&program);
    rustc.arg("-L").arg(archive.parent().unwrap()).args(["-l", "static=tone_c"]);
    if let Some(linker) = env::var_os("RUSTC_LINKER") {
        rustc.arg("-C").arg(format!("linker={}", linker.display()));
    }
    let built = rustc.output().unwrap_or_else(|e| panic!("the compiler could not be run: {e}"));
    let said = String::from_utf8_lossy(&built.stderr);
    assert!(
        built.status.success(),
        "{} has no tone_version, or cannot be linked:\n{said}",
        archive.display()
    );
    let run =
        Command::new(&program).output().unwrap_or_else(|e| panic!("{}: {e}", program.display()));
    String::from_utf8_lossy(&run.stdout)
        .parse()
        .unwrap_or_else(|_| panic!("{} says no version", archive.display()))
}

/// Writes what `src/original.rs` includes: the curve part twice, as published and with the roots
/// that document 01 asks for, its closure `lookup` as a function, and the one-table call.
fn generate(curves: &Path, tonal_lut: &Path, out: &Path) {
    let published = without_uses(&read(curves))
        .replace("oxideav_core::PixelFormat", "PixelFormat")
        .replace("crate::layout::", "layout::")
        .replace("crate::deep::", "deep::");
    // document 01: "`powf(0.5)` has no fixed rounding: here it is the square
    // root, `powf(1.0)` the chord"
    let rooted = replaced_once(&published, "chord.powf(alpha)", "power(chord, alpha)");
    write(out, "curves.rs", &rooted);
    write(out, "curves_published.rs", &published);
    write(out, "lookup.rs", &closure_as_function(&published, "lookup", "SAMPLES"));
    write(out, "tonal_lut.rs", &without_uses(&read(tonal_lut)));
}

/// The text without its `use` lines, whose types `src/original.rs` stands in for, and without the
/// comment at its head, which `include!` refuses.
fn without_uses(text: &str) -> String {
    let kept = text.lines().filter(|l| !l.starts_with("use ") && !l.starts_with("//!"));
    kept.map(|l| format!("{l}\n")).collect()
}

/// `let NAME = |ARGUMENTS| -> RESULT { .. };` as `pub fn NAME(ARGUMENTS) -> RESULT { .. }`, with
/// the constant that it reads.
fn closure_as_function(text: &str, name: &str, constant: &str) -> String {
    let start = format!("let {name} = |");
    let after = &text[find_once(text, &start) + start.len()..];
    let (arguments, rest) = after.split_once('|').expect("a closure has two bars");
    let end = end_of_block(rest);
    let declared = &text[find_once(text, &format!("const {constant}:"))..];
    let declared = &declared[..=declared.find(';').expect("a constant ends")];
    format!("{declared}\npub fn {name}({arguments}){}\n", &rest[..end])
}

/// Where the first block in braces ends.
fn end_of_block(text: &str) -> usize {
    let mut depth = 0;
    for (i, c) in text.char_indices() {
        match c {
            '{' => depth += 1,
            '}' if depth == 1 => return i + 1,
            '}' => depth -= 1,
            _ => {}
        }
    }
    panic!("a block does not end");
}

fn find_once(text: &str, what: &str) -> usize {
    assert_eq!(
        text.matches(what).count(),
        1,
        "not the original expected: `{what}` does not stand there once"
    );
    text.find(what).unwrap()
}

fn replaced_once(text: &str, old: &str, new: &str) -> String {
    find_once(text, old);
    text.replace(old, new)
}

fn read(path: &Path) -> String {
    println!("cargo::rerun-if-changed={}", path.display());
    fs::read_to_string(path).unwrap_or_else(|e| panic!("{}: {e}", path.display()))
}

fn write(folder: &Path, name: &str, text: &str) {
    fs::write(folder.join(name), text).unwrap_or_else(|e| panic!("{name}: {e}"));
}
