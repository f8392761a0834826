//! Places that go by the number of kinds, formats or refusals and that nothing else holds to it: a
//! new one is reported here. `names.rs` has the names and numbers themselves.
use tone::model::checks::{given, Shape};
use tone::model::record::read;
use tone::trial::{any_set, Question, Random};
use tone::{Format, FormatNumber, Kind, KindNumbers, Outputs, Planes, Refusal};

const README: &str = include_str!("../../../README.md");
const FORMATS: &str = include_str!("../../../crates/formats/specs/Formats.antt");

/// The kind of a number, known or not.
fn kind(number: u8) -> KindNumbers {
    KindNumbers { number, tension: 0, start_slope: 0, end_slope: 0 }
}

/// Each byte that a stored question of a replay has at a place.
fn stored(questions: &str, place: usize) -> Vec<u8> {
    let digits = |line: &str| u8::from_str_radix(&line[2 * place..2 * place + 2], 16).unwrap();
    questions.lines().map(digits).collect()
}

/// Whether a stored question of `replay` has points at levels only: seven bytes, then three for
/// each point, x and the height with its low byte first.
fn is_whole(line: &str) -> bool {
    (0..64).all(|k| line[2 * (8 + 3 * k)..].starts_with("00"))
}

/// A new number is a new version: `crates/tone_c/specs/Version.antt` says what else is. Whoever
/// changes a number of this line changes the first too.
#[test]
fn a_new_number_is_a_new_version() {
    let counts = (tone::VERSION, Kind::NAMES.len(), Format::ALL.len(), Refusal::all().len());
    assert_eq!(counts, (3, 10, 12, 14), "version, kinds, formats, refusals");
}

/// What is said in words of numbers above the last.
#[test]
fn the_last_number_in_words() {
    let of_kinds = ["a kind above ", "he kind byte is above ", "in numbers. One above "];
    let of_formats = ["a format above ", "a number. One above "];
    for (name, text) in [
        ("README.md", README),
        ("tone.h", include_str!("../../c/tone.h")),
        ("bindings/c/test", include_str!("../../c/test")),
        ("lib.rs", include_str!("../src/lib.rs")),
        ("kind.rs", include_str!("../src/kind.rs")),
        ("format.rs", include_str!("../src/format.rs")),
        ("refusal.rs", include_str!("../src/refusal.rs")),
        ("Numbers.antt", include_str!("../../../crates/answers/specs/Numbers.antt")),
        ("Kinds.antt", include_str!("../../../crates/records/specs/Kinds.antt")),
    ] {
        let behind = |phrase: &&str| text.split(*phrase).skip(1).collect::<Vec<_>>();
        let kinds = of_kinds.iter().flat_map(behind).map(|said| (said, Kind::NAMES.len()));
        let formats = of_formats.iter().flat_map(behind).map(|said| (said, Format::ALL.len()));
        let all: Vec<_> = kinds.chain(formats).collect();
        assert!(!all.is_empty(), "{name} says nothing of it");
        for (said, count) in all {
            let number = said.split(|c: char| !c.is_ascii_digit()).next().unwrap();
            assert_eq!(number, (count - 1).to_string(), "{name}");
        }
    }
}

/// The front page has a line for each refusal.
#[test]
fn refusals_of_the_front_page() {
    let (_, behind) = README.split_once("\n## Refusals\n").unwrap();
    let rows = behind.lines().filter_map(|line| line.strip_prefix("| ")?.split_once(" |"));
    let numbers = rows.filter_map(|(number, _)| number.parse::<u8>().ok());
    assert!(numbers.eq(Refusal::all().map(Refusal::number)));
}

/// Each kind has its theorem, its case in the words of the promises, its place among the computed
/// numbers, and its curve in the picture of the front page.
#[test]
fn each_kind_has_its_lines() {
    let theorems = include_str!("../../../crates/promises/specs/Demand2.antt");
    let splines = include_str!("../../../crates/promises/specs/ControlsOfWords.antt");
    let examples = include_str!("../../../crates/tables/specs/Examples.antt");
    let drawn = include_str!("../../../docs/kinds.svg");
    for (number, name) in Kind::NAMES.iter().enumerate() {
        let of = |text: &str, word: &str| {
            [" ", ")", "\n"].iter().any(|end| text.contains(&format!("{word}{name}{end}")))
        };
        assert!(of(theorems, "sample_of ") || of(theorems, "sample_of ("), "{name}: no theorem");
        assert!(of(splines, "IsSpline ") || of(splines, "IsSpline ("), "{name}: a spline or not?");
        assert!(examples.contains(&format!("rule {number} ∷")), "{name}: not in `kinds`");
        assert!(drawn.contains(&format!(">{number} {name}")), "{name}: not drawn");
    }
}

/// Each format is in `others` or in `yuv`, of which the computed tables and pictures are, and is
/// YUV if it has three planes: `layout_of NAME = new_layout BYTES ALPHA PLANES ..`.
#[test]
fn each_format_has_its_lines() {
    let examples = include_str!("../../../crates/formats/specs/Examples.antt");
    for format in Format::ALL {
        assert!(examples.contains(&format!("rule {format:?} ∷")), "{format:?}: in no example");
        let (_, row) =
            FORMATS.split_once(&format!("\nlayout_of {format:?} = new_layout ")).unwrap();
        assert_eq!(format.is_yuv(), row.split(' ').nth(2) == Some("3"), "{format:?}");
    }
}

/// The trials and the stored questions ask for every kind and every format, and for every kind with
/// heights between the levels. What else is stored comes from the original, so one that the
/// original does not have would be left out here.
#[test]
fn every_kind_and_format_is_asked_for() {
    let mut random = Random::new(1);
    let asked: Vec<u8> = (0..1000).map(|_| Question::random(&mut random).numbers.number).collect();
    let set: Vec<u8> = (0..1000).map(|_| any_set(&mut random).kind.number()).collect();
    let finer: Vec<u8> = (0..1000).map(|_| Question::finer(&mut random).numbers.number).collect();
    let (whole, between): (Vec<&str>, Vec<&str>) =
        include_str!("../../../crates/replay/stdin").lines().partition(|line| is_whole(line));
    let [whole, between] = [whole, between].map(|lines| stored(&lines.join("\n"), 0));
    let count = |of: &[u8], number: u8| of.iter().filter(|n| **n == number).count();
    for (number, name) in (0..).zip(Kind::NAMES) {
        assert!(asked.contains(&number), "{name}: no random list");
        assert!(finer.contains(&number), "{name}: no random list of finer heights");
        assert!(set.contains(&number), "{name}: no random set");
        assert!(count(&whole, number) > 20, "{name}: not stored");
        assert!(count(&between, number) >= 8, "{name}: not stored with finer heights");
    }
    let pictures = stored(include_str!("../../../crates/replay_pictures/stdin"), 1);
    for format in Format::ALL {
        assert!(pictures.contains(&format.number()), "{format:?}: not stored");
    }
}

/// The model knows the kinds that the engine knows.
#[test]
fn kinds_of_the_model() {
    let mut table = [0; 256];
    for number in 0..=255 {
        assert_eq!(tone::table(&[], kind(number), &mut table), given(&[], number), "kind {number}");
        for map in [0x10, 0x90] {
            let record = [map, number];
            let expected = read(&record).map(|_| ());
            assert_eq!(tone::record_table(&record, &mut table), expected, "{record:?}");
        }
    }
}

/// The model knows the formats that the engine knows, with as many bytes a pixel and planes.
#[test]
fn formats_of_the_model() {
    for (format, width, planes, held) in (0..=255).flat_map(|f| {
        let held = (0..6).map(move |n| (f, 1, 3, n));
        held.chain((0..4).map(move |n| (f, 0, n, 0)))
    }) {
        let outputs = [held, 1, 1];
        let shape = Shape {
            format,
            width,
            height: 1,
            step: 4,
            planes,
            first: held,
            chroma: [1; 2],
            outputs,
        };
        let (mut plane, mut out, mut u, mut v) = (vec![0; held], vec![0; held], [0], [0]);
        let number = FormatNumber(format);
        let asked = tone::plane(&[0; 256], number, width, 1, &mut plane, 4);
        assert_eq!(asked, shape.plane_answer(), "{shape:?}");
        let given = Planes { count: planes, first: &plane, step: 4, chroma: [&[0], &[0]] };
        let lent = Outputs::three(&mut out, [&mut u, &mut v]);
        let asked = tone::picture(&[0], number, width, 1, given, lent);
        assert_eq!(asked, shape.picture_answer(), "{shape:?}");
    }
}
