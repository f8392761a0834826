//! Refusals, kinds, formats, sizes and the version are the same here, in the C header and, where
//! they stand there, in the crates.
use tone::{
    Format, FormatNumber, Kind, KindNumbers, Outputs, Planes, Point, Refusal, LARGEST_HEIGHT,
};

const HEADER: &str = include_str!("../../c/tone.h");
const ANSWERS: &str = include_str!("../../../crates/answers/specs/Numbers.antt");
const KINDS: &str = include_str!("../../../crates/tables/specs/Kinds.antt");
const SETS: &str = include_str!("../../../crates/sets/specs/Sets.antt");
const FORMATS: &str = include_str!("../../../crates/formats/specs/Formats.antt");
const BOUNDARY: &str = include_str!("../../../crates/tone_c/specs/Version.antt");

/// What stands behind `TONE_NAME` and a separator in the header, up to the end of the line; a
/// name's case and breaks do not count.
fn in_header(name: &str, separator: &str) -> &'static str {
    let bare = name.to_uppercase();
    let constants = HEADER.split(" TONE_").skip(1).filter_map(|text| text.split_once(separator));
    let mut found = constants.filter(|(constant, _)| constant.replace('_', "") == bare);
    found.next().unwrap_or_else(|| panic!("{name} is not in the header")).1.lines().next().unwrap()
}

/// The number of a name in the header.
fn number(name: &str) -> usize {
    let behind = in_header(name, " = ");
    behind.split(|c: char| !c.is_ascii_digit()).next().unwrap().parse().unwrap()
}

/// How many names an enum of the header has.
fn count(name: &str) -> usize {
    let (_, behind) = HEADER.split_once(&format!("enum {name} {{")).unwrap();
    behind.split_once('}').unwrap().0.matches(" TONE_").count()
}

/// The lines of a definition: `name ARGUMENT = VALUE`.
fn lines_of<'a>(text: &'a str, name: &'a str) -> impl Iterator<Item = (&'a str, &'a str)> {
    let lines = text
        .lines()
        .filter_map(move |line| line.strip_prefix(name)?.strip_prefix(' ')?.split_once(" = "));
    lines.map(|(argument, value)| {
        (argument.trim_matches(['(', ')']).split(' ').next().unwrap(), value)
    })
}

#[test]
fn versions() {
    assert!(HEADER.contains(&format!("\n#define TONE_VERSION {}\n", tone::VERSION)));
    assert!(BOUNDARY.contains(&format!("\nversion = {}\n", tone::VERSION)));
    assert_eq!(tone::version(), tone::VERSION);
}

#[test]
fn kinds() {
    for (place, name) in (0..).zip(Kind::NAMES) {
        let numbers = KindNumbers { number: place, tension: 3, start_slope: 4, end_slope: 5 };
        let kind = numbers.kind().unwrap();
        assert_eq!(kind.number(), place);
        assert!(format!("{kind:?}").starts_with(name));
        assert_eq!(KindNumbers::from(kind).kind(), Some(kind));
        assert_eq!(number(name), usize::from(place), "{name}");
    }
    assert_eq!(KindNumbers { number: 10, tension: 0, start_slope: 0, end_slope: 0 }.kind(), None);
    let in_crate: Vec<_> = lines_of(KINDS, "description_of")
        .map(|(name, value)| (name, value.split(' ').nth(1).unwrap().to_string()))
        .collect();
    let here = Kind::NAMES.iter().enumerate().map(|(place, name)| (*name, place.to_string()));
    assert!(here.eq(in_crate.iter().cloned()), "{in_crate:?}");
    assert_eq!(count("tone_kind"), Kind::NAMES.len());
}

#[test]
fn the_default_kind() {
    let name = format!("{:?}", Kind::default());
    assert!(SETS.contains(&format!("\ndefault = {name}\n")), "{name}");
    assert!(in_header(&name, " = ").contains("/* the default;"), "{name}");
    assert_eq!(HEADER.matches("/* the default").count(), 1);
}

#[test]
fn formats() {
    for (place, format) in (0..).zip(Format::ALL) {
        assert_eq!(u8::from(format), place);
        assert_eq!(FormatNumber::from(format), FormatNumber(place));
        assert_eq!(number(&format!("{format:?}")), usize::from(place), "{format:?}");
    }
    let (_, behind) = FORMATS.split_once("\nin_order =").unwrap();
    let in_crate: Vec<_> = behind
        .split("[]")
        .next()
        .unwrap()
        .split('∷')
        .map(str::trim)
        .filter(|name| !name.is_empty())
        .collect();
    assert!(
        Format::ALL
            .iter()
            .map(|format| format!("{format:?}"))
            .eq(in_crate.iter().map(|name| name.to_string())),
        "{in_crate:?}"
    );
    assert_eq!(count("tone_format"), Format::ALL.len());
    // `layout_of NAME = new_layout BYTES ..`
    let layouts: Vec<_> = lines_of(FORMATS, "layout_of").collect();
    let here =
        Format::ALL.map(|format| (format!("{format:?}"), format.bytes_a_pixel().to_string()));
    let in_crate = layouts
        .iter()
        .map(|(name, layout)| (name.to_string(), layout.split(' ').nth(1).unwrap().to_string()));
    assert!(here.into_iter().eq(in_crate), "{layouts:?}");
}

#[test]
fn refusals() {
    // document 02 took 1 away, and the others kept theirs; 15 to 19 are of requests to come
    assert!(Refusal::all().map(Refusal::number).into_iter().eq((2..=14).chain([20])));
    for refusal in Refusal::all() {
        let place = refusal.number();
        assert_eq!(refusal.to_string(), format!("refused {place}: {}", refusal.words()));
        let name = format!("{refusal:?}");
        assert_eq!(number(&name), usize::from(place), "{name}");
        assert_eq!(in_header(&name, ":\n        return "), format!("\"{}\";", refusal.words()));
    }
    let in_crate: Vec<_> = lines_of(ANSWERS, "refusal_number").collect();
    let here = Refusal::all().map(|refusal| (format!("{refusal:?}"), refusal.number().to_string()));
    assert!(
        here.into_iter()
            .eq(in_crate.iter().map(|(name, value)| (name.to_string(), value.to_string()))),
        "{in_crate:?}"
    );
    assert_eq!(count("tone_answer"), 1 + Refusal::all().len());
}

/// No answer makes the wrapper panic: a number that it does not know is a refusal too.
#[test]
fn every_answer_is_taken() {
    assert_eq!(Refusal::check(0), Ok(()));
    for answer in 1..=255 {
        let refusal = Refusal::check(answer).unwrap_err();
        assert_eq!(refusal.number(), answer);
        let known = matches!(answer, 2..=14 | 20);
        assert_eq!(refusal == Refusal::Unknown(answer), !known, "{answer}");
    }
    let words = Refusal::Unknown(15).words();
    assert_eq!(Refusal::Unknown(15).to_string(), format!("refused 15: {words}"));
    assert!(HEADER.contains(&format!("default:\n        return \"{words}\";")));
}

/// At each size of the header a call does its work, and one past it is refused.
#[test]
fn sizes() {
    assert_eq!(number("LongestRecord"), tone::LONGEST_RECORD);
    let (most, bytes, samples) =
        (number("MostPoints"), number("TableBytes"), number("FineSamples"));
    let mut table = vec![0; bytes];
    let mut ask = |count: usize, height: u16| {
        tone::table(&vec![Point { x: 0, height }; count], Kind::Linear, &mut table)
    };
    assert_eq!(ask(most, 0), Ok(()));
    assert_eq!(ask(most + 1, 0), Err(Refusal::PointCount));
    assert_eq!(number("LargestHeight"), usize::from(LARGEST_HEIGHT));
    assert_eq!(ask(1, LARGEST_HEIGHT), Ok(()));
    assert_eq!(ask(1, LARGEST_HEIGHT + 1), Err(Refusal::HeightRange));
    assert_eq!(Point::at_level(0, 255).height, LARGEST_HEIGHT);
    assert_eq!(tone::table(&[], Kind::Linear, &mut table[1..]), Err(Refusal::OutputTooSmall));
    assert_eq!(tone::lookup(&vec![0.0; samples], &mut [0.0]), Ok(()));
    for wrong in [samples - 1, samples + 1] {
        assert_eq!(tone::lookup(&vec![0.0; wrong], &mut [0.0]), Err(Refusal::TableLength));
    }
    let (side, step) = (number("LargestSide") as u32, number("LargestStep"));
    let ask = |width: u32, height: u32, step: usize| {
        tone::picture(
            &[0],
            Format::Gray8,
            width,
            height,
            Planes::one(&[], step),
            Outputs::one(&mut []),
        )
    };
    assert_eq!(ask(side, 0, step), Ok(()));
    assert_eq!(ask(0, side, step), Ok(()));
    assert_eq!(ask(side + 1, 0, step), Err(Refusal::PictureTooLarge));
    assert_eq!(ask(0, side + 1, step), Err(Refusal::PictureTooLarge));
    assert_eq!(ask(side, 0, step + 1), Err(Refusal::RowStep));
    assert_eq!(count("tone_size"), 7);
}
