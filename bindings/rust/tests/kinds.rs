//! The page of the ten kinds, `Kinds.antt` of the crate `examples`, whose numbers are proved of the
//! engine's definitions: the original gives them, and so do the model and the engine that was
//! built.
use tone::model::curve;
use tone::trial::{Page, Statement};
use tone::Kind;

fn statements() -> Vec<Statement> {
    Page::Kinds.statements()
}

/// A statement that was passed over would show nothing, and one of a finer height would have no
/// original.
#[test]
fn the_page_is_read_whole() {
    let page = include_str!("../../../crates/examples/specs/Kinds.antt");
    assert_eq!(statements().len(), page.lines().filter(|l| l.starts_with("pub ")).count());
    assert_eq!(statements().len(), page.lines().filter(|l| l.ends_with(" = refl")).count());
    assert!(statements().iter().all(|s| s.question.is_whole()));
    for number in 0..Kind::NAMES.len() {
        let of_it = |s: &&Statement| usize::from(s.question.numbers.number) == number;
        assert!(statements().iter().filter(of_it).count() >= 2, "{}", Kind::NAMES[number]);
    }
}

#[cfg(original)]
#[test]
fn the_original_gives_the_numbers_of_the_page() {
    use tone::original::curves;
    for s in statements() {
        let (curve, kind) = (curves::curve(&s.question.points), s.question.kind());
        let given =
            s.read_from(&curves::byte_table(&curve, kind), &curves::fine_table(&curve, kind, 256));
        assert_eq!(given, s.values, "{}: the original has {given:x?}", s.name);
    }
}

#[cfg(not(original))]
#[test]
#[ignore = "the original's text is not at hand: name its folder by TONE_ORIGINAL"]
fn the_original_gives_the_numbers_of_the_page() {}

#[test]
fn the_model_gives_the_numbers_of_the_page() {
    for s in statements() {
        let (points, kind) = (&s.question.points[..], s.question.kind());
        let given =
            s.read_from(&curve::byte_table(points, kind), &curve::samples(points, kind, 256));
        assert_eq!(given, s.values, "{}", s.name);
    }
}

#[test]
fn the_engine_gives_the_numbers_of_the_page() {
    for s in statements() {
        let (mut bytes, mut samples) = ([0; 256], [0.0; 256]);
        tone::table(&s.question.points, s.question.numbers, &mut bytes).unwrap();
        tone::fine_table(&s.question.points, s.question.numbers, &mut samples).unwrap();
        assert_eq!(s.read_from(&bytes, &samples), s.values, "{}", s.name);
    }
}
