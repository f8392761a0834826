//! The page of finer heights, `Fine.antt` of the crate `examples`, whose numbers are proved of the
//! engine's definitions. The original has no such lists: the model gives the numbers, and so does
//! the engine that was built.
use tone::model::curve;
use tone::trial::{Page, Statement};
use tone::Kind;

fn statements() -> Vec<Statement> {
    Page::Fine.statements()
}

/// A statement that was passed over would show nothing, and one of levels alone nothing new. Each
/// kind has entries and a sample.
#[test]
fn the_page_is_read_whole() {
    let page = include_str!("../../../crates/examples/specs/Fine.antt");
    assert_eq!(statements().len(), page.lines().filter(|l| l.starts_with("pub ")).count());
    assert_eq!(statements().len(), page.lines().filter(|l| l.ends_with(" = refl")).count());
    assert!(statements().iter().all(|s| !s.question.is_whole()));
    for (number, name) in (0..).zip(Kind::NAMES) {
        for of_bits in [false, true] {
            let of_it = |s: &Statement| s.question.numbers.number == number && s.of_bits == of_bits;
            assert!(statements().iter().any(of_it), "{name}");
        }
    }
}

#[test]
fn the_model_gives_the_numbers_of_the_page() {
    for s in statements() {
        let (points, kind) = (&s.question.points[..], s.question.kind());
        let given =
            s.read_from(&curve::byte_table(points, kind), &curve::samples(points, kind, 256));
        assert_eq!(given, s.values, "{}: the model has {given:x?}", s.name);
    }
}

#[test]
fn the_engine_gives_the_numbers_of_the_page() {
    for s in statements() {
        let (mut bytes, mut samples) = ([0; 256], [0.0; 256]);
        tone::table(&s.question.points, s.question.numbers, &mut bytes).unwrap();
        tone::fine_table(&s.question.points, s.question.numbers, &mut samples).unwrap();
        assert_eq!(s.read_from(&bytes, &samples), s.values, "{}", s.name);
    }
}
