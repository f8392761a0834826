//! The reader of the pages that `kinds.rs` and `fine.rs` ask about: lines may be wrapped, and no
//! statement of another form is passed over.
use std::panic::catch_unwind;
use tone::trial::{statements_of, Statement};
use tone::{Kind, Point};

const PAGE: &str = "\
abbrev places : List ℕ
places = 1 ∷ 2 ∷ []

pub name : entries (Cardinal 3) (at_level 4 5 ∷ pt 6 7 ∷ []) places ≡ 8 ∷ 9 ∷ []
unfolding Computed.entry
name = refl
";

/// A part of the page in other words.
fn changed(old: &str, new: &str) -> String {
    assert_eq!(PAGE.matches(old).count(), 1, "{old}");
    PAGE.replace(old, new)
}

#[test]
fn lines_may_be_wrapped() {
    let read = statements_of(PAGE);
    let [Statement { name, question, places, of_bits, values }] = &read[..] else { panic!() };
    assert_eq!(question.points, [Point { x: 4, height: 1280 }, Point { x: 6, height: 7 }]);
    assert_eq!(question.kind(), Kind::Cardinal { tension: 3 });
    assert_eq!(
        (&**name, &**places, of_bits, &**values),
        ("name", &[1, 2][..], &false, &[8, 9][..])
    );
    for (old, new) in [
        ("name : ", "name\n    : "),
        ("name : ", "name :\n    "),
        (" ≡", "\n    ≡"),
        ("∷ pt", "∷\n      pt"),
        ("places = ", "places =\n    "),
        ("places = ", "places\n    = "),
        ("2 ∷ []", "2\n    ∷ []"),
        ("pub", "-- pub other : said\npub"),
    ] {
        assert_eq!(statements_of(&changed(old, new)), read, "{new}");
    }
}

#[test]
fn nothing_else_is_read() {
    for (old, new) in [
        ("entries", "samples"),
        ("(Cardinal 3)", "Cardinal"),
        ("Cardinal", "Cardinals"),
        ("at_level", "point"),
        ("at_level 4 5", "at_level 4 256"),
        ("at_level 4 5", "at_level 4"),
        ("pt 6 7", "pt 6 65536"),
        ("pt 6 7", "pt 256 7"),
        ("places ≡", "others ≡"),
        ("≡", "≢"),
        ("8 ∷ 9", "8"),
        ("9 ∷ []", "9 ∷ [] ∷"),
        ("unfolding", "opening"),
        ("refl", "proved"),
        ("name = refl", "other = refl"),
        ("name = refl", ""),
    ] {
        let page = changed(old, new);
        assert!(catch_unwind(|| statements_of(&page)).is_err(), "{new}");
    }
}
