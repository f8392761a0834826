//! Times of the port beside those of the Rust original, in one process.
//!
//! `cargo run --release --bin bench -- --rounds 400 --lists 256 --picture-rounds 40`: a line a
//! case. Port and original take turns on the same inputs, in short blocks; the best block of each
//! counts. A ratio is the port's time over the original's. `--only tables`, `lookups`, `pictures`
//! or `records` leaves the others out.
//!
//! Tables: both start from a given list, which for the original means `Curve::new` and then the
//! table. The last columns have the original's table alone, from a curve made before. A block goes
//! through so many lists. With few (16), the processor learns their branches by heart; a guide
//! builds a list once, so 256 is the rule. Points are at levels, and each side gets them as it
//! takes them: the port in three bytes a point. The original runs with the root in place of `powf`,
//! as it is compared; the two kinds that call `powf` are timed as published too.
//!
//! Pictures: the one-table call tones the plane where it stands. In the set call both build their
//! tables within the call, the port from a record, the original from a set made before; the port
//! fills outputs that are there, the original allocates and zeroes its own, as it does for every
//! caller, and drops them. The last columns have `memcpy` of the same bytes, the floor: into memory
//! that is there, and into fresh memory, which shows what the allocation takes.
//!
//! Records have no original: the port's times alone.
#[cfg(original)]
mod clock;
#[cfg(original)]
mod pictures;
#[cfg(original)]
mod records;
#[cfg(original)]
mod tables;

#[cfg(not(original))]
fn main() {
    eprintln!("the original's text is not at hand: name its folder by TONE_ORIGINAL");
    std::process::exit(2);
}

#[cfg(original)]
fn main() {
    use tone::trial::{option, word, Random};

    let rounds = option("--rounds", 400);
    let lists = option("--lists", 256) as usize;
    let picture_rounds = option("--picture-rounds", 40);
    let mut random = Random::new(option("--seed", 1));
    let only = word("--only");
    let wanted = |name: &str| only.as_ref().is_none_or(|w| w == name);
    if wanted("tables") {
        tables::all(rounds, lists, &mut random);
    }
    if wanted("lookups") {
        tables::lookups(rounds / 4, &mut random);
    }
    if wanted("pictures") {
        pictures::all(picture_rounds, &mut random);
    }
    if wanted("records") {
        records::all(rounds, lists, &mut random);
    }
}
