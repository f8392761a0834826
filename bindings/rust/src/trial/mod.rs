//! What the programs beside the library share: random questions, lent memory with
//! canaries around it, options.
use std::env;

mod lent;
mod lists;
mod page;
mod pictures;
mod random;
mod records;
mod vectors;

pub use lent::{Element, Lent};
pub use lists::{
    any_finer_list, any_list, distinct, height, kind, never_falling, rising_list, Question,
    EXTREME_HEIGHTS,
};
pub use page::{statements_of, Page, Statement};
pub use pictures::{damaged, shape, Contents};
pub use random::Random;
pub use records::{any_record, any_set, full_record, in_full, legal_record};
pub use vectors::{refused_vectors, Vector, FINE_SAMPLES, VECTORS};

/// The word after an option of the command line.
pub fn word(name: &str) -> Option<String> {
    env::args().skip_while(|w| w != name).nth(1)
}

/// The number after an option of the command line, or another.
pub fn option(name: &str, otherwise: u64) -> u64 {
    match word(name) {
        Some(word) => word.parse().unwrap_or_else(|_| panic!("{name} {word}: not a number")),
        None => otherwise,
    }
}

/// A number with commas: 1,234,567.
pub fn grouped(n: u64) -> String {
    let digits = n.to_string();
    let mut text = String::new();
    for (i, c) in digits.chars().enumerate() {
        if i > 0 && (digits.len() - i).is_multiple_of(3) {
            text.push(',');
        }
        text.push(c);
    }
    text
}
