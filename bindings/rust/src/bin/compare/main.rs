//! Compares the port with the Rust original on random inputs, bit for bit; all NaN count as equal.
//! The original has whole heights only: with finer ones the port is compared with a second reading
//! of documents 01 and 02 (`model`), which itself is compared with the original on whole ones.
//!
//! `cargo run --release --bin compare -- --seed 1 --seconds 60`: a line for each section, the
//! totals, the refusals by number, and the count of differences last; exit code 1 if there are any.
//! The seconds are shared by the sections of random inputs. Before these come all records of up to
//! three bytes, every slope, every height, pairs of extreme heights and the largest pictures, some
//! ten seconds more; `--quick`, for a run under valgrind, has records of up to two bytes and leaves
//! slopes, heights and pictures out.
//!
//! `cargo run --release --bin compare -- --exhaustive`: the straight segments instead, each width
//! with each pair of ends, a minute or two.
//!
//! Where else the original has nothing to compare with, records and the checks before a call's
//! work, the answer expected is the model's too. Tables of finer heights are also held to what
//! document 02 says of their bytes. Every slice is lent with canaries around it, and a refused call
//! must leave all that it was lent as it was.
//!
//! "Runs beside the Rust name the kind in full": the original is told each kind, for its default is
//! another, and a record that is compared with it names its kind. Records that leave theirs out are
//! compared with the model and with the engine's own tables.
#[cfg(original)]
mod finer;
#[cfg(original)]
mod pictures;
#[cfg(original)]
mod records;
#[cfg(original)]
mod run;
#[cfg(original)]
mod segments;
#[cfg(original)]
mod tables;

#[cfg(not(original))]
fn main() {
    eprintln!("the original's text is not at hand: name its folder by TONE_ORIGINAL");
    std::process::exit(2);
}

#[cfg(original)]
fn main() {
    run::main();
}
