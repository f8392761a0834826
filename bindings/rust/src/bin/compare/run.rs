//! A run: its sections, what it has counted, and how it judges an answer.
use super::{finer, pictures, records, segments, tables};
use std::env;
use std::fmt::Debug;
use std::process::exit;
use std::time::{Duration, Instant};
use tone::model::checks::Answer;
use tone::trial::{grouped, option, Element, Lent, Question, Random};
use tone::Refusal;

/// What was compared so far.
#[derive(Clone, Copy, Default)]
pub struct Tally {
    pub calls: u64,
    pub unsorted: u64,
    pub entries: u64,
    pub samples: u64,
    pub lookups: u64,
    pub picture_bytes: u64,
    pub records: u64,
    /// Entries and samples of the model that were held to the original's.
    pub modelled: u64,
    /// Tables of finer heights, which were held to the model's.
    pub finer_tables: u64,
    pub finer_entries: u64,
    pub finer_samples: u64,
    /// Entries of theirs at the x of a kept point, entries near the exact broken line, and tables
    /// that never fall.
    pub at_points: u64,
    pub near_lines: u64,
    pub in_order: u64,
    /// Accepted pictures on which the original would panic.
    pub beyond: u64,
    /// By their numbers.
    pub refusals: [u64; 32],
    pub differences: u64,
}

/// The state of a run.
pub struct Trial {
    pub random: Random,
    pub tally: Tally,
}

/// A section's name, its share of the time, and what it does again and again.
type Section = (&'static str, u32, fn(&mut Trial));

const SECTIONS: [Section; 14] = [
    ("byte tables", 3, tables::byte_table),
    ("fine tables of 256", 1, |t| tables::fine_table(t, 256)),
    ("fine tables of 4,096", 2, |t| tables::fine_table(t, 4096)),
    ("lookups", 1, tables::lookups),
    ("tables and lookups, some refused", 1, tables::refused),
    ("the model beside the original", 2, finer::model),
    ("finer heights, byte tables", 3, finer::byte_table),
    ("finer heights, fine tables of 256", 1, |t| finer::fine_table(t, 256)),
    ("finer heights, fine tables of 4,096", 2, |t| finer::fine_table(t, 4096)),
    ("finer heights, some refused", 2, finer::refused),
    ("pictures by one table", 3, pictures::one_table),
    ("pictures by a set", 4, pictures::by_set),
    ("pictures, some refused", 2, pictures::refused),
    ("records", 3, records::any),
];

pub fn main() {
    let mut trial = Trial { random: Random::new(option("--seed", 1)), tally: Tally::default() };
    let asked = |name: &str| env::args().any(|word| word == name);
    if asked("--exhaustive") {
        trial.section("straight segments", segments::all);
    } else {
        trial.all_sections(asked("--quick"), option("--seconds", 60));
    }
    trial.conclude();
}

impl Trial {
    /// The sections that have an end, then the others, which share the time.
    fn all_sections(&mut self, quick: bool, seconds: u64) {
        let most = if quick { 2 } else { 3 };
        self.section(&format!("all records of up to {most} bytes"), |t| records::short(t, most));
        if !quick {
            self.section("tables of every slope", tables::every_slope);
            self.section("tables of every height", finer::every_height);
            self.section("tables of extreme heights", finer::extremes);
            self.section("pictures at the limits", pictures::at_the_limits);
        }
        let shares: u32 = SECTIONS.iter().map(|s| s.1).sum();
        for (name, share, work) in SECTIONS {
            let time = Duration::from_secs(seconds) * share / shares;
            self.section(name, |t| {
                let start = Instant::now();
                while start.elapsed() < time {
                    work(t);
                }
            });
        }
    }

    fn section(&mut self, name: &str, work: impl FnOnce(&mut Trial)) {
        let before = self.tally;
        work(self);
        println!("{name}: {}", since(before, self.tally));
    }

    fn conclude(self) {
        println!("all, seed {}: {}", option("--seed", 1), since(Tally::default(), self.tally));
        let count = |number: u8| grouped(self.tally.refusals[usize::from(number)]);
        let refusals = Refusal::all().map(Refusal::number).map(|n| format!("{n}: {}", count(n)));
        println!("refusals by number: {}", refusals.join(", "));
        println!("{} differences", grouped(self.tally.differences));
        if self.tally.differences > 0 {
            exit(1);
        }
    }

    /// A table to build of points at levels.
    pub fn question(&mut self) -> Question {
        let question = Question::random(&mut self.random);
        self.tally.unsorted += u64::from(!question.rises());
        question
    }

    /// A table to build of points at any height.
    pub fn finer_question(&mut self) -> Question {
        let question = Question::finer(&mut self.random);
        self.tally.unsorted += u64::from(!question.rises());
        question
    }

    /// Counts a call, and says so where its answer is not the one expected.
    pub fn answered(&mut self, answer: Answer, expected: Answer, what: &dyn Debug) {
        self.tally.calls += 1;
        if let Err(refusal) = expected {
            self.tally.refusals[usize::from(refusal.number())] += 1;
        }
        if answer != expected {
            self.differ(&format_args!("answered {answer:?}, not {expected:?}: {what:?}"));
        }
    }

    /// Counts the places where two rows differ.
    pub fn same<T: Element + Debug>(&mut self, port: &[T], original: &[T], what: &dyn Debug) {
        if port.len() != original.len() {
            self.differ(&format_args!(
                "{} elements here, {} there: {what:?}",
                port.len(),
                original.len()
            ));
        }
        for (i, (a, b)) in port.iter().zip(original).enumerate() {
            if a.bits() != b.bits() && !(a.is_nan() && b.is_nan()) {
                self.differ(&format_args!("place {i}: {a:?} here, {b:?} there: {what:?}"));
            }
        }
    }

    /// Counts what changed outside the first `written` elements.
    pub fn kept<T: Element>(&mut self, lent: &Lent<T>, written: usize, what: &dyn Debug) {
        let strayed = lent.strayed(written);
        if strayed > 0 {
            self.differ(&format_args!("{strayed} elements changed that should not: {what:?}"));
        }
    }

    pub fn differ(&mut self, what: &dyn Debug) {
        if self.tally.differences < 10 {
            println!("difference: {what:?}");
        }
        self.tally.differences += 1;
    }
}

fn since(a: Tally, b: Tally) -> String {
    let refusals = |t: Tally| t.refusals.iter().sum::<u64>();
    let counts = [
        (b.calls - a.calls, "calls"),
        (b.unsorted - a.unsorted, "lists not rising"),
        (b.entries - a.entries, "byte entries"),
        (b.samples - a.samples, "fine samples"),
        (b.lookups - a.lookups, "lookups"),
        (b.picture_bytes - a.picture_bytes, "picture bytes"),
        (b.records - a.records, "records"),
        (b.modelled - a.modelled, "entries and samples of the model"),
        (b.finer_tables - a.finer_tables, "tables of finer heights"),
        (b.finer_entries - a.finer_entries, "their byte entries"),
        (b.finer_samples - a.finer_samples, "their fine samples"),
        (b.at_points - a.at_points, "bytes at a point's x"),
        (b.near_lines - a.near_lines, "bytes near the line"),
        (b.in_order - a.in_order, "tables in order"),
        (b.beyond - a.beyond, "where the original panics"),
        (refusals(b) - refusals(a), "refusals"),
    ];
    let seen = counts.iter().filter(|c| c.0 > 0).map(|c| format!("{} {}, ", grouped(c.0), c.1));
    seen.collect::<String>() + &format!("{} differences", grouped(b.differences - a.differences))
}
