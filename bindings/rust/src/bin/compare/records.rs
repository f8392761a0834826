//! Records beside the model, and the tables of those that name their kind beside the original's.
use super::run::Trial;
use tone::boundary::tone_record_copy;
use tone::model::checks::{self, Answer};
use tone::model::record::{self, Set};
use tone::original::curves;
use tone::trial::{any_record, Lent};
use tone::Refusal;

/// A record of any kind, good or damaged, with room or without.
pub fn any(t: &mut Trial) {
    let record = any_record(&mut t.random);
    let read = record::read(&record);
    let room = if t.random.once_in(4) { t.random.below(300) } else { 256 + t.random.below(3) };
    table(t, &record, &read, room);
    let length = rewritten(&read).len();
    let room = match t.random.below(4) {
        0 => t.random.below(length + 1),
        1 => length.saturating_sub(1),
        2 => length,
        _ => length + t.random.below(40),
    };
    copy(t, &record, &read, room);
    t.tally.records += 1;
}

/// Every record of up to so many bytes. Few are accepted, so all but the
/// accepted share one set of loans.
pub fn short(t: &mut Trial, most: usize) {
    let mut walk = Walk::new();
    for length in 0..=most {
        for bits in 0..1u32 << (8 * length) {
            // the first byte is the highest
            let bytes = bits.to_be_bytes();
            let record = &bytes[4 - length..];
            let read = record::read(record);
            match read {
                Ok(_) => accepted(t, record, &read),
                Err(refusal) => walk.refused(t, record, refusal),
            }
        }
    }
    walk.end(t);
}

/// An accepted record with just the room that it needs, and with a byte less.
fn accepted(t: &mut Trial, record: &[u8], read: &Result<Set, Refusal>) {
    t.tally.records += 1;
    let length = rewritten(read).len();
    for less in [0, 1] {
        table(t, record, read, 256 - less);
        copy(t, record, read, length - less);
    }
}

/// What the writer makes of a set, or nothing for a refusal.
fn rewritten(read: &Result<Set, Refusal>) -> Vec<u8> {
    read.as_ref().map(record::write).unwrap_or_default()
}

fn answer_of(read: &Result<Set, Refusal>) -> Answer {
    read.as_ref().map(|_| ()).map_err(|refusal| *refusal)
}

fn table(t: &mut Trial, record: &[u8], read: &Result<Set, Refusal>, room: usize) {
    let expected = answer_of(read).and(checks::table_room(room));
    let mut lent = Lent::new(record);
    let mut table = Lent::new(&vec![t.random.byte(); room]);
    let answer = tone::record_table(lent.lend(), table.lend());
    t.answered(answer, expected, &record);
    t.kept(&lent, 0, &record);
    match read {
        Ok(set) if expected.is_ok() => {
            let named = record::stands(record[0], 4);
            let made = if named { original(t, set) } else { engines(set) };
            t.same(&table.now()[..256], &made, &record);
            t.kept(&table, 256, &record);
        }
        _ => t.kept(&table, 0, &record),
    }
}

/// "Runs beside the Rust name the kind in full."
fn original(t: &mut Trial, set: &Set) -> [u8; 256] {
    t.tally.entries += 256;
    curves::byte_table(&curves::curve(&set.master), set.kind)
}

/// The engine's table of a list and a kind, which other sections hold to the original's.
fn engines(set: &Set) -> [u8; 256] {
    let mut table = [0; 256];
    tone::table(&set.master, set.kind, &mut table).expect("a legal list");
    table
}

fn copy(t: &mut Trial, record: &[u8], read: &Result<Set, Refusal>, room: usize) {
    let rewritten = rewritten(read);
    let fits = if room < rewritten.len() { Err(Refusal::OutputTooSmall) } else { Ok(()) };
    let expected = answer_of(read).and(fits);
    let mut lent = Lent::new(record);
    let mut out = Lent::new(&t.random.bytes(room));
    let before = t.random.bits() as usize;
    let (answer, length) = copied(lent.lend(), out.lend(), before);
    t.answered(answer, expected, &record);
    t.kept(&lent, 0, &record);
    let written = if expected.is_ok() { rewritten.len() } else { 0 };
    t.kept(&out, written, &record);
    t.same(&out.now()[..written], &rewritten[..written], &record);
    if length != if expected.is_ok() { written } else { before } {
        t.differ(&format_args!("{length} for the length written: {record:?}"));
    }
}

/// The call with a length that stands there before: a refusal must leave it.
fn copied(record: &[u8], out: &mut [u8], before: usize) -> (Answer, usize) {
    let mut written = before;
    // SAFETY: both slices pass as their pointer and length, the length as its pointer.
    let answer = unsafe {
        tone_record_copy(record.as_ptr(), record.len(), out.as_mut_ptr(), out.len(), &mut written)
    };
    (Refusal::check(answer), written)
}

/// Loans for calls that are refused, so that nothing may change: outputs are looked at from
/// time to time and at the end.
struct Walk {
    /// A record between canaries.
    record: [u8; 24],
    table: Lent<u8>,
    out: Lent<u8>,
    calls: u64,
}

impl Walk {
    fn new() -> Walk {
        Walk {
            record: [0xA5; 24],
            table: Lent::new(&[7; 256]),
            out: Lent::new(&[7; tone::LONGEST_RECORD]),
            calls: 0,
        }
    }

    fn refused(&mut self, t: &mut Trial, record: &[u8], refusal: Refusal) {
        const BEFORE: usize = 0x5EED;
        t.tally.records += 1;
        let part = 8..8 + record.len();
        self.record[part.clone()].copy_from_slice(record);
        let lent = self.record;
        let answer = tone::record_table(&lent[part.clone()], self.table.lend());
        t.answered(answer, Err(refusal), &record);
        let (answer, length) = copied(&lent[part], self.out.lend(), BEFORE);
        t.answered(answer, Err(refusal), &record);
        if length != BEFORE || lent != self.record {
            t.differ(&format_args!(
                "{length} for the length written, or the record changed: {record:?}"
            ));
        }
        self.calls += 1;
        if self.calls.is_multiple_of(1 << 16) {
            self.end(t);
        }
    }

    fn end(&self, t: &mut Trial) {
        t.kept(&self.table, 0, &"a record of the walk");
        t.kept(&self.out, 0, &"a record of the walk");
    }
}
