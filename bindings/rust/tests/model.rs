//! The model of the record: what it writes reads back as the same set.
use tone::model::record::{read, write};
use tone::trial::{any_set, full_record, legal_record, Random};

#[test]
fn what_was_written_reads_back() {
    let mut random = Random::new(9);
    for _ in 0..2000 {
        let set = any_set(&mut random);
        assert_eq!(read(&write(&set)).as_ref(), Ok(&set));
        assert_eq!(read(&legal_record(&set, &mut random)).as_ref(), Ok(&set));
        assert_eq!(read(&full_record(&set, &mut random)).as_ref(), Ok(&set));
    }
}
