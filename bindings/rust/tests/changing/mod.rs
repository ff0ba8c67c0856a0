//! Records with some fields of their events changed.

use crate::sealing::sealed;

/// The record with the 8 bytes from `at` on in an event's slot changed to this number.
pub fn changed(record: &[u8], changes: &[(usize, usize, u64)]) -> Vec<u8> {
    let mut record = record.to_vec();
    for &(event, at, number) in changes {
        let slot = slot(&record, event);
        record[slot + at..][..8].copy_from_slice(&number.to_le_bytes());
    }
    sealed(record)
}

/// Where an event's slot begins, which goes by the record's edition.
fn slot(record: &[u8], event: usize) -> usize {
    let (bytes, in_a_block) = if record.starts_with(b"GCR3") { (80, 6) } else { (64, 7) };
    512 * (1 + event / in_a_block) + bytes * (event % in_a_block)
}
