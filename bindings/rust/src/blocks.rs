//! The blocks that a record is made of, and their checks.

pub(crate) const BLOCK: usize = 512;
/// What of a block its check is made of.
const CHECKED: usize = 508;

/// Stores each block's check.
pub(crate) fn seal(record: &mut [u8]) {
    for (number, block) in record.chunks_exact_mut(BLOCK).enumerate() {
        let (a, b) = check(number, &block[..CHECKED]);
        block[CHECKED..CHECKED + 2].copy_from_slice(&a.to_le_bytes());
        block[CHECKED + 2..].copy_from_slice(&b.to_le_bytes());
    }
}

/// A and B of a block.
fn check(number: usize, words: &[u8]) -> (u16, u16) {
    let (mut a, mut b) = (number as u32 + 1, 0);
    for word in words.chunks_exact(2) {
        a = (a + u32::from(word[0]) + 256 * u32::from(word[1])) % 65521;
        b = (b + a) % 65521;
    }
    (a as u16, b as u16)
}
