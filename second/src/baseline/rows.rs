//! Sets of events as rows of six words, whatever the edition: a width that is known lets every loop unroll.

pub const WORDS: usize = 6;
pub const ROWS: usize = 64 * WORDS;

pub type Row = [u64; WORDS];

pub const EMPTY: Row = [0; WORDS];

#[inline]
pub fn has(row: &Row, event: usize) -> bool {
    row[event >> 6] >> (event & 63) & 1 == 1
}

#[inline]
pub fn add(row: &mut Row, event: usize) {
    row[event >> 6] |= 1 << (event & 63);
}

#[inline]
pub fn remove(row: &mut Row, event: usize) {
    row[event >> 6] &= !(1 << (event & 63));
}

#[inline]
fn each_word(a: &Row, b: &Row, word: impl Fn(u64, u64) -> u64) -> Row {
    std::array::from_fn(|at| word(a[at], b[at]))
}

#[inline]
pub fn union(a: &Row, b: &Row) -> Row {
    each_word(a, b, |a, b| a | b)
}

#[inline]
pub fn both(a: &Row, b: &Row) -> Row {
    each_word(a, b, |a, b| a & b)
}

#[inline]
pub fn minus(a: &Row, b: &Row) -> Row {
    each_word(a, b, |a, b| a & !b)
}

#[inline]
pub fn differ(a: &Row, b: &Row) -> Row {
    each_word(a, b, |a, b| a ^ b)
}

#[inline]
pub fn is_empty(row: &Row) -> bool {
    row.iter().fold(0, |all, word| all | word) == 0
}

#[inline]
pub fn lowest(row: &Row) -> Option<usize> {
    let word = row.iter().position(|&word| word != 0)?;
    Some(64 * word + row[word].trailing_zeros() as usize)
}

#[inline]
pub fn highest(row: &Row) -> Option<usize> {
    let word = row.iter().rposition(|&word| word != 0)?;
    Some(64 * word + 63 - row[word].leading_zeros() as usize)
}

/// Takes the events of a row one by one, lowest first.
#[inline]
pub fn each(row: &Row, mut take: impl FnMut(usize)) {
    if is_empty(row) {
        return;
    }
    for (at, &word) in row.iter().enumerate() {
        let mut rest = word;
        while rest != 0 {
            take(64 * at + rest.trailing_zeros() as usize);
            rest &= rest - 1;
        }
    }
}

/// The lowest event of a row that fits.
#[inline]
pub fn first(row: &Row, fits: impl Fn(usize) -> bool) -> Option<usize> {
    let mut rest = *row;
    while let Some(event) = lowest(&rest) {
        if fits(event) {
            return Some(event);
        }
        remove(&mut rest, event);
    }
    None
}

/// The events 0 to n - 1.
pub fn below(n: usize) -> Row {
    std::array::from_fn(|word| match n.saturating_sub(64 * word) {
        0 => 0,
        in_word if in_word >= 64 => u64::MAX,
        in_word => (1 << in_word) - 1,
    })
}

pub fn count(row: &Row) -> u32 {
    row.iter().map(|word| word.count_ones()).sum()
}
