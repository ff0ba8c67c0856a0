//! The order in which people put names: `rec-2` before `rec-10`.

use std::cmp::Ordering;
use std::ffi::OsStr;
use std::os::unix::ffi::OsStrExt;

/// Runs of digits go by their numbers and all else by bytes; where that makes no difference, as of `1` and `01`, bytes
/// alone decide.
pub fn order(one: &OsStr, other: &OsStr) -> Ordering {
    let (one, other) = (one.as_bytes(), other.as_bytes());
    parts(one).cmp(parts(other)).then_with(|| one.cmp(other))
}

/// Of a number, which stands where its digits would, the length and the digits; of all else a byte.
type Part<'a> = (u8, usize, &'a [u8]);

fn parts(name: &[u8]) -> impl Iterator<Item = Part<'_>> {
    name.chunk_by(|one, next| one.is_ascii_digit() && next.is_ascii_digit()).map(part)
}

fn part(run: &[u8]) -> Part<'_> {
    match run[0].is_ascii_digit() {
        true => {
            let zeros = run.iter().take_while(|&&digit| digit == b'0').count();
            (b'0', run.len() - zeros, &run[zeros..])
        }
        false => (run[0], 0, &[]),
    }
}

#[cfg(test)]
mod tests {
    use super::*;

    #[test]
    fn numbers_in_names_count_as_numbers() {
        let due = "-2 -10 0 00 01 1 1-1 1a 2 9 10 10-2 10-10 010-11 a a.gcr a1 a2.gcr a10 \
                   a99999999999999999999998 a99999999999999999999999 b";
        let due: Vec<&str> = due.split(' ').collect();
        let mut names = due.clone();
        names.reverse();
        names.sort_by(|one, other| order(one.as_ref(), other.as_ref()));
        assert_eq!(names, due);
    }

    #[test]
    fn no_two_names_are_the_same() {
        assert_eq!(order("a01b2".as_ref(), "a1b02".as_ref()), Ordering::Less);
        assert_eq!(order("a1".as_ref(), "a1".as_ref()), Ordering::Equal);
    }
}
