//! The paper's form of a script: a byte for the sites, the openings, and the calls.

use super::script::Script;
use gcr::{OPENINGS_BYTES, SCRIPT_MOST};

/// The bytes of the longest script in this form.
pub const MOST: usize = 1 + OPENINGS_BYTES + SCRIPT_MOST;

/// Missing bytes are 0, as the program `rehearse` reads them.
pub fn read(input: &[u8]) -> Script {
    let (sites, rest) = input.split_first().unwrap_or((&0, &[]));
    let (given, calls) = rest.split_at(rest.len().min(OPENINGS_BYTES));
    let mut openings = [0; OPENINGS_BYTES];
    openings[..given.len()].copy_from_slice(given);
    Script { sites: *sites, openings, calls: calls.to_vec() }
}

pub fn written(script: &Script) -> Vec<u8> {
    [&[script.sites], script.openings.as_slice(), &script.calls].concat()
}

#[cfg(test)]
mod tests {
    use super::*;

    #[test]
    fn missing_bytes_are_zero() {
        let none = Script { sites: 0, openings: [0; OPENINGS_BYTES], calls: Vec::new() };
        assert_eq!(read(&[]), none);
        assert_eq!(read(&[3]), Script { sites: 3, ..none.clone() });
        let mut openings = [0; OPENINGS_BYTES];
        (openings[0], openings[4]) = (1, 7);
        assert_eq!(read(&[3, 1, 0, 0, 0, 7]), Script { sites: 3, openings, ..none });
    }

    #[test]
    fn calls_are_what_is_left_also_where_it_is_no_whole_call() {
        let mut input = vec![2; 1 + OPENINGS_BYTES];
        input.extend([4, 0, 9]);
        assert_eq!(read(&input).calls, [4, 0, 9]);
        assert_eq!(written(&read(&input)), input);
    }
}
