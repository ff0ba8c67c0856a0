//! Rehearses the script in a file, which begins with the number of sites and the openings as `rehearse` reads them, and
//! prints where the copies of its puts are; exits with 0 done, 2 refused, 3 where the file can't be read or the line
//! can't be written.

mod on_file;

use gcr::{answers, rehearse_raw, Answer, OPENINGS_BYTES, RECORD_MOST};
use std::process::ExitCode;

/// puts × other sites = by deliveries + by closes + outstanding.
#[derive(Default)]
struct Copies {
    puts: u64,
    by_deliveries: u64,
    by_closes: u64,
    /// No term. They are told so that a script of which little was done does not look like one with little to deliver.
    refused_calls: u64,
}

impl Copies {
    fn count(&mut self, answer: Answer) {
        match answer {
            Answer::Put { .. } => self.puts += 1,
            Answer::Delivered => self.by_deliveries += 1,
            Answer::Closed { copies } => self.by_closes += u64::from(copies),
            Answer::Refused(_) => self.refused_calls += 1,
            _ => (), // a get, or a later kind that moves no copy
        }
    }
}

/// The parts of a file: the number of sites, the openings and the script. Missing bytes are 0.
fn parts(input: &[u8]) -> (u32, [u8; OPENINGS_BYTES], &[u8]) {
    let (sites, rest) = input.split_first().map_or((0, input), |(&sites, rest)| (u32::from(sites), rest));
    let (given, script) = rest.split_at(rest.len().min(OPENINGS_BYTES));
    let mut openings = [0; OPENINGS_BYTES];
    openings[..given.len()].copy_from_slice(given);
    (sites, openings, script)
}

/// The line of the script's copies, and the exit status that goes with it.
fn told(input: &[u8]) -> (String, u8) {
    let (sites, openings, script) = parts(input);
    let mut buffer = vec![0; script.len()];
    let done = match rehearse_raw(sites, &openings, script, &mut [0; RECORD_MOST], &mut buffer) {
        Ok(done) => done,
        Err(refusal) => return (format!("refused {}", refusal.number), 2),
    };
    let mut copies = Copies::default();
    answers(script, &buffer).for_each(|answer| copies.count(answer));
    let Copies { puts, by_deliveries, by_closes, refused_calls } = copies;
    let (others, outstanding) = (sites - 1, done.outstanding);
    let came = format!("{by_deliveries} by deliveries + {by_closes} by closes");
    let refused = if refused_calls == 0 { String::new() } else { format!("; calls refused: {refused_calls}") };
    (format!("{puts} puts x {others} other sites = {came} + {outstanding} outstanding{refused}"), 0)
}

fn main() -> ExitCode {
    on_file::host("copies_file SCRIPT", told)
}
