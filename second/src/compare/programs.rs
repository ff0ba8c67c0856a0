//! The programs: what they write for an input on standard input.

use super::tally::{Case, Tally};
use super::{answered, harvest, must_occur, opened, Seeds};
use crate::generate::{self, scripts, sweeps, Sample};
use crate::lines::{RehearsalInput, NOT_SHOWN};
use crate::models::answers;
use crate::questions::ask;
use crate::record::Record;
use crate::{lines, samples};
use std::io::{self, Read, Write};
use std::path::Path;
use std::process::{ChildStdin, ChildStdout, Command, Stdio};
use std::sync::mpsc::{channel, Receiver};
use std::thread;
use std::time::Duration;

/// How long one program may take for one input.
const PATIENCE: Duration = Duration::from_secs(20);

/// What a program should write for its input; the answers that stand behind it are counted.
type Due = fn(&[u8], &mut Tally) -> Vec<u8>;

const LENGTHS: [usize; 9] = [0, 1, 511, 512, 19_456, 19_968, 33_280, 33_792, 200_000];

pub fn inspect(program: &Path, seeds: &Seeds, tally: &mut Tally) {
    tally.occurrences.must(must_occur::INSPECT);
    tally.occurrences.must(must_occur::EDITIONS);
    records(program, inspect_due, seeds, tally);
}

pub fn verdict(program: &Path, seeds: &Seeds, tally: &mut Tally) {
    tally.occurrences.must(must_occur::VERDICT);
    tally.occurrences.must(must_occur::EDITIONS);
    tally.occurrences.must(must_occur::LATE_BREAKS);
    tally.occurrences.must(must_occur::READS);
    tally.occurrences.must(must_occur::CLOCKS);
    tally.occurrences.must(must_occur::RETURNS);
    records(program, verdict_due, seeds, tally);
}

pub fn rehearse(program: &Path, seeds: &Seeds, tally: &mut Tally) {
    tally.occurrences.must(must_occur::REHEARSE);
    tally.occurrences.must(must_occur::STORE_OPENINGS);
    tally.occurrences.must(must_occur::STORE_EVENTS);
    tally.occurrences.must(must_occur::CALLS);
    one(program, rehearse_due, "empty".to_string(), &[], tally);
    for sites in 0..=10 {
        one(program, rehearse_due, format!("sites-{sites}"), &[sites], tally);
        let long = vec![sites; 200_001];
        one(program, rehearse_due, format!("long-{sites}"), &long, tally);
    }
    for (name, input) in sweeps::program_inputs() {
        one(program, rehearse_due, name, &input, tally);
    }
    seeds.each(tally, |seed, tally| {
        one(program, rehearse_due, seed.to_string(), &scripts::program_input(seed), tally);
    });
}

/// What `lattice` takes for no record's number; then it writes nothing.
const NO_RECORDS: [&[&str]; 7] = [&["0"], &["9"], &[""], &["12"], &["x"], &["01"], &["1", "2"]];

/// The program takes no input. No line may say that nothing keeps two models apart. With a record's number it writes that
/// record, which is the file.
pub fn lattice(program: &Path, tally: &mut Tally) {
    let due = lines::lattice_of_files();
    let case = Case { name: "lattice".to_string(), input: &[] };
    let not_shown = due.lines().find(|line| line.starts_with(NOT_SHOWN));
    tally.check(&case, not_shown.is_none(), || format!("second checker {not_shown:?}"));
    writes(Command::new(program), &case, due.as_bytes(), tally);
    for (k, sample) in (1..).zip(samples::separating()) {
        lattice_of(program, &[&k.to_string()], &sample.bytes, tally);
    }
    for arguments in NO_RECORDS {
        lattice_of(program, arguments, &[], tally);
    }
}

fn lattice_of(program: &Path, arguments: &[&str], due: &[u8], tally: &mut Tally) {
    let mut command = Command::new(program);
    command.args(arguments).stderr(Stdio::null());
    let case = Case { name: format!("lattice-{}", arguments.join("-")), input: &[] };
    writes(command, &case, due, tally);
}

fn inspect_due(bytes: &[u8], tally: &mut Tally) -> Vec<u8> {
    let refusal = ask(bytes).err();
    answered::record(bytes, refusal, tally);
    lines::inspect_line(refusal).into_bytes()
}

fn verdict_due(bytes: &[u8], tally: &mut Tally) -> Vec<u8> {
    let answers = answers(bytes);
    answered::judged(bytes, &answers, tally);
    lines::verdict_lines(&answers).into_bytes()
}

/// What `rehearse` should write.
pub fn rehearse_due(input: &[u8], tally: &mut Tally) -> Vec<u8> {
    let read = RehearsalInput::read(input);
    let mut answers = vec![0; read.script.len()];
    let (number, output) = lines::rehearsal_output(&read, &mut answers);
    count_rehearsal(input, &read, number, &answers, tally);
    if number == 0 {
        let record = Record::from_bytes(&output);
        opened::reads(&record, tally);
        harvest::rehearsed(&record, tally);
    }
    output
}

fn count_rehearsal(input: &[u8], read: &RehearsalInput, number: u32, answers: &[u8], tally: &mut Tally) {
    answered::rehearsal(number, read.script, answers, tally);
    if input.len() <= read.openings.len() {
        opened::cut_short(number, tally);
    } else {
        opened::openings_given(number, &read.openings, tally);
    }
}

fn records(program: &Path, due: Due, seeds: &Seeds, tally: &mut Tally) {
    for length in LENGTHS {
        one(program, due, format!("length-{length}"), &vec![0; length], tally);
    }
    for sample in samples::records() {
        one(program, due, sample.name, &sample.bytes, tally);
    }
    let fixed =
        [sweeps::block_0_of_programs(), sweeps::harvest_of_programs(), sweeps::clocks(), sweeps::never_returned()]
            .concat();
    for (name, bytes) in fixed {
        one(program, due, name, &bytes, tally);
    }
    seeds.each(tally, |seed, tally| {
        let Sample { family, bytes } = generate::record(seed);
        one(program, due, format!("{seed}-{family}"), &bytes, tally);
    });
}

fn one(program: &Path, due: Due, name: String, input: &[u8], tally: &mut Tally) {
    let stem = program.file_stem().unwrap_or_default().to_string_lossy();
    let case = Case { name: format!("{stem}-{name}"), input };
    let due = due(input, tally);
    writes(Command::new(program), &case, &due, tally);
}

/// Compares what the program writes for the case's input with what it should.
fn writes(command: Command, case: &Case, due: &[u8], tally: &mut Tally) {
    match run(command, case.input) {
        Err(error) => tally.check(case, false, || format!("did not run to its end: {error}")),
        Ok(written) => tally.check(case, written == due, || {
            let from = differing_line(due, &written);
            format!("second checker {:?}, other {:?}", shown(due, from), shown(&written, from))
        }),
    }
}

/// Where the line begins in which two outputs first differ.
fn differing_line(due: &[u8], written: &[u8]) -> usize {
    let same = due.iter().zip(written).take_while(|(a, b)| a == b).count();
    due[..same].iter().rposition(|&byte| byte == b'\n').map_or(0, |end| end + 1)
}

/// Text as it is; no more of it than helps.
fn shown(output: &[u8], from: usize) -> String {
    let part = &output[from..output.len().min(from + 300)];
    format!("{} ({} bytes)", String::from_utf8_lossy(part), output.len())
}

/// The exit status is not compared, but an end by a signal is a failure.
fn run(mut command: Command, input: &[u8]) -> io::Result<Vec<u8>> {
    let mut child = command.stdin(Stdio::piped()).stdout(Stdio::piped()).spawn()?;
    let streams = (child.stdin.take().expect("piped"), child.stdout.take().expect("piped"));
    let output = talk(streams, input.to_vec()).recv_timeout(PATIENCE);
    if output.is_err() {
        child.kill()?;
    }
    match (output, child.wait()?.code()) {
        (Err(_), _) => Err(io::Error::other("no end in time")),
        (_, None) => Err(io::Error::other("ended by a signal")),
        (Ok(output), Some(_)) => output,
    }
}

/// Writes and reads beside the waiting thread, as either may block for good.
fn talk(streams: (ChildStdin, ChildStdout), input: Vec<u8>) -> Receiver<io::Result<Vec<u8>>> {
    let (sender, receiver) = channel();
    let (mut stdin, mut stdout) = streams;
    thread::spawn(move || {
        // A program may stop reading once its input is too long.
        let _ = stdin.write_all(&input);
        drop(stdin);
        let mut output = Vec::new();
        let read = stdout.read_to_end(&mut output);
        let _ = sender.send(read.map(|_| output));
    });
    receiver
}
