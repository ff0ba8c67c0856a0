//! Writes sample records and a script into a folder, or lists their answers.

use second::generate::harvest_day;
use second::lines;
use second::samples::{samples, Sample};
use std::fs;
use std::io;
use std::path::Path;
use std::process::ExitCode;

const USAGE: &str = "vectors FOLDER   writes the samples
vectors --list   writes what inspect, verdict and rehearse answer to each";

fn main() -> ExitCode {
    let outcome = match std::env::args().nth(1).as_deref() {
        Some("--list") => {
            list();
            Ok(())
        }
        Some(folder) if !folder.starts_with('-') => write(Path::new(folder)),
        _ => Err(io::Error::other(USAGE)),
    };
    match outcome {
        Ok(()) => ExitCode::SUCCESS,
        Err(error) => {
            eprintln!("{error}");
            ExitCode::from(2)
        }
    }
}

fn write(folder: &Path) -> io::Result<()> {
    fs::create_dir_all(folder)?;
    for Sample { name, bytes } in samples() {
        fs::write(folder.join(name), bytes)?;
    }
    fs::write(folder.join("harvest-day.script.txt"), harvest_day::text())
}

fn list() {
    for Sample { name, bytes } in samples() {
        println!("{name} ({} bytes)", bytes.len());
        if name.ends_with(".script") {
            println!("  rehearse: {}", script_answer(&bytes));
        } else {
            println!("  inspect: {}", lines::inspect(&bytes).trim_end());
            println!("  verdict: {}", lines::verdict(&bytes).trim_end().replace('\n', "; "));
        }
    }
}

fn script_answer(input: &[u8]) -> String {
    let output = lines::rehearsal(input);
    match output.starts_with(b"GCR3") {
        true => {
            format!("a record of {} bytes; {}", output.len(), lines::verdict(&output).trim_end().replace('\n', "; "))
        }
        false => String::from_utf8_lossy(&output).trim_end().to_string(),
    }
}
