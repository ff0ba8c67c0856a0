//! Runs one comparer over a range of seeds; see README.md.

use second::compare::subject::{Baseline, Explainer, Itself, Judge, Reader, Rehearser};
use second::compare::tally::Tally;
use second::compare::{explain, models, programs, reader, rehearsal, Seeds};
use std::path::{Path, PathBuf};
use std::process::ExitCode;

const USAGE: &str = "compare WHAT [--seeds N] [--from K] [--seconds T] [--keep FOLDER]
  programs:  inspect | verdict | rehearse | lattice   [--bin FOLDER, by default ../target/bin]
  libraries: reader | models | explain | rehearsal    [--against linked | baseline | itself]
  --few      for some seeds by hand: an answer that never occurred is no failure
  linked needs a build with --features linked";

struct Options {
    seeds: Seeds,
    keep: PathBuf,
    programs: PathBuf,
    against: String,
    few: bool,
}

fn main() -> ExitCode {
    let mut arguments = std::env::args().skip(1);
    let what = arguments.next().unwrap_or_default();
    match options(arguments).and_then(|options| run(&what, &options)) {
        Ok(tally) => {
            println!("{}", tally.summary());
            ExitCode::from((tally.failed > 0) as u8)
        }
        Err(message) => {
            eprintln!("{message}\n{USAGE}");
            ExitCode::from(2)
        }
    }
}

/// Compares, and shows how often each answer occurred.
fn run(what: &str, options: &Options) -> Result<Tally, String> {
    match what {
        "lattice" => println!("lattice: no seeds, as it takes no input"),
        _ => println!("{what}: {} seeds from {}", options.seeds.count, options.seeds.from),
    }
    let mut tally = Tally::keeping(options.keep.clone());
    compare(what, options, &mut tally)?;
    print!("{}", tally.occurrences.table());
    if !options.few {
        tally.fail_what_never_occurred().iter().for_each(|sentence| println!("{sentence}"));
    }
    Ok(tally)
}

/// The repository's root: the parent of this folder.
fn root() -> PathBuf {
    Path::new(env!("CARGO_MANIFEST_DIR")).join("..")
}

fn options(mut arguments: impl Iterator<Item = String>) -> Result<Options, String> {
    let mut options = Options {
        seeds: Seeds { from: 0, count: 1_000, seconds: 90 },
        keep: root().join("target/second-failures"),
        programs: root().join("target/bin"),
        against: "linked".to_string(),
        few: false,
    };
    while let Some(name) = arguments.next() {
        match name.as_str() {
            "--few" => options.few = true,
            _ => {
                let value = arguments.next().ok_or(format!("{name} needs a value"))?;
                set(&mut options, &name, value)?;
            }
        }
    }
    Ok(options)
}

fn set(options: &mut Options, name: &str, value: String) -> Result<(), String> {
    match name {
        "--seeds" => options.seeds.count = number(&value)?,
        "--from" => options.seeds.from = number(&value)?,
        "--seconds" => options.seeds.seconds = number(&value)?,
        "--keep" => options.keep = value.into(),
        "--bin" => options.programs = value.into(),
        "--against" => options.against = value,
        _ => return Err(format!("unknown option {name}")),
    }
    Ok(())
}

fn number(value: &str) -> Result<u64, String> {
    value.parse().map_err(|_| format!("{value} is no number"))
}

fn compare(what: &str, options: &Options, tally: &mut Tally) -> Result<(), String> {
    let (seeds, program) = (&options.seeds, options.programs.join(what));
    let against = options.against.as_str();
    match what {
        "inspect" => programs::inspect(&program, seeds, tally),
        "verdict" => programs::verdict(&program, seeds, tally),
        "rehearse" => programs::rehearse(&program, seeds, tally),
        "lattice" => programs::lattice(&program, tally),
        "reader" => reader::compare(&*reading(against)?, seeds, tally),
        "models" => models::compare(&*judging(against)?, seeds, tally),
        "explain" => explain::compare(&*explaining(against)?, seeds, tally),
        "rehearsal" => rehearsal::compare(&*rehearsing(against)?, seeds, tally),
        _ => return Err(format!("nothing to compare is called {what:?}")),
    }
    Ok(())
}

/// The subject that `--against` names, as one of the four traits.
macro_rules! subject {
    ($against:expr) => {
        match $against {
            "baseline" => Box::new(Baseline),
            "itself" => Box::new(Itself),
            #[cfg(feature = "linked")]
            "linked" => Box::new(second::compare::linked::Linked),
            other => return Err(format!("no {other:?} here (linked needs --features linked)")),
        }
    };
}

fn reading(against: &str) -> Result<Box<dyn Reader>, String> {
    Ok(subject!(against))
}

fn judging(against: &str) -> Result<Box<dyn Judge>, String> {
    Ok(subject!(against))
}

fn explaining(against: &str) -> Result<Box<dyn Explainer>, String> {
    Ok(subject!(against))
}

fn rehearsing(against: &str) -> Result<Box<dyn Rehearser>, String> {
    Ok(subject!(against))
}
