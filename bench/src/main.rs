//! Times the proved calls beside the Rust baseline, in one process and run.
//!
//! `bench [--markdown] [--counts FILE] [TEXT]` measures the cases whose names hold TEXT, and prints them as a table;
//! FILE is what callgrind wrote of `bench --count [TEXT]`, which calls each side of each case once, in the order of
//! `bench --names [TEXT]`. `bench/run` does it all.

mod both;
mod cases;
mod counting;
mod growth;
mod inputs;
mod row;
mod table;
mod timing;

use cases::Case;
use counting::Counts;
use row::Row;
use table::Style;

/// What the words of the command line ask for.
#[derive(Default)]
struct Asked {
    count: bool,
    names: bool,
    markdown: bool,
    counts: Option<String>,
    text: String,
}

fn main() {
    let asked = asked(std::env::args().skip(1));
    let mut cases: Vec<Case> = cases::all().into_iter().filter(|case| case.name().contains(&asked.text)).collect();
    for case in &mut cases {
        case.check();
    }
    if asked.names {
        return cases.iter().for_each(|case| println!("{0}, proved\n{0}, Rust", case.name()));
    }
    if asked.count {
        return counting::call_each_once(&mut cases);
    }
    let counts = asked.counts.map_or_else(Vec::new, |file| counting::parse(&read(&file), cases.len()));
    let rows = measured(&mut cases, &counts);
    let style = if asked.markdown { Style::Markdown } else { Style::Plain };
    print!("{}", style.rows(&rows));
    print!("{}", style.growth(&growth::of(&rows)));
}

fn asked(mut words: impl Iterator<Item = String>) -> Asked {
    let mut asked = Asked::default();
    while let Some(word) = words.next() {
        match word.as_str() {
            "--count" => asked.count = true,
            "--names" => asked.names = true,
            "--markdown" => asked.markdown = true,
            "--counts" => asked.counts = words.next(),
            _ => asked.text = word,
        }
    }
    asked
}

fn read(file: &str) -> String {
    std::fs::read_to_string(file).unwrap_or_else(|error| panic!("{file}: {error}"))
}

fn measured(cases: &mut [Case], counts: &[Counts]) -> Vec<Row> {
    let mut counts = counts.iter();
    let row = |case: &mut Case| Row {
        call: case.call.clone(),
        input: case.input.to_string(),
        n: case.n,
        micros: timing::medians(&mut *case.both),
        counts: counts.next().copied(),
    };
    cases.iter_mut().map(row).collect()
}
