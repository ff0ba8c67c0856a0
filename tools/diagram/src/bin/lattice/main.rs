//! Draws which model covers which: `lattice < lines > picture.svg`, the lines being those of the program of that name.

mod across;
mod boxes;
mod chains;
mod claim;
mod ending;
mod layout;
mod net;
mod order;
mod picture;
mod pooled;
mod ports;
mod table;

use ending::{failed, written};
use std::io;
use std::process::ExitCode;
use table::Table;

const USAGE: &str = "usage: lattice < lines > picture.svg";

fn main() -> ExitCode {
    if std::env::args_os().len() > 1 {
        return failed(USAGE);
    }
    let lines = match io::read_to_string(io::stdin()) {
        Ok(lines) => lines,
        Err(error) => return failed(&format!("cannot read standard input: {error}")),
    };
    match Table::read(&lines) {
        Ok(table) => written("the picture", &picture::draw(&table)),
        Err(why) => failed(&why),
    }
}
