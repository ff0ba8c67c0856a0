//! `verdict` as the second checker answers it.

use std::io;

fn main() -> io::Result<()> {
    second::lines::on_standard_streams(|input| second::lines::verdict(input).into_bytes())
}
