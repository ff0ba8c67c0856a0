//! `inspect` as the second checker answers it.

use std::io;

fn main() -> io::Result<()> {
    second::lines::on_standard_streams(|input| second::lines::inspect(input).into_bytes())
}
