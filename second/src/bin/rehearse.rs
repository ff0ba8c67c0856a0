//! `rehearse` as the second checker answers it.

use std::io;

fn main() -> io::Result<()> {
    second::lines::on_standard_streams(second::lines::rehearsal)
}
