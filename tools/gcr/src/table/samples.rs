//! Records that pass the questions, for tests.

use second::generate::{self, chains, sweeps};
use second::samples;

pub type Named = (String, Vec<u8>);

/// Of so many seeds those that pass.
pub fn random(seeds: u64) -> impl Iterator<Item = Named> {
    let named = |seed| (format!("seed {seed}"), generate::to_explain(seed).bytes);
    (0..seeds).map(named).filter(passes)
}

/// Shipped ones, the longest chains, and sweeps over block 0, clocks and returns.
pub fn fixed() -> impl Iterator<Item = Named> {
    let shipped = samples::records().map(|sample| (sample.name, sample.bytes));
    let swept = [chains::fixed(), sweeps::block_0(), sweeps::clocks(), sweeps::never_returned()];
    shipped.chain(swept.into_iter().flatten()).filter(passes)
}

fn passes((_, bytes): &Named) -> bool {
    gcr::read(bytes, &mut [0; gcr::WORK_WORDS]).is_ok()
}
