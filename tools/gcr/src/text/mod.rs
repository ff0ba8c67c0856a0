//! Text that people write: its words with the lines and columns where they stand.

mod ends;
mod letters;
mod numbers;
mod parts;
mod reading;
mod unknown;
mod word;

pub use ends::{unended, with_line_feeds};
pub use letters::{after, letters};
pub use numbers::number;
pub use reading::read;
pub use word::{before_remark, words, Bad, Word};
