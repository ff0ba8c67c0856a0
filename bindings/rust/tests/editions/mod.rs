//! Records said in another edition.

use gcr::{Edition, Record};

/// What these bytes say, in an edition that can say it.
pub fn in_edition(edition: Edition, bytes: &[u8]) -> Vec<u8> {
    let mut record = Record::read(bytes).expect("it passes");
    record.edition = edition;
    record.encode().expect("the edition can say it")
}
