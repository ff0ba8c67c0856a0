//! The record's bytes, or why there are none.

use crate::table::{Form, Others, Table};

/// What was made of a text.
#[derive(Debug, PartialEq, Eq)]
pub struct Encoded {
    pub record: Vec<u8>,
    /// What is to be said of the text though it was taken.
    pub remarks: Vec<String>,
}

/// What the text says, encoded, if the proved reader passes it; else what is wrong, and where.
pub fn encoded(form: Form, others: Others, text: &str) -> Result<Encoded, String> {
    let table = Table::read(form, others, text).map_err(|bad| bad.to_string())?;
    let record = table.record.encode().map_err(|refusal| table.refused(refusal))?;
    Ok(Encoded { record, remarks: table.remarks() })
}
