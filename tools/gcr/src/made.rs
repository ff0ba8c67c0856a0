//! What goes to files, and which files it may replace. What a file is goes by how it begins.

use std::fs::{self, File};
use std::io::{self, Read};
use std::path::Path;

/// A thing that the command writes to a file.
#[derive(Clone, Copy, Debug, PartialEq, Eq)]
pub enum Made {
    Record,
    /// In the paper's form.
    Script,
    Text,
    Picture,
}

/// So many bytes of a file are looked at.
const START: u64 = 8_192;

/// A picture begins so, or has it behind what other programs write before it.
const SVG: &[u8] = b"<svg";

impl Made {
    /// What is in the place of this file and would be lost, as a message names it: nothing where it may be replaced,
    /// which is where it is empty or the same kind of thing. Devices and pipes are written to, and lose nothing.
    pub fn would_lose(self, path: &Path) -> io::Result<Option<&'static str>> {
        if !fs::metadata(path).is_ok_and(|there| there.is_file()) {
            return Ok(None);
        }
        let mut start = Vec::new();
        File::open(path)?.take(START).read_to_end(&mut start)?;
        let there = Made::of(&start);
        let is_replaced = start.is_empty() || there == Some(self);
        Ok((!is_replaced).then(|| there.map_or("neither text nor anything that gcr writes", Made::name)))
    }

    /// The paper's form of a script begins with 1 to 8, the number of sites, which no text does.
    fn of(start: &[u8]) -> Option<Made> {
        let has_drawing = |text: &[u8]| text.windows(SVG.len()).any(|part| part == SVG);
        let is_picture = |text: &[u8]| text.starts_with(SVG) || (text.starts_with(b"<?xml") && has_drawing(text));
        match start {
            [b'G', b'C', b'R', ..] => Some(Made::Record),
            [1..=8, ..] => Some(Made::Script),
            _ if is_picture(start.strip_prefix(b"\xef\xbb\xbf").unwrap_or(start).trim_ascii_start()) => {
                Some(Made::Picture)
            }
            _ => (!start.contains(&0)).then_some(Made::Text),
        }
    }

    fn name(self) -> &'static str {
        match self {
            Made::Record => "a record",
            Made::Script => "a script in bytes",
            Made::Text => "text",
            Made::Picture => "a picture",
        }
    }

    /// What it may replace, beside an empty file.
    pub fn rule(self) -> &'static str {
        match self {
            Made::Record => "a record replaces only records",
            Made::Script => "a script in bytes replaces only such scripts",
            Made::Text => "text replaces only text",
            Made::Picture => "a picture replaces only pictures",
        }
    }
}

#[cfg(test)]
mod tests {
    use super::*;

    #[test]
    fn what_a_file_is_goes_by_how_it_begins() {
        let due: [(&[u8], Option<Made>); 11] = [
            (b"GCR2\x03\x00", Some(Made::Record)),
            (b"\x02\x00\x00", Some(Made::Script)),
            (b"<svg xmlns=\"\">", Some(Made::Picture)),
            (b"\xef\xbb\xbf \n<?xml version=\"1.0\"?>\n<!-- --><svg>", Some(Made::Picture)),
            (b"<?xml version=\"1.0\"?>\n<members/>", Some(Made::Text)),
            (b"<members><svg/></members>", Some(Made::Text)),
            (b"edition GCR2\n", Some(Made::Text)),
            (b"\xef\xbb\xbfedition;GCR2\r\n", Some(Made::Text)),
            (b"caf\xe9\n", Some(Made::Text)),
            (b"\x89PNG\r\n\x1a\n\0\0\0\x0dIHDR", None),
            (b"\x7fELF\x02\x01\x01\0", None),
        ];
        for (start, made) in due {
            assert_eq!(Made::of(start), made, "{start:?}");
        }
    }
}
