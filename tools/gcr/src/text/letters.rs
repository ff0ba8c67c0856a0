//! Bytes as letters.

use super::Bad;

/// Text in UTF-8, without the mark that some editors put before it. A zero byte is in no text.
pub fn letters(bytes: &[u8]) -> Result<&str, Bad> {
    let bytes = bytes.strip_prefix("\u{feff}".as_bytes()).unwrap_or(bytes);
    let until = bytes.iter().position(|&byte| byte == 0).unwrap_or(bytes.len());
    match std::str::from_utf8(&bytes[..until]) {
        Ok(text) if until == bytes.len() => Ok(text),
        Ok(text) => Err(after(text, "a zero byte is no text")),
        Err(error) => {
            let text = std::str::from_utf8(&bytes[..error.valid_up_to()]).unwrap_or("");
            Err(after(text, format!("the byte {:02x} is no text in UTF-8", bytes[error.valid_up_to()])))
        }
    }
}

/// What is wrong behind the last letter of this text.
pub fn after(text: &str, what: impl Into<String>) -> Bad {
    let last = text.rsplit('\n').next().unwrap_or("");
    Bad { line: 1 + text.matches('\n').count(), column: 1 + last.chars().count(), what: what.into() }
}

#[cfg(test)]
mod tests {
    use super::*;

    #[test]
    fn bytes_are_text_or_it_is_told_where_they_are_none() {
        let wrong = |bytes| letters(bytes).unwrap_err().to_string();
        assert_eq!(letters("sites 2 # ä\n".as_bytes()), Ok("sites 2 # ä\n"));
        assert_eq!(letters("\u{feff}sites".as_bytes()), Ok("sites"));
        assert_eq!(letters(b""), Ok(""));
        assert_eq!(wrong(b"a\n\xc3\xa4b\xffc\0"), "line 2, column 3: the byte ff is no text in UTF-8");
        assert_eq!(wrong(b"a\xc3"), "line 1, column 2: the byte c3 is no text in UTF-8");
        assert_eq!(wrong(b"\x02\0\0\xff"), "line 1, column 2: a zero byte is no text");
        assert_eq!(wrong(b"a\n\n\0"), "line 3, column 1: a zero byte is no text");
    }
}
