//! Cells between commas, as spreadsheets write them.

use crate::text::{Bad, Word};

/// Where the comma stands in fractions, spreadsheets write semicolons.
const SEPARATORS: [char; 2] = [',', ';'];

const QUOTE: char = '"';

/// What separates the cells of a text: what its first line says, or the first that could. No cell that is taken has
/// either, so a comma within a number is found where semicolons separate, and does not begin a cell.
pub fn separator(text: &str) -> char {
    let rows = text.lines().filter(|line| !is_remark(line));
    let said = text.lines().next().and_then(said_separator);
    let found = || rows.flat_map(str::chars).find(|letter| SEPARATORS.contains(letter));
    said.or_else(found).unwrap_or(SEPARATORS[0])
}

/// Some spreadsheets begin a table with `sep=;`.
fn said_separator(line: &str) -> Option<char> {
    let (name, rest) = line.trim().trim_matches(QUOTE).split_once('=')?;
    let separator = rest.chars().next()?;
    (name.eq_ignore_ascii_case("sep") && SEPARATORS.contains(&separator)).then_some(separator)
}

/// Without the white space and the quotes around them. A quote that is doubled in a quoted cell stays so: no cell that
/// is taken has one.
pub fn cells(line: Word, separator: char) -> Result<Vec<Word>, Bad> {
    let mut cells = Vec::new();
    let mut rest = Some(line).filter(|line| !is_remark(line.text));
    while let Some(from) = rest {
        let (cell, after) = cell(from, separator)?;
        cells.push(cell.trimmed());
        rest = after;
    }
    Ok(cells)
}

/// `#` and a space begin one. A spreadsheet writes `#REF!` where it has no value, and that is none.
fn is_remark(line: &str) -> bool {
    let line = line.trim().trim_matches(QUOTE);
    line == "#" || line.starts_with("# ") || said_separator(line).is_some()
}

/// The first cell, and what comes after its separator, if there is one.
fn cell(from: Word, separator: char) -> Result<(Word, Option<Word>), Bad> {
    let start = from.begun();
    if !start.text.starts_with(QUOTE) {
        let end = from.text.find(separator);
        return Ok((from.first(end.unwrap_or(from.text.len())), end.map(|end| from.rest(end + 1))));
    }
    let inside = start.rest(1);
    let close = closing(inside.text).ok_or_else(|| start.bad("this quote is not closed in its line"))?;
    let after = inside.rest(close + 1).begun();
    match after.text.starts_with(separator) {
        true => Ok((inside.first(close), Some(after.rest(1)))),
        false if after.text.is_empty() => Ok((inside.first(close), None)),
        false => Err(after.bad(format!("after a quoted cell comes {separator} or the line's end"))),
    }
}

/// Where the first quote stands that is not doubled.
fn closing(text: &str) -> Option<usize> {
    let mut quotes = text.match_indices(QUOTE).map(|(at, _)| at);
    loop {
        let at = quotes.next()?;
        match text[at + 1..].starts_with(QUOTE) {
            true => quotes.next(),
            false => return Some(at),
        };
    }
}

/// No cell that is written needs quotes.
pub fn joined(header: &[Vec<String>], table: &[Vec<String>]) -> String {
    header.iter().chain(table).map(|row| row.join(",") + "\n").collect()
}

#[cfg(test)]
mod tests {
    use super::*;

    fn cells_of(text: &str) -> Result<Vec<(usize, &str)>, String> {
        let cells = cells(Word { line: 3, column: 1, text }, separator(text)).map_err(|bad| bad.to_string())?;
        Ok(cells.iter().map(|cell| (cell.column, cell.text)).collect())
    }

    #[test]
    fn cells_stand_where_their_letters_begin() {
        assert_eq!(cells_of("0, ä ,,0..5 7"), Ok(vec![(1, "0"), (4, "ä"), (7, ""), (8, "0..5 7")]));
        assert_eq!(cells_of("0;1,5;"), Ok(vec![(1, "0"), (3, "1,5"), (7, "")]));
        assert_eq!(cells_of(""), Ok(vec![(1, "")]));
    }

    #[test]
    fn quoted_cells_may_hold_separators_and_doubled_quotes() {
        assert_eq!(cells_of(r#""0" , " 1,2 ","a""b","""",x"#), {
            Ok(vec![(2, "0"), (9, "1,2"), (16, r#"a""b"#), (23, r#""""#), (27, "x")])
        });
        assert_eq!(cells_of(r#"a"b,1"#), Ok(vec![(1, r#"a"b"#), (5, "1")]));
        assert_eq!(cells_of(r#"ä, "1"""#), Err("line 3, column 4: this quote is not closed in its line".to_string()));
        let after = "line 3, column 6: after a quoted cell comes , or the line's end";
        assert_eq!(cells_of(r#""ä"  b,1"#), Err(after.to_string()));
    }

    #[test]
    fn a_remark_has_no_cells() {
        assert_eq!(cells_of("# it's \"so, "), Ok(vec![]));
        assert_eq!(cells_of("\"# one, two\",,"), Ok(vec![]));
        assert_eq!(cells_of("sep=;"), Ok(vec![]));
        assert_eq!(cells_of("#REF!,1"), Ok(vec![(1, "#REF!"), (7, "1")]));
        assert_eq!(cells_of("\"#N/A\",1"), Ok(vec![(2, "#N/A"), (8, "1")]));
    }

    #[test]
    fn the_first_that_could_separates() {
        assert_eq!(separator("# a;b\nsites,2\n0;1\n"), ',');
        assert_eq!(separator("sites;2\n0,5;1\n"), ';');
        assert_eq!(separator("sites"), ',');
        assert_eq!(separator("\"SEP=;\"\r\nsites,2\n"), ';');
    }
}
