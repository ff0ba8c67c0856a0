//! Cells between spaces.

use crate::text::{before_remark, words, Bad, Word};

/// The last of so many reaches to the line's end.
pub fn cells(line: Word, most: usize) -> Vec<Word> {
    let mut cells = words(line.line, line.text);
    if cells.len() > most {
        cells.truncate(most);
        if let Some(last) = cells.last_mut() {
            let text = before_remark(line.text);
            let start = text.char_indices().nth(last.column - 1).map_or(text.len(), |(at, _)| at);
            last.text = text[start..].trim_end();
        }
    }
    cells
}

/// An empty cell between two tabs or behind the last, as a spreadsheet copies it: the cells after it would stand under
/// the columns before theirs. A tab before the first cell indents, and before a remark nothing is missing.
pub fn gap(line: Word) -> Option<Bad> {
    let text = before_remark(line.text);
    let text = if text.len() < line.text.len() { text.trim_end() } else { text };
    let tabs: Vec<usize> = text.match_indices('\t').map(|(at, _)| at).collect();
    let is_empty = |from: usize, to: usize| text[from + 1..to].trim().is_empty();
    let empty = tabs.windows(2).find(|pair| is_empty(pair[0], pair[1])).map(|pair| (pair[0], BETWEEN));
    let last = || tabs.last().filter(|&&last| is_empty(last, text.len())).map(|&last| (last, BEHIND));
    empty.or_else(last).map(|(tab, what)| line.rest(tab).bad(what))
}

const BETWEEN: &str = "between this tab and the next is no cell: an empty one is written -";
const BEHIND: &str = "behind this tab is no cell: an empty one is written -, and behind the last cell is no tab";

/// The header's lines, an empty one, and the table with its columns aligned.
pub fn joined(header: &[Vec<String>], table: &[Vec<String>]) -> String {
    let header: String = header.iter().map(|row| row.join(" ") + "\n").collect();
    let widths = widths(table);
    let table: String = table.iter().map(|row| aligned(row, &widths)).collect();
    format!("{header}\n{table}")
}

fn widths(table: &[Vec<String>]) -> Vec<usize> {
    let columns = table.first().map_or(0, Vec::len);
    let width = |column: usize| table.iter().map(|row| row[column].len()).max().unwrap_or(0);
    (0..columns).map(width).collect()
}

fn aligned(row: &[String], widths: &[usize]) -> String {
    let cells: String = row.iter().zip(widths).map(|(cell, width)| format!("{cell:width$}  ")).collect();
    format!("{}\n", cells.trim_end())
}

#[cfg(test)]
mod tests {
    use super::*;

    fn cells_of(text: &str, most: usize) -> Vec<(usize, &str)> {
        cells(Word { line: 1, column: 1, text }, most).iter().map(|cell| (cell.column, cell.text)).collect()
    }

    #[test]
    fn the_last_cell_reaches_to_the_end() {
        let line = " ä 1\t 0..5   7  # all";
        assert_eq!(cells_of(line, 3), [(2, "ä"), (4, "1"), (7, "0..5   7")]);
        assert_eq!(cells_of(line, 4), [(2, "ä"), (4, "1"), (7, "0..5"), (14, "7")]);
        assert_eq!(cells_of("# all", 3), []);
    }

    #[test]
    fn an_empty_cell_between_tabs_is_found() {
        let gap_of = |text| gap(Word { line: 1, column: 1, text }).map(|bad| (bad.column, bad.what));
        for text in ["", "0 1", "\t0\t1", "ä \t 1", "0\t1  ", "0\t1\t\t# all", "0 1 # a\t\tb", "# a\t\tb\t"] {
            assert_eq!(gap_of(text), None, "{text:?}");
        }
        for (text, column, what) in [
            ("ä\t\t1", 2, BETWEEN),
            ("0\t1 \t  \t2", 5, BETWEEN),
            ("\t\t0", 1, BETWEEN),
            ("0\t\t1\t", 2, BETWEEN),
            ("0\t1\t", 4, BEHIND),
            ("0\t1\t \u{a0}", 4, BEHIND),
        ] {
            assert_eq!(gap_of(text), Some((column, what.to_string())), "{text:?}");
        }
    }

    #[test]
    fn columns_are_as_wide_as_their_widest_cell() {
        let row = |cells: [&str; 2]| cells.map(String::from).to_vec();
        let text = joined(&[row(["sites", "2"])], &[row(["event", "sees"]), row(["0", "-"]), row(["100000", "0 2"])]);
        assert_eq!(text, "sites 2\n\nevent   sees\n0       -\n100000  0 2\n");
    }
}
