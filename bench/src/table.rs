//! Tables as text or as Markdown.

use crate::growth::Growth;
use crate::row::Row;

#[derive(Clone, Copy)]
pub enum Style {
    Plain,
    Markdown,
}

/// The first two columns are words, the others numbers.
const WORDS: usize = 2;

impl Style {
    pub fn rows(self, rows: &[Row]) -> String {
        self.table(&Row::HEADS, rows.iter().map(Row::cells).collect())
    }

    pub fn growth(self, growth: &[Growth]) -> String {
        if growth.is_empty() {
            return String::new();
        }
        format!("\n{}", self.table(&Growth::HEADS, growth.iter().map(Growth::cells).collect()))
    }

    fn table(self, heads: &[&str], mut lines: Vec<Vec<String>>) -> String {
        lines.insert(0, heads.iter().map(|head| head.to_string()).collect());
        let widths: Vec<usize> = (0..heads.len()).map(|column| width(&lines, column)).collect();
        let mut lines: Vec<String> = lines.iter().map(|cells| self.line(cells, &widths)).collect();
        if let Style::Markdown = self {
            lines.insert(1, rule(&widths));
        }
        lines.concat()
    }

    fn line(self, cells: &[String], widths: &[usize]) -> String {
        let cells: Vec<String> = cells.iter().zip(widths).enumerate().map(aligned).collect();
        match self {
            Style::Plain => format!("{}\n", cells.join("  ").trim_end()),
            Style::Markdown => format!("| {} |\n", cells.join(" | ")),
        }
    }
}

fn width(lines: &[Vec<String>], column: usize) -> usize {
    lines.iter().map(|cells| cells[column].chars().count()).max().unwrap_or(0)
}

fn aligned((column, (cell, &width)): (usize, (&String, &usize))) -> String {
    match column < WORDS {
        true => format!("{cell:<width$}"),
        false => format!("{cell:>width$}"),
    }
}

fn rule(widths: &[usize]) -> String {
    let column = |(column, &width): (usize, &usize)| match column < WORDS {
        true => "-".repeat(width + 2),
        false => "-".repeat(width + 1) + ":",
    };
    format!("|{}|\n", widths.iter().enumerate().map(column).collect::<Vec<_>>().join("|"))
}

#[cfg(test)]
mod tests {
    use super::*;

    fn lines() -> Vec<Vec<String>> {
        vec![["read", "dense", "16"].map(String::from).to_vec(), ["all", "day", "256"].map(String::from).to_vec()]
    }

    #[test]
    fn plain_columns_stand_under_their_heads() {
        let text = Style::Plain.table(&["call", "input", "n"], lines());
        assert_eq!(text, "call  input    n\nread  dense   16\nall   day    256\n");
    }

    #[test]
    fn markdown_has_a_rule_that_aligns_numbers_right() {
        let text = Style::Markdown.table(&["call", "input", "n"], lines());
        assert_eq!(
            text,
            "| call | input |   n |\n|------|-------|----:|\n| read | dense |  16 |\n| all  | day   | 256 |\n"
        );
    }
}
