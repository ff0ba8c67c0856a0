//! What the command tells of its commands and their options.

use super::gcr;

/// A command that `gcr --help` names, with its help.
pub struct Help {
    pub name: String,
    pub text: String,
}

pub fn helps() -> Vec<Help> {
    let overview = gcr(&["--help"]).done();
    let lines = overview.lines().into_iter().filter_map(|line| line.strip_prefix("  "));
    let names = lines.filter_map(|line| line.split(' ').next());
    let help = |name: &str| Help { name: name.to_string(), text: gcr(&[name, "--help"]).done().text().to_string() };
    names.map(help).collect()
}

impl Help {
    /// The lines that tell its options.
    pub fn option_lines(&self) -> Vec<&str> {
        self.text.lines().filter(|line| line.starts_with("  -")).collect()
    }

    /// Its options as they are named there, short ones too.
    pub fn options(&self) -> Vec<&str> {
        let names = |line| str::split_whitespace(line).take_while(|word| word.starts_with('-'));
        self.option_lines().into_iter().flat_map(names).map(|name| name.trim_end_matches(',')).collect()
    }

    /// How it is used, which may take more than one line.
    pub fn usage(&self) -> &str {
        self.text.split_once("\n\n").expect("a usage").0
    }

    /// The line that shows how it is run: on the same line as its heading, or below it.
    pub fn example(&self) -> &str {
        let (_, example) = self.text.split_once("\nExample:").unwrap_or_else(|| panic!("no example in {}", self.text));
        example.trim_start().lines().next().expect("a line")
    }
}
