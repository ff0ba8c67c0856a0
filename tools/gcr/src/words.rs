//! The words of a command line: options with their values, and files.

use crate::commands::Command;
use crate::ending::Failure;
use crate::nearest::hint;
use crate::options::{either, Kind, Opt};
use crate::output::is_standard;
use crate::printable::printable;
use crate::source::Source;
use crate::unknown::{shown, unknown};
use std::ffi::{OsStr, OsString};
use std::fs::{self, Metadata};
use std::io::{self, IsTerminal};
use std::os::unix::fs::MetadataExt;
use std::path::Path;

/// Every command has it.
pub const HELP: Opt = Opt::flag("--help", "tells this").or("-h");

/// What a command was given.
pub struct Words {
    pub command: &'static Command,
    given: Vec<(&'static str, Vec<OsString>)>,
    pub files: Vec<OsString>,
}

impl Words {
    /// Options may stand before and after files; after `--` all words are files. Who asks for help has it, whatever else
    /// was given.
    pub fn read(command: &'static Command, words: &[OsString]) -> Result<Words, Failure> {
        let mut read = Words { command, given: Vec::new(), files: Vec::new() };
        let mut words = words.iter();
        while let Some(word) = words.next() {
            match word.to_str() {
                Some("--") => read.files.extend(words.by_ref().cloned()),
                Some(option) if option.starts_with('-') && option != "-" => read.option(option, &mut words)?,
                _ => read.files.push(word.clone()),
            }
        }
        match read.has(HELP.name) {
            true => Ok(read),
            false => read.fit().map(|()| read),
        }
    }

    /// `--model causal` or `--model=causal`.
    fn option<'a>(&mut self, word: &str, rest: &mut impl Iterator<Item = &'a OsString>) -> Result<(), Failure> {
        let (name, joined) = match word.split_once('=') {
            Some((name, value)) if word.starts_with("--") => (name, Some(OsString::from(value))),
            _ => (word, None),
        };
        let Some(option) = self.command.options().find(|option| option.is(name)) else {
            let right = self.command.options().map(|option| option.name);
            return Err(self.unclear(&unknown("option", name, right)));
        };
        let count = option.places().count();
        let mut values: Vec<OsString> = joined.into_iter().collect();
        values.extend(rest.take(count.saturating_sub(values.len())).cloned());
        if values.len() != count {
            return Err(self.unclear(&format!("{name} takes {}", counted(count))));
        }
        self.are_right(option.name, option.kind, &values)?;
        self.given.push((option.name, values));
        Ok(())
    }

    /// Where fixed words are asked for, these are such.
    fn are_right(&self, what: &str, kind: Kind, words: &[OsString]) -> Result<(), Failure> {
        let right = kind.words();
        let told = |word: &OsString| {
            let word = word.to_string_lossy();
            format!("{what} is {}, and {} is none of them{}", either(&right), shown(&word), hint(&word, right.clone()))
        };
        let wrong = words.iter().find(|word| !kind.allows(word));
        wrong.map_or(Ok(()), |word| Err(self.unclear(&told(word))))
    }

    /// What was given may be given together, and so often.
    fn fit(&self) -> Result<(), Failure> {
        let is_once = |option: &&Opt| !option.is_repeated && !option.values.is_empty();
        let twice = self.command.options().filter(is_once).find(|option| self.all(option.name).len() > 1);
        if let Some(option) = twice {
            return Err(self.unclear(&format!("{} is given twice", option.name)));
        }
        self.command.alternatives.iter().try_for_each(|names| self.at_most_one_of(names))?;
        let operands = &self.command.operands;
        if self.files.len() > operands.most {
            let count = if operands.most == 0 { "no" } else { "one" };
            return Err(self.unclear(&format!("it takes {count} {}", operands.what)));
        }
        self.are_right(operands.what, operands.kind, &self.files)
    }

    pub fn has(&self, name: &str) -> bool {
        self.given.iter().any(|(given, _)| *given == name)
    }

    /// The words after each time that this option was given.
    pub fn all(&self, name: &str) -> Vec<&[OsString]> {
        let given = self.given.iter().filter(|(given, _)| *given == name);
        given.map(|(_, values)| values.as_slice()).collect()
    }

    /// The word after an option that may be given once.
    pub fn one(&self, name: &str) -> Option<&OsStr> {
        self.all(name).first().and_then(|values| values.first()).map(OsString::as_os_str)
    }

    /// The one file that it is given.
    pub fn file(&self) -> Result<Source, Failure> {
        self.files.first().map_or_else(|| self.standard_input(), |file| Ok(Source::named(file)))
    }

    /// Where no file is named: nobody who types a command wants it to wait for a record's bytes from the keyboard.
    pub fn standard_input(&self) -> Result<Source, Failure> {
        match io::stdin().is_terminal() {
            true => Err(self.unclear("name a file, or - for standard input")),
            false => Ok(Source::StandardInput),
        }
    }

    /// Where this option says that what is made of a source goes. It is not the source itself, which would be lost, nor
    /// a file of another kind.
    pub fn made_of(&self, source: &Source, option: &str) -> Result<Option<&OsStr>, Failure> {
        let Some(to) = self.one(option) else { return Ok(None) };
        if is_one_file(source.path().unwrap_or(Path::new("/dev/stdin")), Path::new(to)) {
            return Err(self.unclear(&format!("{option} names the file that is read")));
        }
        self.spares_others(option, to).map(|()| Some(to))
    }

    fn spares_others(&self, option: &str, to: &OsStr) -> Result<(), Failure> {
        let kind = self.command.options().find(|each| each.is(option)).map(|each| each.kind);
        let Some(Kind::Made(made)) = kind.filter(|_| !is_standard(to)) else { return Ok(()) };
        let name = printable(&to.to_string_lossy());
        let unread = |error| Failure::failed(format!("cannot read {name}: {error}"));
        let Some(lost) = made.would_lose(Path::new(to)).map_err(unread)? else { return Ok(()) };
        let why = format!("{option} names {name}, which is {lost}, and {}", made.rule());
        Err(self.unclear(&format!("{why}: name another file, or remove this one")))
    }

    /// Bytes that are no text are for a file or a pipe.
    pub fn spares_terminal(&self, to: &OsStr) -> Result<(), Failure> {
        match is_standard(to) && io::stdout().is_terminal() {
            true => Err(self.unclear("bytes are not for a terminal: name a file, or redirect them")),
            false => Ok(()),
        }
    }

    /// Of these only one may be given.
    pub fn at_most_one_of(&self, names: &[&str]) -> Result<(), Failure> {
        let given: Vec<&str> = names.iter().copied().filter(|name| self.has(name)).collect();
        match given.as_slice() {
            [one, other, ..] => Err(self.unclear(&format!("{one} and {other} do not go together"))),
            _ => Ok(()),
        }
    }

    pub fn unclear(&self, message: &str) -> Failure {
        Failure::unclear(format!("{message} (gcr {} --help tells more)", self.command.name))
    }
}

fn counted(words: usize) -> String {
    match words {
        0 => "no word".to_string(),
        1 => "1 word".to_string(),
        _ => format!("{words} words"),
    }
}

/// Whether two names lead to one file, by its number on its device.
fn is_one_file(one: &Path, other: &Path) -> bool {
    let number = |path| fs::metadata(path).ok().filter(Metadata::is_file).map(|there| (there.dev(), there.ino()));
    number(one).is_some_and(|one| number(other) == Some(one))
}

#[cfg(test)]
mod tests {
    use super::*;
    use crate::ending::Ending;
    use crate::help;
    use crate::options::Operands;

    static PAINT: Command = Command {
        name: "paint",
        about: "",
        does: "",
        operands: Operands::NONE,
        options: &[
            Opt::with("--color", "WHEN", Kind::OneOf(&["always", "auto", "never"]), "paints"),
            Opt::flag("--quiet", "says nothing").or("-q"),
            Opt::with("--site", "S", Kind::Number, "paints this site").repeated(),
        ],
        alternatives: &[&["--color", "--quiet"]],
        notes: "",
        example: "",
        run: |_| Ok(Ending::Well),
    };

    fn read(words: &[&str]) -> Result<Words, String> {
        let words: Vec<OsString> = words.iter().map(OsString::from).collect();
        let message = |failure: Failure| failure.message.expect("words").replace(" (gcr paint --help tells more)", "");
        Words::read(&PAINT, &words).map_err(message)
    }

    fn wrong(words: &[&str]) -> String {
        read(words).err().expect("it is not understood")
    }

    #[test]
    fn fixed_words_are_asked_for_by_the_table() {
        assert_eq!(read(&["--color", "auto"]).unwrap().one("--color"), Some(OsStr::new("auto")));
        let what = "--color is always, auto or never, and alwyas is none of them; the nearest is always";
        assert_eq!(wrong(&["--color=alwyas"]), what);
        assert!(help::of(&PAINT).contains("--color WHEN  paints; WHEN is always, auto or never\n"));
    }

    #[test]
    fn a_letter_stands_for_its_option() {
        assert!(read(&["-q"]).unwrap().has("--quiet"));
        assert_eq!(wrong(&["-q", "--color", "auto"]), "--color and --quiet do not go together");
        assert_eq!(wrong(&["--quiet=yes"]), "--quiet takes no word");
    }

    #[test]
    fn an_option_comes_as_often_as_the_table_says() {
        assert_eq!(read(&["--site", "1", "--site=2"]).unwrap().all("--site").len(), 2);
        assert_eq!(wrong(&["--color", "auto", "--color", "auto"]), "--color is given twice");
        assert_eq!(wrong(&["file"]), "it takes no file");
        assert!(read(&["--help", "file", "-q", "--color", "auto"]).is_ok());
    }
}
