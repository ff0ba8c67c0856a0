//! One line of the program, read.

pub const MODELS: usize = 13;

/// A model by its number, from 1 on, and its name.
#[derive(Clone, Debug, PartialEq, Eq)]
pub struct Model {
    pub number: usize,
    pub name: String,
}

/// What a line says of two models.
#[derive(Clone, Debug, PartialEq, Eq)]
pub enum Says {
    /// The first covers the second, by the table.
    Listed,
    /// It does since it covers this one, which covers the second.
    Chained(Model),
    /// A record meets the first and breaks the second.
    Separated,
}

#[derive(Clone, Debug, PartialEq, Eq)]
pub struct Claim {
    pub first: Model,
    pub second: Model,
    pub says: Says,
}

impl Claim {
    /// None where the program writes no such line.
    pub fn read(line: &str) -> Option<Claim> {
        let (first, second, says) = match line.split_once(" does not cover ") {
            Some((first, rest)) => {
                let (second, record) = rest.split_once(": ")?;
                (first, second, is_break(record).then_some(Says::Separated)?)
            }
            None => {
                let (first, rest) = line.split_once(" covers ")?;
                match rest.split_once(", by ") {
                    Some((second, by)) => (first, second, Says::Chained(model(by)?)),
                    None => (first, rest, Says::Listed),
                }
            }
        };
        Some(Claim { first: model(first)?, second: model(second)?, says })
    }

    /// All that it names.
    pub fn models(&self) -> impl Iterator<Item = &Model> {
        let by = match &self.says {
            Says::Chained(by) => Some(by),
            _ => None,
        };
        [&self.first, &self.second].into_iter().chain(by)
    }
}

/// `7 per-object sequential`
fn model(words: &str) -> Option<Model> {
    let (number, name) = words.split_once(' ')?;
    let is_letter = |letter: char| letter.is_ascii_alphabetic() || letter == '-';
    let is_name = name.split(' ').all(|word| !word.is_empty() && word.chars().all(is_letter));
    let number = number_of(number).filter(|number| (1..=MODELS).contains(number))?;
    is_name.then(|| Model { number, name: name.to_string() })
}

/// `record 5, 3 broken 1 2`
fn is_break(words: &str) -> bool {
    let Some((record, verdict)) = words.strip_prefix("record ").and_then(|words| words.split_once(", ")) else {
        return false;
    };
    match verdict.split(' ').collect::<Vec<_>>()[..] {
        [predicate, "broken", a, b] => [record, predicate, a, b].into_iter().all(|word| number_of(word).is_some()),
        _ => false,
    }
}

/// Of a number as the program writes it, with no sign and no zeros before it.
fn number_of(word: &str) -> Option<usize> {
    word.parse().ok().filter(|number: &usize| number.to_string() == word)
}

#[cfg(test)]
mod tests {
    use super::*;

    fn of(number: usize, name: &str) -> Model {
        Model { number, name: name.to_string() }
    }

    #[test]
    fn the_three_kinds_of_line_are_read() {
        let claim = |first, second, says| Some(Claim { first, second, says });
        let (top, below) = (of(1, "linearizable"), of(4, "causal"));
        let chained = Says::Chained(of(7, "per-object sequential"));
        assert_eq!(Claim::read("1 linearizable covers 4 causal"), claim(top.clone(), below.clone(), Says::Listed));
        assert_eq!(
            Claim::read("1 linearizable covers 4 causal, by 7 per-object sequential"),
            claim(top.clone(), below.clone(), chained)
        );
        assert_eq!(
            Claim::read("4 causal does not cover 1 linearizable: record 5, 3 broken 1 2"),
            claim(below, top, Says::Separated)
        );
    }

    #[test]
    fn other_lines_are_not() {
        for line in [
            "",
            "NOT SHOWN: no record meets 2 regular and breaks 1 linearizable",
            "1 linearizable covers",
            "1 linearizable covers 14 another",
            "0 none covers 1 linearizable",
            "01 linearizable covers 2 regular",
            "+1 linearizable covers 2 regular",
            "1  covers 2 regular",
            "1 linearizable covers 2 <regular>",
            "1 linearizable covers 2 regular ",
            "1 linearizable covers 2 regular, by",
            "1 linearizable covers 2 regular, by 3",
            "1 linearizable covers 2 regular: record 5, 3 broken 1 2",
            "2 regular does not cover 1 linearizable",
            "2 regular does not cover 1 linearizable: record 5",
            "2 regular does not cover 1 linearizable: record 5, 3 met",
            "2 regular does not cover 1 linearizable: record 5, 3 broken 1",
            "2 regular does not cover 1 linearizable: record 5, 3 broken 1 2 3",
            "2 regular does not cover 1 linearizable: record five, 3 broken 1 2",
        ] {
            assert_eq!(Claim::read(line), None, "{line:?}");
        }
    }
}
