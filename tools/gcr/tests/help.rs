//! What the command tells of itself, and of words that it does not know.

mod support;

use support::folder::Folder;
use support::helps::{helps, Help};
use support::{gcr, shell_in};

/// The letters of the longest line.
const WIDTH: usize = 110;

/// The options that a text names.
fn options(help: &str) -> Vec<&str> {
    let words = help.split(|letter: char| letter != '-' && !letter.is_alphanumeric());
    let mut options: Vec<&str> = words.filter(|word| word.starts_with('-') && *word != "-").collect();
    options.sort();
    options.dedup();
    options
}

/// All commands are told of.
#[test]
fn the_overview_names_the_commands() {
    let names: Vec<String> = helps().into_iter().map(|help| help.name).collect();
    let due =
        ["judge", "show", "make", "explain", "rehearse", "draw", "list", "completions", "manual", "version", "help"];
    assert_eq!(names, due);
}

#[test]
fn help_is_asked_for_in_three_ways_and_is_short() {
    for Help { name, text: help } in helps() {
        for words in [["help", &name], [&name, "-h"]] {
            assert_eq!(gcr(&words).done().text(), help);
        }
        assert!(help.split_whitespace().take(2).eq(["gcr", &name]), "{help}");
        assert!(help.lines().count() <= 30, "{help}");
        let long = help.lines().find(|line| line.chars().count() > WIDTH);
        assert_eq!(long, None, "{name}");
    }
}

/// The usage has an option in brackets, with those that do not go together in one pair, and a line tells what it does.
#[test]
fn a_help_is_made_of_the_options() {
    let judge = gcr(&["judge", "--help"]).done();
    let first =
        "gcr judge [--model M]... [--predicate P]... [--all] [--json | --csv] [--quiet] [--color WHEN] [--recursive]";
    let second = "          [--expect N] [--strict] [FILE | FOLDER | -]...";
    assert_eq!(judge.lines()[..2], [first, second]);
    assert!(judge.lines().contains(&"  -q, --quiet    nothing of records that are met"), "{}", judge.text());
    for help in helps() {
        for option in help.options() {
            let is_told = help.usage().contains(option) || option == "--help" || option.len() == 2;
            assert!(is_told, "{} {option}", help.name);
        }
        let last = help.option_lines().last().expect("a line").split_whitespace().collect::<Vec<_>>();
        assert_eq!(last, ["-h,", "--help", "tells", "this"], "{}", help.name);
    }
}

/// What the page of the command shows as a usage is the usage, and it has every option.
#[test]
fn the_page_has_the_usages_and_options() {
    let page = include_str!("../../../docs/COMMAND.md");
    let words = |text: &str| text.split_whitespace().collect::<Vec<_>>().join(" ");
    let spans: Vec<String> = page.split('`').skip(1).step_by(2).map(words).collect();
    for help in helps() {
        let begin = format!("gcr {} [--", help.name);
        let shown = spans.iter().filter(|span| span.starts_with(&begin));
        shown.for_each(|span| assert_eq!(*span, words(help.usage())));
        let named = page.split(|letter: char| letter != '-' && !letter.is_alphanumeric()).collect::<Vec<_>>();
        help.options().into_iter().for_each(|option| assert!(named.contains(&option), "{} {option}", help.name));
    }
    assert!(spans.iter().any(|span| span.starts_with("gcr draw [--")));
}

/// After `--help` words are understood, and nothing is done.
#[test]
fn options_that_a_help_names_are_there() {
    for Help { name, text: help } in helps() {
        for option in options(&help) {
            let ran = gcr(&[&name, "--help", option]);
            let needs_words = ran.err.starts_with(&format!("gcr: {option} takes "));
            assert!(needs_words || ran.status == 0, "{name} {option}: {}", ran.err);
            assert_eq!(ran.text(), if needs_words { "" } else { &help });
        }
    }
}

#[test]
fn every_help_has_an_example_and_it_runs() {
    for help in helps() {
        let (folder, line) = (Folder::with(&["records"]), help.example());
        assert!(line.contains(&format!("gcr {}", help.name)), "{line}");
        let ran = shell_in(folder.path(), line);
        assert!(ran.status <= 1 && ran.err.is_empty(), "{line}: {} {}", ran.status, ran.err);
        assert!(!ran.out.is_empty() || folder.names().len() > 1, "{line} writes nothing");
    }
}

/// A word without its last letter.
fn cut(word: &str) -> &str {
    &word[..word.len() - 1]
}

#[test]
fn wrong_commands_get_the_nearest_right_one() {
    let told = |word: &str, right: &str| {
        format!("there is no command {word}; the nearest is {right} (gcr --help tells them all)")
    };
    for Help { name, .. } in helps() {
        let wrong = cut(&name);
        gcr(&[wrong]).ended(4, &told(wrong, &name));
        gcr(&["help", wrong]).ended(4, &told(wrong, &name));
    }
    for (wrong, right) in [("hlep", "help"), ("--hepl", "--help"), ("--verison", "--version")] {
        gcr(&[wrong]).ended(4, &told(wrong, right));
    }
    gcr(&["\u{1b}[2J"]).ended(4, "there is no command \u{fffd}[2J (gcr --help tells them all)");
}

#[test]
fn wrong_options_get_the_nearest_right_one() {
    for Help { name, text: help } in helps() {
        let more = format!("(gcr {name} --help tells more)");
        for option in options(&help).into_iter().filter(|option| option.len() > 2).chain(["--help"]) {
            let wrong = cut(option);
            gcr(&[&name, wrong]).ended(4, &format!("there is no option {wrong}; the nearest is {option} {more}"));
        }
        gcr(&[&name, "--\u{1b}[2J"]).ended(4, &format!("there is no option --\u{fffd}[2J {more}"));
    }
}

#[test]
fn without_words_it_tells_its_commands_on_standard_error() {
    let overview = gcr(&["--help"]).done();
    let none: [&str; 0] = [];
    gcr(&none).ended(4, &format!("name a command\n\n{}", overview.text()));
    for word in ["-h", "help"] {
        assert_eq!(gcr(&[word]).done(), overview);
    }
}
