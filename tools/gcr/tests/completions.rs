//! `gcr completions`: scripts that shells accept, and what bash completes by one.

mod support;

use gcr::{Model, Predicate};
use support::helps::{helps, Help};
use support::{by_shell, gcr, root};

const SHELLS: [&str; 3] = ["bash", "zsh", "fish"];

fn script(shell: &str) -> String {
    gcr(&["completions", shell]).done().text().to_string()
}

/// Whether this shell is here to be asked.
fn is_there(shell: &str) -> bool {
    by_shell("sh", &root(), &format!("command -v {shell}")).status == 0
}

/// What bash completes these words to, of which the last is begun.
fn completed(words: &[&str]) -> Vec<String> {
    let quoted: Vec<String> = words.iter().map(|word| format!("'{word}'")).collect();
    let line = format!(
        "source <(gcr completions bash); COMP_WORDS=({}); COMP_CWORD={}; _gcr; printf '%s\\n' \"${{COMPREPLY[@]}}\"",
        quoted.join(" "),
        words.len() - 1
    );
    let ran = by_shell("bash", &root(), &line).done();
    ran.lines().into_iter().filter(|line| !line.is_empty()).map(str::to_string).collect()
}

fn names(begin: &str) -> Vec<&'static str> {
    Predicate::ALL.iter().map(|predicate| predicate.name()).filter(|name| name.starts_with(begin)).collect()
}

#[test]
fn every_command_and_option_is_in_every_script() {
    for shell in SHELLS {
        let script = script(shell);
        let words: Vec<&str> = script.split(|letter: char| letter != '-' && !letter.is_alphanumeric()).collect();
        for help in helps() {
            assert!(words.contains(&help.name.as_str()), "{shell}: {}", help.name);
            for option in help.options() {
                let written = match shell {
                    "fish" => option.trim_start_matches('-'),
                    _ => option,
                };
                assert!(words.contains(&written), "{shell}: {} {option}", help.name);
            }
        }
        let named = Model::ALL.iter().map(|model| model.name()).chain(names(""));
        named.for_each(|name| assert!(words.contains(&name), "{shell}: {name}"));
        let is_mark = |part: &str| !part.is_empty() && part.chars().all(|letter| letter.is_ascii_uppercase());
        assert!(!script.split('@').any(is_mark), "a place of {shell}'s is not filled");
    }
}

#[test]
fn shells_accept_their_scripts() {
    for shell in SHELLS.into_iter().filter(|shell| is_there(shell)) {
        by_shell(shell, &root(), &format!("gcr completions {shell} | {shell} -n")).done();
    }
    assert!(is_there("bash"));
}

/// For those that are not installed: what is quoted ends, and so does every function.
#[test]
fn scripts_are_whole() {
    for shell in SHELLS {
        let script = script(shell);
        let is_even = |line: &str| line.replace("\\'", "").matches('\'').count().is_multiple_of(2);
        let code = script.lines().filter(|line| !line.starts_with('#'));
        code.for_each(|line| assert!(is_even(line), "{shell}: {line}"));
        let count = |word: &str| script.lines().filter(|line| line.trim() == word).count();
        match shell {
            "fish" => assert_eq!(script.matches("\nfunction ").count(), count("end")),
            _ => assert_eq!(script.matches("() {\n").count(), count("}")),
        }
    }
}

#[test]
fn bash_completes_commands_and_options() {
    let all: Vec<String> = helps().into_iter().map(|help| help.name).collect();
    assert_eq!(completed(&["gcr", ""])[..all.len()], all);
    assert_eq!(completed(&["gcr", "re"]), ["rehearse"]);
    assert_eq!(completed(&["gcr", "--"]), ["--help", "--version"]);
    for Help { name, .. } in helps().iter().filter(|help| help.name != "help") {
        assert_eq!(completed(&["gcr", "help", name]), [name.as_str()]);
    }
    for help in helps() {
        let due = help.options();
        assert_eq!(completed(&["gcr", &help.name, "-"]), due, "{}", help.name);
    }
    assert_eq!(completed(&["gcr", "judge", "--json", "--q"]), ["--quiet"]);
}

#[test]
fn bash_completes_the_words_after_an_option() {
    assert_eq!(completed(&["gcr", "judge", "--model", "cau"]), ["Causal"]);
    assert_eq!(completed(&["gcr", "explain", "--predicate", "Real"]), names("Real"));
    assert_eq!(completed(&["gcr", "draw", "--predicate", "="]), names(""));
    assert_eq!(completed(&["gcr", "draw", "--predicate", "=", "rv"]), ["RVal"]);
    assert_eq!(completed(&["gcr", "draw", "--around", ""]), [""; 0]);
    assert_eq!(completed(&["gcr", "draw", "--around", "1", ""]), [""; 0]);
    assert_eq!(completed(&["gcr", "draw", "-o", "records/clo"]).len(), 3);
    assert_eq!(completed(&["gcr", "completions", "z"]), ["zsh"]);
}

#[test]
fn bash_completes_files() {
    let due = ["records/stale-opening.gcr", "records/stale-read.gcr", "records/stale-value.gcr"];
    let mut found = completed(&["gcr", "judge", "--model", "4", "records/stale"]);
    found.sort();
    assert_eq!(found, due);
    assert_eq!(completed(&["gcr", "show", "READ"]), ["README.md"]);
    assert_eq!(completed(&["gcr", "judge", "--", "--"]), [""; 0]);
    assert_eq!(completed(&["gcr", "list", "READ"]), [""; 0]);
}

#[test]
fn other_shells_are_unknown() {
    let more = "(gcr completions --help tells more)";
    gcr(&["completions"]).ended(4, &format!("name a shell: bash, zsh or fish {more}"));
    gcr(&["completions", "bsh"])
        .ended(4, &format!("shell is bash, zsh or fish, and bsh is none of them; the nearest is bash {more}"));
    gcr(&["completions", "bash", "zsh"]).ended(4, &format!("it takes one shell {more}"));
}
