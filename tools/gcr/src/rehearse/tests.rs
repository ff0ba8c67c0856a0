//! Scripts through text and bytes, without a process.

use super::rehearsal::Rehearsal;
use super::script::{Script, CALL};
use super::{bytes, calls, reading, writing};
use crate::text::letters;
use gcr::{answers, rehearse_raw, OPENINGS_BYTES, RECORD_MOST};
use second::generate::random::Random;
use second::generate::scripts;
use std::ops::Range;

/// As the second checker draws them: most run, with calls refused by every number, and some are refused as a whole.
fn drawn(seeds: Range<u64>) -> impl Iterator<Item = (u64, Vec<u8>)> {
    seeds.map(|seed| (seed, scripts::program_input(seed)))
}

/// Calls of any bytes, most of them near to well-formed ones.
fn noise(seed: u64) -> Vec<u8> {
    let mut random = Random::new(seed);
    let mut input = vec![0; 1 + OPENINGS_BYTES];
    input[0] = 1 + random.below(8) as u8;
    for _ in 0..random.index(40) {
        let mut call = random.noise(CALL);
        call[0] %= 7;
        for byte in &mut call[1..] {
            *byte = if random.chance(70) { 0 } else { *byte };
        }
        input.extend(call);
    }
    input
}

/// The text of a script in bytes, if it is not refused as a whole.
fn text(input: &[u8]) -> Option<String> {
    let script = bytes::read(input);
    Rehearsal::of(&script).ok().map(|rehearsal| writing::written(&script, &rehearsal, None))
}

/// With the zeros of openings that were cut.
fn whole(input: &[u8]) -> Vec<u8> {
    let mut input = input.to_vec();
    input.resize(input.len().max(1 + OPENINGS_BYTES), 0);
    input
}

#[test]
fn bytes_go_to_text_and_back_unchanged() {
    let mut count = 0;
    for (seed, input) in drawn(0..2_000).chain((0..3_000).map(|seed| (seed, noise(seed)))) {
        let Some(text) = text(&input) else { continue };
        let script = reading::read(&text).unwrap_or_else(|bad| panic!("seed {seed}: {bad}"));
        assert_eq!(bytes::written(&script), whole(&input), "seed {seed}");
        let rehearsal = Rehearsal::of(&script).expect("it was not refused before");
        assert_eq!(writing::written(&script, &rehearsal, None), text, "seed {seed}");
        count += 1;
    }
    assert!(count > 4_000, "{count} of 5000 were not refused");
}

/// The record and the answers are the library's, refused as it refuses.
#[test]
fn what_is_told_is_what_the_library_answers() {
    for (seed, input) in drawn(2_000..3_000) {
        let input = whole(&input);
        let (openings, calls) = input[1..].split_at(OPENINGS_BYTES);
        let (mut record, mut buffer) = ([0; RECORD_MOST], vec![0; calls.len()]);
        let due = rehearse_raw(input[0].into(), openings, calls, &mut record, &mut buffer);
        match (due, Rehearsal::of(&bytes::read(&input))) {
            (Err(due), told) => assert_eq!(Some(due), told.err(), "seed {seed}"),
            (Ok(due), told) => {
                let told = told.unwrap_or_else(|refusal| panic!("seed {seed}: {refusal}"));
                assert_eq!(told.record, record[..due.length], "seed {seed}");
                assert!(told.answers.iter().copied().eq(answers(calls, &buffer)), "seed {seed}");
                assert_eq!(told.outstanding, due.outstanding, "seed {seed}");
            }
        }
    }
}

/// The number before a word of a text's last line.
fn before(text: &str, word: &str) -> u64 {
    let last = text.lines().last().unwrap();
    let words: Vec<&str> = last.split(' ').map(|word| word.trim_end_matches([';', ':', ','])).collect();
    let at = words.iter().position(|each| each.starts_with(word)).unwrap_or_else(|| panic!("{word} in {last}"));
    words[at - 1].parse().unwrap()
}

/// Of the lines alone, by their remarks.
#[test]
fn the_last_line_adds_up_with_the_lines_before_it() {
    for (seed, input) in drawn(3_000..4_000) {
        let Some(text) = text(&input) else { continue };
        let remarks: Vec<&str> =
            text.lines().filter_map(|line| line.split_once("  # ")).map(|(_, told)| told).collect();
        let of = |is: &dyn Fn(&str) -> bool| remarks.iter().filter(|told| is(told)).count() as u64;
        let refused = of(&|told| told.starts_with("refused "));
        let events = of(&|told| told.starts_with("event "));
        let puts = events - of(&|told| told.contains(", found "));
        let closed = |told: &&str| told.split_once(" cop").map_or(0, |(copies, _)| copies.parse::<u64>().unwrap());
        let came = of(&|told| told == "delivered") + remarks.iter().map(closed).sum::<u64>();
        assert_eq!(before(&text, "call"), remarks.len() as u64, "seed {seed}");
        assert_eq!(before(&text, "done") + refused, remarks.len() as u64, "seed {seed}");
        assert_eq!((before(&text, "refused"), before(&text, "event")), (refused, events), "seed {seed}");
        assert_eq!(puts * u64::from(input[0] - 1), came + before(&text, "cop"), "seed {seed}");
    }
}

/// Letters are taken out, put in, replaced and doubled; what is then read is a script, and else it is told where not.
#[test]
fn damaged_texts_are_read_or_refused_at_a_place_in_them() {
    const LETTERS: &[char] = &['0', '9', ' ', '\n', '#', 'p', 'ä', '\t', '\r', '-', '\u{1}', '\u{202e}', '\u{10ffff}'];
    let (mut taken, mut refused) = (0, 0);
    for (seed, input) in (0..2_000).map(|seed| (seed, noise(seed))) {
        let mut random = Random::new(!seed);
        let mut letters: Vec<char> = text(&input).expect("it is not refused").chars().collect();
        for _ in 0..1 + random.index(3) {
            let at = random.index(letters.len());
            match random.below(4) {
                0 => drop(letters.remove(at)),
                1 => letters.insert(at, random.pick(LETTERS)),
                2 => letters[at] = random.pick(LETTERS),
                _ => letters.extend_from_within(at..),
            }
        }
        let text: String = letters.into_iter().collect();
        match reading::read(&text) {
            Ok(Script { calls, .. }) => taken += usize::from(calls.len().is_multiple_of(CALL)),
            Err(bad) => {
                let line = text.lines().nth(bad.line - 1).unwrap_or("");
                assert!((1..=1 + line.chars().count()).contains(&bad.column), "seed {seed}: {bad} in {line}");
                refused += 1;
            }
        }
    }
    assert_eq!(taken + refused, 2_000);
    assert!(taken > 200 && refused > 200, "{taken} taken, {refused} refused");
}

/// A text with bytes of any kind put over it, as a file may come.
#[test]
fn any_bytes_are_a_script_or_refused() {
    let mut told = [0; 3];
    for seed in 0..2_000 {
        let mut random = Random::new(seed);
        let mut bytes = text(&noise(seed)).expect("it is not refused").into_bytes();
        for _ in 0..random.index(3) {
            let at = random.index(bytes.len());
            bytes[at] = random.byte();
        }
        let read = letters(&bytes).map(|text| reading::read(text).is_ok());
        told[read.map_or(2, usize::from)] += 1;
    }
    assert!(told.iter().all(|&times| times > 100), "no script, a script, no text: {told:?}");
}

fn bad(text: &str) -> String {
    reading::read(text).expect_err(text).to_string()
}

#[test]
fn bad_text_is_told_with_its_line_and_column() {
    let told = [
        ("", "line 1, column 1: sites N is missing"),
        ("# nothing\n\n", "line 3, column 1: sites N is missing"),
        ("open 5 300", "line 1, column 11: sites N is missing"),
        ("\n put 0 5 1\nsites 2", "line 2, column 2: sites N comes before the first call"),
        ("call 00 00 00 00 00 00 00 00", "line 1, column 1: sites N comes before the first call"),
        ("sites 2\nsites 2", "line 2, column 1: sites N comes once"),
        ("sites 2\nclose\nsites 2", "line 3, column 1: sites N comes once"),
        ("sites", "line 1, column 6: N is missing: sites N"),
        ("sites 2 3", "line 1, column 9: nothing comes after sites N"),
        ("sites two", "line 1, column 7: the number of sites is two, and may be a whole number from 0 to 255"),
        ("sites 256", "line 1, column 7: the number of sites is 256, and may be 0 to 255"),
        ("sites 2\nopen 32 1", "line 2, column 6: the object of an opening is 32, and may be 0 to 31"),
        ("sites 2\nopen 5 4294967296", "line 2, column 8: the opening is 4294967296, and may be 0 to 4294967295"),
        ("open 5 1\nopen 05 1", "line 2, column 6: object 5 has an opening already"),
        ("sites 2\nclose\nopen 5 1", "line 3, column 1: openings come before the first call"),
        ("sites 2\nput 0 5 # 1", "line 2, column 8: VALUE is missing: put SITE OBJECT VALUE"),
        ("sites 2\nput", "line 2, column 4: SITE is missing: put SITE OBJECT VALUE"),
        ("sites 2\nput 0 5 1 2", "line 2, column 11: nothing comes after put SITE OBJECT VALUE"),
        ("sites 2\nput 256 5 1", "line 2, column 5: the site is 256, and may be 0 to 255"),
        ("sites 2\nget 0 -1", "line 2, column 7: the object is -1, and may be a whole number from 0 to 255"),
        ("sites 2\ndeliver 65536 0", "line 2, column 9: the event is 65536, and may be 0 to 65535"),
        ("sites 2\nclose 1", "line 2, column 7: nothing comes after close"),
        ("sites 2\ncall 09 00", "line 2, column 11: B2 is missing: call B0 B1 B2 B3 B4 B5 B6 B7"),
        ("sites 2\ncall 9 00 00 00 00 00 00 00", "line 2, column 6: a byte is two hexadecimal digits, 00 to ff"),
        ("sites 2\ncall 00 +1 00 00 00 00 00 00", "line 2, column 9: a byte is two hexadecimal digits, 00 to ff"),
    ];
    for (text, due) in told {
        assert_eq!(bad(text), due, "{text}");
    }
}

#[test]
fn an_unknown_word_is_told_with_the_right_ones() {
    let told = |text: &str, at: &str, found: &str| {
        let right = "the words are sites, open, put, get, deliver, close, call";
        assert_eq!(bad(text), format!("{at}: there is no word {found}; {right}"));
    };
    told("site 2", "line 1, column 1", "site; the nearest is sites");
    told("sites 2\n\tdelivr 0 1", "line 2, column 2", "delivr; the nearest is deliver");
    told("sites 2\nPut 0 5 1", "line 2, column 1", "Put; the nearest is put");
    told("sites 2\r\nä\u{202e} 0", "line 2, column 1", "ä\u{fffd}");
    told(&"x".repeat(1_000_000), "line 1, column 1", &format!("{}…", "x".repeat(32)));
}

#[test]
fn openings_stand_before_and_after_the_sites() {
    let read = |text| bytes::written(&reading::read(text).unwrap());
    assert_eq!(
        read("open 31 0\nsites 2\nopen 5 300\nclose"),
        read("sites 02 # two\r\n\r\nopen 5 300\nopen 31 0\n close")
    );
    assert_eq!(reading::read("open 31 0\nsites 2\nopen 5 300").unwrap().opened(), [(5, 300), (31, 0)]);
}

#[test]
fn every_answer_has_its_words() {
    let text = "sites 2\nopen 5 3\nput 0 5 1\nget 1 5\nget 1 6\ndeliver 0 1\nclose\nput 1 6 2\nclose\nget 2 5";
    let script = reading::read(text).unwrap();
    let rehearsal = Rehearsal::of(&script).unwrap();
    let due = "sites 2
open 5 3

put 0 5 1    # event 0
get 1 5      # event 1, found 3
get 1 6      # event 2, found none
deliver 0 1  # delivered
close        # 0 copies delivered
put 1 6 2    # event 3
close        # 1 copy delivered
get 2 5      # refused 32: The call's site is not below the number of sites.
# 8 calls: 7 done, 1 refused; 4 events; 0 copies outstanding; a record of 1024 bytes, written to day.gcr
";
    assert_eq!(writing::written(&script, &rehearsal, Some("day.gcr")), due);
    assert_eq!(script.calls.chunks_exact(CALL).map(calls::written).collect::<Vec<_>>().join("\n"), text[17..]);
}
