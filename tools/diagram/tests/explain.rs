//! What an explanation says is what is told of the break, and true of the record; a picture's heading says the same.

mod support;

use diagram::{explain, Breaks};
use gcr::{Model, Predicate};
use second::models::{answer_of, MODELS};
use second::predicates::{Answer, Judged, PREDICATES};
use second::record::{Event, Record};
use second::relations::Relations;
use support::asking::{asked, explained, model, predicate, told};
use support::lines::{Events, Line};
use support::records;
use support::truth::is_true;

/// Random records of every sort, and those that ship.
fn all() -> Vec<(String, Record)> {
    let named = |sort: &str, (seed, record): (u64, Record)| (format!("{sort} {seed}"), record);
    let random = records::random().map(|each| named("seed", each));
    let chained = records::chained().step_by(2).map(|each| named("chain", each));
    let shipped = (0..).zip(records::shipped()).map(|each| named("shipped", each));
    random.chain(chained).chain(shipped).chain(records::longest().into_iter().take(3)).collect()
}

/// A break in the parts of its text.
struct Told<'a> {
    heading: &'a str,
    sentence: &'a str,
    /// By how much clocks may differ, where they may.
    clocks: Option<&'a str>,
    lines: Vec<Line<'a>>,
}

fn read(text: &str) -> Vec<Told<'_>> {
    text.split("\n\n").map(of_block).collect()
}

fn of_block(block: &str) -> Told<'_> {
    let mut lines = block.lines().peekable();
    let (heading, sentence) = (lines.next().expect("a heading"), lines.next().expect("a sentence"));
    let clocks = lines.next_if(|line| !line.starts_with("  "));
    Told { heading, sentence, clocks, lines: lines.map(event_of).collect() }
}

/// A line of an event is set in.
fn event_of(line: &str) -> Line<'_> {
    Line::read(line.strip_prefix("  ").expect("it is set in"))
}

fn number_of(heading: &str) -> u32 {
    let number = heading.split("predicate ").nth(1).and_then(|rest| rest.split(' ').next());
    number.and_then(|number| number.parse().ok()).expect("a predicate's number")
}

/// Whether the right words lead to an event, by the predicate. A step of a chain that is of both kinds is told as
/// visibility; from the read of 5 and 8 it is site order that counts.
fn is_kind(predicate: u32, at: usize, line: &Line, is_seen: bool) -> bool {
    let lead = line.lead.unwrap_or("");
    let begins = |words: &str| lead.starts_with(words);
    match predicate {
        1 => line.lead.is_none() || lead.ends_with(" saw it"),
        2 | 13 => begins("it saw ") || begins("it is at "),
        3 | 4 => begins("it started "),
        5 | 8 => begins(if at == 1 { "it saw " } else { "then, " }),
        10 | 11 => begins(if is_seen { "it saw " } else { "then, " }),
        _ => begins("then, "),
    }
}

fn clocks(record: &Record) -> Option<String> {
    let most = record.difference;
    (most > 0).then(|| format!("times are by each site's own clock, and clocks may differ by {most} ms"))
}

/// All of a break's text: the heading, the sentence of the picture, and a line for each event that is told, in order.
fn holds(told: &Told, record: &Record, judged: &Judged, predicate: u32) -> bool {
    let due = judged.explanation(predicate).expect("it is broken");
    let (a, b) = (due.a, due.events[due.events.len() - 1]);
    let pair = if a == b { format!("event {a}") } else { format!("events {a} and {b}") };
    assert!(told.heading.ends_with(&format!(" is broken at {pair}")), "{}", told.heading);
    assert!(is_true(told.sentence, record), "{}", told.sentence);
    assert_eq!(told.clocks, clocks(record).as_deref());
    let mut way = [vec![a], due.events].concat();
    way.drain(..usize::from(predicate == 1 && a == b));
    assert_eq!(told.lines.iter().map(|line| line.event).collect::<Vec<_>>(), way);
    let facts = Events { record, relations: Relations::of(record), pair: (a, b) };
    let last = told.lines.len() - 1;
    told.lines.iter().enumerate().all(|(at, line)| {
        let before = at.checked_sub(1).map(|before| way[before]);
        let is_seen = before.is_some_and(|before| facts.relations.vis.has(before, line.event));
        let is_led = if at == 0 { line.lead.is_none() } else { is_kind(predicate, at, line, is_seen) };
        facts.hold(line, before) && is_led && line.wrong.is_some() == (at == last)
    })
}

#[test]
fn each_line_is_true_and_all_that_is_told_is_there() {
    let mut breaks = [0; 13];
    for (name, record) in all() {
        let (judged, text) = (Judged::new(&record), explained(&Breaks::All, &record));
        let broken: Vec<u32> = PREDICATES.filter(|&predicate| judged.answer(predicate) != Answer::Met).collect();
        if broken.is_empty() {
            assert_eq!(text, "record: all predicates are met: there is nothing to explain\n");
            continue;
        }
        let told = read(&text);
        assert_eq!(told.iter().map(|told| number_of(told.heading)).collect::<Vec<_>>(), broken, "{name}");
        for (told, predicate) in told.iter().zip(broken) {
            assert!(holds(told, &record, &judged, predicate), "{name}, predicate {predicate}:\n{text}");
            breaks[predicate as usize - 1] += 1;
        }
    }
    assert!(breaks.iter().all(|&count| count >= 20), "{breaks:?}");
}

fn broken_of(record: &Record) -> Vec<u32> {
    let judged = Judged::new(record);
    PREDICATES.filter(|&predicate| judged.answer(predicate) != Answer::Met).collect()
}

/// One predicate's text is its part of all, and several are told in the order in which they are asked.
#[test]
fn each_predicate_alone_is_told_as_among_all() {
    for (_, record) in records::random().step_by(5) {
        let broken = broken_of(&record);
        for number in PREDICATES.filter(|number| !broken.contains(number)) {
            let text =
                format!("record: predicate {number} {} is met: there is nothing to explain\n", predicate(number));
            assert_eq!(told(number, &record), text);
        }
        let texts: Vec<String> = broken.iter().map(|&number| told(number, &record)).collect();
        assert!(broken.is_empty() || texts.join("\n") == explained(&Breaks::All, &record));
        let (first, last) = (told(11, &record), told(2, &record));
        let both = Breaks::Of(vec![Predicate::CausalArbitration, Predicate::SingleOrder]);
        assert_eq!(explained(&both, &record), format!("{first}\n{last}"));
    }
}

/// Each broken predicate of a model is told, in the model's order, with the words that tell it alone.
#[test]
fn a_model_is_told_by_its_predicates_that_are_broken() {
    let mut several = 0;
    for (seed, record) in records::random().step_by(7) {
        let (answers, all) = (Judged::new(&record).answers(), broken_of(&record));
        for (number, list) in (1..).zip(MODELS) {
            let text = explained(&Breaks::OfModel(model(number)), &record);
            let broken: Vec<u32> = list.iter().map(|&each| each.into()).filter(|each| all.contains(each)).collect();
            assert_eq!(broken.is_empty(), answer_of(number, &answers) == Answer::Met);
            if broken.is_empty() {
                let met = format!("record: model {number} {} is met: there is nothing to explain\n", model(number));
                assert_eq!(text, met, "seed {seed}");
                continue;
            }
            let named = format!("model {number} {} is broken by", model(number));
            let alone = |each: &u32| told(*each, &record);
            let texts: Vec<String> = broken.iter().map(alone).collect();
            let texts =
                texts.join("\n").replace("record: ", &format!("record: {named} ")).replace(" is broken at", " at");
            assert_eq!(text, texts, "seed {seed}, model {number}");
            several += usize::from(broken.len() > 1);
        }
    }
    assert!(several >= 10, "{several}");
}

#[test]
fn whether_a_break_is_told_is_said() {
    for (_, record) in records::random().step_by(9) {
        let (broken, bytes) = (broken_of(&record), record.to_bytes());
        let is_broken = |breaks: Breaks| explain("record", &bytes, &breaks).expect("it is told").is_broken;
        assert_eq!(is_broken(Breaks::All), !broken.is_empty());
        let of = |numbers: [u32; 2]| (Breaks::Of(numbers.map(predicate).to_vec()), numbers);
        for (breaks, numbers) in [of([9, 3]), of([1, 12]), of([13, 13])] {
            assert_eq!(is_broken(breaks), numbers.iter().any(|number| broken.contains(number)));
        }
        let is_causal = ![10, 11, 1].iter().any(|number| broken.contains(number));
        assert_eq!(is_broken(Breaks::OfModel(Model::Causal)), !is_causal);
    }
}

/// But for the record's name; a heading's lines are joined where they break at the picture's width.
#[test]
fn the_heading_of_a_picture_has_the_same_words() {
    let mut shortened = 0;
    for (name, record) in all().into_iter().step_by(3) {
        for number in broken_of(&record) {
            let (drawing, text) = (asked(number, &record), told(number, &record));
            let mut lines = text.lines();
            let verdict = lines.next().and_then(|line| line.strip_prefix("record: ")).expect("it is named");
            assert_eq!(drawing.joined("broken"), verdict, "{name}");
            assert_eq!(Some(drawing.joined("reason").as_str()), lines.next(), "{name}");
            let due: Vec<&str> = lines.filter_map(|line| line.strip_prefix("  ")).collect();
            let heading = drawing.joined("event");
            if due.len() < 10 {
                assert_eq!(heading, due.join(" "), "{name}, predicate {number}");
                continue;
            }
            let between = format!("({} more events on the way: point at a step for its event)", due.len() - 8);
            let due = [&due[..4], &[&between], &due[due.len() - 4..]].concat();
            assert_eq!(heading, due.join(" "), "{name}, predicate {number}");
            shortened += 1;
        }
    }
    assert!(shortened >= 10, "{shortened}");
}

fn of_file(breaks: &Breaks, name: &str) -> String {
    let file = format!("{}/../../records/{name}", env!("CARGO_MANIFEST_DIR"));
    explain(name, &std::fs::read(file).expect("it ships"), breaks).expect("it is told").text
}

#[test]
fn records_that_ship_are_told_of_in_these_words() {
    let of = |predicate: Predicate| Breaks::Of(vec![predicate]);
    assert_eq!(of_file(&of(Predicate::MonotonicReads), "stale-read.gcr"), STALE_READ);
    assert_eq!(of_file(&Breaks::OfModel(Model::Causal), "long-way.gcr"), LONG_WAY);
    assert_eq!(of_file(&Breaks::All, "early-read.gcr"), EARLY_READ);
    assert_eq!(of_file(&Breaks::All, "stale-value.gcr"), STALE_VALUE);
    assert_eq!(of_file(&of(Predicate::PerObjectSingleOrder), "listing.gcr"), LISTING);
    assert_eq!(
        of_file(&Breaks::All, "clocks.gcr"),
        "clocks.gcr: all predicates are met: there is nothing to explain\n"
    );
}

const STALE_READ: &str = "\
stale-read.gcr: predicate 5 MonotonicReads is broken at events 0 and 2
event 2 does not see event 0, though event 1, an earlier read at event 2's site, sees event 0
  event 0: site 0 wrote 7 to object 0, from 0 ms to 1 ms
  event 1: site 1 read 7 from object 0, from 2 ms to 3 ms; it saw event 0
  event 2: then, at the same site as event 1, site 1 read none from object 0, from 4 ms to 5 ms; but it did not see event \
0
";

const LONG_WAY: &str = "\
long-way.gcr: model 4 Causal is broken by predicate 10 CausalVisibility at events 0 and 3
event 3 does not see event 0, though event 0 is seen by event 2, which is before event 5 at site 1, which is seen by \
event 6, which is before event 3 at site 2
  event 0: site 0 wrote 100 to object 5, from 0 ms to 1 ms
  event 2: site 1 read 100 from object 5, from 4 ms to 5 ms; it saw event 0
  event 5: then, at the same site as event 2, site 1 wrote 2 to object 6, from 8 ms to 9 ms
  event 6: site 2 read 2 from object 6, from 10 ms to 11 ms; it saw event 5
  event 3: then, at the same site as event 6, site 2 read none from object 5, from 12 ms to 13 ms; but it did not see \
event 0
";

const EARLY_READ: &str = "\
early-read.gcr: predicate 3 RealTime is broken at events 0 and 1
event 1 is placed before event 0 in arbitration, though event 0 returned at 110 ms, more than 39 ms before event 1 \
started at 150 ms
times are by each site's own clock, and clocks may differ by 39 ms
  event 0: site 0 wrote 7 to object 0, from 100 ms to 110 ms
  event 1: site 1 read none from object 0, from 150 ms to 155 ms; it started more than 39 ms after event 0 returned, but \
is at 0 in arbitration, before event 0 at 1

early-read.gcr: predicate 4 RealTimeWrites is broken at events 0 and 1
event 1 is placed before event 0 in arbitration, though event 0, a write, returned at 110 ms, more than 39 ms before \
event 1 started at 150 ms
times are by each site's own clock, and clocks may differ by 39 ms
  event 0: site 0 wrote 7 to object 0, from 100 ms to 110 ms
  event 1: site 1 read none from object 0, from 150 ms to 155 ms; it started more than 39 ms after event 0 returned, but \
is at 0 in arbitration, before event 0 at 1
";

const STALE_VALUE: &str = "\
stale-value.gcr: predicate 1 RVal is broken at events 2 and 1
event 2 holds 7, not 8: of the writes on object 0 that it sees, event 1 is the last in arbitration
  event 2: site 0 read 7 from object 0, from 4 ms to 5 ms
  event 1: site 0 wrote 8 to object 0, from 2 ms to 3 ms; event 2 saw it, and should have held 8
";

const LISTING: &str = "\
listing.gcr: predicate 13 PerObjectSingleOrder is broken at events 0 and 1
event 1 does not see event 0, though arbitration places event 0 before event 1, both on object 5
  event 0: site 0 wrote 100 to object 5, from 0 ms to 1 ms
  event 1: site 1 wrote 200 to object 5, from 2 ms to 3 ms; it is at 1 in arbitration, after event 0 at 0, but did not see \
event 0
";

/// An event that a ring leads back to stands at both ends.
#[test]
fn a_ring_is_told_round_and_an_opening_once() {
    let ring = Record::in_order(1, vec![Event::read(0, 0, None).at(0, 1).sees(&[1]), Event::write(0, 0, 7).at(2, 3)]);
    let text = told(10, &ring);
    let lines: Vec<&str> = text.lines().skip(2).collect();
    assert_eq!(
        lines,
        [
            "  event 0: site 0 read none from object 0, from 0 ms to 1 ms",
            "  event 1: then, at the same site as event 0, site 0 wrote 7 to object 0, from 2 ms to 3 ms",
            "  event 0: site 0 read none from object 0, from 0 ms to 1 ms; it saw event 1, and so would have to see itself",
        ]
    );
    let along = told(11, &ring.with_positions(&[0, 1]));
    assert!(along.ends_with("it saw event 1, and so would have to be before itself in arbitration\n"), "{along}");
    let back = Record::in_order(1, vec![Event::read(0, 0, None).at(0, 1).sees(&[1]), Event::read(0, 0, None).at(2, 3)]);
    let last =
        "  event 1: then, at the same site as event 0, site 0 read none from object 0, from 2 ms to 3 ms; and so it \
                would have to see itself\n";
    assert!(told(5, &back).ends_with(last));
    let opening = Record::in_order(1, vec![Event::read(0, 3, Some(40)).at(0, 1)]);
    assert!(explained(&Breaks::All, &opening)
        .ends_with("opening\n  event 0: site 0 read 40 from object 3, from 0 ms to 1 ms; it should have held none\n"));
}

#[test]
fn a_refused_record_gives_no_explanation() {
    let refused = |breaks: &Breaks, bytes: &[u8]| explain("record", bytes, breaks).expect_err("it is refused");
    let causal = Breaks::OfModel(Model::Causal);
    assert_eq!(refused(&Breaks::All, &[]).number, 3);
    assert_eq!(refused(&causal, &[0; 20_000]).number, 3);
    let mut damaged = records::long_way().to_bytes();
    damaged[600] ^= 1;
    let refusal = refused(&Breaks::Of(vec![Predicate::RVal]), &damaged);
    assert_eq!((refusal.number, refusal.place), (4, 1));
}

#[test]
fn the_example_of_the_page_is_what_is_told() {
    let set_in = |text: &str| text.lines().map(|line| format!("    {line}\n")).collect::<String>();
    let page = include_str!("../README.md");
    assert!(page.contains("gcr explain --model causal ../../records/long-way.gcr") && page.contains(&set_in(LONG_WAY)));
}
