//! The comparers find deliberate faults with differences of clocks.

use second::compare::clocks::{Rule, WRONG_RULES};
use second::compare::subject::{Baseline, Judge, Reader};
use second::compare::tally::Tally;
use second::compare::{metamorphic, models, reader, tally, Seeds};
use second::generate::sweeps;
use second::models::{answers, packed, packed_all, packed_predicate, Answers};
use second::predicates::Answer::{self, Broken, Met};
use second::predicates::Judged;
use second::questions::ask;
use second::record::{seal, Record};
use second::relations::{returned_before, Relations};

/// The right judge but for its rule of returned before.
struct ByRule(Rule);

impl ByRule {
    fn answers(&self, bytes: &[u8]) -> Answers {
        let record = ask(bytes)?;
        let difference = record.difference;
        let relations = Relations::by(&record, |a, b| self.0(difference, a, b));
        Ok(Judged::by(&record, relations).answers())
    }
}

impl Judge for ByRule {
    fn judge_model(&self, model: u32, bytes: &[u8]) -> u64 {
        packed(model, &self.answers(bytes))
    }

    fn judge_predicate(&self, predicate: u32, bytes: &[u8]) -> u64 {
        packed_predicate(predicate, &self.answers(bytes))
    }

    fn judge_all(&self, bytes: &[u8], out: &mut [u64]) -> u64 {
        packed_all(&self.answers(bytes), out)
    }
}

/// Whether some fixed record gets another answer than it should.
fn told(wrong: impl Fn(&[u8]) -> Answers) -> bool {
    sweeps::clocks().iter().any(|(_, bytes)| wrong(bytes) != answers(bytes))
}

#[test]
fn wrong_rules_are_found() {
    assert!(!told(|bytes| ByRule(returned_before).answers(bytes)));
    for (name, rule) in WRONG_RULES {
        assert!(told(|bytes| ByRule(rule).answers(bytes)), "{name}");
    }
    let mut tally = Tally::counting();
    models::compare(&ByRule(WRONG_RULES[0].1), &Seeds::first(0), &mut tally);
    assert!(tally.failed > 0);
}

/// What is taken for a difference.
type Misreading = fn(u32) -> u32;

#[test]
fn misread_differences_are_found() {
    let misreadings: [(&str, Misreading); 7] = [
        ("one byte", |difference| difference & 0xff),
        ("two bytes", |difference| difference & 0xffff),
        ("31 bits", |difference| difference & (u32::MAX >> 1)),
        ("highest byte first", u32::swap_bytes),
        ("one more", |difference| difference.saturating_add(1)),
        ("one less", |difference| difference.saturating_sub(1)),
        ("bit 17 overlooked", |difference| difference & !(1 << 17)),
    ];
    for (name, misreading) in misreadings {
        let misread = |bytes: &[u8]| {
            let record = ask(bytes)?;
            let taken = misreading(record.difference);
            answers(&record.apart(taken).to_bytes())
        };
        assert!(told(misread), "{name}");
    }
}

/// Reads the difference as document 01 had it: zero.
struct Refusing;

impl Reader for Refusing {
    fn read(&self, record: &[u8], work: &mut [u64]) -> u64 {
        let mut taken = record.to_vec();
        if ask(record).is_ok_and(|record| record.difference > 0) {
            // No edition of which this is right.
            taken[3] = b'3';
            seal(&mut taken);
        }
        Baseline.read(&taken, work)
    }
}

#[test]
fn refused_differences_are_found() {
    let mut tally = Tally::counting();
    reader::compare(&Refusing, &Seeds::first(0), &mut tally);
    assert!(tally.failed > 0);
}

/// What the fixed records of clocks are for, by the end of their names.
#[test]
fn fixed_records_say_what_they_are_for() {
    for (name, bytes) in sweeps::clocks() {
        let record = ask(&bytes).expect("passes");
        let broken = name.contains("beyond") || name.ends_with("one-site");
        let due = if broken { Broken(0, 1) } else { Met };
        let judged = Judged::new(&record);
        assert_eq!([3, 4].map(|predicate| judged.answer(predicate)), [due; 2], "{name}");
    }
}

/// A judge that answers by a difference and the right answer; asked for all thirteen alone.
struct Told(fn(u32, Answer) -> Answer);

impl Judge for Told {
    fn judge_model(&self, _: u32, _: &[u8]) -> u64 {
        unreachable!("not asked for")
    }

    fn judge_predicate(&self, _: u32, _: &[u8]) -> u64 {
        unreachable!("not asked for")
    }

    fn judge_all(&self, bytes: &[u8], out: &mut [u64]) -> u64 {
        let difference = Record::from_bytes(bytes).difference;
        let told = answers(bytes).map(|all| all.into_iter().map(|answer| self.0(difference, answer)).collect());
        packed_all(&told, out)
    }
}

fn disagreements(told: fn(u32, Answer) -> Answer) -> u64 {
    let mut tally = Tally::counting();
    for (name, bytes) in sweeps::clocks() {
        metamorphic::differences(&Told(told), &tally::Case { name, input: &bytes }, &mut tally);
    }
    tally.failed
}

/// By the subject's own answers.
#[test]
fn differences_that_disagree_are_found() {
    assert_eq!(disagreements(|_, answer| answer), 0);
    let only_without = |difference, answer| if difference == 0 { Met } else { answer };
    assert!(disagreements(only_without) > 0, "broken by a larger difference");
    let of_all_predicates = |difference, answer| if difference == u32::MAX { Met } else { answer };
    assert!(disagreements(of_all_predicates) > 0, "others than 3 and 4 moved");
    let earlier = |difference, answer| match answer {
        Broken(0, 1) if difference > 5 => Broken(0, 0),
        _ => answer,
    };
    assert!(disagreements(earlier) > 0, "an earlier pair by a larger difference");
}
