//! The comparers find deliberate faults, and none where there is none.

use second::compare::subject::{Baseline, Itself, Judge, Reader, Rehearser};
use second::compare::tally::{Case, Tally};
use second::compare::{models, programs, reader, rehearsal, Seeds};
use second::generate;
use second::generate::sweeps::Named;
use second::limits::WORK_WORDS;
use second::models::{packed, packed_all, packed_predicate, Answers};
use second::openings::Openings;
use second::predicates::Judged;
use second::questions::ask;
use second::record::{Event, Record};
use second::relations::{Pairs, Relations};
use second::store::{rehearse, run_script, Call, Outcome};
use std::cell::RefCell;
use std::path::Path;

/// A wrong subject: the right answer, then something done to it.
struct Wrong<F>(F);

/// What is done to a reading: its answer, the record, and the work slice.
type ReaderFault<'a> = &'a dyn Fn(u64, &[u8], &mut [u64]) -> u64;

impl<F: Fn(u64, &[u8], &mut [u64]) -> u64> Reader for Wrong<F> {
    fn read(&self, record: &[u8], work: &mut [u64]) -> u64 {
        let right = Itself.read(record, work);
        self.0(right, record, work)
    }
}

/// A fault in how the record's events or their relations are understood.
type Fault = fn(&mut Record) -> Option<fn(&Record, &mut Relations)>;

/// Keeps the answers of the last record, as many models are asked of each.
struct WrongJudge {
    fault: Fault,
    last: RefCell<(Vec<u8>, Answers)>,
}

impl WrongJudge {
    fn answers(&self, bytes: &[u8]) -> Answers {
        let mut record = ask(bytes)?;
        let of_relations = (self.fault)(&mut record);
        let mut judged = Judged::new(&record);
        if let Some(fault) = of_relations {
            fault(&record, &mut judged.relations);
        }
        Ok(judged.answers())
    }

    fn asked(&self, bytes: &[u8], answer: impl FnOnce(&Answers) -> u64) -> u64 {
        let mut last = self.last.borrow_mut();
        if last.0 != bytes {
            *last = (bytes.to_vec(), self.answers(bytes));
        }
        answer(&last.1)
    }
}

impl Judge for WrongJudge {
    fn judge_model(&self, model: u32, bytes: &[u8]) -> u64 {
        self.asked(bytes, |answers| packed(model, answers))
    }

    fn judge_predicate(&self, predicate: u32, bytes: &[u8]) -> u64 {
        self.asked(bytes, |answers| packed_predicate(predicate, answers))
    }

    fn judge_all(&self, bytes: &[u8], out: &mut [u64]) -> u64 {
        self.asked(bytes, |answers| packed_all(answers, out))
    }
}

/// The right judge, whose words of all thirteen have something done to them.
struct WrongWords(fn(u64, &mut [u64]));

impl Judge for WrongWords {
    fn judge_model(&self, model: u32, bytes: &[u8]) -> u64 {
        Baseline.judge_model(model, bytes)
    }

    fn judge_predicate(&self, predicate: u32, bytes: &[u8]) -> u64 {
        Baseline.judge_predicate(predicate, bytes)
    }

    fn judge_all(&self, bytes: &[u8], out: &mut [u64]) -> u64 {
        let right = Baseline.judge_all(bytes, out);
        self.0(right, out);
        right
    }
}

struct WrongStore(fn(u64, &mut [u8], &mut [u8]) -> u64);

impl Rehearser for WrongStore {
    fn rehearse(&self, sites: u32, openings: &[u8], script: &[u8], record: &mut [u8], answers: &mut [u8]) -> u64 {
        let right = Itself.rehearse(sites, openings, script, record, answers);
        self.0(right, record, answers)
    }
}

/// The right store, which misreads the calls of its script.
struct Misreading<F>(F);

impl<F: Fn(&mut [u8])> Rehearser for Misreading<F> {
    fn rehearse(&self, sites: u32, openings: &[u8], script: &[u8], record: &mut [u8], answers: &mut [u8]) -> u64 {
        let mut misread = script.to_vec();
        misread.chunks_exact_mut(8).for_each(&self.0);
        Itself.rehearse(sites, openings, &misread, record, answers)
    }
}

/// Answers each close rightly, and delivers nothing in it.
struct IdleClose;

impl Rehearser for IdleClose {
    fn rehearse(&self, sites: u32, openings: &[u8], script: &[u8], record: &mut [u8], answers: &mut [u8]) -> u64 {
        let (mut idle, mut right) = (script.to_vec(), answers.to_vec());
        Itself.rehearse(sites, openings, script, &mut record.to_vec(), &mut right);
        let close = Call::Close.to_bytes();
        // No call is of kind 0.
        idle.chunks_exact_mut(8).filter(|call| **call == close).for_each(|call| call[0] = 0);
        let result = Itself.rehearse(sites, openings, &idle, record, answers);
        let calls = script.chunks_exact(8).zip(answers.chunks_exact_mut(8).zip(right.chunks_exact(8)));
        calls.filter(|(call, _)| **call == close).for_each(|(_, (answer, right))| answer.copy_from_slice(right));
        result
    }
}

/// The right store, but for which events count as outstanding at a site, by whether the site knows them.
struct WrongCount(fn(&Event, bool, usize) -> bool);

impl Rehearser for WrongCount {
    fn rehearse(&self, sites: u32, openings: &[u8], script: &[u8], record: &mut [u8], answers: &mut [u8]) -> u64 {
        let right = rehearse(sites, openings, script, record, answers);
        if right.number != 0 {
            return right.packed();
        }
        let store = run_script(sites as usize, script, &mut vec![0; script.len()]);
        let at_sites = |(number, event): (usize, &Event)| {
            (0..sites as usize).filter(|&site| self.0(event, store.knows(site, number), site)).count()
        };
        let outstanding = store.record().events.iter().enumerate().map(at_sites).sum();
        Outcome { outstanding, ..right }.packed()
    }
}

/// Whether one of the comparer's fixed records or of the first seeds' tells.
fn found(fixed: &[Named<Vec<u8>>], fault: ReaderFault) -> bool {
    let seeds = (0..100).map(|seed| (seed.to_string(), generate::record(seed).bytes));
    fixed.iter().cloned().chain(seeds).any(|(name, bytes)| {
        let mut tally = Tally::counting();
        reader::one_record(&Wrong(fault), 0, &Case { name, input: &bytes }, &mut tally);
        tally.failed > 0
    })
}

/// Whether one of the first seeds' records tells, of those small enough for a slow judge.
fn judge_is_found(fault: Fault) -> bool {
    let last = RefCell::new((vec![], ask(&[]).map(|_| vec![])));
    let judge = WrongJudge { fault, last };
    let small = (0..600).map(|seed| generate::record(seed).bytes).filter(|bytes| bytes.len() < 4_000);
    small.enumerate().any(|(k, bytes)| {
        let mut tally = Tally::counting();
        models::one_record(&judge, &Case { name: k.to_string(), input: &bytes }, &mut tally);
        tally.failed > 0
    })
}

fn words_failures(fault: fn(u64, &mut [u64])) -> u64 {
    let mut tally = Tally::counting();
    models::compare(&WrongWords(fault), &Seeds::first(30), &mut tally);
    tally.failed
}

fn rehearsal_failures(subject: &dyn Rehearser) -> u64 {
    let mut tally = Tally::counting();
    rehearsal::compare(subject, &Seeds::first(100), &mut tally);
    tally.failed
}

fn store_failures(fault: fn(u64, &mut [u8], &mut [u8]) -> u64) -> u64 {
    rehearsal_failures(&WrongStore(fault))
}

#[test]
fn faults_of_all_thirteen() {
    assert_eq!(words_failures(|_, _| ()), 0);
    let refused_met = |right, out: &mut [u64]| {
        if right != 0 {
            let fit = out.len().min(13);
            out[..fit].fill(0);
        }
    };
    assert!(words_failures(refused_met) > 0);
    let refused_unwritten = |right, out: &mut [u64]| {
        if right != 0 {
            out.fill(models::LENT_WORD);
        }
    };
    assert!(words_failures(refused_unwritten) > 0);
    let refused_beyond = |right, out: &mut [u64]| {
        if right != 0 {
            out.fill(right);
        }
    };
    assert!(words_failures(refused_beyond) > 0);
    let last_lost = |_, out: &mut [u64]| {
        if let Some(word) = out.get_mut(12) {
            *word = 1;
        }
    };
    assert!(words_failures(last_lost) > 0);
    let beyond = |_, out: &mut [u64]| {
        if let Some(word) = out.get_mut(13) {
            *word = 0;
        }
    };
    assert!(words_failures(beyond) > 0);
}

#[test]
fn faults_of_a_reader() {
    let fixed = reader::fixed();
    let found = |fault: ReaderFault| found(&fixed, fault);
    assert!(!found(&|right, _, _| right));
    let of_question = |result: u64, number: u64| result / 1_024 == 2_048 + number;
    for number in 1..=10 {
        if number != 2 {
            let accepts = found(&|right, _, _| if of_question(right, number) { 0 } else { right });
            assert!(accepts, "question {number} left out");
        }
    }
    for number in [4, 7, 8, 9, 10] {
        let next = found(&|right, _, _| right + of_question(right, number) as u64);
        assert!(next, "place of question {number}");
    }
    let later_word = |right, _: &[u8], work: &mut [u64]| {
        if let Some(word) = work.get_mut(WORK_WORDS + 5) {
            *word = 0;
        }
        right
    };
    assert!(found(&later_word));
    let unsettled = |right, _: &[u8], work: &mut [u64]| {
        if let Some(word) = work.get_mut(WORK_WORDS - 1) {
            *word = 3;
        }
        right
    };
    assert!(found(&unsettled));
}

fn not_before(record: &mut Record) {
    for event in &mut record.events {
        event.start = event.start.saturating_add(1);
    }
}

fn reads_left_out(record: &mut Record) {
    let reads: Vec<bool> = record.events.iter().map(|event| event.is_read()).collect();
    for event in &mut record.events {
        (0..reads.len()).filter(|&seen| reads[seen]).for_each(|seen| event.visible[seen] = false);
    }
}

fn none_is_zero(record: &mut Record) {
    for event in &mut record.events {
        event.value = event.value.filter(|&value| value != 0);
    }
}

fn objects_modulo_32(record: &mut Record) {
    record.events.iter_mut().for_each(|event| event.object %= 32);
}

fn opening_0_is_none(record: &mut Record) {
    let figures = std::array::from_fn(|object| record.openings.of(object).filter(|&figure| figure != 0));
    record.openings = Openings::from_figures(figures);
}

/// No write is visible to a read of an object that has an opening.
fn openings_hide_writes(record: &mut Record) {
    let openings = record.openings;
    let objects: Vec<Option<u8>> = record.events.iter().map(|event| event.is_write().then_some(event.object)).collect();
    for read in record.events.iter_mut().filter(|event| event.is_read()) {
        if openings.of(read.object as usize).is_some() {
            let hidden = (0..objects.len()).filter(|&seen| objects[seen] == Some(read.object));
            hidden.for_each(|seen| read.visible[seen] = false);
        }
    }
}

fn neighbours_only(record: &Record, relations: &mut Relations) {
    let n = record.events.len();
    let step = |a, b| relations.so.has(a, b) || relations.vis.has(a, b);
    let two = |a, c| (0..n).any(|b| step(a, b) && step(b, c));
    relations.hb = Pairs::such_that(n, |a, b| step(a, b) || two(a, b));
}

fn pending_returned_at_zero(record: &Record, relations: &mut Relations) {
    let events = &record.events;
    relations.rb = Pairs::such_that(events.len(), |a, b| events[a].end.unwrap_or(0) < events[b].start);
}

#[test]
fn faults_of_a_judge() {
    assert!(!judge_is_found(|_| None));
    let faults: [(&str, Fault); 9] = [
        ("no openings", |record| {
            record.openings = Openings::none();
            None
        }),
        ("objects modulo 32", |record| {
            objects_modulo_32(record);
            None
        }),
        ("opening 0 taken as none", |record| {
            opening_0_is_none(record);
            None
        }),
        ("openings before writes", |record| {
            openings_hide_writes(record);
            None
        }),
        ("return at the start", |record| {
            not_before(record);
            None
        }),
        ("reads left out of vis", |record| {
            reads_left_out(record);
            None
        }),
        ("none taken as 0", |record| {
            none_is_zero(record);
            None
        }),
        ("two steps of hb", |_| Some(neighbours_only)),
        ("pending as returned", |_| Some(pending_returned_at_zero)),
    ];
    for (name, fault) in faults {
        assert!(judge_is_found(fault), "{name}");
    }
}

#[test]
fn faults_of_a_store() {
    assert_eq!(store_failures(|right, _, _| right), 0);
    assert!(store_failures(|right, _, _| right ^ 256) > 0);
    assert!(store_failures(|right, _, _| right + (1 << 40)) > 0);
    let beyond = |right, _: &mut [u8], answers: &mut [u8]| {
        if let Some(last) = answers.last_mut() {
            *last ^= 1;
        }
        right
    };
    assert!(store_failures(beyond) > 0);
    let record = |right, record: &mut [u8], _: &mut [u8]| {
        if let Some(last) = record.last_mut() {
            *last ^= 1;
        }
        right
    };
    assert!(store_failures(record) > 0);
}

/// The answers of closes: no get that is event 0 finds a value.
fn answers_of_closes(answers: &mut [u8]) -> impl Iterator<Item = &mut [u8]> {
    answers.chunks_exact_mut(8).filter(|answer| answer[..4] == [0, 1, 0, 0])
}

#[test]
fn faults_of_a_close() {
    let no_byte_without_copies = |right, _: &mut [u8], answers: &mut [u8]| {
        answers_of_closes(answers).filter(|answer| answer[4..] == [0; 4]).for_each(|answer| answer[1] = 0);
        right
    };
    assert!(store_failures(no_byte_without_copies) > 0);
    let copies_in_a_byte = |right, _: &mut [u8], answers: &mut [u8]| {
        answers_of_closes(answers).for_each(|answer| answer[5..].fill(0));
        right
    };
    assert!(store_failures(copies_in_a_byte) > 0);
    assert!(rehearsal_failures(&IdleClose) > 0);
    for byte in 1..8 {
        let overlooked = |call: &mut [u8]| {
            if call[0] == 4 {
                call[byte] = 0;
            }
        };
        assert!(rehearsal_failures(&Misreading(overlooked)) > 0, "byte {byte} of a close overlooked");
    }
}

#[test]
fn faults_of_the_outstanding_count() {
    let failures = |counts| rehearsal_failures(&WrongCount(counts));
    assert_eq!(failures(|event, known, _| event.is_write() && !known), 0);
    let gets_with_the_puts = |_: &Event, known: bool, _| !known;
    assert!(failures(gets_with_the_puts) > 0);
    let own_site_lacking =
        |event: &Event, known: bool, site| event.is_write() && (!known || event.site as usize == site);
    assert!(failures(own_site_lacking) > 0);
    let whatever_was_delivered = |event: &Event, _, site| event.is_write() && event.site as usize != site;
    assert!(failures(whatever_was_delivered) > 0);
    assert!(failures(|_, _, _| false) > 0);
    assert!(store_failures(|right, _, _| right % (1 << 32)) > 0, "the count in a byte");
    let beside_a_refusal = |right, _: &mut [u8], _: &mut [u8]| if right % 256 > 0 { right + (1 << 24) } else { right };
    assert!(store_failures(beside_a_refusal) > 0);
}

#[test]
fn programs_are_run() {
    let seeds = Seeds::first(25);
    let (inspect, verdict) = (Path::new(env!("CARGO_BIN_EXE_inspect")), Path::new(env!("CARGO_BIN_EXE_verdict")));
    let mut right = Tally::counting();
    programs::inspect(inspect, &seeds, &mut right);
    programs::verdict(verdict, &seeds, &mut right);
    programs::rehearse(Path::new(env!("CARGO_BIN_EXE_rehearse")), &seeds, &mut right);
    assert_eq!(right.failed, 0);
    assert!(right.passed > 80, "{}", right.summary());
    let mut wrong = Tally::counting();
    programs::verdict(inspect, &seeds, &mut wrong);
    programs::inspect(Path::new("no-such-program"), &seeds, &mut wrong);
    assert!(wrong.failed > 30, "{}", wrong.summary());
}

/// The files of one ending that a run with failures kept.
fn kept(ending: &str, run: impl FnOnce(&mut Tally)) -> Vec<Vec<u8>> {
    let folder = Path::new(env!("CARGO_TARGET_TMPDIR")).join(format!("kept-{ending}"));
    let _ = std::fs::remove_dir_all(&folder);
    let mut tally = Tally::keeping(folder.clone());
    run(&mut tally);
    assert!(tally.failed > 0);
    let files = std::fs::read_dir(&folder).expect("made").map(|entry| entry.expect("read").path());
    let kept = files.filter(|path| path.extension().is_some_and(|end| end == ending));
    kept.map(|path| std::fs::read(path).expect("readable")).collect()
}

#[test]
fn failing_input_is_kept() {
    let fault = |right: u64, _: &[u8], _: &mut [u64]| if right == 0 { 1 } else { right };
    let inputs = kept("bin", |tally| reader::compare(&Wrong(fault), &Seeds { from: 2, ..Seeds::first(6) }, tally));
    ask(&inputs[0]).expect("a passing record was answered wrongly");
}

/// Once against the second checker's count, and once by the subject's own answers.
#[test]
fn wrong_count_is_told_twice() {
    let one_more = WrongStore(|right, _, _| right + (1 << 24));
    let texts = kept("txt", |tally| rehearsal::compare(&one_more, &Seeds::first(3), tally));
    for due in ["result: ", "the copies do not add up: "] {
        assert!(texts.iter().any(|text| text.starts_with(due.as_bytes())), "{due}");
    }
}
