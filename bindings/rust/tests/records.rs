//! What records say, and that it leads back to their bytes.

use gcr::{broken_by, explain, is_visible, judge_all, judge_model, judge_predicate, rehearse, script};
use gcr::{Call, Edition, Event, Kind, Model, Openings, Predicate, Record, Refusal, Verdict, VisibleSet};
use gcr::{EVENTS_MOST, RECORD_MOST, WORK_WORDS};

mod editions;
mod sealing;
mod shipped;
use editions::in_edition;
use sealing::sealed;
use shipped::shipped;

#[test]
fn a_record_leads_back_to_its_bytes() {
    for (name, bytes) in shipped() {
        let record = Record::read(&bytes).unwrap();
        assert_eq!(record.encode().as_deref(), Ok(bytes.as_slice()), "{name}");
        assert_eq!(record.events().len(), record.count());
    }
}

#[test]
fn events_see_what_the_library_lays_out() {
    for (name, bytes) in shipped() {
        let mut work = [0; WORK_WORDS];
        gcr::read(&bytes, &mut work).unwrap();
        for (b, event) in Record::read(&bytes).unwrap().events() {
            let seen: Vec<u16> = (0..EVENTS_MOST as u16).filter(|&a| is_visible(&work, a, b)).collect();
            assert_eq!(event.visible.iter().collect::<Vec<_>>(), seen, "{name}, event {b}");
        }
    }
}

/// The longest record that a rehearsal leaves.
fn longest() -> Vec<u8> {
    let call = |k: u32| Call::Put { site: (k % 8) as u8, object: (k % 32) as u8, value: u32::MAX - k };
    let calls: Vec<Call> = (0..EVENTS_MOST as u32).map(call).collect();
    let script = script(&calls);
    let openings = Openings::none().with(0, 0).and_then(|openings| openings.with(31, u32::MAX)).unwrap();
    let mut record = vec![0; RECORD_MOST];
    rehearse(8, &openings, &script, &mut record, &mut vec![0; script.len()]).unwrap();
    record
}

#[test]
fn the_longest_record_that_a_rehearsal_leaves() {
    let bytes = longest();
    let record = Record::read(&bytes).unwrap();
    assert_eq!((record.edition, record.count(), bytes.len()), (Edition::Gcr3, EVENTS_MOST, RECORD_MOST));
    assert_eq!(record.encode(), Ok(bytes));
}

/// As much of it as the documentation says.
#[test]
fn the_longest_record_is_judged_on_a_stack_of_256_kb() {
    let bytes = longest();
    let asked = move || {
        for &predicate in Predicate::ALL {
            assert_eq!(explain(predicate, &bytes).is_ok(), judge_predicate(predicate, &bytes) != Ok(Verdict::Met));
        }
        (judge_all(&bytes).is_ok(), Record::read(&bytes).is_ok())
    };
    let thread = std::thread::Builder::new().stack_size(256 * 1024).spawn(asked).unwrap();
    assert_eq!(thread.join().unwrap(), (true, true));
}

/// So many writes of one site, each of which sees all before it.
fn rising(edition: Edition, count: usize) -> Record {
    let mut record = Record::new(edition, 1);
    let mut seen = VisibleSet::none();
    for number in 0..count as u64 {
        let mut write = Event::blank();
        (write.kind, write.value, write.position) = (Kind::Write, Some(7), number as u16);
        (write.start, write.end, write.visible) = (2 * number, Some(2 * number + 1), seen);
        record.push(write);
        seen = seen.with(number as u16).unwrap_or(seen);
    }
    record
}

/// Whole blocks, one more, and as many events as there can be.
#[test]
fn each_edition_has_as_many_events_as_it_says() {
    for (edition, in_a_block) in [(Edition::Gcr1, 7), (Edition::Gcr2, 7), (Edition::Gcr3, 6)] {
        for count in [0, 1, 6, 7, 8, edition.events_most() - 1, edition.events_most()] {
            let record = rising(edition, count);
            let bytes = record.encode().unwrap_or_else(|refusal| panic!("{count} in {edition}: {refusal}"));
            assert_eq!(bytes.len(), 512 * (1 + usize::div_ceil(count, in_a_block)), "{count} in {edition}");
            assert_eq!(bytes[..6], [edition.letters().as_bytes(), &(count as u16).to_le_bytes()].concat());
            assert_eq!(Record::read(&bytes), Ok(record), "{count} in {edition}");
            assert_eq!(judge_all(&bytes), Ok([Verdict::Met; 13]), "{count} in {edition}");
        }
    }
}

/// Of the older editions 5 refuses them where 3 does not: up to 448 events are no more bytes than a record may have.
#[test]
fn more_events_than_an_edition_has_are_refused() {
    for (edition, count, number) in [
        (Edition::Gcr1, 257, 5),
        (Edition::Gcr2, 257, 5),
        (Edition::Gcr2, 300, 5),
        (Edition::Gcr2, 384, 5),
        (Edition::Gcr2, 448, 5),
        (Edition::Gcr2, 449, 3),
        (Edition::Gcr3, 385, 3),
        (Edition::Gcr3, 65_536 + 1, 3),
    ] {
        let refusal = rising(edition, count).encode().unwrap_err();
        assert_eq!(refusal, Refusal { number, place: 0 }, "{count} in {edition}");
    }
    for edition in Edition::ALL {
        let mut bytes = rising(*edition, edition.events_most()).encode().unwrap();
        bytes[4..6].copy_from_slice(&(edition.events_most() as u16 + 1).to_le_bytes());
        assert_eq!(Record::read(&sealed(bytes)), Err(Refusal { number: 5, place: 0 }), "{edition}");
    }
}

/// Slots of the older editions have no bit for it.
#[test]
fn an_event_that_is_not_there_is_seen_in_no_edition() {
    for &edition in Edition::ALL {
        for seen in [3, 255, 256, 383] {
            let mut record = rising(edition, 1);
            for number in [1, 2] {
                let mut write = *rising(edition, 3).event(number).unwrap();
                write.visible = write.visible.with(seen).unwrap();
                record.push(write);
            }
            assert_eq!(record.encode(), Err(Refusal { number: 9, place: 1 }), "{seen} in {edition}");
        }
    }
}

#[test]
fn a_record_is_judged_alike_in_every_edition_that_can_say_it() {
    for (name, bytes) in shipped() {
        let record = Record::read(&bytes).unwrap();
        let later = Edition::ALL.iter().filter(|&&later| later >= record.edition);
        for &edition in later.filter(|later| record.count() <= later.events_most()) {
            assert_eq!(judge_all(&in_edition(edition, &bytes)), judge_all(&bytes), "{name} in {edition}");
        }
    }
}

fn small() -> Record {
    Record::read(include_bytes!("../../../records/listing.gcr")).unwrap()
}

/// The listing with one event more, changed.
fn with(change: impl Fn(&mut Event)) -> Result<Vec<u8>, u32> {
    let mut record = small();
    let mut event = *record.event(4).unwrap();
    event.position = 5;
    change(&mut event);
    record.push(event);
    record.encode().map_err(|refusal| refusal.number)
}

#[test]
fn what_a_record_cannot_say_is_refused() {
    assert!(with(|_| ()).is_ok());
    assert_eq!(with(|event| event.site = 2), Err(7));
    assert!(with(|event| event.kind = Kind::Write).is_ok());
    assert_eq!(with(|event| (event.kind, event.value) = (Kind::Write, None)), Err(7));
    assert_eq!(with(|event| event.end = None), Err(7));
    assert_eq!(with(|event| event.end = Some(0)), Err(7));
    assert_eq!(with(|event| event.position = 4), Err(8));
    assert_eq!(with(|event| event.visible = event.visible.with(5).unwrap()), Err(9));
    for (sites, edition, number) in [(0, Edition::Gcr2, 5), (9, Edition::Gcr2, 5), (1, Edition::Gcr2, 7)] {
        let mut record = small();
        (record.sites, record.edition) = (sites, edition);
        assert_eq!(record.encode().unwrap_err().number, number);
    }
    let mut record = small();
    (record.edition, record.difference) = (Edition::Gcr1, 1);
    assert_eq!(record.encode().unwrap_err().number, 5);
}

#[test]
fn a_ring_is_refused() {
    let mut record = Record::new(Edition::Gcr1, 1);
    for (position, seen) in [(0, 1), (1, 0)] {
        let mut event = Event::blank();
        (event.position, event.visible) = (position, [seen].into_iter().collect());
        record.push(event);
    }
    assert_eq!(record.encode().unwrap_err().number, 10);
}

#[test]
fn a_model_breaks_at_the_first_of_its_predicates_that_breaks() {
    for (name, bytes) in shipped() {
        for &model in Model::ALL {
            let verdicts = model.predicates().iter().map(|&predicate| judge_predicate(predicate, &bytes).unwrap());
            let first = verdicts.into_iter().find(|&verdict| verdict != Verdict::Met);
            assert_eq!(judge_model(model, &bytes), Ok(first.unwrap_or(Verdict::Met)), "{name}, {model}");
            assert_eq!(broken_by(model, &bytes).unwrap().is_some(), first.is_some());
        }
    }
}

#[test]
fn names_lead_back_to_what_has_them() {
    for &predicate in Predicate::ALL {
        assert_eq!(predicate.name().parse(), Ok(predicate));
        assert_eq!(predicate.name().to_uppercase().parse(), Ok(predicate));
        assert_eq!(predicate.number().to_string().parse(), Ok(predicate));
    }
    for &model in Model::ALL {
        assert_eq!(model.name().to_lowercase().parse(), Ok(model));
    }
    assert_eq!("per-object sequential".parse(), Ok(Model::PerObjectSequential));
    for word in ["", "14", "0", "-1", "+5", "RVal2", "causal causal"] {
        assert!(word.parse::<Predicate>().is_err() && word.parse::<Model>().is_err(), "{word}");
    }
    for &edition in Edition::ALL {
        assert_eq!(edition.letters().to_lowercase().parse(), Ok(edition));
    }
    assert!("GCR4".parse::<Edition>().is_err());
}

#[test]
fn a_visible_set_has_no_event_beyond_a_record() {
    assert_eq!(VisibleSet::none().with(383).map(|seen| seen.contains(383)), Some(true));
    assert_eq!([384, u16::MAX].map(|event| VisibleSet::none().with(event)), [None; 2]);
    assert!(!VisibleSet::none().contains(u16::MAX));
}
