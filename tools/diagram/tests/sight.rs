//! The picture says what each event sees: no less and no more.

mod support;

use second::relations::Relations;
use support::asking::{asked, plain};
use support::records;
use support::seen::{read_off, said};

#[test]
fn what_events_see_can_be_read_off() {
    for (seed, record) in records::random() {
        assert!(read_off(&plain(&record), record.events.len()) == said(&record), "seed {seed}");
    }
    for record in records::shipped() {
        assert!(read_off(&plain(&record), record.events.len()) == said(&record));
    }
}

#[test]
fn what_the_largest_records_say_can_be_read_off() {
    for record in records::large() {
        assert!(read_off(&plain(&record), record.events.len()) == said(&record));
    }
}

#[test]
fn a_later_read_that_does_not_see_the_write_looks_different() {
    let (seen, unseen) = (plain(&records::write_then_read(true)), plain(&records::write_then_read(false)));
    assert_eq!((seen.pairs("seen all"), seen.pairs("gap")), (vec![(0, 1)], vec![]));
    assert_eq!((unseen.pairs("seen"), unseen.pairs("gap")), (vec![], vec![(0, 1)]));
}

#[test]
fn a_line_is_broken_only_where_the_later_event_does_not_see() {
    for (seed, record) in records::random() {
        let Relations { so, vis, .. } = Relations::of(&record);
        let gaps = plain(&record).pairs("gap");
        assert!(gaps.iter().all(|&(from, to)| so.has(from, to) && !vis.has(from, to)), "seed {seed}");
    }
}

#[test]
fn a_read_that_sees_the_one_before_but_not_all_that_it_saw_has_an_open_head() {
    let stale_read = &records::shipped()[1];
    let drawing = plain(stale_read);
    assert_eq!((drawing.pairs("seen all"), drawing.pairs("seen alone")), (vec![(0, 1)], vec![(1, 2)]));
}

#[test]
fn the_legend_says_what_no_arrow_means() {
    let legend = plain(&records::write_then_read(true)).texts("note").join(" ");
    assert!(legend.contains("An arrow leads from an event to one that sees it."));
    assert!(legend.contains("What the arrows do not tell is not seen, at an event's own site either"));
    for sign in
        ["sees it and all that it sees", "sees it, but not all that it sees", "later at its site, but does not see it"]
    {
        assert!(legend.contains(sign));
    }
}

#[test]
fn pointing_at_a_mark_shows_what_its_event_sees() {
    let drawing = plain(&records::shipped()[0]);
    let titles: Vec<&str> =
        drawing.named("title").filter(|title| title.event.is_some()).map(|title| title.text.as_str()).collect();
    assert_eq!(titles[0], "event 0: W 5=100, site 0, start 0, returned 1, arbitration 0, sees nothing");
    assert_eq!(titles[4], "event 4: R 5→200, site 0, start 8, returned 9, arbitration 4, sees 0, 1 and 3");
}

/// A step of a way has an arrow also where others tell it; that tells nothing more.
#[test]
fn what_events_see_can_be_read_off_where_a_way_is_drawn() {
    let chained = records::chained().filter(|(_, record)| record.events.len() < 80);
    for (seed, record) in records::random().chain(chained) {
        for predicate in [5, 10] {
            let drawing = asked(predicate, &record);
            assert!(read_off(&drawing, record.events.len()) == said(&record), "seed {seed}, predicate {predicate}");
        }
    }
}
