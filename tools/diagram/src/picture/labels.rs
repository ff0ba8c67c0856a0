//! What the labels of marks say.

use crate::record::Event;

/// The kinds of labels.
const KINDS: [fn(&Event) -> bool; 4] = [
    |event| event.is_write,
    |event| !event.is_write && event.value.is_some(),
    |event| !event.is_write && event.value.is_none() && !event.is_pending(),
    |event| !event.is_write && event.value.is_none() && event.is_pending(),
];

/// `W 5=100 is a write of 100 to object 5, and R 5→200 a read of object 5 that holds 200.` Of each kind that occurs the
/// first is told, if it can be one without an opening, which has words of its own.
pub fn in_words(events: &[&Event]) -> Option<String> {
    let first = |is_of: fn(&Event) -> bool| {
        let mut of_kind = events.iter().filter(|event| is_of(event));
        of_kind.clone().find(|event| !event.holds_opening).or(of_kind.next())
    };
    let said: Vec<(String, String)> =
        KINDS.into_iter().filter_map(first).map(|event| (event.label(), event.label_in_words())).collect();
    let ((label, words), others) = said.split_first()?;
    let others = others.iter().enumerate().map(|(at, (label, words))| {
        let and = if at + 2 == said.len() { "and " } else { "" };
        format!(", {and}{label} {words}")
    });
    Some(format!("{label} is {words}{}.", others.collect::<String>()))
}

#[cfg(test)]
mod tests {
    use super::*;

    fn read(value: Option<u32>, end: Option<u64>) -> Event {
        Event { is_write: false, object: 5, value, end, ..Event::from(&gcr::Event::blank()) }
    }

    #[test]
    fn each_kind_that_occurs_is_told_once() {
        let write = |value: u32| Event { is_write: true, ..read(Some(value), Some(3)) };
        let (writes, pending) = ([write(100), write(200)], read(None, None));
        assert_eq!(in_words(&[]), None);
        let both = [&writes[0], &writes[1]];
        assert_eq!(in_words(&both).as_deref(), Some("W 5=100 is a write of 100 to object 5."));
        let two = "W 5=100 is a write of 100 to object 5, and R 5→? a read of object 5 that is pending.";
        assert_eq!(in_words(&[&pending, &writes[0]]).as_deref(), Some(two));
        let reads = [read(None, Some(3)), read(Some(7), Some(3))];
        let three =
            "R 5→7 is a read of object 5 that holds 7, R 5→none a read of object 5 that holds no value, and R 5→? \
                     a read of object 5 that is pending.";
        assert_eq!(in_words(&[&pending, &reads[0], &reads[1]]).as_deref(), Some(three));
    }

    #[test]
    fn a_read_that_holds_an_opening_is_told_only_where_there_is_no_other() {
        let opened = Event { holds_opening: true, ..read(Some(300), Some(3)) };
        let alone = "R 5→300 (opening) is a read of object 5 that holds 300.";
        assert_eq!(in_words(&[&opened]).as_deref(), Some(alone));
        let other = "R 5→7 is a read of object 5 that holds 7.";
        assert_eq!(in_words(&[&opened, &read(Some(7), Some(3))]).as_deref(), Some(other));
    }
}
