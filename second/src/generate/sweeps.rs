//! Fixed inputs, one for each byte or object that could be overlooked.

use super::scripts::{as_read, Rehearsal};
use crate::limits::{MOST_BYTES, MOST_EVENTS};
use crate::openings::{value_at, Openings, OBJECTS, OPENINGS_BYTES};
use crate::record::*;
use crate::store::Call;

/// An input under a name of its own.
pub type Named<T> = (String, T);

/// Records with one bit turned in one byte of block 0, and letters of all sorts, sealed again. All have a read of each
/// object that can have an opening and of two that cannot, so that every opening shows in predicate 1. A write of
/// another site returns one millisecond before them and stands behind them in arbitration: 3 and 4 are broken where the
/// clocks do not differ, and met where they do.
pub fn block_0() -> Vec<Named<Vec<u8>>> {
    let mut all = Vec::new();
    for (name, every_byte, record) in unwritten() {
        let bytes = record.to_bytes();
        for at in (0..CHECKED_BYTES).filter(|_| every_byte) {
            all.push((format!("{name}-byte-{at}"), sealed(turned(&bytes, at))));
        }
        all.extend(LETTERS.map(|letters| (format!("{name}-as-{}", letters.escape_ascii()), lettered(&bytes, letters))));
        all.push((name.to_string(), bytes));
    }
    all
}

/// Fewer of them, as a program is slow to start: in each edition still every byte is turned.
pub fn block_0_of_programs() -> Vec<Named<Vec<u8>>> {
    let mut all = block_0();
    all.retain(|(name, _)| !name.contains("-odd"));
    all
}

const LETTERS: [&[u8; 4]; 14] = [
    b"GCR1",
    b"GCR2",
    b"GCR0",
    b"GCR3",
    b"GCR4",
    b"GCR9",
    b"GCR ",
    b"GCR\0",
    b"GCR\xb2",
    b"gcr1",
    b"Gcr2",
    b"RGC2",
    b"2RCG",
    b"\0\0\0\0",
];

/// In `GCR1`, and in each other edition with openings of no object, of even ones, of odd ones, and of all. With those of
/// the even and of the odd ones every object has one and has none, so that in these every byte is turned.
fn unwritten() -> Vec<(String, bool, Record)> {
    let mut all = vec![("gcr1".to_string(), true, unwritten_of(Edition::GCR1, Openings::none()))];
    for (name, edition) in [("gcr2", Edition::GCR2), ("gcr3", Edition::GCR3)] {
        all.push((format!("{name}-none"), false, unwritten_of(edition, figures(|_| false))));
        all.push((format!("{name}-even"), true, unwritten_of(edition, figures(|object| object % 2 == 0))));
        all.push((format!("{name}-odd"), true, unwritten_of(edition, figures(|object| object % 2 == 1))));
        all.push((format!("{name}-all"), false, unwritten_of(edition, figures(|_| true))));
    }
    all
}

/// Figures that differ in all their bytes, but for two objects that open with 0.
pub fn figures(has: impl Fn(usize) -> bool) -> Openings {
    let figure = |object: usize| match object {
        6 | 7 => 0,
        _ => 0x0102_0408u32.wrapping_mul(object as u32 + 1),
    };
    Openings::from_figures(std::array::from_fn(|object| has(object).then(|| figure(object))))
}

fn unwritten_of(edition: Edition, openings: Openings) -> Record {
    let objects = (0..OBJECTS).chain([32, 255]);
    let reads = objects.map(|object| Event::read(0, object as u8, openings.of(object)).at(1, 1));
    Record { edition, openings, ..Record::in_order(2, reads.chain([Event::write(1, 0, 1)]).collect()) }
}

/// Two events against arbitration, the later one starting so long after the other's return: at two sites or at one,
/// early and at the end of time, the first one pending or not. The differences have one bit each, none and all. Between
/// sites 3 and 4 are broken only where the later one starts beyond the difference, at one site where it starts after the
/// return.
pub fn clocks() -> Vec<Named<Vec<u8>>> {
    let differences = (0..32).map(|bit| 1 << bit).chain([0, u32::MAX]);
    differences.flat_map(of_difference).map(|(name, record)| (name, record.to_bytes())).collect()
}

fn of_difference(difference: u32) -> Vec<Named<Record>> {
    let (within, beyond) = (difference as u64, difference as u64 + 1);
    let pair = |sort: &str, a: Event, b: Event| {
        let record = Record::in_order(2, vec![a, b]).with_positions(&[1, 0]).apart(difference);
        (format!("clocks-{difference}-{sort}"), record)
    };
    let write = |site| Event::write(site, 0, 1);
    let last = u64::MAX;
    vec![
        pair("well-within", write(0).at(0, 4), write(1).at(3 + within, last)),
        pair("within", write(0).at(0, 3), write(1).at(3 + within, last)),
        pair("beyond", write(0).at(0, 3), write(1).at(3 + beyond, last)),
        pair("one-site", write(1).at(0, 3), write(1).at(4, last)),
        pair("last-at-one-site", write(1).at(0, last - 1), write(1).at(last, last)),
        pair("last-but-one-at-one-site", write(1).at(0, last - 2), write(1).at(last - 1, last)),
        pair("at-once", write(1).at(0, 3), write(1).at(3, last)),
        pair("at-once-at-the-end", write(1).at(0, last), write(1).at(last, last)),
        pair("at-once-before-the-end", write(1).at(0, last - 1), write(1).at(last - 1, last)),
        pair("pending", write(0).pending_from(0), write(1).at(beyond, last)),
        pair("pending-to-the-end", write(0).pending_from(0), write(1).at(last, last)),
        pair("pending-to-the-beginning", write(0).pending_from(last), write(1).at(0, 0)),
        pair("pending-then-same-site", write(1).pending_from(0), write(1).at(last, last)),
        pair("within-at-the-end", write(1).at(0, last - within), write(0).at(last, last)),
        pair("beyond-at-the-end", write(1).at(0, last - beyond), write(0).at(last, last)),
        pair("just-past-the-end", write(1).at(0, last - within.saturating_sub(1)), write(0).at(last, last)),
        pair("past-the-end", write(1).at(0, last), write(0).at(last, last)),
        pair("before-the-beginning", write(1).at(0, 0), write(0).at(0, 0)),
    ]
}

/// What Change 8 laid out anew: in each edition as many events as fill blocks, one more, and as many as there can be and
/// one more; each byte behind the slots of a block, and as many before it; and older editions' records of more bytes than
/// these can have.
pub fn harvest() -> Vec<Named<Vec<u8>>> {
    Edition::ALL
        .into_iter()
        .flat_map(|edition| [counts(edition), tails(edition), stretched(edition)].concat())
        .collect()
}

/// Fewer of them for programs: the bytes behind the slots at which a tail may begin or end.
pub fn harvest_of_programs() -> Vec<Named<Vec<u8>>> {
    let ends = ["-448", "-479", "-480", "-507"];
    let mut all = harvest();
    all.retain(|(name, _)| !name.contains("-byte-") || ends.iter().any(|end| name.ends_with(end)));
    all
}

fn name_of(edition: Edition) -> String {
    edition.letters.escape_ascii().to_string().to_lowercase()
}

/// Each event sees the one before it, the 64th before it, and the first.
pub fn seeing_back(n: usize) -> Record {
    let event = |k: usize| {
        let before = [1, 64, k].into_iter().filter_map(|back| k.checked_sub(back)).filter(|&seen| seen < k);
        let seen: Vec<usize> = before.filter(|&seen| seen < MOST_EVENTS).collect();
        Event::write(0, 0, k as u32).at(2 * k as u64, 2 * k as u64 + 1).sees(&seen)
    };
    Record::in_order(1, (0..n).map(event).collect())
}

/// A block that would be too many for question 3 is left out.
fn counts(edition: Edition) -> Vec<Named<Vec<u8>>> {
    let one = |n: usize| {
        let mut bytes = Record { edition, ..seeing_back(n) }.to_bytes();
        bytes.truncate(MOST_BYTES);
        (format!("{}-of-{n}", name_of(edition)), sealed(bytes))
    };
    [0, 1, 6, 7, 8, 12, 13, 14, 255, 256, 257, 258, 383, 384, 385].map(one).to_vec()
}

/// In both blocks of eight events, each byte from where the older editions' slots end.
fn tails(edition: Edition) -> Vec<Named<Vec<u8>>> {
    let bytes = Record { edition, ..seeing_back(8) }.to_bytes();
    let places = [1, 2].into_iter().flat_map(|block| (448..CHECKED_BYTES).map(move |at| (block, at)));
    let one = |(block, at)| {
        (format!("{}-block-{block}-byte-{at}", name_of(edition)), { sealed(turned(&bytes, block * BLOCK_BYTES + at)) })
    };
    places.map(one).collect()
}

/// Zero blocks behind a full record, sealed and not, with the count as it was and one that is too large.
fn stretched(edition: Edition) -> Vec<Named<Vec<u8>>> {
    let full = Record { edition, ..seeing_back(edition.most_events) }.to_bytes();
    let mut all = Vec::new();
    for blocks in [38, 39, 64, 65, 66] {
        let mut bytes = full.clone();
        bytes.resize(blocks * BLOCK_BYTES, 0);
        let name = format!("{}-of-{blocks}-blocks", name_of(edition));
        all.push((name.clone(), sealed(bytes.clone())));
        let mut counted = bytes.clone();
        counted[4..6].copy_from_slice(&(edition.most_events as u16 + 1).to_le_bytes());
        all.push((format!("{name}-and-more-events"), sealed(counted)));
        let mut unsealed = sealed(bytes);
        *unsealed.last_mut().expect("blocks") ^= 1;
        all.push((format!("{name}-unsealed"), unsealed));
    }
    all
}

/// A write and a read that never returned. All of 3 to 12 are met. Had the two returned before the others of their site
/// start, all would be broken where they stand last in arbitration, and all but 4 and 7 where the write stands first.
pub fn never_returned() -> Vec<Named<Vec<u8>>> {
    let mut all = Vec::new();
    for start in [0, 1, 5, u64::MAX - 1, u64::MAX] {
        for (place, positions) in [("last", [4, 3, 2, 1, 0]), ("first", [0, 4, 3, 2, 1])] {
            let record = two_pending(start).with_positions(&positions);
            all.push((format!("never-returned-{start}-{place}"), record.to_bytes()));
            all.push((format!("never-returned-{start}-{place}-apart"), record.apart(u32::MAX).to_bytes()));
        }
    }
    all
}

/// The read sees a write of another site, and the events that start later see nothing.
fn two_pending(start: u64) -> Record {
    let events = vec![
        Event::write(0, 0, 1).pending_from(0),
        Event::read(0, 0, None).pending_from(0).sees(&[2]),
        Event::write(1, 0, 2).at(0, u64::MAX),
        Event::read(0, 0, None).at(start, u64::MAX),
        Event::write(0, 0, 3).at(start, u64::MAX),
    ];
    Record::in_order(2, events)
}

fn turned(bytes: &[u8], at: usize) -> Vec<u8> {
    let mut turned = bytes.to_vec();
    turned[at] ^= 1 << (at % 8);
    turned
}

fn sealed(mut bytes: Vec<u8>) -> Vec<u8> {
    seal(&mut bytes);
    bytes
}

fn lettered(bytes: &[u8], letters: &[u8; 4]) -> Vec<u8> {
    let mut lettered = bytes.to_vec();
    lettered[..4].copy_from_slice(letters);
    sealed(lettered)
}

/// Lengths of a slice of openings that is refused for it.
const WRONG_LENGTHS: [usize; 9] = [0, 1, 4, 128, 131, 133, 136, 264, 20_000];

/// Openings of every object, each byte changed; a value under every clear bit; slices of other lengths; and what 20 to
/// 23 refuse beside what 40 does.
pub fn rehearsals() -> Vec<Named<Rehearsal>> {
    let all = figures(|_| true).to_bytes();
    let mut slices: Vec<Named<Vec<u8>>> = vec![("none".to_string(), vec![0; OPENINGS_BYTES])];
    slices.extend((0..OPENINGS_BYTES).map(|at| (format!("byte-{at}"), turned(&all, at))));
    slices.extend((0..OBJECTS).map(|object| (format!("opening-{object}"), alone(object).to_bytes().to_vec())));
    slices.extend((0..OBJECTS).map(|object| (format!("clear-bit-{object}"), under_clear_bit(object))));
    slices.extend(WRONG_LENGTHS.map(|length| (format!("length-{length}"), resized(&all, length))));
    slices.extend(WRONG_LENGTHS.map(|length| (format!("zeros-{length}"), vec![0; length])));
    let plain = slices.into_iter().map(|(name, openings)| (name, Rehearsal::plain(2, openings, gets_and_puts())));
    plain.chain(refused_twice()).collect()
}

/// As many events as the store takes and two more, of either kind, with record buffers about as long as they must be.
pub fn full_stores() -> Vec<Named<Rehearsal>> {
    let put = |k: usize| Call::Put { site: k % 8, object: k % OBJECTS, value: k as u32 };
    let get = |k: usize| Call::Get { site: k % 8, object: k % OBJECTS };
    let calls = |n: usize| (0..n).map(|k| if k % 3 == 2 { get(k) } else { put(k) });
    let script = |n: usize| calls(n).chain([Call::Close]).chain(calls(3)).flat_map(Call::to_bytes).collect::<Vec<_>>();
    let mut all = Vec::new();
    for events in [253, 254, 380, 381, 382, 384] {
        let rehearsal = Rehearsal::plain(8, figures(|_| true).to_bytes().to_vec(), script(events));
        all.push((format!("events-{events}"), rehearsal));
    }
    for record_bytes in [19_455, 19_456, MOST_BYTES - 1, MOST_BYTES, MOST_BYTES + 1, 40_000] {
        let rehearsal = Rehearsal::plain(8, vec![0; OPENINGS_BYTES], script(384));
        all.push((format!("buffer-{record_bytes}"), Rehearsal { record_bytes, ..rehearsal }));
    }
    all
}

/// What the program reads: the same, and an input that ends after each of its bytes up to the script.
pub fn program_inputs() -> Vec<Named<Vec<u8>>> {
    let whole = as_read(&Rehearsal::plain(2, figures(|_| true).to_bytes().to_vec(), vec![]));
    let cut = (0..=whole.len()).map(|length| (format!("cut-{length}"), whole[..length].to_vec()));
    let rehearsed = rehearsals().into_iter().chain(full_stores()).map(|(name, rehearsal)| (name, as_read(&rehearsal)));
    rehearsed.chain(cut).collect()
}

fn resized(bytes: &[u8], length: usize) -> Vec<u8> {
    let mut resized = bytes.to_vec();
    resized.resize(length, 0);
    resized
}

fn alone(object: usize) -> Openings {
    Openings::none().with(object, 7)
}

/// All others have openings.
fn under_clear_bit(object: usize) -> Vec<u8> {
    let mut bytes = figures(|other| other != object).to_bytes().to_vec();
    bytes[value_at(object) + object % 4] = 1;
    bytes
}

/// Every object is got at one site, three are put there, two of these are delivered, and every one is got at the other.
fn gets_and_puts() -> Vec<u8> {
    let gets = |site| (0..OBJECTS).map(move |object| Call::Get { site, object });
    let puts = [0, 6, 31].map(|object| Call::Put { site: 0, object, value: 100 + object as u32 });
    let delivered = [32, 33].map(|event| Call::Deliver { site: 1, event });
    gets(0).chain(puts).chain(delivered).chain(gets(1)).flat_map(Call::to_bytes).collect()
}

/// Openings that 40 refuses, in rehearsals that each of 20 to 23 refuses.
fn refused_twice() -> Vec<Named<Rehearsal>> {
    let mut all = Vec::new();
    for (slice, openings) in [("length", vec![0; 131]), ("clear-bit", under_clear_bit(31))] {
        let plain = || Rehearsal::plain(2, openings.clone(), gets_and_puts());
        let calls = gets_and_puts().len();
        all.push((format!("20-and-{slice}"), Rehearsal { sites: 9, ..plain() }));
        all.push((format!("21-and-{slice}"), Rehearsal { script: vec![0; calls - 1], ..plain() }));
        all.push((format!("22-and-{slice}"), Rehearsal { record_bytes: MOST_BYTES - 1, ..plain() }));
        all.push((format!("23-and-{slice}"), Rehearsal { answer_bytes: calls - 1, ..plain() }));
    }
    all
}
