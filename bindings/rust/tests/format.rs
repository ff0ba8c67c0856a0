//! The dumps of docs/FORMAT.md are the bytes that they say they are, and so is its way to compute a block's check.

mod editions;

use editions::in_edition;
use gcr::{rehearse_raw, Call, Edition, OPENINGS_BYTES, RECORD_MOST};

const PAGE: &str = include_str!("../../../docs/FORMAT.md");
const EMPTY: &[u8] = include_bytes!("../../../records/empty-one-site.gcr");
const LISTING: &[u8] = include_bytes!("../../../records/listing.gcr");
const LISTING_SCRIPT: &[u8] = include_bytes!("../../../records/listing.script");
const CLOSING_SCRIPT: &[u8] = include_bytes!("../../../records/closing.script");
const CLOCKS: &[u8] = include_bytes!("../../../records/clocks.gcr");
const OPENING: &[u8] = include_bytes!("../../../records/opening.gcr");
const OPENING_SCRIPT: &[u8] = include_bytes!("../../../records/opening.script");

/// Where the script stands in what `rehearse` reads: after the sites and the openings.
const SCRIPT_AT: usize = 1 + OPENINGS_BYTES;

/// `01fc: 9b 74 | text` as the offset and its bytes; other lines are none.
fn shown(line: &str) -> Option<(usize, Vec<u8>)> {
    let (place, bytes) = line.split_once('|')?.0.split_once(':')?;
    let bytes = bytes.split_whitespace().map(|byte| u8::from_str_radix(byte, 16).unwrap());
    Some((usize::from_str_radix(place, 16).unwrap(), bytes.collect()))
}

/// The bytes of the page's dump of that name: zero where none are shown.
fn dump(name: &str, length: usize) -> Vec<u8> {
    let (_, rest) = PAGE.split_once(&format!("```text {name}\n")).unwrap();
    let (lines, _) = rest.split_once("```").unwrap();
    let mut bytes = vec![0; length];
    for (at, part) in lines.lines().filter_map(shown) {
        bytes[at..at + part.len()].copy_from_slice(&part);
    }
    bytes
}

/// Of what `rehearse` reads: the record, and the answers.
fn rehearsed(input: &[u8]) -> (Vec<u8>, Vec<u8>) {
    let (openings, script) = (&input[1..SCRIPT_AT], &input[SCRIPT_AT..]);
    let (mut record, mut buffer) = (vec![0; RECORD_MOST], vec![0; script.len()]);
    let done = rehearse_raw(input[0].into(), openings, script, &mut record, &mut buffer).unwrap();
    record.truncate(done.length);
    (record, buffer)
}

fn answers(input: &[u8]) -> Vec<u8> {
    rehearsed(input).1
}

#[test]
fn dumps_are_the_bytes_of_their_files() {
    assert_eq!(dump("records/empty-one-site.gcr", EMPTY.len()), EMPTY);
    assert_eq!(dump("records/listing.gcr", LISTING.len()), LISTING);
    assert_eq!(dump("records/listing.script", LISTING_SCRIPT.len()), LISTING_SCRIPT);
    assert_eq!(dump("records/opening.gcr", OPENING.len()), OPENING);
    assert_eq!(dump("records/opening.script", OPENING_SCRIPT.len()), OPENING_SCRIPT);
    assert_eq!(dump("records/clocks.gcr", CLOCKS.len()), CLOCKS);
}

#[test]
fn the_listing_is_shown_in_the_older_edition_too() {
    assert_eq!(dump("the listing in GCR2", LISTING.len()), in_edition(Edition::Gcr2, LISTING));
    let first = in_edition(Edition::Gcr1, LISTING);
    assert_eq!((first[3], &first[508..512]), (0x31, &[0xa1, 0x74, 0x19, 0x8d][..]));
}

#[test]
fn scripts_leave_their_records() {
    assert_eq!(rehearsed(LISTING_SCRIPT).0, LISTING);
    assert_eq!(rehearsed(OPENING_SCRIPT).0, OPENING);
}

#[test]
fn the_listings_answers_are_as_shown() {
    assert_eq!(dump("answers", 56), answers(LISTING_SCRIPT));
}

#[test]
fn the_answers_of_the_script_with_openings_are_as_shown() {
    assert_eq!(dump("answers with openings", 56), answers(OPENING_SCRIPT));
}

#[test]
fn the_answers_of_the_script_with_closes_are_as_shown() {
    let script = dump("a close", 48);
    assert_eq!(script, CLOSING_SCRIPT[SCRIPT_AT..]);
    assert_eq!(CLOSING_SCRIPT[1..SCRIPT_AT], [0; OPENINGS_BYTES]);
    let close = Call::Close.bytes();
    assert_eq!([&script[16..24], &script[40..]], [close; 2]);
    assert_eq!(dump("answers with a close", 48), answers(CLOSING_SCRIPT));
}

/// A and B, as the page's lines of C compute them.
fn check(number: usize, block: &[u8]) -> (u32, u32) {
    let words = block[..508].chunks(2).map(|word| u32::from(word[0]) + 256 * u32::from(word[1]));
    words.fold((number as u32 + 1, 0), |(a, b), word| {
        let a = (a + word) % 65521;
        (a, (b + a) % 65521)
    })
}

#[test]
fn checks_are_as_the_page_computes_them() {
    let stored = |at: &[u8]| u32::from(at[0]) + 256 * u32::from(at[1]);
    for record in [EMPTY, LISTING, &in_edition(Edition::Gcr2, LISTING), OPENING, CLOCKS] {
        for (number, block) in record.chunks(512).enumerate() {
            assert_eq!(check(number, block), (stored(&block[508..]), stored(&block[510..])));
        }
    }
    assert_eq!(check(0, EMPTY), (29851, 34610));
}
