//! The numbers that serve every edition. What an edition has of its own is in `Edition`.

/// Of a record, and of the store.
pub const MOST_EVENTS: usize = 384;
pub const MOST_SITES: usize = 8;

/// Question 3's limit, and what 22 asks of a record buffer.
pub const MOST_BYTES: usize = 33_280;

/// A row of the work slice has a bit for each event; question 1 asks for a row of each.
pub const ROW_WORDS: usize = 6;
pub const WORK_WORDS: usize = 2_304;

/// What 41 asks of a slice of events: a ring may go through all of them.
pub const ENTRIES: usize = 384;

const _: () = assert!(64 * ROW_WORDS == MOST_EVENTS && WORK_WORDS == ROW_WORDS * MOST_EVENTS && ENTRIES == MOST_EVENTS);
