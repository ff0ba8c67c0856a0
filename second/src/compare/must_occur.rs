//! What each comparer must meet in a run: one list for each, of all the answers that its subject can give.

use super::answered::*;
use super::chains::*;
use super::clocks::*;
use super::covers::APART;
use super::explain::{NO_PREDICATE_ELSE, TOO_SHORT};
use super::harvest::*;
use super::middles::*;
use super::occurrences::Row;
use super::opened::*;
use super::states::*;
use super::{returned, ways};

/// The numbers of predicates, and of models.
const THIRTEEN: &[u32] = &[1, 2, 3, 4, 5, 6, 7, 8, 9, 10, 11, 12, 13];

/// The predicates that go by clocks.
const REAL_TIME: &[u32] = &[3, 4];

/// Those that are told by a chain, and those that are by a middle event.
const CAUSAL: &[u32] = &[10, 11];
const PASSED_ON: &[u32] = &[5, 8];

/// The questions of a record, and those that name a block, slot or event.
const QUESTIONS: &[u32] = &[3, 4, 5, 6, 7, 8, 9, 10];
const PLACED: &[u32] = &[4, 7, 8, 9, 10];

/// The parts of block 0 that 5 asks about, by their first bytes. Byte 3 has the edition. Any difference stands from
/// byte 8 on, other than in `GCR1`.
const PARTS_OF_GCR1: &[u32] = &[0, 1, 2, 4, 6, 7, 8, 12, 144, 148];
const PARTS_OF_HEADED: &[u32] = &[0, 1, 2, 4, 6, 7, 12, 144, 148];

/// Objects as they are told: any below 31, the last with an opening, the first without one, and the last.
const OPENABLE: &[u32] = &[0, 31];
const ANY_OBJECT: &[u32] = &[0, 31, 32, 255];

/// Of every record that is read.
pub const EDITIONS: &[Row] = &[
    (GCR1, &[0, 3, 4, 5, 6, 7, 8, 9, 10]),
    (GCR2, &[0, 3, 4, 5, 6, 7, 8, 9, 10]),
    (GCR3, &[0, 3, 4, 5, 6, 7, 8, 9, 10]),
    (NO_EDITION, &[3, 4, 5]),
    (WRONG_IN_GCR1, PARTS_OF_GCR1),
    (WRONG_IN_GCR2, PARTS_OF_HEADED),
    (WRONG_IN_GCR3, PARTS_OF_HEADED),
    (WRONG_IN_NONE, &[3]),
    (NO_OPENINGS, &[0]),
    (SOME_OPENINGS, &[0]),
    (ALL_OPENINGS, &[0]),
    (DIFFERENCE, &[0, 4, 5, 6, 7, 8, 9, 10]),
    (DIFFERENCE_IN_GCR3, &[0, 4, 5, 6, 7, 8, 9, 10]),
    (DIFFERENCE_IN_GCR1, &[4, 5]),
    (EVENTS_OF_OLDER, &[0, 1, 256]),
    (EVENTS_OF_GCR3, &[0, 1, 256, 257, 383, 384]),
    (TOO_MANY, &[257, 258, 385]),
    (ROW_WORD, &[0, 1, 2, 3, 4, 5]),
    (TAIL_OF_OLDER, &[1, 448, 507]),
    (TAIL_OF_GCR3, &[1, 480, 507]),
    (REFUSED_LATE, &[7, 8, 9, 10]),
    (OLDER_AND_LONG, &[3, 4, 5, 6]),
    (PENDING_WITH_RETURN, &[1, 2, u32::MAX]),
    (RETURNED_AT_0, &[7]),
    (NO_STATE, &[7]),
];

/// Of every record that is judged: pairs that no older edition could name.
pub const LATE_BREAKS: &[Row] = &[(BROKEN_LATE, THIRTEEN)];

/// And what RVal meets.
pub const READS: &[Row] = &[
    (HOLDS_OPENING, OPENABLE),
    (HOLDS_OPENING_0, OPENABLE),
    (NONE_FOR_OPENING, OPENABLE),
    (NONE_FOR_OPENING_0, OPENABLE),
    (OTHER_FOR_OPENING, OPENABLE),
    (HOLDS_NONE, ANY_OBJECT),
    (ZERO_FOR_NONE, ANY_OBJECT),
    (OTHER_FOR_NONE, ANY_OBJECT),
    (WRITE_OVER_OPENING, OPENABLE),
    (OPENING_OVER_WRITE, OPENABLE),
    (BREAK_AT_OPENING, &[1]),
    (BREAK_AT_NONE, &[1]),
    (BREAK_AT_WRITE, &[1]),
];

/// And what RealTime and RealTimeWrites meet.
pub const CLOCKS: &[Row] = &[
    (DIFFERENCES, &[0, 1, 2, u32::MAX]),
    (OF_SITES, &[0, 1, 2, 3, 8]),
    (MET_BY_IT, REAL_TIME),
    (LARGE_MET_BY_IT, REAL_TIME),
    (BROKEN_LATER, REAL_TIME),
    (BROKEN_ALIKE, REAL_TIME),
    (NO_DIFFERENCE, REAL_TIME),
    (AT_DIFFERENCE, REAL_TIME),
    (NOT_ONE_ABOVE, REAL_TIME),
    (SUM_WRAPS, REAL_TIME),
    (START_WRAPS, REAL_TIME),
    (AT_ONE_SITE, REAL_TIME),
    (NOT_AT_ONE_SITE, REAL_TIME),
];

/// And what tells each case of rb.
pub const RETURNS: &[Row] = &returned::TOLD;

/// The models that have one of these two in their lists.
pub const MODEL_CLOCKS: &[Row] = &[(MODEL_MET_BY_IT, &[1, 2, 5])];

/// Of each model, those that it does not cover: 113 pairs. Linearizable covers all others.
pub const MODELS_APART: &[Row] = &[
    (APART[1], &[1, 3, 4, 5, 6, 7, 8, 9, 12, 13]),
    (APART[2], &[1, 2, 5]),
    (APART[3], &[1, 2, 3, 5, 6, 7]),
    (APART[4], &[1, 2, 3, 6, 7]),
    (APART[5], &[1, 2, 3, 4, 5, 9, 11, 12]),
    (APART[6], &[1, 2, 3, 4, 5, 6, 8, 9, 10, 11, 12]),
    (APART[7], &[1, 2, 3, 4, 5, 6, 7, 9, 11, 12]),
    (APART[8], &[1, 2, 3, 4, 5, 6, 7, 8, 10, 11, 12, 13]),
    (APART[9], &[1, 2, 3, 4, 5, 6, 7, 8, 9, 11, 12, 13]),
    (APART[10], &[1, 2, 3, 4, 5, 6, 7, 8, 9, 10, 12, 13]),
    (APART[11], &[1, 2, 3, 4, 5, 6, 7, 8, 9, 10, 11, 13]),
    (APART[12], &[1, 2, 3, 4, 5, 6, 7, 8, 9, 10, 11, 12]),
];

/// The program lends its own work slice, and nobody gives it a number.
pub const INSPECT: &[Row] = &[(PASSED, &[0]), (AT_PLACE_0, QUESTIONS), (ABOVE_PLACE_0, PLACED)];

pub const VERDICT: &[Row] = &[
    (PASSED, &[0]),
    (AT_PLACE_0, QUESTIONS),
    (ABOVE_PLACE_0, PLACED),
    (PREDICATE_MET, THIRTEEN),
    (PREDICATE_BROKEN, THIRTEEN),
];

/// Question 2 is not asked of a reading.
pub const READER: &[Row] = &[(PASSED, &[0]), (NO_WORK, &[1]), (AT_PLACE_0, QUESTIONS), (ABOVE_PLACE_0, PLACED)];

/// The work memory is inside, so 1 cannot occur. Models 8 to 13 have one predicate each, 5 has four.
pub const MODELS: &[Row] = &[
    (NO_MODEL, &[2]),
    (NO_PREDICATE, &[2]),
    (PASSED, &[0]),
    (AT_PLACE_0, QUESTIONS),
    (ABOVE_PLACE_0, PLACED),
    (PREDICATE_MET, THIRTEEN),
    (PREDICATE_BROKEN, THIRTEEN),
    (MODEL_MET, THIRTEEN),
    (MODEL_BROKEN[0], THIRTEEN),
    (MODEL_BROKEN[1], &[1, 2, 3, 4, 5, 6, 7]),
    (MODEL_BROKEN[2], &[1, 2, 3, 4, 5, 6, 7]),
    (MODEL_BROKEN[3], &[5]),
];

/// Of the call that explains. Its work memory is inside too; 42 is what is met.
pub const EXPLAIN: &[Row] = &[
    (NO_PREDICATE, &[2]),
    (NO_PREDICATE_ELSE, &[0, 3, 4, 5, 6, 7, 8, 9, 10, 41]),
    (TOO_SHORT, &[0, 3, 4, 5, 6, 7, 8, 9, 10, 42]),
    (PASSED, &[0]),
    (AT_PLACE_0, QUESTIONS),
    (ABOVE_PLACE_0, PLACED),
    (PREDICATE_MET, THIRTEEN),
    (PREDICATE_BROKEN, THIRTEEN),
    (B_ALONE, &[1, 2, 3, 4, 6, 7, 9, 12, 13]),
    (A_AGAIN, &[1]),
];

/// A chain of 10 has one step where this is by so. No event leads to itself in one. One that is below both ends of a chain
/// of 11 would be in a lower pair: with an end, or with itself.
pub const CHAINS: &[Row] = &[
    (CHAIN_OF_10, &[1, 2, 3, 4, 64, 255, 256, 383]),
    (CHAIN_OF_11, &[1, 2, 3, 4, 64, 255, 256, 383]),
    (RING_OF_10, &[2, 3, 4, 64, 255, 256, 383, 384]),
    (RING_OF_11, &[2, 3, 4, 64, 255, 256, 383, 384]),
    (BY_SO, CAUSAL),
    (BY_VIS, CAUSAL),
    (BY_BOTH, CAUSAL),
    (BY_SO_AGAIN, CAUSAL),
    (ABOVE_ENDS, CAUSAL),
    (BELOW_ENDS, &[10]),
    (ALL_WORDS, CAUSAL),
    (PENDING_BETWEEN, CAUSAL),
    (DENSE, CAUSAL),
    (TIED_AT_FIRST, CAUSAL),
    (TIED_LATER, CAUSAL),
    (LOWER_IS_LONGER, CAUSAL),
    (LATER_IS_LONGER, CAUSAL),
    (LOWER_IS_LOST, CAUSAL),
];

/// And which wrong ways they tell.
pub const CHAINS_TOLD: &[Row] = &ways::TOLD;

/// 5 has a read as its later event, 8 writes as both.
pub const MIDDLES: &[Row] = &[
    (ONE_MIDDLE, PASSED_ON),
    (SEVERAL_MIDDLES, PASSED_ON),
    (ROUND_A_MIDDLE, PASSED_ON),
    (LOWER_WRITE, PASSED_ON),
    (LOWER_NOT_SO, PASSED_ON),
    (LOWER_NOT_SEEING, PASSED_ON),
    (MIDDLE_ABOVE, PASSED_ON),
    (MIDDLE_BELOW, PASSED_ON),
];

/// What a rehearsal is refused by. The program lends its own buffers and has always 132 bytes of openings, so 22 and 23
/// cannot occur, and 40 only by a value. Where the openings are cut short there is no script for 21.
pub const REHEARSE: &[Row] =
    &[(REHEARSED, &[0, 20, 21, 40]), (UNDER_CLEAR_BIT, &[20, 21, 40]), (CUT_SHORT, &[0, 20, 40])];

/// The call also tells the copies outstanding, which the program does not.
pub const REHEARSAL: &[Row] = &[
    (REHEARSED, &[0, 20, 21, 22, 23, 40]),
    (SHORT_BUFFER, &[0, 19_456, 33_279]),
    (WRONG_LENGTH, &[20, 21, 22, 23, 40]),
    (UNDER_CLEAR_BIT, &[20, 21, 22, 23, 40]),
    (NO_EVENT, &[0]),
    (GETS_ALONE, &[0]),
    (ONE_SITE, &[0]),
    (NONE_BY_DELIVERIES, &[0]),
    (NONE_BY_CLOSES, &[0]),
    (ALL_OUTSTANDING, &[0]),
    (MOST_OUTSTANDING, &[0]),
    (AFTER_DELIVERIES, &[0]),
    (AFTER_CLOSES, &[0]),
    (AFTER_BOTH, &[0]),
];

/// The openings of a rehearsal that ran, and what its reads hold, all of them rightly.
pub const STORE_OPENINGS: &[Row] = &[
    (NO_OPENINGS, &[0]),
    (SOME_OPENINGS, &[0]),
    (ALL_OPENINGS, &[0]),
    (HOLDS_OPENING, OPENABLE),
    (HOLDS_OPENING_0, OPENABLE),
    (HOLDS_NONE, OPENABLE),
    (WRITE_OVER_OPENING, OPENABLE),
];

/// How many events it left.
pub const STORE_EVENTS: &[Row] = &[(EVENTS_OF_STORE, &[0, 1, 256, 384])];

/// What the calls of its scripts are answered.
pub const CALLS: &[Row] = &[
    (PUT, &[0, 31, 32, 33, 34]),
    (GET_FOUND, &[0]),
    (GET_NONE, &[0]),
    (GET_REFUSED, &[31, 32, 33, 34]),
    (DELIVERY, &[0, 31, 32, 33, 35, 36]),
    (CLOSE_COPIES, &[0]),
    (CLOSE_NONE, &[0]),
    (CLOSE_REFUSED, &[31]),
    (NO_KIND, &[31]),
];
