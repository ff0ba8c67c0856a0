//! Safe calls over the proved reader, judge and rehearsal of grain position records.
//!
//! Two sites put into object 5, and the record of it is judged:
//!
//! ```
//! use gcr::{judge_model, judge_predicate, rehearse, script};
//! use gcr::{Call, Model, Openings, Predicate, Verdict, RECORD_MOST};
//!
//! let script = script(&[
//!     Call::Put { site: 0, object: 5, value: 100 },
//!     Call::Put { site: 1, object: 5, value: 200 },
//!     Call::Deliver { site: 1, event: 0 },
//!     Call::Get { site: 1, object: 5 },
//! ]);
//! let mut record = [0; RECORD_MOST];
//! let mut answers = vec![0; script.len()];
//! let done = rehearse(2, &Openings::none(), &script, &mut record, &mut answers)?;
//! let record = &record[..done.length];
//!
//! assert_eq!(judge_model(Model::Causal, record)?, Verdict::Met);
//! assert_eq!(judge_predicate(Predicate::SingleOrder, record)?, Verdict::Broken { a: 0, b: 1 });
//! # Ok::<(), gcr::Refusal>(())
//! ```
//!
//! [`Openings`] are the figures that objects start the day with: here none has one. [`difference()`] is by how much the
//! sites' clocks may differ, of a record that was read or judged.
//!
//! What led to a break is told by [`explain`]: the events after the pair's first, up to its second. What a record says
//! is a [`Record`], with its [`Event`]s: read from bytes, or filled in and encoded.
//!
//! A record or a script that is refused is an `Err`, of every call: no [`Verdict`] stands for it. What the calls of a
//! script were answered is taken from its buffer by [`answers()`]: a typed [`Answer`] for each.
//!
//! The library has no static state and keeps nothing that it is lent, so every call here may run on several threads
//! at once. 256 KB of the thread's stack are enough for any of them.
//!
//! Nothing here needs `std`; there must be an allocator.

#![no_std]
#![deny(unsafe_code)]
#![warn(missing_docs)]

extern crate alloc;

#[macro_use]
mod numbered;

mod answer;
mod blocks;
mod call;
mod clocks;
mod edition;
mod event;
mod explaining;
#[allow(unsafe_code)]
mod ffi;
mod judging;
mod model;
mod openings;
mod packing;
mod predicate;
mod reading;
mod record;
mod refusal;
mod rehearsal;
mod slots;
mod visible;

pub use answer::{answers, Answer};
pub use call::{script, Call};
pub use clocks::{difference, with_difference};
pub use edition::Edition;
pub use event::{Event, Kind};
pub use explaining::{explain, explain_into, EXPLAIN_ENTRIES};
pub use judging::{broken_by, judge_all, judge_model, judge_predicate, Verdict};
pub use model::Model;
pub use numbered::UnknownName;
pub use openings::{Openings, OPENINGS_BYTES};
pub use predicate::Predicate;
pub use reading::{count, is_visible, read, RECORD_MOST, WORK_WORDS};
pub use record::{Record, EVENTS_MOST};
pub use refusal::Refusal;
pub use rehearsal::{rehearse, rehearse_raw, Rehearsed, SCRIPT_MOST};
pub use visible::VisibleSet;
