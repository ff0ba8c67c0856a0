//! What can be compared: each call as one trait, and two stand-ins for it.

use crate::{baseline, explain, models, reader, store};

pub trait Reader {
    fn read(&self, record: &[u8], work: &mut [u64]) -> u64;
}

pub trait Judge {
    fn judge_model(&self, model: u32, record: &[u8]) -> u64;
    fn judge_predicate(&self, predicate: u32, record: &[u8]) -> u64;
    fn judge_all(&self, record: &[u8], out: &mut [u64]) -> u64;
}

/// What it tells is also held against its judging.
pub trait Explainer: Judge {
    fn explain(&self, predicate: u32, record: &[u8], events: &mut [u16]) -> u64;
}

pub trait Rehearser {
    fn rehearse(&self, sites: u32, openings: &[u8], script: &[u8], record: &mut [u8], answers: &mut [u8]) -> u64;
}

/// The second checker as its own subject, to try the comparers out.
pub struct Itself;

/// The fast implementation beside it.
pub struct Baseline;

impl Reader for Itself {
    fn read(&self, record: &[u8], work: &mut [u64]) -> u64 {
        reader::read(record, work)
    }
}

impl Judge for Itself {
    fn judge_model(&self, model: u32, record: &[u8]) -> u64 {
        models::judge_model(model, record)
    }

    fn judge_predicate(&self, predicate: u32, record: &[u8]) -> u64 {
        models::packed_predicate(predicate, &models::answers(record))
    }

    fn judge_all(&self, record: &[u8], out: &mut [u64]) -> u64 {
        models::packed_all(&models::answers(record), out)
    }
}

impl Explainer for Itself {
    fn explain(&self, predicate: u32, record: &[u8], events: &mut [u16]) -> u64 {
        explain::explain(predicate, record, events)
    }
}

impl Rehearser for Itself {
    fn rehearse(&self, sites: u32, openings: &[u8], script: &[u8], record: &mut [u8], answers: &mut [u8]) -> u64 {
        store::rehearse(sites, openings, script, record, answers).packed()
    }
}

impl Reader for Baseline {
    fn read(&self, record: &[u8], work: &mut [u64]) -> u64 {
        baseline::reading::read(record, work)
    }
}

impl Judge for Baseline {
    fn judge_model(&self, model: u32, record: &[u8]) -> u64 {
        baseline::judging::judge_model(model, record)
    }

    fn judge_predicate(&self, predicate: u32, record: &[u8]) -> u64 {
        baseline::judging::judge_predicate(predicate, record)
    }

    fn judge_all(&self, record: &[u8], out: &mut [u64]) -> u64 {
        baseline::judging::judge_all(record, out)
    }
}

impl Explainer for Baseline {
    fn explain(&self, predicate: u32, record: &[u8], events: &mut [u16]) -> u64 {
        baseline::explaining::explain(predicate, record, events)
    }
}

impl Rehearser for Baseline {
    fn rehearse(&self, sites: u32, openings: &[u8], script: &[u8], record: &mut [u8], answers: &mut [u8]) -> u64 {
        baseline::rehearsal::rehearse(sites, openings, script, record, answers)
    }
}
