//! Short names for calls, and running a list of them. No test uses all of it.
#![allow(dead_code)]

use second::openings::Openings;
use second::store::{Call, Store};

pub fn put(site: usize, object: usize, value: u32) -> Call {
    Call::Put { site, object, value }
}

pub fn get(site: usize, object: usize) -> Call {
    Call::Get { site, object }
}

pub fn deliver(event: usize, site: usize) -> Call {
    Call::Deliver { site, event }
}

pub fn script(calls: &[Call]) -> Vec<u8> {
    calls.iter().flat_map(|call| call.to_bytes()).collect()
}

/// The answers of a script and the store after it, begun without openings.
pub fn run(sites: usize, calls: &[Call]) -> (Vec<[u8; 8]>, Store) {
    run_opened(sites, Openings::none(), calls)
}

pub fn run_opened(sites: usize, openings: Openings, calls: &[Call]) -> (Vec<[u8; 8]>, Store) {
    let mut store = Store::opened(sites, openings);
    let answers = calls.iter().map(|call| store.call(&call.to_bytes())).collect();
    (answers, store)
}
