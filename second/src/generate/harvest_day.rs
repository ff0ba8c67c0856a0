//! A lively day of harvest at eight sites: as many events as there can be, every call done. It is kept in `../records`.

use super::random::Random;
use crate::limits::MOST_EVENTS;
use crate::openings::Openings;
use crate::store::{Call, Store};

pub const SITES: usize = 8;

/// Events after which trading pauses, and every site is brought what it lacks.
const CLOSES: [usize; 2] = [192, 336];

/// Yesterday's figures: of three of four objects, one of them 0.
pub fn openings() -> Openings {
    let figure = |object: usize| (object % 4 != 3).then_some(250 * (object as u32 % 12));
    Openings::from_figures(std::array::from_fn(figure))
}

pub fn calls() -> Vec<Call> {
    let (mut random, mut store) = (Random::new(8), Store::opened(SITES, openings()));
    let mut calls = vec![];
    while store.events() < MOST_EVENTS {
        let before = calls.len();
        calls.push(event(&mut random));
        calls.extend((0..random.below(4)).map(|_| Call::Deliver { site: random.index(SITES), event: 0 }));
        calls.extend(CLOSES.contains(&(store.events() + 1)).then_some(Call::Close));
        let drawn = calls.split_off(before);
        calls.extend(drawn.into_iter().filter_map(|call| done(&mut store, call)));
    }
    calls
}

/// A site mostly puts what comes into its own four silos, and mostly gets those of others.
fn event(random: &mut Random) -> Call {
    let site = random.index(SITES);
    match random.chance(55) {
        true if random.chance(80) => Call::Put { site, object: 4 * site + random.index(4), value: tons(random) },
        true => Call::Put { site, object: random.index(32), value: tons(random) },
        false => Call::Get { site, object: random.index(32) },
    }
}

fn tons(random: &mut Random) -> u32 {
    10 * random.below(400) as u32
}

/// Makes a call, of a delivery the first put that can come to its site now; says which it was, if any.
fn done(store: &mut Store, call: Call) -> Option<Call> {
    let call = match call {
        Call::Deliver { site, .. } => {
            let mut in_turn = (0..store.events()).map(|event| Call::Deliver { site, event });
            in_turn.find(|&delivery| store.first_no(delivery).is_none())?
        }
        other => other,
    };
    store.call(&call.to_bytes());
    Some(call)
}

/// As `gcr rehearse` reads it.
pub fn text() -> String {
    let mut text = String::from(
        "# A day of harvest: 384 events at eight sites, as many as a record holds. Members start from yesterday's figures;\n\
         # trading pauses twice, and then every site is brought what it lacks.\nsites 8\n",
    );
    let opened = openings();
    let opened = (0..32).filter_map(|object| opened.of(object).map(|figure| format!("open {object} {figure}\n")));
    text.extend(opened.chain(["\n".to_string()]));
    text.extend(calls().into_iter().map(line));
    text
}

fn line(call: Call) -> String {
    match call {
        Call::Put { site, object, value } => format!("put {site} {object} {value}\n"),
        Call::Get { site, object } => format!("get {site} {object}\n"),
        Call::Deliver { site, event } => format!("deliver {event} {site}\n"),
        Call::Close => "close\n".to_string(),
    }
}
