//! The store's rules: sites, calls, answers and the record of a rehearsal.

use crate::limits::{MOST_BYTES, MOST_EVENTS, MOST_SITES};
use crate::openings::{Openings, OBJECTS};
use crate::record::*;

pub const CALL_BYTES: usize = 8;
pub const MOST_SCRIPT_BYTES: usize = 32_768;

/// A close delivers to each site every put that it lacks.
#[derive(Clone, Copy, Debug, PartialEq, Eq)]
pub enum Call {
    Put { site: usize, object: usize, value: u32 },
    Get { site: usize, object: usize },
    Deliver { site: usize, event: usize },
    Close,
}

/// Where a cell's value comes from, in the order in which one loses to another: an opening to every put, a put to one
/// with a larger stamp, and of equal stamps to one of a larger site.
#[derive(Clone, Copy, Debug, PartialEq, Eq, PartialOrd, Ord)]
enum Origin {
    Opening,
    Put { stamp: u32, site: usize },
}

#[derive(Clone, Copy, Debug, PartialEq, Eq)]
struct Cell {
    value: u32,
    origin: Origin,
}

#[derive(Clone, Debug, PartialEq, Eq)]
struct Site {
    clock: u32,
    held: [usize; MOST_SITES],
    known: EventSet,
    cells: [Option<Cell>; OBJECTS],
}

/// A done put or get.
#[derive(Clone, Debug, PartialEq, Eq)]
struct Done {
    event: Event,
    stamp: u32,
    needs: [usize; MOST_SITES],
}

#[derive(Clone, Debug, PartialEq, Eq)]
pub struct Store {
    openings: Openings,
    sites: Vec<Site>,
    done: Vec<Done>,
}

#[derive(Clone, Copy, Debug, PartialEq, Eq)]
pub struct Outcome {
    pub number: u32,
    pub length: usize,
    pub outstanding: usize,
}

impl Outcome {
    pub fn refused(number: u32) -> Outcome {
        Outcome { number, length: 0, outstanding: 0 }
    }

    pub fn packed(&self) -> u64 {
        self.number as u64 + 256 * self.length as u64 + 16_777_216 * self.outstanding as u64
    }

    /// Of any number, so that nothing of a wrong one is lost.
    pub fn unpacked(result: u64) -> Outcome {
        let (number, length) = (result % 256, result / 256 % 65_536);
        Outcome { number: number as u32, length: length as usize, outstanding: (result / 16_777_216) as usize }
    }
}

impl Call {
    /// Question 31, asked of the eight bytes.
    pub fn from_bytes(bytes: &[u8]) -> Option<Call> {
        let (site, object) = (bytes[1] as usize, bytes[2] as usize);
        let tail = u32_at(bytes, 4);
        match bytes[0] {
            _ if bytes[3] != 0 => None,
            1 => Some(Call::Put { site, object, value: tail }),
            2 if tail == 0 => Some(Call::Get { site, object }),
            3 if object == 0 && tail <= 0xffff => Some(Call::Deliver { site, event: tail as usize }),
            4 if site == 0 && object == 0 && tail == 0 => Some(Call::Close),
            _ => None,
        }
    }

    pub fn to_bytes(self) -> [u8; CALL_BYTES] {
        let (kind, site, object, tail) = match self {
            Call::Put { site, object, value } => (1, site, object, value),
            Call::Get { site, object } => (2, site, object, 0),
            Call::Deliver { site, event } => (3, site, 0, event as u32),
            Call::Close => (4, 0, 0, 0),
        };
        let mut bytes = [kind, site as u8, object as u8, 0, 0, 0, 0, 0];
        bytes[4..].copy_from_slice(&tail.to_le_bytes());
        bytes
    }

    /// The site that 32 asks about; a close names none.
    fn site(&self) -> Option<usize> {
        match *self {
            Call::Put { site, .. } | Call::Get { site, .. } | Call::Deliver { site, .. } => Some(site),
            Call::Close => None,
        }
    }
}

impl Store {
    /// Without openings.
    pub fn new(sites: usize) -> Store {
        Store::opened(sites, Openings::none())
    }

    /// Every site's cells start from the openings.
    pub fn opened(sites: usize, openings: Openings) -> Store {
        let opening = |object| openings.of(object).map(|value| Cell { value, origin: Origin::Opening });
        let cells = std::array::from_fn(opening);
        let site = Site { clock: 0, held: [0; MOST_SITES], known: [false; MOST_EVENTS], cells };
        Store { openings, sites: vec![site; sites], done: Vec::new() }
    }

    /// Runs the calls of a script in order.
    pub fn run(&mut self, script: &[u8], answers: &mut [u8]) {
        for (call, answer) in script.chunks_exact(CALL_BYTES).zip(answers.chunks_exact_mut(CALL_BYTES)) {
            answer.copy_from_slice(&self.call(call));
        }
    }

    /// Runs one call and gives its answer; a refused one changes nothing.
    pub fn call(&mut self, bytes: &[u8]) -> [u8; 8] {
        let Some(call) = Call::from_bytes(bytes) else {
            return refused_answer(31);
        };
        match self.first_no(call) {
            Some(number) => refused_answer(number),
            None => self.make(call),
        }
    }

    /// Questions 32 to 36; a well-formed close passes them all.
    pub fn first_no(&self, call: Call) -> Option<u8> {
        if call.site().is_some_and(|site| site >= self.sites.len()) {
            return Some(32);
        }
        match call {
            Call::Put { object, .. } | Call::Get { object, .. } => self.first_no_of_event(object),
            Call::Deliver { site, event } => self.first_no_of_delivery(&self.sites[site], event),
            Call::Close => None,
        }
    }

    fn first_no_of_event(&self, object: usize) -> Option<u8> {
        if object >= OBJECTS {
            Some(33)
        } else if self.done.len() >= MOST_EVENTS {
            Some(34)
        } else {
            None
        }
    }

    fn first_no_of_delivery(&self, to: &Site, event: usize) -> Option<u8> {
        if !self.is_put(event) {
            Some(33)
        } else if to.known[event] {
            Some(35)
        } else if (0..MOST_SITES).any(|j| to.held[j] < self.done[event].needs[j]) {
            Some(36)
        } else {
            None
        }
    }

    pub fn is_put(&self, event: usize) -> bool {
        self.done.get(event).is_some_and(|done| done.event.is_write())
    }

    pub fn knows(&self, site: usize, event: usize) -> bool {
        self.sites[site].known[event]
    }

    fn lacks(&self, site: usize, event: usize) -> bool {
        self.is_put(event) && !self.knows(site, event)
    }

    fn make(&mut self, call: Call) -> [u8; 8] {
        match call {
            Call::Put { site, object, value } => self.put(site, object, value),
            Call::Get { site, object } => self.get(site, object),
            Call::Deliver { site, event } => self.deliver(site, event),
            Call::Close => self.close(),
        }
    }

    fn put(&mut self, site: usize, object: usize, value: u32) -> [u8; 8] {
        let number = self.add(site, Event::write(site as u8, object as u8, value));
        let at = &mut self.sites[site];
        at.cells[object] = Some(Cell { value, origin: Origin::Put { stamp: at.clock, site } });
        at.held[site] += 1;
        done_answer(number, None)
    }

    fn get(&mut self, site: usize, object: usize) -> [u8; 8] {
        let value = self.sites[site].cells[object].map(|cell| cell.value);
        let number = self.add(site, Event::read(site as u8, object as u8, value));
        done_answer(number, value)
    }

    /// What put and get share: clock, times, visibility, and becoming known.
    fn add(&mut self, site: usize, event: Event) -> usize {
        let number = self.done.len();
        let at = &mut self.sites[site];
        at.clock += 1;
        let mut event = event.at(2 * number as u64, 2 * number as u64 + 1);
        event.visible = at.known;
        self.done.push(Done { event, stamp: at.clock, needs: at.held });
        at.known[number] = true;
        number
    }

    fn deliver(&mut self, to: usize, number: usize) -> [u8; 8] {
        let Done { event, stamp, .. } = &self.done[number];
        let from = event.site as usize;
        let at = &mut self.sites[to];
        at.clock = at.clock.max(*stamp);
        at.held[from] += 1;
        for other in 0..MOST_EVENTS {
            at.known[other] |= other == number || event.visible[other];
        }
        let cell = &mut at.cells[event.object as usize];
        let arrived = Cell { value: event.value.unwrap_or(0), origin: Origin::Put { stamp: *stamp, site: from } };
        if cell.is_none_or(|held| held.origin < arrived.origin) {
            *cell = Some(arrived);
        }
        [0; 8]
    }

    /// Puts by event number, for each the sites in rising order. What a close promises is asserted, as that costs
    /// little beside the deliveries.
    fn close(&mut self) -> [u8; 8] {
        let mut copies = 0;
        for event in 0..self.done.len() {
            for site in 0..self.sites.len() {
                if self.lacks(site, event) {
                    let refused = self.first_no(Call::Deliver { site, event });
                    assert_eq!(refused, None, "put {event} comes to site {site} after all that it needs");
                    self.deliver(site, event);
                    copies += 1;
                }
            }
        }
        assert_eq!(self.outstanding(), 0, "no put is lacking anywhere");
        assert!(self.cells_agree(), "all sites show the same positions");
        closed_answer(copies)
    }

    /// Always of `GCR3`, with a difference of 0.
    pub fn record(&self) -> Record {
        let order = |done: &Done| (done.stamp, done.event.site);
        let events = self.done.iter().map(|done| {
            let before = self.done.iter().filter(|other| order(other) < order(done)).count();
            Event { position: before as u16, ..done.event.clone() }
        });
        let (sites, events) = (self.sites.len() as u8, events.collect());
        Record { edition: Edition::GCR3, difference: 0, openings: self.openings, sites, events }
    }

    pub fn puts(&self) -> usize {
        self.done.iter().filter(|done| done.event.is_write()).count()
    }

    pub fn events(&self) -> usize {
        self.done.len()
    }

    /// Pairs of a put and a site that lacks it, every pair looked up in the site's known set.
    pub fn outstanding(&self) -> usize {
        let lacked_by = |site| (0..self.done.len()).filter(|&event| self.lacks(site, event)).count();
        (0..self.sites.len()).map(lacked_by).sum()
    }

    /// Whether every object's cell is the same at all sites.
    pub fn cells_agree(&self) -> bool {
        self.sites.iter().all(|site| site.cells == self.sites[0].cells)
    }
}

fn refused_answer(number: u8) -> [u8; 8] {
    [number, 0, 0, 0, 0, 0, 0, 0]
}

fn done_answer(event: usize, found: Option<u32>) -> [u8; 8] {
    let mut answer = [0; 8];
    answer[1] = found.is_some() as u8;
    answer[2..4].copy_from_slice(&(event as u16).to_le_bytes());
    answer[4..8].copy_from_slice(&found.unwrap_or(0).to_le_bytes());
    answer
}

/// Byte 1 is set also where nothing was lacking.
fn closed_answer(copies: u32) -> [u8; 8] {
    let mut answer = [0, 1, 0, 0, 0, 0, 0, 0];
    answer[4..8].copy_from_slice(&copies.to_le_bytes());
    answer
}

/// Questions 20 to 23, of a site count and three lengths.
fn first_no(sites: u32, script: usize, record: usize, answers: usize) -> Option<u32> {
    if !(1..=MOST_SITES as u32).contains(&sites) {
        Some(20)
    } else if !script.is_multiple_of(CALL_BYTES) || script > MOST_SCRIPT_BYTES {
        Some(21)
    } else if record < MOST_BYTES {
        Some(22)
    } else if answers < script {
        Some(23)
    } else {
        None
    }
}

/// Questions 20 to 23, then 40, then the script.
pub fn rehearse(sites: u32, openings: &[u8], script: &[u8], record: &mut [u8], answers: &mut [u8]) -> Outcome {
    if let Some(number) = first_no(sites, script.len(), record.len(), answers.len()) {
        return Outcome::refused(number);
    }
    let Some(openings) = Openings::from_bytes(openings) else {
        return Outcome::refused(40);
    };
    let mut store = Store::opened(sites as usize, openings);
    store.run(script, answers);
    let bytes = store.record().to_bytes();
    record[..bytes.len()].copy_from_slice(&bytes);
    Outcome { number: 0, length: bytes.len(), outstanding: store.outstanding() }
}

/// The store after a script, begun without openings.
pub fn run_script(sites: usize, script: &[u8], answers: &mut [u8]) -> Store {
    let mut store = Store::new(sites);
    store.run(script, answers);
    store
}
