//! The store with rows and fixed arrays, its record written at the end.

use super::openings::{self, Openings};
use super::reading::{check, slot_at, slots_of_block, WIDE};
use super::rows::*;

#[derive(Clone, Copy)]
struct Cell {
    value: u32,
    /// Stamp times eight plus site, so 8 or more; 1 where it has an opening, below every put, and 0 where it is empty.
    order: u32,
}

#[derive(Clone, Copy)]
struct Site {
    clock: u32,
    held: [u16; 8],
    known: Row,
    cells: [Cell; 32],
}

#[derive(Clone, Copy)]
struct Event {
    visible: Row,
    needs: [u16; 8],
    value: u32,
    order: u32,
    object: u8,
    found: bool,
}

const NO_EVENT: Event = Event { visible: EMPTY, needs: [0; 8], value: 0, order: 0, object: 0, found: false };

/// The eight bytes of a close: its kind, and zeros.
const CLOSE: u64 = 4;

/// What the last edition needs for a full store.
const MOST_BYTES: usize = length(ROWS);

const fn length(events: usize) -> usize {
    512 * (1 + events.div_ceil(slots_of_block(WIDE)))
}

struct Store {
    count: usize,
    sites: [Site; 8],
    events: [Event; ROWS],
    n: usize,
    puts: Row,
}

pub fn rehearse(sites: u32, openings: &[u8], script: &[u8], record: &mut [u8], answers: &mut [u8]) -> u64 {
    if sites.wrapping_sub(1) >= 8 {
        return 20;
    }
    if !script.len().is_multiple_of(8) || script.len() > 32_768 {
        return 21;
    }
    if record.len() < MOST_BYTES {
        return 22;
    }
    if answers.len() < script.len() {
        return 23;
    }
    let Some((openings, fresh)) = opened(openings) else { return 40 };
    let mut store = Store { count: sites as usize, sites: [fresh; 8], events: [NO_EVENT; ROWS], n: 0, puts: EMPTY };
    store.run(script, answers);
    let length = store.write(openings, record);
    (length as u64) << 8 | (store.outstanding() as u64) << 24
}

/// The openings and a site that starts from them, or nothing where 40 refuses.
fn opened(bytes: &[u8]) -> Option<(&[u8; openings::BYTES], Site)> {
    let bytes: &[u8; openings::BYTES] = bytes.try_into().ok()?;
    let openings = Openings::new(bytes);
    (!openings.has_value_under_clear_bit()).then(|| (bytes, Site::fresh(&openings)))
}

impl Site {
    fn fresh(openings: &Openings) -> Site {
        let cell = |object| Cell { value: openings.figures[object], order: openings.bit(object) };
        Site { clock: 0, held: [0; 8], known: EMPTY, cells: std::array::from_fn(cell) }
    }

    #[inline]
    fn hold(&mut self, w: usize, put: &Event) {
        self.clock = self.clock.max(put.order / 8);
        self.known = union(&self.known, &put.visible);
        add(&mut self.known, w);
        self.held[put.order as usize % 8] += 1;
        let cell = &mut self.cells[put.object as usize];
        if cell.order < put.order {
            *cell = Cell { value: put.value, order: put.order };
        }
    }
}

impl Store {
    /// By itself, so that what a caller keeps beside it takes no registers.
    #[inline(never)]
    fn run(&mut self, script: &[u8], answers: &mut [u8]) {
        let (calls, _) = script.as_chunks::<8>();
        let (answers, _) = answers.as_chunks_mut::<8>();
        for (call, answer) in calls.iter().zip(answers) {
            *answer = self.call(u64::from_le_bytes(*call)).to_le_bytes();
        }
    }

    fn call(&mut self, call: u64) -> u64 {
        let (kind, site, object) = (call as u8, (call >> 8) as u8 as usize, (call >> 16) as u8);
        let (zero, tail) = ((call >> 24) as u8, (call >> 32) as u32);
        let formed = match kind {
            1 => zero == 0,
            2 => zero == 0 && tail == 0,
            3 => zero == 0 && object == 0 && tail < 65_536,
            _ => false,
        };
        if !formed {
            self.close_or_refuse(call)
        } else if site >= self.count {
            32
        } else if kind == 3 {
            self.deliver(site, tail as usize)
        } else if object > 31 {
            33
        } else if self.n == ROWS {
            34
        } else {
            self.event(kind == 1, site, object, tail)
        }
    }

    fn event(&mut self, put: bool, s: usize, object: u8, value: u32) -> u64 {
        let (site, number) = (&mut self.sites[s], self.n);
        site.clock += 1;
        let order = 8 * site.clock + s as u32;
        let cell = &mut site.cells[object as usize];
        let mut answer = (number as u64) << 16;
        let event = &mut self.events[number];
        (event.visible, event.needs) = (site.known, site.held);
        (event.order, event.object) = (order, object);
        if put {
            *cell = Cell { value, order };
            site.held[s] += 1;
            add(&mut self.puts, number);
        } else if cell.order != 0 {
            answer |= 1 << 8 | (cell.value as u64) << 32;
        }
        event.found = put || cell.order != 0;
        event.value = cell.value;
        add(&mut site.known, number);
        self.n += 1;
        answer
    }

    fn deliver(&mut self, t: usize, w: usize) -> u64 {
        if w >= self.n || !has(&self.puts, w) {
            return 33;
        }
        let (site, event) = (&mut self.sites[t], &self.events[w]);
        if has(&site.known, w) {
            return 35;
        }
        if site.held.iter().zip(&event.needs).any(|(held, need)| held < need) {
            return 36;
        }
        site.hold(w, event);
        0
    }

    /// Closes are asked for last, so that the common calls are as quick as without them.
    #[inline(never)]
    fn close_or_refuse(&mut self, call: u64) -> u64 {
        match call {
            CLOSE => self.close(),
            _ => 31,
        }
    }

    /// Site by site, as the sites do not touch each other and only the count is told. In the puts' order no need is
    /// unmet, so none is asked about.
    fn close(&mut self) -> u64 {
        let mut copies = 0;
        for site in &mut self.sites[..self.count] {
            each(&minus(&self.puts, &site.known), |w| {
                site.hold(w, &self.events[w]);
                copies += 1;
            });
        }
        1 << 8 | copies << 32
    }

    fn outstanding(&self) -> u32 {
        let sites = self.sites[..self.count].iter();
        sites.map(|site| count(&minus(&self.puts, &site.known))).sum()
    }

    /// Positions by bucket: stamps stay at 384 or below, so orders below 3,080.
    fn positions(&self) -> [u16; ROWS] {
        let (mut positions, mut next) = ([0; ROWS], 0);
        let mut at = [u16::MAX; 8 * (ROWS + 1)];
        for (number, event) in self.events[..self.n].iter().enumerate() {
            at[event.order as usize] = number as u16;
        }
        for number in at.into_iter().filter(|&number| number != u16::MAX) {
            positions[number as usize] = next;
            next += 1;
        }
        positions
    }

    fn write(&self, openings: &[u8; openings::BYTES], record: &mut [u8]) -> usize {
        let length = length(self.n);
        let record = &mut record[..length];
        record.fill(0);
        record[..4].copy_from_slice(b"GCR3");
        record[4..6].copy_from_slice(&(self.n as u16).to_le_bytes());
        record[6] = self.count as u8;
        record[12..12 + openings::BYTES].copy_from_slice(openings);
        let positions = self.positions();
        for number in 0..self.n {
            let slot = record[slot_at::<WIDE>(number)..].first_chunk_mut().expect("block there");
            self.write_slot(number, positions[number], slot);
        }
        let (blocks, _) = record.as_chunks_mut::<512>();
        for (number, block) in blocks.iter_mut().enumerate() {
            let sealed = check(number as u32, block);
            block[508..].copy_from_slice(&sealed.to_le_bytes());
        }
        length
    }

    fn write_slot(&self, number: usize, position: u16, slot: &mut [u8; WIDE]) {
        let event = &self.events[number];
        slot[0] = has(&self.puts, number) as u8;
        slot[1] = (event.order % 8) as u8;
        slot[2] = event.object;
        if event.found {
            slot[4..8].copy_from_slice(&event.value.to_le_bytes());
            slot[8] = 1;
        }
        slot[10..12].copy_from_slice(&position.to_le_bytes());
        let start = 2 * number as u64;
        let words = [start, start + 1].into_iter().chain(event.visible);
        let (ends, _) = slot[16..].as_chunks_mut::<8>();
        for (bytes, word) in ends.iter_mut().zip(words) {
            *bytes = word.to_le_bytes();
        }
    }
}
