//! The thirteen predicates over columns, and the models.

use super::columns::Columns;
use super::reading::{claimed, fill};
use super::refused;
use super::rows::*;
use crate::models::MODELS;

pub type Break = Option<(usize, usize)>;

/// Reads a record and fills its columns.
pub fn prepare(record: &[u8], columns: &mut Columns) -> Result<(), (u32, usize)> {
    columns.vis.resize(claimed(record), EMPTY);
    let n = fill(record, &mut columns.vis)?;
    columns.fill(record, n);
    Ok(())
}

pub fn judge_model(model: u32, record: &[u8]) -> u64 {
    if !(1..=13).contains(&model) {
        return refused(2, 0);
    }
    judge_list(MODELS[model as usize - 1], record)
}

pub fn judge_predicate(predicate: u32, record: &[u8]) -> u64 {
    if !(1..=13).contains(&predicate) {
        return refused(2, 0);
    }
    judge_list(&[predicate], record)
}

fn judge_list(list: &[u32], record: &[u8]) -> u64 {
    let mut columns = Columns::new();
    match prepare(record, &mut columns) {
        Err((number, place)) => refused(number, place),
        Ok(()) => packed(list.iter().find_map(|&predicate| columns.broken(predicate))),
    }
}

/// All thirteen by one reading, as many as `verdicts` has room for; a refusal is each one's answer too.
pub fn judge_all(record: &[u8], verdicts: &mut [u64]) -> u64 {
    let mut columns = Columns::new();
    match prepare(record, &mut columns) {
        Err((number, place)) => {
            let (refusal, fit) = (refused(number, place), verdicts.len().min(13));
            verdicts[..fit].fill(refusal);
            refusal
        }
        Ok(()) => {
            for (verdict, predicate) in verdicts.iter_mut().zip(1..=13) {
                *verdict = packed(columns.broken(predicate));
            }
            0
        }
    }
}

fn packed(broken: Break) -> u64 {
    broken.map_or(0, |(a, b)| (1 << 20) + ((a as u64) << 10) + b as u64)
}

impl Columns {
    pub fn all_broken(&self) -> [Break; 13] {
        std::array::from_fn(|at| self.broken(at as u32 + 1))
    }

    pub fn broken(&self, predicate: u32) -> Break {
        let (all, writes) = (&below(self.n), &self.writes);
        let reads = &minus(all, writes);
        match predicate {
            1 => self.wrong_read(),
            2 => self.out_of_order(|_, row| row),
            3 => self.outside(&self.rb, &self.ar, all, all),
            4 => self.outside(&self.rb, &self.ar, writes, all),
            5 => self.outside(&self.seen_before, &self.vis, all, reads),
            6 => self.outside(&self.so, &self.vis, writes, reads),
            7 => self.outside(&self.so, &self.ar, writes, writes),
            8 => self.outside(&self.seen_before, &self.ar, writes, writes),
            9 => self.outside(&self.so, &self.vis, all, all),
            10 => self.outside(&self.hb, &self.vis, all, all),
            11 => self.outside(&self.hb, &self.ar, all, all),
            12 => self.outside_within(&self.so, &self.vis, |b| &self.on_object[self.object[b] as usize], all),
            _ => self.out_of_order(|b, row| self.cut(b, row)),
        }
    }

    /// The events of a row that share b's object.
    #[inline]
    fn cut(&self, b: usize, row: Row) -> Row {
        both(&row, &self.on_object[self.object[b] as usize])
    }

    /// Pairs of one of the first events and one of the second, in the left columns and not in the right.
    fn outside(&self, left: &[Row], right: &[Row], firsts: &Row, seconds: &Row) -> Break {
        self.outside_within(left, right, |_| firsts, seconds)
    }

    /// First all misses together, which is enough where there are none.
    #[inline]
    fn outside_within<'a>(
        &self,
        left: &[Row],
        right: &[Row],
        firsts: impl Fn(usize) -> &'a Row,
        seconds: &Row,
    ) -> Break {
        let mut missed = EMPTY;
        for (b, (left, right)) in left[..self.n].iter().zip(right).enumerate() {
            if has(seconds, b) {
                missed = union(&missed, &both(&minus(left, right), firsts(b)));
            }
        }
        let a = lowest(&missed)?;
        let misses = |b: usize| has(&left[b], a) && has(firsts(b), a) && !has(&right[b], a);
        (0..self.n).find(|&b| has(seconds, b) && misses(b)).map(|b| (a, b))
    }

    fn out_of_order(&self, cut: impl Fn(usize, Row) -> Row) -> Break {
        let difference = |b: usize| cut(b, differ(&self.vis[b], &self.ar[b]));
        let (mut differs, mut seen) = (EMPTY, EMPTY);
        for b in 0..self.n {
            differs = union(&differs, &difference(b));
            seen = union(&seen, &cut(b, self.vis[b]));
        }
        let excused = minus(&self.pending, &seen);
        let a = lowest(&minus(&differs, &excused))?;
        (0..self.n).find(|&b| has(&difference(b), a)).map(|b| (a, b))
    }

    fn wrong_read(&self) -> Break {
        let (last, before) = self.chains();
        let asked = minus(&below(self.n), &union(&self.writes, &self.pending));
        (0..self.n).filter(|&event| has(&asked, event)).find_map(|read| {
            let object = self.object[read] as usize;
            let seen = both(&self.cut(read, self.vis[read]), &self.writes);
            let past = is_empty(&minus(&seen, &self.ar[read]));
            let mut write = if past { before[read] } else { last[object] };
            while write.is_some_and(|write| !has(&seen, write as usize)) {
                write = write.and_then(|write| before[write as usize]);
            }
            let due = write.map_or_else(|| self.openings.of(object), |write| self.value[write as usize]);
            let named = write.map_or(read, |write| write as usize);
            (self.value[read] != due).then_some((read, named))
        })
    }

    /// Each object's last write in ar, and for each event the write on its
    /// object just before it in ar.
    fn chains(&self) -> ([Option<u16>; 256], [Option<u16>; ROWS]) {
        let (mut last, mut before) = ([None; 256], [None; ROWS]);
        for &event in &self.at[..self.n] {
            let object = self.object[event as usize] as usize;
            before[event as usize] = last[object];
            if has(&self.writes, event as usize) {
                last[object] = Some(event);
            }
        }
        (last, before)
    }
}
